#include <siploc_embedded.h>
#include <stdio.h>

int main(void)
{
    siploc_embedded_session session;
    const char lines[] = "zone example.com. 1\nbob A 192.0.2.1\nfind sip:bob.example.com:5070\n";
    char replies[512];
    size_t taken;
    if (siploc_embedded_open(NULL, 0, &session) || siploc_embedded_put(&session, lines, sizeof lines - 1, &taken))
        return 1;
    fwrite(replies, 1, siploc_embedded_take(&session, replies, sizeof replies), stdout);
    siploc_embedded_close(&session);
}
