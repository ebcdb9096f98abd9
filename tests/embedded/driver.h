/* What the parts of the driver share. */
#ifndef DRIVER_H
#define DRIVER_H

#include <stddef.h>

#include "siploc_embedded.h"

/* The status where something is not as it should be. */
#define WRONG 100

void *__real_malloc(size_t size);
void *__real_realloc(void *block, size_t size);
void __real_free(void *block);

/* Of how many allocations from now on the last one fails, or 0; and how many blocks are not given back: of a thread. */
extern _Thread_local long left, held;

typedef struct text {
    char *octets;
    size_t len;
} text;

_Noreturn void stop(const char *why);

/* Of handles.c: the parts by their names. */
int put_in_pieces(const char *settings, text lines);
int retry(const char *settings, text lines);
int handles(const char *settings, text lines);
void null_handles(void);

#endif
