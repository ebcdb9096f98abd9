// Tests of the client against servers that they start: the program that the environment names in SIPLOC, and some
// that do what no server should. Replies are those of docs/use/FORMATS.md, and of the README's session.
package siploc

import (
	"bufio"
	"bytes"
	"context"
	"errors"
	"fmt"
	"io"
	"net"
	"os"
	"os/exec"
	"path/filepath"
	"reflect"
	"regexp"
	"runtime"
	"strings"
	"sync"
	"syscall"
	"testing"
	"time"
)

const top = "../../.."

var ctx = context.Background()

func streamOf(session *Session) net.Conn { return session.carrier.(*connection).stream }

func read(t *testing.T, path string) string {
	t.Helper()
	octets, err := os.ReadFile(filepath.Join(top, path))
	if err != nil {
		t.Fatal(err)
	}
	return string(octets)
}

func freePort(t *testing.T, address string) string {
	t.Helper()
	probe, err := net.Listen("tcp", address+":0")
	if err != nil {
		t.Fatal(err)
	}
	defer probe.Close()
	return probe.Addr().String()
}

// A server is `siploc serve` on a free port. It is ended with the test.
type server struct {
	address string
	process *exec.Cmd
	output  bytes.Buffer
}

func start(t *testing.T, sessions int, settings string) *server {
	t.Helper()
	program := os.Getenv("SIPLOC")
	if program == "" {
		program = filepath.Join(top, "crates/siploc/out/siploc")
	}
	s := &server{address: freePort(t, "127.0.0.1")}
	text := fmt.Sprintf("%s\nlisten = %q\nsessions = %d\n", settings, s.address, sessions)
	s.process = exec.Command(program, "serve", text)
	s.process.Stdout = &s.output
	if err := s.process.Start(); err != nil {
		t.Fatal(err)
	}
	t.Cleanup(func() {
		if s.process.ProcessState == nil {
			_ = s.process.Process.Kill()
			_ = s.process.Wait()
		}
	})
	return s
}

// connect opens a session as soon as the program listens.
func connect(t *testing.T, address string, timeout time.Duration) *Session {
	t.Helper()
	for tries := 0; ; tries++ {
		session, err := Connect(ctx, address, timeout)
		if err == nil {
			t.Cleanup(func() { _ = session.Close() })
			return session
		}
		if !errors.Is(err, ErrNotConnected) || tries == 400 {
			t.Fatal(err)
		}
		time.Sleep(25 * time.Millisecond)
	}
}

// closes waits for the program's end, after its last session, and compares what it prints.
func (s *server) closes(t *testing.T, events int) {
	t.Helper()
	if err := s.process.Wait(); err != nil {
		t.Fatal(err)
	}
	equal(t, s.output.String(), fmt.Sprintf("closed %d\n", events))
}

func equal(t *testing.T, got, want any) {
	t.Helper()
	if !reflect.DeepEqual(got, want) {
		t.Fatalf("got %v, want %v", got, want)
	}
}

// must returns a value that came without an error.
func must[V any](t *testing.T) func(V, error) V {
	return func(value V, err error) V {
		t.Helper()
		if err != nil {
			t.Fatal(err)
		}
		return value
	}
}

// fake is a server that calls a function with its only connection, and returns its address.
func fake(t *testing.T, serve func(net.Conn)) string {
	t.Helper()
	listener, err := net.Listen("tcp", "127.0.0.1:0")
	if err != nil {
		t.Fatal(err)
	}
	serveOne(t, listener, serve)
	return listener.Addr().String()
}

// serveOne calls a function with the only connection of a listener.
func serveOne(t *testing.T, listener net.Listener, serve func(net.Conn)) {
	var done sync.WaitGroup
	done.Add(1)
	go func() {
		defer done.Done()
		stream, err := listener.Accept()
		if err == nil {
			_ = stream.SetDeadline(time.Now().Add(30 * time.Second))
			serve(stream)
			stream.Close()
		}
	}()
	t.Cleanup(func() {
		listener.Close()
		done.Wait()
	})
}

// commands returns those of a session's lines: each a line, or a `zone` line with its text.
func commands(lines []string) []string {
	var made []string
	for at := 0; at < len(lines); at++ {
		fields := strings.Fields(lines[at])
		if len(fields) == 0 || lines[at][0] == '#' {
			continue
		}
		count := 0
		if fields[0] == "zone" {
			fmt.Sscan(fields[2], &count)
		}
		made = append(made, strings.Join(lines[at:at+1+count], "\n"))
		at += count
	}
	return made
}

func textLines(text string) []string { return strings.Split(strings.TrimSuffix(text, "\n"), "\n") }

func allLines(replies []Reply) []string {
	var lines []string
	for _, reply := range replies {
		lines = append(lines, reply.Lines...)
	}
	return lines
}

var (
	first  = Target{"tcp", "192.0.2.1", 5060}
	second = Target{"tcp", "192.0.2.2", 5060}
	third  = Target{"tcp", "192.0.2.3", 5060}
)

const tcpFirst = `transports = ["tcp", "udp"]`

const zone = `@ NAPTR 50 50 "s" "SIPS+D2T" "" _sips._tcp
@ NAPTR 90 50 "s" "SIP+D2T" "" _sip._tcp
@ NAPTR 100 50 "s" "SIP+D2U" "" _sip._udp
_sip._tcp SRV 0 1 5060 server1
_sip._tcp SRV 0 2 5060 server2
server1 A 192.0.2.1
server2 A 192.0.2.2
`

func TestReadmeSessionInABatch(t *testing.T) {
	lines := commands(textLines(read(t, "crates/siploc/stdin")))
	server := start(t, 1, tcpFirst)
	session := connect(t, server.address, 30*time.Second)
	replies := must[[]Reply](t)(session.Batch(ctx, lines[:len(lines)-1]))
	equal(t, append(allLines(replies), "ok quit"), textLines(read(t, "crates/siploc/stdout")))
	session.Close()
	server.closes(t, 20)
}

func TestReadmeSessionByMethods(t *testing.T) {
	session := connect(t, start(t, 1, tcpFirst).address, 30*time.Second)
	find := func(want ...Target) {
		t.Helper()
		equal(t, must[Answer](t)(session.Find(ctx, "sip:bob@example.com", Words(2, 0))).Targets, want)
	}
	number := must[uint64](t)
	equal(t, must[Loaded](t)(session.Load(ctx, "example.com.", zone)), Loaded{7, 0, 0, 4})
	find(second, first)
	equal(t, session.Hold(ctx, second, 5000), nil)
	find(first)
	equal(t, must[[]Step](t)(session.Clock(ctx, 5000)), []Step{})
	find(second, first)
	equal(t, number(session.Add(ctx, "_sip._tcp.example.com. SRV 1 0 5060 server3.example.com.")), uint64(1))
	equal(t, number(session.Add(ctx, "server3.example.com. A 192.0.2.3")), uint64(1))
	find(second, first, third)
	numeric := must[Answer](t)(session.Find(ctx, "sip:server1.example.com:5070", Draws{}))
	equal(t, numeric, Answer{[]Target{{"udp", "192.0.2.1", 5070}}, ""})
	equal(t, number(session.Remove(ctx, "server1.example.com. A 192.0.2.1")), uint64(1))
	equal(t, session.Repair(ctx), nil)
	equal(t, must[[]Dependency](t)(session.Deps(ctx, "sip:server1.example.com:5070")), []Dependency{
		{"server1.example.com.", "A", 0}, {"server1.example.com.", "CNAME", 0}, {"server1.example.com.", "EXISTS", 0},
		{"example.com.", "EXISTS", 1}, {"*.example.com.", "A", 0}, {"*.example.com.", "CNAME", 0}})
	find(second, third)
	equal(t, number(session.Add(ctx, "server1.example.com. A 192.0.2.1")), uint64(1))
	equal(t, must[Answer](t)(session.Find(ctx, "sip:x.example.com", Draws{})), Answer{[]Target{}, "NoAddress"})
	_, err := session.Add(ctx, "SERVER1.example.com. A 192.0.2.1")
	var refused *RefusedError
	if !errors.As(err, &refused) || refused.Code != "S3" || refused.Meaning() != "the record is in the zone already" {
		t.Fatal(err)
	}
	equal(t, must[Opened](t)(session.Call(ctx, "invite", 1, "sip:bob@example.com", Words(2, 0))), Opened{[]Step{
		{Kind: Send, Attempt: 1, Target: second, Branch: "z9hG4bK0000000000000001.1"}}, ""})
	equal(t, must[[]Step](t)(session.GotRetry(ctx, 1, 503, 10)), []Step{{Kind: Ack, Attempt: 1},
		{Kind: Hold, Target: second, Milliseconds: 10000},
		{Kind: Send, Attempt: 2, Target: first, Branch: "z9hG4bK0000000000000001.2"}})
	equal(t, must[[]Step](t)(session.Got(ctx, 2, 200)), []Step{{Kind: Deliver, Code: 200}})
	find(first, third)
	equal(t, must[[]Step](t)(session.Clock(ctx, 15000)), []Step{})
	find(second, first, third)
}

// tests/sessions/serve.txt: a full journal, and room again; `closed` counts all pages.
func TestPages(t *testing.T) {
	server := start(t, 1, "journal = 2")
	session := connect(t, server.address, 30*time.Second)
	must[Loaded](t)(session.Load(ctx, "example.com.", ""))
	must[uint64](t)(session.Add(ctx, "server1.example.com. A 192.0.2.1"))
	_, err := session.Find(ctx, "sip:server1.example.com:5060", Draws{})
	var refused *RefusedError
	equal(t, errors.As(err, &refused) && refused.Code == "B3", true)
	equal(t, must[Page](t)(session.Page(ctx)), Page{0, 2})
	equal(t, len(must[Answer](t)(session.Find(ctx, "sip:server1.example.com:5060", Draws{})).Targets), 1)
	equal(t, must[Page](t)(session.Page(ctx)), Page{2, 1})
	equal(t, must[Page](t)(session.Page(ctx)), Page{3, 0})
	session.Close()
	server.closes(t, 3)
}

// What the README's session has not: tests/sessions/holds.txt, calls.txt, edits.txt and draws.txt.
func TestOtherMethods(t *testing.T) {
	session := connect(t, start(t, 1, "").address, 30*time.Second)
	target := Target{"udp", "192.0.2.9", 5060}
	equal(t, must[Loaded](t)(session.Load(ctx, "e.", "a A 192.0.2.1\r\na A 192.0.2.2\nb.f. A 192.0.2.1")), Loaded{2, 1, 0, 1})
	equal(t, must[Loaded](t)(session.Load(ctx, "example.com.", "")), Loaded{})
	equal(t, must[uint64](t)(session.Drop(ctx, "e.")), uint64(1))
	equal(t, session.Hold(ctx, Target{"sctp", "::1", 5060}, 0), nil)
	equal(t, session.Hold(ctx, target, 1), nil)
	equal(t, must[Answer](t)(session.Find(ctx, "sip:192.0.2.9", Seed(1))).Reason, "AllHeld")
	equal(t, must[Opened](t)(session.Call(ctx, "invite", 7, "sip:192.0.2.9", Draws{})), Opened{[]Step{}, "AllHeld"})
	equal(t, session.Release(ctx, target), nil)
	opened := must[Opened](t)(session.Call(ctx, "other", 1<<64-1, "sip:192.0.2.9", Seed(1)))
	equal(t, opened.Steps, []Step{{Kind: Send, Attempt: 1, Target: target, Branch: "z9hG4bKffffffffffffffff.1"}})
	equal(t, must[[]Step](t)(session.Clock(ctx, 500)), []Step{{Kind: Resend, Attempt: 1}})
	equal(t, must[[]Step](t)(session.Broke(ctx)), []Step{{Kind: Hold, Target: target, Milliseconds: 30000},
		{Kind: Deliver, Code: 500}, {Kind: Exhausted}})
	must[Loaded](t)(session.Load(ctx, "example.com.", "_sip._tcp SRV 0 1 5060 a\n_sip._tcp SRV 0 2 5060 b\n"+
		"_sip._tcp SRV 0 3 5060 c\n_sip._tcp SRV 0 4 5060 d\n_sip._tcp SRV 1 0 5060 e\n"+
		"a A 192.0.2.1\nb A 192.0.2.2\nc A 192.0.2.3\nd A 192.0.2.4\ne A 192.0.2.5\n"))
	for order, draws := range map[string]Draws{"12345": Words(), "24315": Seed(0), "14325": Seed(1<<64 - 1),
		"42135": Words(3795398737, 17903413, 3545275701, 194195274, 2326030198)} {
		got := ""
		for _, target := range must[Answer](t)(session.Find(ctx, "sip:example.com;transport=tcp", draws)).Targets {
			got += target.Address[len(target.Address)-1:]
		}
		equal(t, got, order)
	}
}

// Each code once, by a batch; and each has its meaning.
func TestEachRefusal(t *testing.T) {
	head, rest, _ := strings.Cut(read(t, "clients/tests/refusals.txt"), "$ siploc serve '")
	settings, rest, _ := strings.Cut(rest, "'\n")
	var inputs, want []string
	for _, line := range textLines(rest) {
		if strings.HasPrefix(line, "> ") {
			inputs = append(inputs, line[2:])
		} else if line != "closed 6" {
			want = append(want, line)
		}
	}
	// The line that names the place is given by start.
	server := start(t, 1, settings[:strings.Index(settings, "listen")])
	session := connect(t, server.address, 30*time.Second)
	replies := must[[]Reply](t)(session.Batch(ctx, commands(inputs)))
	equal(t, allLines(replies), want)
	codes := map[string]bool{}
	for _, code := range regexp.MustCompile(`\b(?:[A-Z][0-9]|Memory|Busy)\b`).FindAllString(head, -1) {
		codes[code] = true
	}
	for _, reply := range replies {
		var refused *RefusedError
		if errors.As(reply.Err(), &refused) {
			equal(t, refused.Meaning(), meanings[refused.Code])
			equal(t, refused.Line, map[string]uint64{"Z12": 2, "Z14": 2, "Z15": 33}[refused.Code])
			codes[refused.Code] = true
		}
	}
	for code := range meanings {
		if !codes[code] {
			t.Errorf("%s was not seen", code)
		}
	}
	equal(t, len(codes), len(meanings))
	session.Close()
	server.closes(t, 6)
}

// A refusal leaves the session open; a line may have 65,536 octets; a hold that is refused has its step all the same.
func TestRefusalsByMethods(t *testing.T) {
	session := connect(t, start(t, 1, "holds = 0").address, 30*time.Second)
	is := func(err error, code string) *RefusedError {
		t.Helper()
		var refused *RefusedError
		if !errors.As(err, &refused) || refused.Code != code {
			t.Fatalf("got %v, want %s", err, code)
		}
		return refused
	}
	_, err := session.Load(ctx, "e.", "; x\na A x")
	equal(t, is(err, "Z4").Line, uint64(2))
	equal(t, strings.HasSuffix(err.Error(), ` (line 2 of the zone): "zone e. 2"`), true)
	_, err = session.Drop(ctx, "e.")
	is(err, "S2")
	_, err = session.Remove(ctx, "a")
	is(err, "Z2")
	_, err = session.Deps(ctx, "sip:-")
	is(err, "U2")
	is(session.Hold(ctx, first, 1), "O4")
	equal(t, session.IsOpen(), true)
	is(session.Release(ctx, first), "O3")
	_, err = session.Clock(ctx, 1<<52+1)
	is(err, "O2")
	_, err = session.Call(ctx, "x", 1, "sip:a", Draws{})
	is(err, "K1")
	_, err = session.Broke(ctx)
	is(err, "K3")
	_, err = session.Find(ctx, "sip:"+strings.Repeat("a", 65_528), Draws{})
	is(err, "K2")
	_, err = session.Find(ctx, "sip:a;"+strings.Repeat(";", 65_525), Draws{})
	is(err, "U7")
	// What the error says can be written to any log.
	_, err = session.Find(ctx, "sip:\xff\x1b[2J@192.0.2.1:5060", Draws{})
	equal(t, strings.HasSuffix(is(err, "U7").Error(), `: "find sip:\xff\x1b[2J@192.0.2.1:5060"`), true)
	_, err = session.Load(ctx, "example.com.", "a A 192.0.2.1\na A 192.0.2.2")
	equal(t, err, nil)
	_, err = session.Call(ctx, "invite", 1, "sip:a.example.com:5060", Draws{})
	equal(t, err, nil)
	_, err = session.GotRetry(ctx, 1, 503, 10)
	equal(t, is(err, "O4").Steps, []Step{{Kind: Ack, Attempt: 1},
		{Kind: Hold, Target: Target{"udp", "192.0.2.1", 5060}, Milliseconds: 10000},
		{Kind: Send, Attempt: 2, Target: Target{"udp", "192.0.2.2", 5060}, Branch: "z9hG4bK0000000000000001.2"}})
}

func Test20000FindsInBatches(t *testing.T) {
	server := start(t, 1, "")
	session := connect(t, server.address, 30*time.Second)
	var text strings.Builder
	for n := 0; n < 1000; n++ {
		fmt.Fprintf(&text, "s%d A 10.0.%d.%d\n", n, n/256, n%256)
	}
	must[Loaded](t)(session.Load(ctx, "example.com.", text.String()))
	for begin := 0; begin < 20_000; begin += 10_000 {
		var lines []string
		for n := begin; n < begin+10_000; n++ {
			line := must[string](t)(Line("find", fmt.Sprintf("sip:s%d.example.com:%d", n%1000, n%65_535+1)))
			lines = append(lines, line)
		}
		for place, reply := range must[[]Reply](t)(session.Batch(ctx, lines)) {
			n := begin + place
			want := fmt.Sprintf("target 1 udp 10.0.%d.%d %d", n%1000/256, n%1000%256, n%65_535+1)
			equal(t, reply.Lines, []string{want, "ok find 1"})
		}
	}
	session.Close()
	server.closes(t, 20_001)
}

// 20,000 finds of 32 targets each, sent at once, on each kind of address: more than both sockets hold.
func TestBatchOfMoreThanTheSocketsHold(t *testing.T) {
	server := start(t, 3, "")
	_, port, _ := net.SplitHostPort(server.address)
	text := ""
	for n := 0; n < 32; n++ {
		text += fmt.Sprintf("a A 192.0.2.%d\n", n)
	}
	lines := make([]string, 20_000)
	for place := range lines {
		lines[place] = "find sip:" + strings.Repeat("x", 400) + "@a.e:5060"
	}
	connect(t, server.address, 30*time.Second).Close()
	for _, address := range []string{"unix:" + t.TempDir() + "/socket", freePort(t, "[::1]")} {
		relay := exec.Command("python3", filepath.Join(top, "clients/tests/relay.py"), port, address)
		input := must[io.WriteCloser](t)(relay.StdinPipe())
		output := must[io.ReadCloser](t)(relay.StdoutPipe())
		equal(t, relay.Start(), nil)
		line, _ := bufio.NewReader(output).ReadString('\n')
		equal(t, line, "ready\n")
		session := connect(t, address, 30*time.Second)
		must[Loaded](t)(session.Load(ctx, "e.", text))
		for _, reply := range must[[]Reply](t)(session.Batch(ctx, lines)) {
			equal(t, len(reply.Lines), 33)
		}
		session.Close()
		input.Close()
		equal(t, relay.Wait(), nil)
	}
	server.closes(t, 40_002)
}

func TestServerThatEndsInTheMidst(t *testing.T) {
	for _, pause := range []time.Duration{5, 50, 150} {
		server := start(t, 1, "")
		session := connect(t, server.address, 30*time.Second)
		must[Loaded](t)(session.Load(ctx, "e.", "a A 192.0.2.1"))
		lines := make([]string, 1_000_000)
		for place := range lines {
			lines[place] = "find sip:a.e:5070"
		}
		time.AfterFunc(pause*time.Millisecond, func() { _ = server.process.Process.Kill() })
		_, err := session.Batch(ctx, lines)
		var broken *BrokenError
		if !errors.As(err, &broken) || errors.Is(err, ErrTimedOut) {
			t.Fatal(err)
		}
		equal(t, len(broken.Replies) < len(lines) && len(broken.Replies) <= broken.Sent, true)
		for _, reply := range broken.Replies {
			equal(t, reply.Lines, []string{"target 1 udp 192.0.2.1 5070", "ok find 1"})
		}
		_, err = session.Find(ctx, "sip:a.e", Draws{})
		equal(t, errors.Is(err, ErrNotConnected), true)
		_ = server.process.Wait()
		_, err = Connect(ctx, server.address, time.Second)
		equal(t, errors.Is(err, ErrNotConnected), true)
	}
}

// A client is killed within a zone, and within a line: the zone is as it was. The client is this test, run again with
// the server's address.
func TestClientThatIsKilledInAZone(t *testing.T) {
	const address, half = "SIPLOC_TEST_ADDRESS", "SIPLOC_TEST_HALF"
	if os.Getenv(address) != "" {
		session := connect(t, os.Getenv(address), 30*time.Second)
		_, _ = io.WriteString(streamOf(session), os.Getenv(half))
		time.Sleep(100 * time.Millisecond)
		_ = syscall.Kill(os.Getpid(), syscall.SIGKILL)
	}
	server := start(t, 3, "")
	session := connect(t, server.address, 30*time.Second)
	must[Loaded](t)(session.Load(ctx, "e.", "@ A 192.0.2.1"))
	for _, text := range []string{"zone e. 1000000\nb A 192.0.2.1\nc A 192.0.2.1\n", "del e. A 192.0.2.1"} {
		client := exec.Command(os.Args[0], "-test.run=^TestClientThatIsKilledInAZone$")
		client.Env = append(os.Environ(), address+"="+server.address, half+"="+text)
		equal(t, fmt.Sprint(client.Run()), "signal: killed")
	}
	time.Sleep(200 * time.Millisecond)
	equal(t, must[Answer](t)(session.Find(ctx, "sip:e:5060", Draws{})).Targets, []Target{{"udp", "192.0.2.1", 5060}})
	session.Close()
	// An edit by another than the first session would be an event more.
	server.closes(t, 2)
}

// unescape returns the octets of a field of replies.txt.
func unescape(text string) string {
	var made strings.Builder
	for at := 0; at < len(text); at++ {
		if text[at] != '\\' {
			made.WriteByte(text[at])
			continue
		}
		at++
		switch text[at] {
		case 'n':
			made.WriteByte('\n')
		case 'r':
			made.WriteByte('\r')
		case 'x':
			var octet byte
			fmt.Sscanf(text[at+1:at+3], "%x", &octet)
			made.WriteByte(octet)
			at += 2
		default:
			made.WriteByte(text[at])
		}
	}
	return made.String()
}

// What is a reply of the protocol, and what is not.
func TestReplies(t *testing.T) {
	for _, line := range textLines(read(t, "clients/tests/replies.txt")) {
		if line[0] == '#' {
			continue
		}
		fields := strings.Split(line, "\t")
		command, octets := unescape(fields[1]), unescape(fields[2])
		t.Run(line, func(t *testing.T) {
			session := connect(t, fake(t, func(stream net.Conn) {
				reader := bufio.NewReader(stream)
				for range strings.Split(command, "\n") {
					_, _ = reader.ReadString('\n')
				}
				_, _ = io.WriteString(stream, octets)
				_ = stream.(*net.TCPConn).CloseWrite()
				_, _ = io.Copy(io.Discard, reader)
			}), 10*time.Second)
			replies, err := session.Batch(ctx, []string{command})
			var broken *BrokenError
			seen := "good"
			switch {
			case err == nil:
				equal(t, strings.Join(replies[0].Lines, "\n")+"\n", octets)
				var refused *RefusedError
				if errors.As(replies[0].Err(), &refused) {
					seen = refused.Code
				}
			case errors.Is(err, ErrHalfReply) && errors.Is(err, ErrBadReply):
				seen = "half"
			case errors.Is(err, ErrBadReply):
				seen = "bad"
			case errors.Is(err, ErrConnectionLost) && !errors.Is(err, ErrTimedOut):
				seen = "lost"
			}
			equal(t, seen, fields[0])
			if errors.As(err, &broken) {
				equal(t, broken.MayBeDone() || len(broken.Replies) == 1, true)
				_, err = session.Batch(ctx, []string{command})
				equal(t, errors.Is(err, ErrNotConnected), true)
			}
		})
	}
}

// An answerer has the reply to what is written, and then ends.
type answerer struct {
	net.Conn
	written chan bool
	reply   *strings.Reader
}

func (a *answerer) Write(octets []byte) (int, error) {
	close(a.written)
	return len(octets), nil
}

func (a *answerer) Read(room []byte) (int, error) {
	<-a.written
	return a.reply.Read(room)
}

func (a *answerer) SetDeadline(time.Time) error { return nil }

func (a *answerer) Close() error { return nil }

// changed.py: each octet of each reply changed in turn. What is none is not taken, and ends the session.
func TestChangedReplies(t *testing.T) {
	printed := must[[]byte](t)(exec.Command("python3", filepath.Join(top, "clients/tests/changed.py")).Output())
	lines := textLines(string(printed))
	for _, line := range lines {
		fields := strings.Split(line, "\t")
		octets := unescape(fields[2])
		session := New(&answerer{written: make(chan bool), reply: strings.NewReader(octets)}, 10*time.Second)
		replies, err := session.Batch(ctx, []string{unescape(fields[1])})
		var refused *RefusedError
		seen := "good"
		switch {
		case errors.Is(err, ErrHalfReply):
			seen = "half"
		case errors.Is(err, ErrBadReply):
			seen = "bad"
		case err != nil:
			seen = err.Error()
		case errors.As(replies[0].Err(), &refused):
			seen = refused.Code
		}
		if seen != fields[0] || session.IsOpen() == (fields[0] == "half" || fields[0] == "bad") {
			t.Errorf("%s: got %s", line, seen)
		}
		if err == nil && strings.Join(replies[0].Lines, "\n")+"\n" != octets {
			t.Errorf("%s: got %q", line, replies[0].Lines)
		}
	}
	equal(t, len(lines) > 5_000, true)
}

// cutServer sends a part of a reply to the first line of each connection: the octets before the next cut. Then the
// connection ends, is reset, or stays silent until the test has ended.
func cutServer(t *testing.T, octets string, lines int, how string) string {
	t.Helper()
	listener := must[net.Listener](t)(net.Listen("tcp", "127.0.0.1:0"))
	t.Cleanup(func() { listener.Close() })
	go func() {
		for at := 0; at < len(octets); at++ {
			stream, err := listener.Accept()
			if err != nil {
				return
			}
			reader := bufio.NewReader(stream)
			for line := 0; line < lines; line++ {
				_, _ = reader.ReadString('\n')
			}
			_, _ = io.WriteString(stream, octets[:at])
			switch how {
			case "reset":
				_ = stream.(*net.TCPConn).SetLinger(0)
				stream.Close()
			case "end":
				stream.Close()
			default:
				t.Cleanup(func() { stream.Close() })
			}
		}
	}()
	return listener.Addr().String()
}

// A reply that is cut at any octet, as the connection ends or is reset, is told as half a reply, or as none; where no
// more comes, the time runs out.
func TestCutAtEachOctet(t *testing.T) {
	for _, line := range textLines(read(t, "clients/tests/replies.txt")) {
		fields := strings.Split(line, "\t")
		if fields[0] != "good" {
			continue
		}
		command, octets := unescape(fields[1]), unescape(fields[2])
		for _, how := range []string{"end", "reset", "silence"} {
			timeout := 10 * time.Second
			if how == "silence" {
				timeout = 5 * time.Millisecond
			}
			address := cutServer(t, octets, strings.Count(command, "\n")+1, how)
			for at := 0; at < len(octets); at++ {
				begin := time.Now()
				_, err := connect(t, address, timeout).Batch(ctx, []string{command})
				isRight := errors.Is(err, ErrHalfReply)
				switch {
				case how == "silence":
					isRight = errors.Is(err, ErrTimedOut)
				case at == 0:
					isRight = errors.Is(err, ErrConnectionLost) && !errors.Is(err, ErrTimedOut)
				case how == "reset": // What came before may be lost with the connection.
					isRight = isRight || errors.Is(err, ErrConnectionLost)
				}
				if !isRight || time.Since(begin) > 5*time.Second {
					t.Errorf("%q, %s after %d: %v", octets, how, at, err)
				}
			}
		}
	}
}

// A reply to a zone of which lines are still to be sent: what was sent next would be taken for them.
func TestReplyBeforeItsCommand(t *testing.T) {
	done := make(chan bool)
	session := connect(t, fake(t, func(stream net.Conn) {
		_, _ = stream.Read(make([]byte, 1))
		_, _ = io.WriteString(stream, "ok zone 1 0 0 1\n")
		<-done
	}), time.Second)
	_, err := session.Load(ctx, "e.", strings.Repeat(strings.Repeat("x", 60_000)+"\n", 1_000))
	close(done)
	var broken *BrokenError
	equal(t, errors.As(err, &broken) && errors.Is(err, ErrBadReply) && broken.Sent == 1, true)
	equal(t, session.IsOpen(), false)
}

func TestGarbageWithoutEnd(t *testing.T) {
	for _, octets := range []string{strings.Repeat("x", 1_000_000), strings.Repeat("dep a. A 1\n", 100_000)} {
		session := connect(t, fake(t, func(stream net.Conn) {
			_, _ = bufio.NewReader(stream).ReadString('\n')
			_, _ = io.WriteString(stream, octets)
			_, _ = io.Copy(io.Discard, stream)
		}), 20*time.Second)
		_, err := session.Deps(ctx, "sip:a")
		equal(t, errors.Is(err, ErrBadReply), true)
	}
}

// What would break the protocol is refused before it is sent, and the session goes on.
func TestInvalidCommandsAreNotSent(t *testing.T) {
	received := make(chan string, 1)
	session := connect(t, fake(t, func(stream net.Conn) {
		octets, _ := io.ReadAll(stream)
		received <- string(octets)
	}), 10*time.Second)
	is := func(err error) {
		t.Helper()
		equal(t, errors.Is(err, ErrInvalidCommand), true)
	}
	for _, line := range []string{"", " ", "\t", "#", "# find sip:a", "quit", " quit\t", "find sip:a\n", "find sip:a\nquit",
		"find sip:a\r", "add a.e. A 192.0.2.1\rx", "zone e. 1", "zone e. 0\nfind sip:a", "zone e. 2\na A 192.0.2.1",
		"zone e. 1048577\na", "zone e.\na", "zone e. 1\na\r", "zone " + strings.Repeat("a", 65_536) + " 1\na",
		"zone e. " + strings.Repeat("0", 30) + "1"} {
		_, err := session.Batch(ctx, []string{"find sip:a", line})
		is(err)
		var invalid *InvalidError
		equal(t, errors.As(err, &invalid) && invalid.Place == 1, true)
	}
	_, err := session.Find(ctx, "sip:a seed 1", Draws{})
	is(err)
	_, err = session.Find(ctx, "", Draws{})
	is(err)
	_, err = session.Deps(ctx, "sip:a\n")
	is(err)
	_, err = session.Add(ctx, "a.e. A 192.0.2.1\ndel a.e. A 192.0.2.1")
	is(err)
	_, err = session.Remove(ctx, "a.e. A 192.0.2.1\r")
	is(err)
	_, err = session.Drop(ctx, "e. f.")
	is(err)
	_, err = session.Load(ctx, "e. 0", "")
	is(err)
	for _, text := range []string{"a A\r192.0.2.1", "a A 192.0.2.1\r\r\n", "a A 192.0.2.1\r\r"} {
		_, err = session.Load(ctx, "e.", text)
		is(err)
	}
	is(session.Hold(ctx, Target{"udp", "a b", 1}, 1))
	is(session.Release(ctx, Target{"udp", "", 1}))
	_, err = session.Call(ctx, "invite x", 1, "sip:a", Draws{})
	is(err)
	equal(t, streamOf(session).(*net.TCPConn).CloseWrite(), nil)
	equal(t, <-received, "")
}

// A session that the server has closed or refused: a command that is sent later was not done; one that was read
// may be.
func TestLostBeforeAndAfter(t *testing.T) {
	done := make(chan bool, 1)
	session := connect(t, fake(t, func(stream net.Conn) { done <- stream.Close() == nil }), 10*time.Second)
	<-done
	_, err := session.Add(ctx, "a.e. A 192.0.2.1")
	var broken *BrokenError
	equal(t, errors.As(err, &broken) && broken.Kind == ErrConnectionLost && !broken.MayBeDone(), true)
	session = connect(t, fake(t, func(stream net.Conn) { _, _ = stream.Read(make([]byte, 1)) }), 10*time.Second)
	_, err = session.Add(ctx, "a.e. A 192.0.2.1")
	equal(t, errors.As(err, &broken) && broken.Kind == ErrConnectionLost && broken.MayBeDone(), true)
	for place, commands := range [][]string{{"repair"}, {"repair"}, {"repair", "repair", "repair"}} {
		isLate := place > 0 // The commands are on their way.
		session = connect(t, fake(t, func(stream net.Conn) {
			if isLate {
				_, _ = bufio.NewReader(stream).ReadString('\n')
			}
			_, err := io.WriteString(stream, "err Busy\n")
			done <- err == nil
		}), 10*time.Second)
		if !isLate {
			<-done
		}
		_, err = session.Batch(ctx, commands)
		var refused *RefusedError
		equal(t, errors.As(err, &refused) && refused.Code == "Busy" && refused.Command == "(the session)", true)
		equal(t, session.IsOpen(), false)
		if isLate {
			<-done
		}
		_, err = session.Add(ctx, "a.e. A 192.0.2.1")
		equal(t, errors.Is(err, ErrNotConnected), true)
	}
}

// No reply, one that comes too slowly, and a server that takes nothing; and a session that was idle for longer.
func TestTimeouts(t *testing.T) {
	for name, serve := range map[string]func(net.Conn, chan bool){
		"nothing": func(_ net.Conn, done chan bool) { <-done },
		"slow": func(stream net.Conn, done chan bool) {
			_, err := stream.Read(make([]byte, 1))
			for ; err == nil; _, err = io.WriteString(stream, "t") {
				time.Sleep(50 * time.Millisecond)
			}
		},
	} {
		for _, lines := range [][]string{{"find sip:a"}, strings.Split(strings.Repeat("find sip:"+
			strings.Repeat("a", 60_000)+"\n", 1_000)+"find sip:a", "\n")} {
			t.Run(fmt.Sprint(name, len(lines)), func(t *testing.T) {
				done := make(chan bool)
				session := connect(t, fake(t, func(stream net.Conn) { serve(stream, done) }), 400*time.Millisecond)
				begin := time.Now()
				_, err := session.Batch(ctx, lines)
				close(done)
				var broken *BrokenError
				equal(t, errors.As(err, &broken) && broken.Kind == ErrTimedOut && broken.MayBeDone(), true)
				equal(t, errors.Is(err, ErrConnectionLost), true)
				equal(t, time.Since(begin) > 300*time.Millisecond && time.Since(begin) < 15*time.Second, true)
				equal(t, broken.Sent < 1_000, true)
			})
		}
	}
	// A time that runs out before anything is sent, as on a busy machine.
	early := connect(t, fake(t, func(stream net.Conn) { _, _ = io.Copy(io.Discard, stream) }), time.Second)
	early.SetTimeout(1)
	_, err := early.Find(ctx, "sip:a", Draws{})
	var broken *BrokenError
	equal(t, errors.As(err, &broken) && broken.Kind == ErrTimedOut && !broken.MayBeDone(), true)
	session := connect(t, start(t, 1, "").address, time.Second)
	session.SetTimeout(0)
	equal(t, session.Repair(ctx), nil)
	session.SetTimeout(time.Second)
	for turn := 0; turn < 2; turn++ {
		equal(t, session.Repair(ctx), nil)
		time.Sleep(1200 * time.Millisecond)
	}
}

// A taker takes so many octets, and then fails to send.
type taker struct {
	net.Conn
	size int
}

func (f *taker) Write(octets []byte) (int, error) {
	if len(octets) <= f.size {
		f.size -= len(octets)
		return f.Conn.Write(octets)
	}
	count, _ := f.Conn.Write(octets[:f.size])
	f.size = 0
	return count, syscall.ENOBUFS
}

// The same, of the system.
type systemTaker struct{ taker }

func (f *systemTaker) SyscallConn() (syscall.RawConn, error) {
	return f.Conn.(syscall.Conn).SyscallConn()
}

// A connection that takes no more, as for want of buffers: what is due is still read, and then the cause told.
func TestSendThatFails(t *testing.T) {
	for _, row := range []struct{ size, replied, sent int }{{0, 0, 0}, {7, 1, 1}, {10, 1, 2}, {14, 2, 2}} {
		row := row
		for _, isOfSystem := range []bool{false, true} {
			address := fake(t, func(stream net.Conn) {
				reader := bufio.NewReader(stream)
				for place := 0; place < row.replied; place++ {
					_, _ = reader.ReadString('\n')
				}
				time.Sleep(100 * time.Millisecond)
				_, _ = io.WriteString(stream, strings.Repeat("ok repair\n", row.replied))
				_, _ = io.Copy(io.Discard, reader)
			})
			stream := taker{must[net.Conn](t)(net.Dial("tcp", address)), row.size}
			var given net.Conn = &stream
			if isOfSystem {
				given = &systemTaker{stream}
			}
			begin := time.Now()
			session := New(given, 20*time.Second)
			_, err := session.Batch(ctx, []string{"repair", "repair", "repair"})
			var broken *BrokenError
			equal(t, errors.As(err, &broken) && errors.Is(err, syscall.ENOBUFS), true)
			equal(t, broken.Kind, ErrConnectionLost)
			equal(t, []int{len(broken.Replies), broken.Sent}, []int{row.replied, row.sent})
			equal(t, time.Since(begin) < 10*time.Second && !session.IsOpen(), true)
		}
	}
}

// A TCP connection that was there is reset too: of a zone that is cut the server would take a part.
func TestConnectionThatIsGiven(t *testing.T) {
	ended := make(chan error, 1)
	address := fake(t, func(stream net.Conn) {
		_, err := io.Copy(io.Discard, stream)
		ended <- err
	})
	session := New(must[net.Conn](t)(net.Dial("tcp", address)), 200*time.Millisecond)
	_, err := session.Load(ctx, "e.", "a A 192.0.2.1")
	equal(t, errors.Is(err, ErrTimedOut), true)
	equal(t, errors.Is(<-ended, syscall.ECONNRESET), true)
}

// Goroutines share a session: each gets the reply to its own question.
func TestGoroutines(t *testing.T) {
	session := connect(t, start(t, 1, "").address, 30*time.Second)
	var all sync.WaitGroup
	for place := 1; place <= 8; place++ {
		all.Add(1)
		go func(port uint16) {
			defer all.Done()
			for turn := 0; turn < 200; turn++ {
				answer, err := session.Find(ctx, fmt.Sprintf("sip:192.0.2.9:%d", port), Draws{})
				if err != nil || len(answer.Targets) != 1 || answer.Targets[0].Port != port {
					t.Error(answer, err)
				}
			}
		}(uint16(place))
	}
	all.Wait()
}

func TestAddresses(t *testing.T) {
	for _, address := range []string{"", "127.0.0.1", "localhost", "localhost:0", "192.0.2.1:5099", "[2001:db8::1]:5099",
		"127.0.0.1:0", "127.0.0.1:65536", "127.0.0.1:x", "::1:5099", "unix:", "unix:" + strings.Repeat("x", 108),
		"[127.0.0.1]:5099", "300.0.0.1:1", "[::ffff:127.0.0.1]:5099", "[::1%lo]:5099", "unix:/tmp\x00/socket", "unix:\x00socket"} {
		_, err := Connect(ctx, address, time.Second)
		if !errors.Is(err, ErrInvalidCommand) {
			t.Errorf("%s: %v", address, err)
		}
	}
	_, port, _ := net.SplitHostPort(freePort(t, "127.0.0.1"))
	for _, address := range []string{freePort(t, "127.0.0.1"), freePort(t, "[::1]"), "localhost:" + port, "unix:/nonexistent/socket"} {
		_, err := Connect(ctx, address, time.Second)
		equal(t, errors.Is(err, ErrNotConnected), true)
		// What it failed with is wrapped, too.
		var cause *net.OpError
		equal(t, errors.As(err, &cause), true)
	}
	for _, host := range []string{"127.0.0.1", "[::1]"} {
		listener := must[net.Listener](t)(net.Listen("tcp", host+":0"))
		_, port, _ := net.SplitHostPort(listener.Addr().String())
		equal(t, must[*Session](t)(Connect(ctx, "localhost:"+port, time.Second)).carrier.hasEnded(), false)
		listener.Close()
	}
}

// A port is a number, which may have leading zeros.
func TestPortsWithLeadingZeros(t *testing.T) {
	for _, host := range []string{"127.0.0.1", "localhost"} {
		_, port, _ := net.SplitHostPort(silent(t))
		session, err := Connect(ctx, fmt.Sprintf("%s:%012s", host, port), 5*time.Second)
		equal(t, err, nil)
		session.carrier.end()
	}
	for _, port := range []string{"000000000000", "00000000000065536", "", "+5099", "5 099"} {
		_, err := Connect(ctx, "127.0.0.1:"+port, time.Second)
		equal(t, errors.Is(err, ErrInvalidCommand), true)
	}
}

// A server that takes some octets now and then makes progress. (Over TCP the system waits up to seconds to send to a
// buffer that was full.)
func TestServerThatReadsSlowly(t *testing.T) {
	text := strings.Repeat(strings.Repeat("x", 399)+"\n", 800)
	listener, err := net.Listen("unix", filepath.Join(t.TempDir(), "s"))
	equal(t, err, nil)
	serveOne(t, listener, func(stream net.Conn) {
		octets := make([]byte, 2048)
		for left := len("zone e. 800\n") + len(text); left > 0; time.Sleep(20 * time.Millisecond) {
			count, err := stream.Read(octets)
			if left -= count; err != nil {
				return
			}
		}
		_, _ = io.WriteString(stream, "ok zone 1 0 0 1\n")
		_, _ = io.Copy(io.Discard, stream)
	})
	session := connect(t, "unix:"+listener.Addr().String(), time.Second)
	equal(t, streamOf(session).(*net.UnixConn).SetWriteBuffer(4096), nil)
	begin := time.Now()
	loaded, err := session.Load(ctx, "e.", text)
	equal(t, err, nil)
	equal(t, loaded, Loaded{1, 0, 0, 1})
	equal(t, time.Since(begin) > 2*time.Second, true)
}

// A Unix socket that has as many clients waiting as it takes is waited for, as long as is given.
func TestFullQueue(t *testing.T) {
	address := &syscall.SockaddrUnix{Name: filepath.Join(t.TempDir(), "s")}
	listener, err := syscall.Socket(syscall.AF_UNIX, syscall.SOCK_STREAM, 0)
	equal(t, err, nil)
	t.Cleanup(func() { _ = syscall.Close(listener) })
	equal(t, syscall.Bind(listener, address), nil)
	equal(t, syscall.Listen(listener, 0), nil)
	for err = nil; err == nil; {
		client, _ := syscall.Socket(syscall.AF_UNIX, syscall.SOCK_STREAM|syscall.SOCK_NONBLOCK, 0)
		t.Cleanup(func() { _ = syscall.Close(client) })
		err = syscall.Connect(client, address)
	}
	equal(t, err, syscall.EAGAIN)
	begin := time.Now()
	_, err = Connect(ctx, "unix:"+address.Name, 300*time.Millisecond)
	equal(t, errors.Is(err, ErrNotConnected) && time.Since(begin) >= 300*time.Millisecond, true)
	ended, end := context.WithTimeout(ctx, 300*time.Millisecond)
	defer end()
	_, err = Connect(ended, "unix:"+address.Name, time.Minute)
	equal(t, errors.Is(err, ErrNotConnected) && time.Since(begin) < 30*time.Second, true)
	time.AfterFunc(300*time.Millisecond, func() {
		for i := 0; i < 2; i++ {
			_, _, _ = syscall.Accept(listener)
		}
	})
	session, err := Connect(ctx, "unix:"+address.Name, 20*time.Second)
	equal(t, err, nil)
	session.carrier.end()
}

// A path that begins with @ is one of a file, and no abstract name.
func TestPathsThatBeginWithAt(t *testing.T) {
	name := fmt.Sprintf("@siploc-%d", os.Getpid())
	abstract, err := net.Listen("unix", name)
	equal(t, err, nil)
	defer abstract.Close()
	_, err = Connect(ctx, "unix:"+name, time.Second)
	equal(t, errors.Is(err, os.ErrNotExist), true)
}

// A connection need not be one of the system.
func TestConnectionsOfOtherKinds(t *testing.T) {
	stream, other := net.Pipe()
	go func() {
		// (it takes an octet at a time, and replies before it reads on)
		for line, octet := "", make([]byte, 1); line != "quit\n"; {
			_, _ = io.ReadFull(other, octet)
			if line = strings.TrimSuffix(line, "\n") + string(octet); octet[0] == '\n' {
				_, _ = io.WriteString(other, "ok "+line)
				if line != "quit\n" {
					line = ""
				}
			}
		}
	}()
	session := New(stream, 5*time.Second)
	equal(t, session.Repair(ctx), nil)
	replies, err := session.Batch(ctx, []string{"repair", "repair", "broke"})
	equal(t, err, nil)
	equal(t, allLines(replies), []string{"ok repair", "ok repair", "ok broke"})
	equal(t, session.Close(), nil)
}

// silent is a server that takes what comes, and says nothing.
func silent(t *testing.T) string {
	return fake(t, func(stream net.Conn) { _, _ = io.Copy(io.Discard, stream) })
}

// A context that ends before its call ends the session, and the error says both.
func TestContexts(t *testing.T) {
	for _, kind := range []error{context.Canceled, context.DeadlineExceeded} {
		session := connect(t, silent(t), 10*time.Second)
		within, cancel := context.WithTimeout(ctx, 200*time.Millisecond)
		if kind == context.Canceled {
			time.AfterFunc(50*time.Millisecond, cancel)
		}
		begin := time.Now()
		_, err := session.Find(within, "sip:a.e", Draws{})
		cancel()
		var broken *BrokenError
		equal(t, errors.As(err, &broken) && broken.MayBeDone() && errors.Is(err, kind), true)
		equal(t, errors.Is(err, ErrTimedOut), kind == context.DeadlineExceeded)
		equal(t, time.Since(begin) < 2*time.Second, true)
		_, err = session.Find(ctx, "sip:a.e", Draws{})
		equal(t, errors.Is(err, ErrNotConnected) && errors.Is(err, net.ErrClosed), true)
	}
	session := connect(t, start(t, 1, "").address, 10*time.Second)
	done, cancel := context.WithCancel(ctx)
	cancel()
	// One that has ended before: nothing is sent, and the session goes on.
	_, err := session.Find(done, "sip:a.e", Draws{})
	equal(t, err, context.Canceled)
	_, err = Connect(done, streamOf(session).RemoteAddr().String(), time.Second)
	equal(t, errors.Is(err, ErrNotConnected), true)
	within, cancel := context.WithCancel(ctx)
	equal(t, session.Repair(within), nil)
	cancel()
	equal(t, session.Repair(ctx), nil)
}

// A call that waits for its turn ends with its context alone.
func TestContextsOfWaitingCalls(t *testing.T) {
	session := connect(t, silent(t), time.Second)
	first := make(chan error)
	go func() { first <- session.Repair(ctx) }()
	time.Sleep(100 * time.Millisecond)
	within, cancel := context.WithTimeout(ctx, 100*time.Millisecond)
	defer cancel()
	equal(t, session.Repair(within), context.DeadlineExceeded)
	equal(t, errors.Is(<-first, ErrTimedOut), true)
}

// A context that ends as its turn comes: nothing is sent, and the session goes on.
func TestContextThatEndsAsItsTurnComes(t *testing.T) {
	defer runtime.GOMAXPROCS(runtime.GOMAXPROCS(1))
	session := connect(t, start(t, 1, "").address, 10*time.Second)
	for turn := 0; turn < 10; turn++ {
		<-session.turn
		within, cancel := context.WithCancel(ctx)
		ended := make(chan error, 1)
		go func() { ended <- session.Repair(within) }()
		time.Sleep(10 * time.Millisecond)
		session.turn <- struct{}{}
		cancel()
		equal(t, <-ended, context.Canceled)
		equal(t, session.Repair(ctx), nil)
	}
}

// A connection that is looked at once it is closed.
type late struct{ *net.TCPConn }

func (l late) SyscallConn() (syscall.RawConn, error) {
	for l.SetDeadline(time.Time{}) == nil {
		time.Sleep(time.Millisecond)
	}
	return l.TCPConn.SyscallConn()
}

// A context that ends before anything is sent is the cause, too.
func TestContextThatEndsBeforeACommandIsSent(t *testing.T) {
	stream := must[net.Conn](t)(net.Dial("tcp", silent(t)))
	session := New(late{stream.(*net.TCPConn)}, time.Second)
	within, cancel := context.WithTimeout(ctx, 20*time.Millisecond)
	defer cancel()
	err := session.Repair(within)
	var broken *BrokenError
	equal(t, errors.As(err, &broken) && errors.Is(err, ErrTimedOut) && errors.Is(err, context.DeadlineExceeded), true)
	equal(t, broken.MayBeDone(), false)
}

// Close does not wait for a call, which ends.
func TestCloseDuringACall(t *testing.T) {
	var closer io.Closer = connect(t, silent(t), 30*time.Second)
	first := make(chan error)
	go func() { first <- closer.(*Session).Repair(ctx) }()
	time.Sleep(100 * time.Millisecond)
	begin := time.Now()
	equal(t, closer.Close(), nil)
	err := <-first
	var broken *BrokenError
	equal(t, errors.As(err, &broken) && broken.Kind == ErrConnectionLost && errors.Is(err, net.ErrClosed), true)
	equal(t, time.Since(begin) < time.Second, true)
	equal(t, closer.Close(), nil)
}

func TestExample(t *testing.T) {
	server := start(t, 2, "")
	connect(t, server.address, time.Second).Close()
	output, err := exec.Command("go", "run", "./example", server.address).CombinedOutput()
	equal(t, err, nil)
	equal(t, string(output), "[udp 192.0.2.1 5060] \n")
	server.closes(t, 1)
}
