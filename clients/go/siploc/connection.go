package siploc

import (
	"bufio"
	"context"
	"errors"
	"io"
	"net"
	"net/netip"
	"os"
	"strings"
	"sync"
	"sync/atomic"
	"syscall"
	"time"
)

// Connect opens a session with the server at an address: `127.0.0.1:5099`, `[::1]:5099`, `localhost:5099`, which is
// one of these, or `unix:/run/siplocd.sock`.
//
// The timeout is that of the connection, and later how long a call waits without progress: without a complete
// reply, and without the server taking further octets. Where it is 0, it is DefaultTimeout.
func Connect(ctx context.Context, address string, timeout time.Duration) (*Session, error) {
	network, places, err := placesOf(address)
	if err != nil {
		return nil, err
	}
	if timeout == 0 {
		timeout = DefaultTimeout
	}
	dialer := net.Dialer{Timeout: timeout}
	var first error
	for _, place := range places {
		stream, err := dial(ctx, dialer, network, place)
		if err == nil {
			return New(stream, timeout), nil
		}
		if first == nil {
			first = err
		}
	}
	return nil, &NotConnectedError{Address: address, Cause: first}
}

// dial connects to a place. Where as many clients wait at a Unix socket as it takes, the dialer does not wait.
func dial(ctx context.Context, dialer net.Dialer, network, place string) (net.Conn, error) {
	for end := time.Now().Add(dialer.Timeout); ; {
		stream, err := dialer.DialContext(ctx, network, place)
		if !errors.Is(err, syscall.EAGAIN) || time.Now().After(end) {
			return stream, err
		}
		select {
		case <-ctx.Done():
			return nil, ctx.Err()
		case <-time.After(10 * time.Millisecond):
		}
	}
}

// New opens a session over a connection that is there, such as an end of a socket pair. The timeout is how long a call
// waits without progress. Where it is 0, it is DefaultTimeout. A connection of TCP is reset at its end.
func New(stream net.Conn, timeout time.Duration) *Session {
	if connection, isTCP := stream.(interface{ SetLinger(int) error }); isTCP {
		// A connection that ends before its time is reset, also where this process is killed. Else the server would see
		// the end of the input, and take half a line as a line, and half a zone as a zone. (Where this fails, so do calls.)
		_ = connection.SetLinger(0)
	}
	return newSession(&connection{stream: stream, reader: bufio.NewReaderSize(stream, 1<<16)}, timeout)
}

// placesOf returns the network and the places of an address, in the order in which they are tried.
func placesOf(address string) (string, []string, error) {
	if place := strings.TrimPrefix(address, "unix:"); place != address {
		if place == "" || len(place) > 107 || strings.Contains(place, "\x00") {
			return "", nil, invalid("the path of a Unix socket has 1 to 107 octets: %.200q", address)
		}
		if place[0] == '@' {
			place = "./" + place // (it would be an abstract name)
		}
		return "unix", []string{place}, nil
	}
	places := []string{address}
	if port := strings.TrimPrefix(address, "localhost:"); port != address {
		places = []string{"127.0.0.1:" + port, "[::1]:" + port}
	}
	port, err := netip.ParseAddrPort(places[0])
	if err != nil || !port.Addr().IsLoopback() || port.Port() == 0 || port.Addr().Is4In6() ||
		port.Addr().Zone() != "" {
		return "", nil, invalid("neither a loopback address with a port nor `unix:` and a path: %.200q", address)
	}
	return "tcp", places, nil
}

// A connection to a server.
type connection struct {
	stream net.Conn
	reader *bufio.Reader
	ended  atomic.Bool
}

// end closes the connection, which ends a call that is being made.
func (c *connection) end() {
	c.ended.Store(true)
	c.stream.Close()
}

func (c *connection) hasEnded() bool { return c.ended.Load() }

// watch ends the connection where a context ends before the function that it returns is called.
func (c *connection) watch(ctx context.Context) func() {
	if ctx.Done() == nil {
		return func() {}
	}
	stop, stopped := make(chan struct{}), make(chan struct{})
	go func() {
		defer close(stopped)
		select {
		case <-ctx.Done():
			c.end()
		case <-stop:
		}
	}()
	return func() { close(stop); <-stopped }
}

// An exchange is commands on their way.
type exchange struct {
	stream   net.Conn
	timeout  time.Duration
	commands []command
	output   string
	sent     int // how many octets of the output were sent; the writer's until it is done
	lock     sync.Mutex
	replied  int
	cut      error // why the connection takes no more
	due      int   // how many replies are due to what it took
}

// exchange sends commands and reads their replies. The connection ends where it returns an error.
func (c *connection) exchange(ctx context.Context, commands []command, timeout time.Duration) ([]Reply, error) {
	defer c.watch(ctx)()
	exchange := &exchange{stream: c.stream, timeout: timeout, commands: commands, output: octetsOf(commands)}
	exchange.progress()
	if err := exchange.readBefore(); err != nil {
		c.end()
		var broken *BrokenError
		if errors.As(err, &broken) {
			broken.blame(ctx)
		}
		return nil, err
	}
	var writer sync.WaitGroup
	if _, isOfSystem := c.stream.(syscall.Conn); isOfSystem && len(exchange.output) <= maxInline {
		exchange.write()
	} else {
		writer.Add(1)
		go func() {
			defer writer.Done()
			exchange.write()
		}()
	}
	replies, broken := incoming{c.reader, exchange.count}.read(commands)
	if len(replies) > 0 && replies[0].Lines[0] == "err Busy" {
		c.end()
		writer.Wait()
		return nil, refusedSession("Busy")
	}
	if broken == nil {
		writer.Wait()
		if exchange.sent == len(exchange.output) {
			return replies, nil
		}
		// (what is sent next would be taken for the rest)
		broken = &BrokenError{Kind: ErrBadReply, Cause: errors.New("a reply before its command was sent")}
	}
	c.end() // The writer ends at once when the connection is closed.
	writer.Wait()
	if broken.Kind == ErrTimedOut && exchange.isOver() {
		broken.Kind, broken.Cause = ErrConnectionLost, exchange.cut
	}
	broken.blame(ctx)
	broken.Replies, broken.Sent = replies, sentOf(commands, exchange.sent)
	return nil, broken
}

// blame makes a context that has ended the cause.
func (e *BrokenError) blame(ctx context.Context) {
	if err := ctx.Err(); err != nil {
		e.Kind, e.Cause = ErrConnectionLost, err
		if err == context.DeadlineExceeded {
			e.Kind = ErrTimedOut
		}
	}
}

// isOver returns whether the connection takes no more, and no reply is due.
func (e *exchange) isOver() bool { return e.cut != nil && e.replied >= e.due }

// progress begins the time anew after which the session ends. Where the exchange is over it is a moment, in which what
// has come is read. Where it fails, so does the next read.
func (e *exchange) progress() {
	timeout := e.timeout
	if e.isOver() && timeout > moment {
		timeout = moment
	}
	_ = e.stream.SetDeadline(time.Now().Add(timeout))
}

// count is progress after a reply.
func (e *exchange) count() {
	e.lock.Lock()
	defer e.lock.Unlock()
	e.replied++
	e.progress()
}

// write sends all octets. When the connection fails it ends, and what was replied before is still read.
func (e *exchange) write() {
	for e.sent < len(e.output) {
		end := e.sent + chunk
		if end > len(e.output) {
			end = len(e.output)
		}
		count, err := io.WriteString(e.stream, e.output[e.sent:end])
		e.sent += count
		if errors.Is(err, os.ErrDeadlineExceeded) || errors.Is(err, net.ErrClosed) {
			return // (and so do reads)
		}
		e.lock.Lock()
		if err != nil {
			e.cut, e.due = err, wholeOf(e.commands, e.sent)
		}
		e.progress()
		e.lock.Unlock()
		if err != nil {
			return
		}
	}
}

// readBefore looks, without waiting, for what came before any command was sent: the end of the connection, or a
// refusal of the session. It can't where the connection is none of the system.
func (e *exchange) readBefore() error {
	stream, isOfSystem := e.stream.(syscall.Conn)
	if !isOfSystem {
		return nil
	}
	raw, err := stream.SyscallConn()
	if err != nil {
		return &BrokenError{Kind: ErrConnectionLost, Cause: err}
	}
	octets, count := make([]byte, 64), 0
	var fault error
	err = raw.Read(func(descriptor uintptr) bool {
		count, _, fault = syscall.Recvfrom(int(descriptor), octets, syscall.MSG_PEEK)
		return true
	})
	switch {
	case err == nil && (fault == syscall.EAGAIN || fault == syscall.EINTR), errors.Is(err, os.ErrDeadlineExceeded):
		return nil // (where the time has run out, the next read says so)
	case err != nil:
		return &BrokenError{Kind: ErrConnectionLost, Cause: err}
	case fault != nil:
		return &BrokenError{Kind: ErrConnectionLost, Cause: fault}
	case count == 0:
		return &BrokenError{Kind: ErrConnectionLost, Cause: io.EOF}
	}
	line := strings.TrimSuffix(string(octets[:count]), "\n")
	if code := strings.TrimPrefix(line, "err "); len(line) < count && code != line && isCode(code) {
		return refusedSession(code)
	}
	return bad(line)
}

func refusedSession(code string) error { return &RefusedError{Code: code, Command: "(the session)"} }
