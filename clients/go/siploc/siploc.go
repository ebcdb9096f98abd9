// Package siploc is a client of siploc, the SIP next-hop locator (RFC 3263, section 4).
//
//	session, err := siploc.Connect(ctx, "127.0.0.1:5099", time.Second)
//	..
//	answer, err := session.Find(ctx, "sip:bob@example.com", siploc.Draws{})
//
// A session is one connection, or one in this process (package embedded). Each method sends one command and returns
// what its reply says; Batch sends many. Methods may be called by several goroutines: their commands go one after
// another.
//
// An error is one of these. After a BrokenError the session has ended; to connect again is up to the caller.
//
//   - *InvalidError, an ErrInvalidCommand: the command would break the protocol, and was not sent
//   - *RefusedError: the reply is `err CODE`
//   - *BrokenError: the connection was lost, the time ran out, or the reply is none that the protocol has
//   - *NotConnectedError, an ErrNotConnected: nobody listens at the address, or the session has ended before
//   - the error of the context, where it ended before the call's turn came
package siploc

import (
	"bufio"
	"context"
	"errors"
	"fmt"
	"net"
	"os"
	"strconv"
	"strings"
	"sync/atomic"
	"time"
)

const (
	maxLine       = 65_536
	maxZoneLines  = 1_048_576
	maxReplyLine  = 4_096
	maxReplyLines = 65_536
	// What is written without a look at the replies: a connection without replies on their way takes it.
	maxInline = 1 << 14
	// What the server has to take within the time, for the time to begin anew.
	chunk = 1 << 14
	// How long is read what has come, where the connection takes no more.
	moment = 50 * time.Millisecond
)

// DefaultTimeout is how long a call waits without progress where no other time is given.
const DefaultTimeout = 30 * time.Second

// A Session is a connection to a server, or a session in this process. Goroutines may share it: their calls are made
// one after another.
//
// Each call takes a context. Where it ends before the call, the session ends with it, since the reply that was due
// would be taken for that of the next command; a call that was still waiting for its turn ends alone.
type Session struct {
	timeout atomic.Int64
	carrier carrier
	turn    chan struct{} // has one element while no call is made
}

// A carrier takes commands to a session, and brings their replies.
type carrier interface {
	exchange(ctx context.Context, commands []command, timeout time.Duration) ([]Reply, error)
	end() // ends a call that is being made, or waits for it
	hasEnded() bool
}

func newSession(carrier carrier, timeout time.Duration) *Session {
	session := &Session{carrier: carrier, turn: make(chan struct{}, 1)}
	session.SetTimeout(timeout)
	session.turn <- struct{}{}
	return session
}

// SetTimeout changes how long a call waits without progress. Where it is 0, it is DefaultTimeout.
func (s *Session) SetTimeout(timeout time.Duration) {
	if timeout == 0 {
		timeout = DefaultTimeout
	}
	s.timeout.Store(int64(timeout))
}

// Close ends the session by `quit`, within a second, and closes the connection. A call that is being made ends at once,
// with an error; in this process Close waits for it. It returns nil, as an io.Closer whose connection may have been lost before.
func (s *Session) Close() error {
	select {
	case <-s.turn:
		defer func() { s.turn <- struct{}{} }()
		if !s.carrier.hasEnded() {
			if s.timeout.Load() > int64(time.Second) {
				s.SetTimeout(time.Second)
			}
			_, _ = s.exchange(context.Background(), []command{{"quit", "quit", "quit\n"}})
		}
	default:
	}
	s.carrier.end()
	return nil
}

// IsOpen returns whether the session has neither ended nor been closed, as far as is known.
func (s *Session) IsOpen() bool { return !s.carrier.hasEnded() }

// Draws are the random words by which servers of equal priority are ordered. The zero value stands for words of 0.
type Draws struct{ text string }

// Words are at most 32 words, followed by words of 0.
func Words(words ...uint32) Draws {
	if len(words) == 0 {
		return Draws{}
	}
	texts := make([]string, len(words))
	for place, word := range words {
		texts[place] = strconv.FormatUint(uint64(word), 10)
	}
	return Draws{" words " + strings.Join(texts, ",")}
}

// Seed stands for the first 32 words of a generator that is started there.
func Seed(seed uint64) Draws { return Draws{" seed " + strconv.FormatUint(seed, 10)} }

// Find returns the targets of a URI, in the order in which they are tried, or the reason that there are none.
func (s *Session) Find(ctx context.Context, uri string, draws Draws) (Answer, error) {
	reply, err := s.ask(ctx, "find", draws.text, uri)
	if err != nil {
		return Answer{}, err
	}
	return reply.Answer()
}

// Deps returns the record sets that the targets of a URI depend on, in the order in which they are read.
func (s *Session) Deps(ctx context.Context, uri string) ([]Dependency, error) {
	reply, err := s.ask(ctx, "deps", "", uri)
	if err != nil {
		return nil, err
	}
	return reply.Dependencies()
}

// Load loads a zone, a master file, in place of the one that there was.
func (s *Session) Load(ctx context.Context, apex, text string) (Loaded, error) {
	line, err := Zone(apex, text)
	if err != nil {
		return Loaded{}, err
	}
	reply, err := s.one(ctx, line)
	if err != nil {
		return Loaded{}, err
	}
	counts := reply.Counts()
	return Loaded{counts[0], counts[1], counts[2], counts[3]}, nil
}

// Drop takes out a zone. It returns the number of record sets that changed.
func (s *Session) Drop(ctx context.Context, apex string) (uint64, error) {
	return count(s.ask(ctx, "drop", "", apex))
}

// Add adds a record, such as `a.example.com. A 192.0.2.1`. It returns the number of record sets that changed.
func (s *Session) Add(ctx context.Context, record string) (uint64, error) {
	return count(s.one(ctx, "add "+record))
}

// Remove deletes a record. It returns the number of record sets that changed.
func (s *Session) Remove(ctx context.Context, record string) (uint64, error) {
	return count(s.one(ctx, "del "+record))
}

// Repair looks up again all kept answers that edits outdated, before anyone asks.
func (s *Session) Repair(ctx context.Context) error { return only(s.ask(ctx, "repair", "")) }

// Page returns the journal as a page, which the server keeps, and begins an empty one: no longer B3.
func (s *Session) Page(ctx context.Context) (Page, error) {
	reply, err := s.ask(ctx, "page", "")
	if err != nil {
		return Page{}, err
	}
	counts := reply.Counts()
	return Page{counts[0], counts[1]}, nil
}

// Hold leaves an endpoint out of answers for so many milliseconds.
func (s *Session) Hold(ctx context.Context, target Target, milliseconds uint64) error {
	return only(s.ask(ctx, "hold", "", target.Transport, target.Address, decimal(uint64(target.Port)), decimal(milliseconds)))
}

// Release ends the hold of an endpoint.
func (s *Session) Release(ctx context.Context, target Target) error {
	return only(s.ask(ctx, "release", "", target.Transport, target.Address, decimal(uint64(target.Port))))
}

// Clock sets the time in milliseconds, which begins at 0. It returns the steps of the call that has not ended.
func (s *Session) Clock(ctx context.Context, milliseconds uint64) ([]Step, error) {
	return steps(s.ask(ctx, "clock", "", decimal(milliseconds)))
}

// Call opens a call to the targets of a URI, one after another. The kind is `invite` or `other`; base is a number
// that no other request has.
func (s *Session) Call(ctx context.Context, kind string, base uint64, uri string, draws Draws) (Opened, error) {
	reply, err := s.ask(ctx, "call", draws.text, kind, decimal(base), uri)
	if err != nil {
		return Opened{}, err
	}
	return Opened{reply.Steps(), reply.Reason()}, nil
}

// Got tells the call that a response with this status code has come to an attempt.
func (s *Session) Got(ctx context.Context, attempt uint32, code uint16) ([]Step, error) {
	return steps(s.ask(ctx, "got", "", decimal(uint64(attempt)), decimal(uint64(code))))
}

// GotRetry is Got of a response that has the seconds of a Retry-After field.
func (s *Session) GotRetry(ctx context.Context, attempt uint32, code uint16, retry uint32) ([]Step, error) {
	return steps(s.ask(ctx, "got", " retry "+decimal(uint64(retry)), decimal(uint64(attempt)), decimal(uint64(code))))
}

// Broke tells the call that the transport of its running attempt has failed.
func (s *Session) Broke(ctx context.Context) ([]Step, error) { return steps(s.ask(ctx, "broke", "")) }

// Batch sends many commands at once, and returns their replies in order; a refusal is a reply as any other.
//
// A command is a line of the protocol without its end, as Line makes one, or a zone with all of its lines, as Zone
// makes one. All are checked before the first is sent. Replies are read while commands are sent.
func (s *Session) Batch(ctx context.Context, lines []string) ([]Reply, error) {
	commands := make([]command, 0, len(lines))
	for place, line := range lines {
		command, err := prepare(line)
		if err != nil {
			err.Place = place
			return nil, err
		}
		commands = append(commands, command)
	}
	select {
	case <-s.turn:
	case <-ctx.Done():
		return nil, ctx.Err()
	}
	defer func() { s.turn <- struct{}{} }()
	// (the context may have ended as the turn came)
	if err := ctx.Err(); err != nil {
		return nil, err
	}
	return s.exchange(ctx, commands)
}

// Line returns a command of these fields, for Batch. A field that is empty, or has a blank or a line end, is an
// ErrInvalidCommand.
func Line(fields ...string) (string, error) {
	for _, field := range fields {
		if field == "" || strings.ContainsAny(field, " \t\r\n") {
			return "", invalid("a field is empty, or has a blank or a line end: %.200q", field)
		}
	}
	return strings.Join(fields, " "), nil
}

// Zone returns a command that loads a zone, for Batch. The text is a master file, whose lines end with LF or CR LF.
func Zone(apex, text string) (string, error) {
	if text != "" && !strings.HasSuffix(text, "\n") {
		text += "\n"
	}
	count := strings.Count(text, "\n")
	if count > maxZoneLines {
		return "", invalid("the zone %.200q has more than %d lines", apex, maxZoneLines)
	}
	line, err := Line("zone", apex, strconv.Itoa(count))
	if err != nil || count == 0 {
		return line, err
	}
	return line + "\n" + strings.TrimSuffix(strings.ReplaceAll(text, "\r\n", "\n"), "\n"), nil
}

func decimal(value uint64) string { return strconv.FormatUint(value, 10) }

func only(_ Reply, err error) error { return err }

func steps(reply Reply, err error) ([]Step, error) {
	if err != nil {
		return nil, err
	}
	return reply.Steps(), nil
}

func count(reply Reply, err error) (uint64, error) {
	if err != nil {
		return 0, err
	}
	return reply.Counts()[0], nil
}

// ask sends a command of a word, fields that have to be one each, and a rest.
func (s *Session) ask(ctx context.Context, word, rest string, fields ...string) (Reply, error) {
	line, err := Line(append([]string{word}, fields...)...)
	if err != nil {
		return Reply{}, err
	}
	return s.one(ctx, line+rest)
}

// one sends a command, and returns its reply, or its refusal as the error.
func (s *Session) one(ctx context.Context, line string) (Reply, error) {
	replies, err := s.Batch(ctx, []string{line})
	if err != nil {
		return Reply{}, err
	}
	return replies[0], replies[0].Err()
}

// A command that is ready to be sent: its word, its first line, and its octets.
type command struct{ word, text, octets string }

// prepare returns a command that breaks no protocol: it is one line, or a `zone` line and as many as it says, and
// it has a reply.
func prepare(line string) (command, *InvalidError) {
	first, rest, hasRest := strings.Cut(line, "\n")
	fields := strings.FieldsFunc(first, func(letter rune) bool { return letter == ' ' || letter == '\t' })
	lines := 0
	if hasRest {
		lines = strings.Count(rest, "\n") + 1
	}
	switch {
	case strings.Contains(line, "\r"):
		return command{}, invalid("a command has a CR: %.200q", first)
	case lines != zoneLines(fields):
		return command{}, invalid("a command has other lines than its first one says: %.200q", first)
	case lines > 0 && len(first) > maxLine:
		return command{}, invalid("the first line of a zone has more than %d octets", maxLine)
	case len(fields) == 0 || first[0] == '#':
		return command{}, invalid("an empty line, or a comment, has no reply: %.200q", first)
	case len(fields) == 1 && fields[0] == "quit":
		return command{}, invalid("a session ends by Close")
	}
	return command{fields[0], first, line + "\n"}, nil
}

// zoneLines returns how many lines the server takes after a line with these fields.
func zoneLines(fields []string) int {
	if len(fields) != 3 || fields[0] != "zone" || strings.Trim(fields[2], "0123456789") != "" {
		return 0
	}
	count, err := strconv.ParseUint(fields[2], 10, 64)
	if err != nil || count > maxZoneLines {
		return 0
	}
	return int(count)
}

// exchange sends commands and reads their replies. The session ends where it returns an error.
func (s *Session) exchange(ctx context.Context, commands []command) ([]Reply, error) {
	if s.carrier.hasEnded() {
		return nil, &NotConnectedError{Cause: net.ErrClosed}
	}
	if len(commands) == 0 {
		return []Reply{}, nil
	}
	return s.carrier.exchange(ctx, commands, time.Duration(s.timeout.Load()))
}

// octetsOf returns the octets of commands.
func octetsOf(commands []command) string {
	var octets strings.Builder
	for _, command := range commands {
		octets.WriteString(command.octets)
	}
	return octets.String()
}

// sentOf returns how many commands begin before so many octets of theirs.
func sentOf(commands []command, octets int) int {
	count := 0
	for start := 0; count < len(commands) && start < octets; count++ {
		start += len(commands[count].octets)
	}
	return count
}

// wholeOf returns how many commands are whole in so many octets of theirs.
func wholeOf(commands []command, octets int) int {
	count := sentOf(commands, octets)
	if count > 0 && len(octetsOf(commands[:count])) > octets {
		count--
	}
	return count
}

// Replies that come.
type incoming struct {
	reader   *bufio.Reader
	progress func() // what is called after each of them
}

// read reads the replies to commands, and returns those that came.
func (i incoming) read(commands []command) ([]Reply, *BrokenError) {
	replies := make([]Reply, 0, len(commands))
	for _, command := range commands {
		lines, broken := i.readReply(command.word)
		if broken != nil {
			return replies, broken
		}
		replies = append(replies, Reply{command.text, lines})
		i.progress()
	}
	if rest := i.reader.Buffered(); rest > 0 {
		octets, _ := i.reader.Peek(rest)
		return replies, bad(string(octets))
	}
	return replies, nil
}

func bad(line string) *BrokenError {
	return &BrokenError{Kind: ErrBadReply, Cause: fmt.Errorf("%.200q", line)}
}

// readReply reads the reply to a command.
func (i incoming) readReply(word string) ([]string, *BrokenError) {
	lines := make([]string, 0, 2)
	for {
		octets, err := i.reader.ReadSlice('\n')
		switch {
		case err == bufio.ErrBufferFull || len(octets) > maxReplyLine:
			return nil, bad(string(octets))
		case errors.Is(err, os.ErrDeadlineExceeded):
			return nil, &BrokenError{Kind: ErrTimedOut, Cause: err}
		case err != nil && (len(lines) > 0 || len(octets) > 0):
			return nil, &BrokenError{Kind: ErrHalfReply, Cause: err}
		case err != nil:
			return nil, &BrokenError{Kind: ErrConnectionLost, Cause: err}
		}
		line := string(octets[:len(octets)-1])
		if isLast(line) {
			if !isReply(word, len(lines), line) {
				return nil, bad(line)
			}
			return append(lines, line), nil
		}
		lines = append(lines, line)
		if len(lines) > maxReplyLines || !isBody(word, len(lines), line) {
			return nil, bad(line)
		}
	}
}
