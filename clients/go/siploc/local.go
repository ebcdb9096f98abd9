package siploc

import (
	"bufio"
	"context"
	"errors"
	"io"
	"sync"
	"time"
)

// A Local is a session in this process, as package embedded has it.
type Local interface {
	// Put puts lines into the session. It returns how many octets were taken: where memory ran out the lines before, and
	// the rest can be put again.
	Put(lines []byte) int
	// Read takes the next octets of the replies. Where none waits it returns io.EOF.
	io.Reader
	// Close frees the session.
	io.Closer
}

// NewLocal opens a session over one in this process, which is the Session's to close. A call does not wait: neither
// the timeout nor the end of its context ends it.
func NewLocal(session Local) *Session {
	return newSession(&local{session: session, incoming: incoming{bufio.NewReaderSize(session, 1<<16), func() {}}}, 0)
}

type local struct {
	incoming
	lock    sync.Mutex
	session Local // nil where it has ended
}

// How many octets of commands are put before their replies are taken.
const maxPiece = 1 << 16

var errMemory = errors.New("out of memory")

func (l *local) hasEnded() bool {
	l.lock.Lock()
	defer l.lock.Unlock()
	return l.session == nil
}

// end closes the session, after a call that is being made.
func (l *local) end() {
	l.lock.Lock()
	defer l.lock.Unlock()
	l.close()
}

func (l *local) close() {
	if l.session != nil {
		_ = l.session.Close()
		l.session = nil
	}
}

// exchange carries out commands, and reads their replies. The session ends where it returns an error.
func (l *local) exchange(_ context.Context, commands []command, _ time.Duration) ([]Reply, error) {
	l.lock.Lock()
	defer l.lock.Unlock()
	if l.session == nil {
		return nil, &BrokenError{Kind: ErrConnectionLost, Cause: io.EOF}
	}
	replies := make([]Reply, 0, len(commands))
	for len(replies) < len(commands) {
		piece := pieceOf(commands[len(replies):])
		came, broken := l.put(piece)
		if broken != nil {
			l.close()
			broken.Sent += len(replies)
			broken.Replies = append(replies, came...)
			return nil, broken
		}
		replies = append(replies, came...)
		if len(came) < len(piece) {
			// Memory ran out before the command began: as where it does later.
			replies = append(replies, Reply{commands[len(replies)].text, []string{"err Memory"}})
		}
	}
	return replies, nil
}

// pieceOf returns the first of some commands, as many as are put before their replies are taken.
func pieceOf(commands []command) []command {
	size := 0
	for place, command := range commands {
		if size += len(command.octets); size >= maxPiece {
			return commands[:place+1]
		}
	}
	return commands
}

// put puts commands into the session, and returns the replies to those that it has taken.
func (l *local) put(commands []command) ([]Reply, *BrokenError) {
	taken := l.session.Put([]byte(octetsOf(commands)))
	count := sentOf(commands, taken)
	if whole := len(octetsOf(commands[:count])); whole != taken {
		// Some lines of a zone were taken.
		replies, _ := l.read(commands[:count-1])
		return replies, &BrokenError{Kind: ErrConnectionLost, Sent: count, Cause: errMemory}
	}
	replies, broken := l.read(commands[:count])
	if broken != nil {
		broken.Sent = count
	}
	return replies, broken
}
