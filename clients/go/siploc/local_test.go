package siploc

import (
	"bytes"
	"errors"
	"strings"
	"testing"
)

// A scarce is a Local with a reply to each line, in which memory runs out: each Put takes so many octets at most.
type scarce struct {
	bytes.Buffer
	most    []int
	replies []string
	closed  bool
	reads   int
}

func (s *scarce) Read(room []byte) (int, error) {
	s.reads++
	return s.Buffer.Read(room)
}

func (s *scarce) Put(lines []byte) int {
	taken := len(lines)
	if len(s.most) > 0 {
		taken, s.most = s.most[0], s.most[1:]
	}
	for count := bytes.Count(lines[:taken], []byte("\n")); count > 0 && len(s.replies) > 0; count-- {
		s.WriteString(s.replies[0])
		s.replies = s.replies[1:]
	}
	return taken
}

func (s *scarce) Close() error {
	s.closed = true
	return nil
}

// Where memory runs out before a command begins, it is refused, and the others are carried out.
func TestLocalOutOfMemory(t *testing.T) {
	local := &scarce{most: []int{11}, replies: []string{"ok hold\n", "ok release\n", "ok quit\n"}}
	session := NewLocal(local)
	replies := must[[]Reply](t)(session.Batch(ctx, []string{"hold x y z", "find x", "release x"}))
	for place, line := range []string{"ok hold", "err Memory", "ok release"} {
		equal(t, replies[place].Lines, []string{line})
	}
	equal(t, session.Close(), nil)
	equal(t, local.closed, true)
	_, err := session.Find(ctx, "x", Draws{})
	equal(t, errors.Is(err, ErrNotConnected), true)
}

// Each time that replies are taken, those that stay are moved: so they are taken in large pieces.
func TestLocalTakesMuchAtOnce(t *testing.T) {
	reply := strings.Repeat("dep a.example.com. A 1\n", 20_000) + "ok deps 20000\n"
	local := &scarce{replies: []string{reply}}
	session := NewLocal(local)
	sets, err := session.Deps(ctx, "sip:a.example.com")
	equal(t, err, nil)
	equal(t, len(sets), 20_000)
	equal(t, local.reads <= len(reply)>>16+2, true)
}

// Where it runs out within a zone, the session ends.
func TestLocalOutOfMemoryWithinAZone(t *testing.T) {
	local := &scarce{most: []int{len("repair\nzone a. 2\n")}, replies: []string{"ok repair\n"}}
	session := NewLocal(local)
	_, err := session.Batch(ctx, []string{"repair", "zone a. 2\nx\ny", "repair"})
	var broken *BrokenError
	equal(t, errors.As(err, &broken), true)
	equal(t, []int{len(broken.Replies), broken.Sent}, []int{1, 2})
	equal(t, []bool{errors.Is(err, ErrConnectionLost), broken.MayBeDone(), local.closed}, []bool{true, true, true})
}
