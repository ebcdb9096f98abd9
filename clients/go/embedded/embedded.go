// Package embedded has sessions of siploc in this process, without a server: they have the calls and the errors of
// package siploc. It needs the library of clients/c/embedded, which pkg-config finds.
package embedded

// #cgo pkg-config: siploc-embedded
// #include <siploc_embedded.h>
import "C"

import (
	"errors"
	"fmt"
	"io"
	"runtime"
	"unsafe"

	"siploc.example/clients/go/siploc"
)

// ErrSettings is the error where settings are refused, and ErrMemory where there is no memory for a session.
var (
	ErrSettings = errors.New("the settings are refused")
	ErrMemory   = errors.New("out of memory")
)

// Open opens a session with these settings, which are those of `siploc run`. It has a book of its own, which ends with
// it. The journal is full after 1,048,576 answers, changes and holds (B3): Page drops it.
func Open(settings string) (*siploc.Session, error) {
	text, opened := []byte(settings), new(session)
	switch C.siploc_embedded_open(address(text), C.size_t(len(text)), &opened.handle) {
	case C.SIPLOC_EMBEDDED_OK:
		runtime.SetFinalizer(opened, (*session).Close)
		return siploc.NewLocal(opened), nil
	case C.SIPLOC_EMBEDDED_SETTINGS:
		return nil, fmt.Errorf("%w: %.200q", ErrSettings, settings)
	}
	return nil, ErrMemory
}

// A session is a siploc.Local.
type session struct{ handle C.siploc_embedded_session }

func (s *session) Put(lines []byte) int {
	var taken C.size_t
	C.siploc_embedded_put(&s.handle, address(lines), C.size_t(len(lines)), &taken)
	return int(taken)
}

func (s *session) Read(room []byte) (int, error) {
	count := int(C.siploc_embedded_take(&s.handle, address(room), C.size_t(len(room))))
	if count == 0 && len(room) > 0 {
		return 0, io.EOF
	}
	return count, nil
}

func (s *session) Close() error {
	C.siploc_embedded_close(&s.handle)
	return nil
}

// address returns that of the first octet, or nil of none.
func address(octets []byte) unsafe.Pointer {
	if len(octets) == 0 {
		return nil
	}
	return unsafe.Pointer(&octets[0])
}
