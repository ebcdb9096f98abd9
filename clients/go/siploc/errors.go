package siploc

import (
	"errors"
	"fmt"
)

// What the errors of this package are, by errors.Is.
var (
	// ErrInvalidCommand: the command would break the protocol. It was not sent, and the session goes on.
	ErrInvalidCommand = errors.New("siploc: invalid command")
	// ErrNotConnected: nobody listens at the address, or the session has ended before. Nothing was sent.
	ErrNotConnected = errors.New("siploc: not connected")
	// ErrConnectionLost: the server has closed the connection between two replies, or the connection failed.
	ErrConnectionLost = errors.New("siploc: connection lost")
	// ErrTimedOut: there was no complete reply, and no octet was taken by the server, in the time that is set.
	// Such an error is an ErrConnectionLost, too.
	ErrTimedOut = errors.New("siploc: timed out")
	// ErrBadReply: the reply is none that the protocol has.
	ErrBadReply = errors.New("siploc: not a reply")
	// ErrHalfReply: the connection ended within a reply. Such an error is an ErrBadReply, too.
	ErrHalfReply = errors.New("siploc: the connection ended within a reply")
)

// A RefusedError is the reply `err CODE`: the server has refused a command. The session goes on.
//
// A server that refuses a session sends `err CODE` before any command, or `err Busy` as its first reply: then the
// session has ended, and no command was carried out.
type RefusedError struct {
	// Code is such as S3.
	Code string
	// Command is the first line of the command.
	Command string
	// Line is the line of a zone's text with the faulty entry, counted from 1; 0 of other refusals.
	Line uint64
	// Name and Kind are, of L1, those of the record set that was changed.
	Name, Kind string
	// Steps are, of a call, to be taken all the same: the call has gone on, and the hold of a step was refused.
	Steps []Step
}

// Meaning returns what the code means.
func (e *RefusedError) Meaning() string {
	if meaning, isKnown := meanings[e.Code]; isKnown {
		return meaning
	}
	return "a code that this client does not know"
}

func (e *RefusedError) Error() string {
	place := ""
	if e.Line > 0 {
		place = fmt.Sprintf(" (line %d of the zone)", e.Line)
	}
	return fmt.Sprintf("siploc: %s: %s%s: %.200q", e.Code, e.Meaning(), place, e.Command)
}

// An InvalidError is an ErrInvalidCommand.
type InvalidError struct {
	// Place is, in a batch, that of the first command that is invalid, counted from 0.
	Place int
	cause string
}

func (e *InvalidError) Error() string { return fmt.Sprintf("%v: %s", ErrInvalidCommand, e.cause) }

// Is makes it an ErrInvalidCommand.
func (e *InvalidError) Is(target error) bool { return target == ErrInvalidCommand }

// A NotConnectedError is an ErrNotConnected.
type NotConnectedError struct {
	// Address is that at which nobody listens; it is empty where the session has ended before.
	Address string
	// Cause is why: of a session that has ended, net.ErrClosed.
	Cause error
}

func (e *NotConnectedError) Error() string {
	if e.Address == "" {
		return fmt.Sprintf("%v: the session has ended", ErrNotConnected)
	}
	return fmt.Sprintf("%v: %s: %v", ErrNotConnected, e.Address, e.Cause)
}

// Is makes it an ErrNotConnected.
func (e *NotConnectedError) Is(target error) bool { return target == ErrNotConnected }

func (e *NotConnectedError) Unwrap() error { return e.Cause }

// A BrokenError says that the session has ended. The connection is closed.
//
// Of the commands that were sent together, the first len(Replies) have replies; the others before Sent may have
// been carried out, or not; those from Sent on were not. A method other than Batch sends one command.
type BrokenError struct {
	// Kind is ErrConnectionLost, ErrTimedOut, ErrBadReply or ErrHalfReply.
	Kind error
	// Replies are those that came before.
	Replies []Reply
	// Sent is how many commands were sent, the last one maybe in part.
	Sent int
	// Cause is what the connection failed with, the error of a context that has ended, or the line that is no reply.
	Cause error
}

// MayBeDone returns whether a command without a reply may have been carried out.
func (e *BrokenError) MayBeDone() bool { return e.Sent > len(e.Replies) }

func (e *BrokenError) Error() string {
	doubt := "was not"
	if e.MayBeDone() {
		doubt = "may have been"
	}
	cause := ""
	if e.Cause != nil {
		cause = fmt.Sprintf(": %v", e.Cause)
	}
	return fmt.Sprintf("%v%s (after %d replies; what came next %s carried out)", e.Kind, cause, len(e.Replies), doubt)
}

// Is makes a time that ran out a connection that was lost, and half a reply a bad one.
func (e *BrokenError) Is(target error) bool {
	return target == e.Kind || target == ErrConnectionLost && e.Kind == ErrTimedOut ||
		target == ErrBadReply && e.Kind == ErrHalfReply
}

func (e *BrokenError) Unwrap() error { return e.Cause }

func invalid(format string, values ...any) *InvalidError {
	return &InvalidError{cause: fmt.Sprintf(format, values...)}
}

// What each code of a refusal means.
var meanings = map[string]string{
	"N1":     "a name has an empty label",
	"N2":     "a label has more than 63 octets",
	"N3":     "a name has more than 255 octets",
	"N4":     "a name has an invalid escape",
	"Z1":     "a name of the record is invalid, or a string has an invalid escape",
	"Z2":     "a field of the record is missing, its type is invalid, or a directive is unknown",
	"Z3":     "a number or a TTL is invalid or too large",
	"Z4":     "an address of the record is invalid",
	"Z5":     "a parenthesis closes none, or is not closed",
	"Z6":     "a quoted field is not closed before the end of its line",
	"Z7":     "the class is not IN",
	"Z8":     "$INCLUDE is refused",
	"Z9":     "$GENERATE is refused",
	"Z10":    "the generic form of a type that is read is refused",
	"Z11":    "a string has more than 255 octets",
	"Z12":    "the record has no owner",
	"Z13":    "the record has a field too many",
	"Z14":    "an alias is beside other data",
	"Z15":    "a set has more than 32 records",
	"U1":     "the scheme of the URI is neither sip nor sips",
	"U2":     "a host of the URI is invalid",
	"U3":     "the port of the URI is not a number from 1 to 65,535",
	"U4":     "the transport of the URI is unknown or absent",
	"U5":     "a parameter of the URI is repeated",
	"U6":     "sips excludes the transport of the URI",
	"U7":     "the URI has an octet that is not allowed, or an empty parameter",
	"A1":     "the address is invalid",
	"V1":     "there are more than 32 random words",
	"K1":     "there is no such command, or its fields do not fit",
	"K2":     "a line has more than 65,536 octets, or the lines of a zone more than `zone_octets`",
	"K3":     "there is no call",
	"K4":     "a call has not ended",
	"X1":     "the time is before that of the call's last clock",
	"X2":     "the status code is not within 100 to 699",
	"F1":     "the call would have no target",
	"F2":     "the call has ended",
	"F3":     "the call has sent no such attempt",
	"S1":     "a loaded zone is above or below this one",
	"S2":     "no such zone is loaded, or the owner is in no loaded zone",
	"S3":     "the record is in the zone already",
	"S4":     "there is no such record",
	"S5":     "an alias would be beside other data of its owner",
	"S6":     "the set has 32 records",
	"S7":     "there would be more records than the settings allow",
	"S8":     "the numbers that changed sets take are used up",
	"S9":     "the first label of the apex is a wildcard",
	"O1":     "the time would go back",
	"O2":     "a time would be after 2^52",
	"O3":     "the endpoint is not held",
	"O4":     "as many endpoints are held as the settings allow",
	"B3":     "the journal is full: a page makes room",
	"B6":     "no number is left for another page",
	"L1":     "a record set changed in each of the tries: ask again",
	"Memory": "an allocation failed",
	"D1":     "the time is the host's: holds end by themselves",
	"D2":     "changes can't be kept at present: the daemon can't write to its state",
	"D3":     "the address is for questions only",
	"Busy":   "there are as many clients as the settings allow",
}
