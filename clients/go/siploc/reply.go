package siploc

import (
	"fmt"
	"net/netip"
	"strconv"
	"strings"
)

// A Target is where to send a request.
type Target struct {
	// Transport is udp, tcp, tls or sctp.
	Transport string
	// Address is an IPv4 address, or an IPv6 address of eight groups.
	Address string
	Port    uint16
}

// String returns the target as the protocol has it: transport, address and port.
func (t Target) String() string { return fmt.Sprintf("%s %s %d", t.Transport, t.Address, t.Port) }

// An Answer is the reply to Find: targets in the order in which they are tried, or the reason that there are none.
type Answer struct {
	Targets []Target
	// Reason is NoAddress, NotAvailable, NoTransport or AllHeld, and empty where there are targets.
	Reason string
}

// A Dependency is a record set that the targets of a URI depend on.
type Dependency struct {
	Name string
	// Kind is A, AAAA, CNAME, SRV, NAPTR or EXISTS.
	Kind string
	// Records is how many records there are; of EXISTS it is 1 where the name exists, else 0.
	Records uint64
}

// Loaded is the reply to Load: records taken, left out as outside the zone or repeated, and record sets changed.
type Loaded struct {
	Records, Outside, Repeated, Changed uint64
}

// Page is the reply to Page: the number of its first event, and how many events it has.
type Page struct {
	First, Events uint64
}

// The kinds of steps.
const (
	// Send: send the request of Attempt to Target, with Branch. Attempts count from 1.
	Send = "send"
	// Resend: send the request of Attempt again.
	Resend = "resend"
	// Ack: send an ACK for the response to Attempt.
	Ack = "ack"
	// Hold: nothing to do; Target is held from now on for so many Milliseconds.
	Hold = "hold"
	// Deliver: pass a response with the status Code to the user.
	Deliver = "deliver"
	// Exhausted: all targets have failed.
	Exhausted = "exhausted"
)

// A Step of a call is what is to be done. Fields that its kind does not name are zero.
type Step struct {
	Kind         string
	Attempt      uint32
	Target       Target
	Branch       string
	Milliseconds uint64
	Code         uint16
}

// Opened is the reply to Call: its first steps, or the reason that there are no targets and no call was opened.
type Opened struct {
	Steps  []Step
	Reason string
}

// A Reply is a complete reply, as Batch returns it: one of the forms that the protocol has for its command.
type Reply struct {
	// Command is the first line of the command.
	Command string
	// Lines are those of the reply, without their ends.
	Lines []string
}

func (r Reply) last() []string { return strings.Split(r.Lines[len(r.Lines)-1], " ") }

// Err returns a *RefusedError where the reply is `err CODE`, else nil.
func (r Reply) Err() error {
	fields := r.last()
	switch {
	case fields[0] != "err":
		return nil
	case len(fields) == 4 && fields[1] == "L1":
		return &RefusedError{Code: fields[1], Command: r.Command, Name: fields[2], Kind: fields[3]}
	case len(fields) == 4:
		line, _ := number(fields[2], 64)
		return &RefusedError{Code: fields[3], Command: r.Command, Line: line}
	}
	return &RefusedError{Code: fields[1], Command: r.Command, Steps: r.Steps()}
}

// Reason returns the reason of `none REASON`, else nothing.
func (r Reply) Reason() string {
	if fields := r.last(); fields[0] == "none" {
		return fields[1]
	}
	return ""
}

// Counts returns the numbers of the last line, of a reply that begins with `ok`.
func (r Reply) Counts() []uint64 {
	fields := r.last()
	if fields[0] != "ok" {
		return nil
	}
	counts := make([]uint64, 0, 4)
	for _, field := range fields[2:] {
		count, _ := number(field, 64)
		counts = append(counts, count)
	}
	return counts
}

// Answer returns the answer to `find`, or a *RefusedError.
func (r Reply) Answer() (Answer, error) {
	if err := r.Err(); err != nil {
		return Answer{}, err
	}
	targets := make([]Target, 0, len(r.Lines)-1)
	for _, line := range r.Lines[:len(r.Lines)-1] {
		target, _ := endpoint(strings.Split(line, " ")[2:])
		targets = append(targets, target)
	}
	return Answer{targets, r.Reason()}, nil
}

// Dependencies returns the record sets of `deps`, or a *RefusedError.
func (r Reply) Dependencies() ([]Dependency, error) {
	if err := r.Err(); err != nil {
		return nil, err
	}
	sets := make([]Dependency, 0, len(r.Lines)-1)
	for _, line := range r.Lines[:len(r.Lines)-1] {
		set, _ := dependency(strings.Split(line, " "))
		sets = append(sets, set)
	}
	return sets, nil
}

// Steps returns the steps of `call`, `got`, `broke` and `clock`, of a refused one too.
func (r Reply) Steps() []Step {
	steps := make([]Step, 0, len(r.Lines)-1)
	for _, line := range r.Lines[:len(r.Lines)-1] {
		step, _ := step(strings.Split(line, " "))
		steps = append(steps, step)
	}
	return steps
}

// number reads a number as replies have them: decimal digits without leading zeros.
func number(text string, bits int) (uint64, bool) {
	if text == "" || text[0] < '0' || text[0] > '9' || text[0] == '0' && len(text) > 1 {
		return 0, false
	}
	value, err := strconv.ParseUint(text, 10, bits)
	return value, err == nil
}

// endpoint reads a transport, an address and a port.
func endpoint(fields []string) (Target, bool) {
	if len(fields) != 3 {
		return Target{}, false
	}
	port, isPort := number(fields[2], 16)
	isTransport := fields[0] == "udp" || fields[0] == "tcp" || fields[0] == "tls" || fields[0] == "sctp"
	return Target{fields[0], fields[1], uint16(port)}, isPort && isTransport && isAddress(fields[1])
}

// isAddress returns whether an address is printed as the protocol has it.
func isAddress(text string) bool {
	groups := strings.Split(text, ":")
	if len(groups) == 1 {
		address, err := netip.ParseAddr(text)
		return err == nil && address.Is4()
	}
	for _, group := range groups {
		if group == "" || len(group) > 4 || group[0] == '0' && len(group) > 1 ||
			strings.Trim(group, "0123456789abcdef") != "" {
			return false
		}
	}
	return len(groups) == 8
}

// isName returns whether a text is a printed name, as far as replies need it.
func isName(text string) bool {
	for place := 0; place < len(text); place++ {
		if text[place] < '!' || text[place] > '~' {
			return false
		}
	}
	return text != ""
}

func isKind(text string) bool {
	switch text {
	case "A", "AAAA", "CNAME", "SRV", "NAPTR", "EXISTS":
		return true
	}
	return false
}

func isReason(text string) bool {
	switch text {
	case "NoAddress", "NotAvailable", "NoTransport", "AllHeld":
		return true
	}
	return false
}

// isCode returns whether a text has the form of a refusal's code.
func isCode(text string) bool {
	for place := 0; place < len(text); place++ {
		letter := text[place]
		isUpper := 'A' <= letter && letter <= 'Z'
		if !isUpper && (place == 0 || !('a' <= letter && letter <= 'z' || '0' <= letter && letter <= '9')) {
			return false
		}
	}
	return 0 < len(text) && len(text) <= 32
}

// dependency reads the fields of a `dep` line.
func dependency(fields []string) (Dependency, bool) {
	if len(fields) != 4 || fields[0] != "dep" {
		return Dependency{}, false
	}
	count, isNumber := number(fields[3], 64)
	return Dependency{fields[1], fields[2], count}, isNumber && isName(fields[1]) && isKind(fields[2])
}

// isBranch returns whether a text is the branch of an attempt.
func isBranch(text, attempt string) bool {
	base, end, _ := strings.Cut(text, ".")
	return end == attempt && len(base) == len("z9hG4bK")+16 && strings.HasPrefix(base, "z9hG4bK") &&
		strings.Trim(base[len("z9hG4bK"):], "0123456789abcdef") == ""
}

// step reads the fields of a step.
func step(fields []string) (Step, bool) {
	step := Step{Kind: fields[0]}
	attempt := func() bool {
		value, isNumber := number(fields[1], 32)
		step.Attempt = uint32(value)
		return isNumber && value > 0
	}
	switch {
	case step.Kind == Send && len(fields) == 6:
		target, isTarget := endpoint(fields[2:5])
		step.Target, step.Branch = target, fields[5]
		return step, attempt() && isTarget && isBranch(step.Branch, fields[1])
	case (step.Kind == Resend || step.Kind == Ack) && len(fields) == 2:
		return step, attempt()
	case step.Kind == Hold && len(fields) == 5:
		target, isTarget := endpoint(fields[1:4])
		milliseconds, isNumber := number(fields[4], 64)
		step.Target, step.Milliseconds = target, milliseconds
		return step, isTarget && isNumber
	case step.Kind == Deliver && len(fields) == 2:
		code, isNumber := number(fields[1], 16)
		step.Code = uint16(code)
		return step, isNumber && 100 <= code && code <= 699
	}
	return step, step.Kind == Exhausted && len(fields) == 1
}

// isLast returns whether a line ends a reply.
func isLast(line string) bool {
	return strings.HasPrefix(line, "ok") || strings.HasPrefix(line, "none") || strings.HasPrefix(line, "err")
}

// isBody returns whether a line may be the one of this number in a reply to a command, before the last.
func isBody(word string, place int, line string) bool {
	fields := strings.Split(line, " ")
	switch word {
	case "find":
		if len(fields) != 5 || fields[0] != "target" {
			return false
		}
		index, isNumber := number(fields[1], 32)
		_, isTarget := endpoint(fields[2:])
		return isNumber && isTarget && index == uint64(place)
	case "deps":
		_, isSet := dependency(fields)
		return isSet
	case "clock", "call", "got", "broke":
		_, isStep := step(fields)
		return isStep
	}
	return false
}

// isReply returns whether a line may be the last of a reply to a command, with so many lines before it.
func isReply(word string, before int, line string) bool {
	fields := strings.Split(line, " ")
	if len(fields) < 2 {
		return false
	}
	hasTargets := word == "find" || word == "call"
	switch fields[0] {
	case "ok":
		return fields[1] == word && areCounts(word, before, fields[2:])
	case "none":
		return hasTargets && before == 0 && len(fields) == 2 && isReason(fields[1])
	case "err":
		if before > 0 && word != "clock" && word != "got" && word != "broke" {
			return false
		}
		if len(fields) == 4 && hasTargets {
			return fields[1] == "L1" && isName(fields[2]) && isKind(fields[3])
		}
		if len(fields) == 4 && word == "zone" && fields[1] == "zone" {
			place, isNumber := number(fields[2], 64)
			return isNumber && place > 0 && isCode(fields[3])
		}
		return len(fields) == 2 && isCode(fields[1]) && !(hasTargets && fields[1] == "L1")
	}
	return false
}

// areCounts returns whether the fields after `ok` and a command's word are those of a reply with so many lines before.
func areCounts(word string, before int, fields []string) bool {
	want := 0
	switch word {
	case "zone":
		want = 4
	case "page":
		want = 2
	case "drop", "add", "del", "find", "deps", "clock":
		want = 1
	case "repair", "hold", "release", "call", "got", "broke", "quit":
	default:
		return false
	}
	var last uint64
	for _, field := range fields {
		count, isNumber := number(field, 64)
		if !isNumber {
			return false
		}
		last = count
	}
	if word == "find" || word == "deps" {
		return len(fields) == want && last == uint64(before) && (word == "deps" || before > 0)
	}
	return len(fields) == want
}
