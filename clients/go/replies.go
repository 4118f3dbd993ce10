package nexus

import (
	"strconv"
	"strings"
)

// A Reply is one of the nine structs below. Its String is the reply's line, as docs/FORMATS.md, "Reply lines", states it.
type Reply interface {
	String() string
	reply()
}

// Welcome: the session is open. It has this number; At is the number of entries of the journal.
type Welcome struct{ Session, At uint64 }

// Done: the change is accepted, and is the entry At of the journal. Number is that of the label, object or case, or 0.
type Done struct{ At, Number uint64 }

// Allowed: the call is allowed after At entries. Hit is 1 where a kept verdict answered; Value is what the object's
// register held.
type Allowed struct{ At, Hit, Value uint64 }

// Denied: the call is denied after At entries. Line is that of the proof; it is 0 where there is none, and so is Fault.
type Denied struct {
	At    uint64
	Cause Cause
	Line  uint64
	Fault Fault
}

// Refused: the request is refused after At entries, and nothing changed.
type Refused struct {
	At      uint64
	Refusal Refusal
}

// Down: the authority that this line of the proof asks gave no answer, so there is no verdict.
type Down struct{ At, Line uint64 }

// NoMemory: the service had no memory for the request. Nothing changed.
type NoMemory struct{}

// Bad: what was sent is no request. Place is the wrong byte, counted from the first of the connection. The service ends
// the session.
type Bad struct{ Place uint64 }

// Seen: the session has come to the length for which it asked: to At entries of the journal, and no later reply of it
// names fewer.
type Seen struct{ At uint64 }

// A Cause is why a call is denied.
type Cause uint64

// The causes, in the order in which they are looked for.
const (
	GoalUnset Cause = iota + 1
	NoProof
	Line
	LabelMissing
	NotBound
	AuthorityNo
)

// A Fault is what is wrong with a line of a proof.
type Fault uint64

// The faults.
const (
	NoSuchRef Fault = iota + 1
	NotHyp
	WrongShape
	Capture
	NotFresh
	OutOfScope
	NotTrue
	TooManyAsks
	NotAsk
	NotClosed
	StillOpen
	NotGoal
)

// A Refusal is why a request is refused.
type Refusal uint64

// The refusals.
const (
	NotOpen Refusal = iota + 1
	AlreadyOpen
	BadSecret
	NoSuchPrincipal
	NotYourPrincipal
	NoSuchLabel
	NotHolder
	NoSuchObject
	NameTaken
	NotOwner
	NoGoal
	NoSuchProof
	NoBinding
	BadPort
	BadFormula
	BadProof
	Quota
	ObjectsFull
	CasesFull
	NotRecorded
	ReadOnly
	JournalFull
	NotYet
)

var (
	causes = strings.Fields("GoalUnset NoProof Line LabelMissing NotBound AuthorityNo")
	faults = strings.Fields("NoSuchRef NotHyp WrongShape Capture NotFresh OutOfScope NotTrue TooManyAsks NotAsk NotClosed " +
		"StillOpen NotGoal")
	refusals = strings.Fields("NotOpen AlreadyOpen BadSecret NoSuchPrincipal NotYourPrincipal NoSuchLabel NotHolder " +
		"NoSuchObject NameTaken NotOwner NoGoal NoSuchProof NoBinding BadPort BadFormula BadProof Quota ObjectsFull CasesFull " +
		"NotRecorded ReadOnly JournalFull NotYet")
)

// named is the name with this number, the first being 1, or the number where it names nothing.
func named(names []string, number uint64) string {
	if number >= 1 && number <= uint64(len(names)) {
		return names[number-1]
	}
	return strconv.FormatUint(number, 10)
}

// String is the name of the cause, or its number where it names nothing.
func (c Cause) String() string { return named(causes, uint64(c)) }

// String is the name of the fault, or its number where it names nothing.
func (f Fault) String() string { return named(faults, uint64(f)) }

// String is the name of the refusal, or its number where it names nothing.
func (r Refusal) String() string { return named(refusals, uint64(r)) }

// line is a word and numbers with a space between each two.
func line(word string, numbers ...uint64) string {
	words := []string{word}
	for _, number := range numbers {
		words = append(words, strconv.FormatUint(number, 10))
	}
	return strings.Join(words, " ")
}

func (r Welcome) String() string  { return line("welcome", r.Session, r.At) }
func (r Done) String() string     { return line("done", r.At, r.Number) }
func (r Allowed) String() string  { return line("allowed", r.At, r.Hit, r.Value) }
func (r Refused) String() string  { return line("refused", r.At) + " " + r.Refusal.String() }
func (r Down) String() string     { return line("down", r.At, r.Line) }
func (r NoMemory) String() string { return "nomemory" }
func (r Bad) String() string      { return line("bad", r.Place) }
func (r Seen) String() string     { return line("seen", r.At) }

func (r Denied) String() string {
	told := line("denied", r.At) + " " + r.Cause.String()
	if r.Line > 0 {
		told = line(told, r.Line)
	}
	if r.Fault > 0 {
		told += " " + r.Fault.String()
	}
	return told
}

func (Welcome) reply()  {}
func (Done) reply()     {}
func (Allowed) reply()  {}
func (Denied) reply()   {}
func (Refused) reply()  {}
func (Down) reply()     {}
func (NoMemory) reply() {}
func (Bad) reply()      {}
func (Seen) reply()     {}

// pointOf is the At of a reply, or 0 where it has none.
func pointOf(reply Reply) uint64 {
	switch r := reply.(type) {
	case Welcome:
		return r.At
	case Done:
		return r.At
	case Allowed:
		return r.At
	case Denied:
		return r.At
	case Refused:
		return r.At
	case Down:
		return r.At
	case Seen:
		return r.At
	}
	return 0
}
