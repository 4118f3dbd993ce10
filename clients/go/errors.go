package nexus

import "fmt"

// A RequestError says why nothing was sent. The connection stands.
type RequestError struct {
	// Reason is what is wrong with the request.
	Reason string
	// Err is the context's error where that is the reason, or nil.
	Err error
}

func (e *RequestError) Error() string { return "nexus: nothing was sent: " + e.Reason }

// Unwrap is the context's error, or nil.
func (e *RequestError) Unwrap() error { return e.Err }

// A NotSeen says that the reply to Client.See is another one than Seen. The connection stands.
type NotSeen struct{ Reply Reply }

func (e *NotSeen) Error() string { return "nexus: not seen: " + e.Reply.String() }

// IsNotYet says whether the reply is Refused with NotYet: the session has not come to that length, and may ask again.
func (e *NotSeen) IsNotYet() bool {
	refused, isRefused := e.Reply.(Refused)
	return isRefused && refused.Refusal == NotYet
}

// An Ended is an end of the connection. Its type is one of the five below.
type Ended interface {
	error
	ended()
}

// ClosedAtEdge: the service ended the connection, and no byte of the reply had come.
type ClosedAtEdge struct{}

// Torn: the service ended the connection within a reply.
type Torn struct{}

// BadReply: the bytes that came are no reply. Start is where they begin.
type BadReply struct{ Start []byte }

// TimedOut: the context was done before the reply came, or the request was taken, or there was a connection.
type TimedOut struct{ Err error }

// SystemFault: the system could not connect, send or receive.
type SystemFault struct{ Err error }

func (*ClosedAtEdge) Error() string  { return "nexus: the service ended the connection" }
func (*Torn) Error() string          { return "nexus: the service ended the connection within a reply" }
func (e *BadReply) Error() string    { return fmt.Sprintf("nexus: %x begins no reply", e.Start) }
func (e *TimedOut) Error() string    { return "nexus: no reply came in time: " + e.Err.Error() }
func (e *SystemFault) Error() string { return "nexus: " + e.Err.Error() }

// Unwrap is the context's error.
func (e *TimedOut) Unwrap() error { return e.Err }

// Unwrap is the system's error.
func (e *SystemFault) Unwrap() error { return e.Err }

func (*ClosedAtEdge) ended() {}
func (*Torn) ended()         {}
func (*BadReply) ended()     {}
func (*TimedOut) ended()     {}
func (*SystemFault) ended()  {}
