package nexus

// A Request is one of the thirteen structs below.
type Request interface {
	// kind is that of the frame.
	kind() byte
	// fields are written into the frame in their order.
	fields(frame *frame)
}

// Hello opens the session for a principal. The reply is Welcome, or Refused with AlreadyOpen or BadSecret.
type Hello struct{ Name, Secret string }

// Say puts the label `Principal says Formula` into the caller's store. The number of Done is the label's.
type Say struct{ Principal, Formula string }

// Transfer gives a label of the caller to another principal.
type Transfer struct {
	Label    uint64
	Receiver string
}

// Delete takes a label of the caller away.
type Delete struct{ Label uint64 }

// NewObject adds an object, which the caller owns. The number of Done is the object's.
type NewObject struct{ Name string }

// SetGoal sets the goal of an operation on an object that the caller owns. `?subject` stands in it for whoever calls.
type SetGoal struct{ Operation, Object, Formula string }

// ClearGoal takes the goal of an operation on an object away.
type ClearGoal struct{ Operation, Object string }

// SetProof registers a proof for the caller, the operation and the object. The number of Done is the case's.
type SetProof struct{ Operation, Object, Proof string }

// ClearProof takes the caller's proof for the operation and the object away.
type ClearProof struct{ Operation, Object string }

// Bind lets the authority of a port answer for the caller, or for a subprincipal of it.
type Bind struct {
	Principal string
	Port      uint64
}

// Unbind takes the port of the caller, or of a subprincipal of it, away.
type Unbind struct{ Principal string }

// Call asks whether the caller may do the operation on the object. The argument is what `write` writes and `add` adds.
// The reply is Allowed, Denied, Down or Refused.
type Call struct {
	Operation, Object string
	Argument          uint64
}

// See asks whether the journal, as far as this session is concerned, has come to a length, which may be 0. The reply is
// Seen, or Refused with NotYet, or with NotOpen before a hello. Nothing waits.
type See struct{ Length uint64 }

func (Hello) kind() byte      { return 1 }
func (Say) kind() byte        { return 2 }
func (Transfer) kind() byte   { return 3 }
func (Delete) kind() byte     { return 4 }
func (NewObject) kind() byte  { return 5 }
func (SetGoal) kind() byte    { return 6 }
func (ClearGoal) kind() byte  { return 7 }
func (SetProof) kind() byte   { return 8 }
func (ClearProof) kind() byte { return 9 }
func (Bind) kind() byte       { return 10 }
func (Unbind) kind() byte     { return 11 }
func (Call) kind() byte       { return 12 }
func (See) kind() byte        { return 13 }

func (r Hello) fields(f *frame)      { f.name(r.Name); f.secret(r.Secret) }
func (r Say) fields(f *frame)        { f.text(r.Principal); f.text(r.Formula) }
func (r Transfer) fields(f *frame)   { f.number(r.Label); f.name(r.Receiver) }
func (r Delete) fields(f *frame)     { f.number(r.Label) }
func (r NewObject) fields(f *frame)  { f.name(r.Name) }
func (r SetGoal) fields(f *frame)    { f.name(r.Operation); f.name(r.Object); f.text(r.Formula) }
func (r ClearGoal) fields(f *frame)  { f.name(r.Operation); f.name(r.Object) }
func (r SetProof) fields(f *frame)   { f.name(r.Operation); f.name(r.Object); f.text(r.Proof) }
func (r ClearProof) fields(f *frame) { f.name(r.Operation); f.name(r.Object) }
func (r Bind) fields(f *frame)       { f.text(r.Principal); f.number(r.Port) }
func (r Unbind) fields(f *frame)     { f.text(r.Principal) }
func (r Call) fields(f *frame)       { f.name(r.Operation); f.name(r.Object); f.number(r.Argument) }
func (r See) fields(f *frame)        { f.number(r.Length) }
