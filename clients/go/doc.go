// Package nexus is a client of `nexus serve`, over TCP, with Go's standard library alone.
//
// What is sent and read is stated in docs/FORMATS.md, "Frames", "Request lines" and "Reply lines", and what a request
// does in docs/LOGIC.md, "Sessions". Each request is a struct, and so is each reply. A reply that denies or refuses is no
// error: it is returned as any other reply. Errors are of these types:
//
//	*RequestError   nothing was sent, and the connection stands: a field can't stand in a frame, replies are outstanding,
//	                or the context was done before
//	*NotSeen        the reply to Client.See is another one than Seen, and the connection stands
//	*ClosedAtEdge   the service ended the connection, and no byte of the reply had come
//	*Torn           the service ended the connection within a reply
//	*BadReply       the bytes that came are no reply
//	*TimedOut       the context was done before the reply came, or the request was taken
//	*SystemFault    the system could not connect, send or receive
//
// All but the first two are an Ended: the connection is given up, and each later call returns the same again. It isn't
// known of a request without a reply whether it was carried out.
//
// Most replies name a point At, a length of the journal for which they hold. Client.At is the greatest of them that has
// come. Who learnt of a change elsewhere, by another session, another machine or word of mouth, calls Client.See with the
// At of the other before it goes on. Nothing waits in the service: where the error is a *NotSeen whose IsNotYet says so,
// ask again. Once See has returned a length, every later reply of this session names a point of at least that.
//
// The bytes pass in the clear, the secret too: connect over loopback, or through a tunnel.
package nexus
