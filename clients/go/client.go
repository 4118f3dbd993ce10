package nexus

import (
	"bufio"
	"context"
	"encoding/binary"
	"errors"
	"fmt"
	"io"
	"net"
	"time"
)

// A Client is a session over one connection. Close it. It is for one goroutine at a time.
type Client struct {
	connection net.Conn
	reader     *bufio.Reader
	frames     []byte
	waiting    int
	at         uint64
	ended      Ended
}

// Dial connects to the address, a host and a port as `127.0.0.1:4000`. A *TimedOut or a *SystemFault where it can't.
func Dial(ctx context.Context, address string) (*Client, error) {
	var dialer net.Dialer
	connection, err := dialer.DialContext(ctx, "tcp", address)
	if err == nil {
		return New(connection), nil
	}
	if ctx.Err() != nil {
		return nil, &TimedOut{ctx.Err()}
	}
	// The dialer's clock may be ahead of the context's.
	var fault net.Error
	if _, bounded := ctx.Deadline(); bounded && errors.As(err, &fault) && fault.Timeout() {
		return nil, &TimedOut{context.DeadlineExceeded}
	}
	return nil, &SystemFault{err}
}

// New is a session over a connection that stands, which may be one through a tunnel. The client closes it.
func New(connection net.Conn) *Client {
	return &Client{connection: connection, reader: bufio.NewReader(connection)}
}

// Close ends the session. The service takes what was sent before, and gives the connection up.
func (c *Client) Close() error { return c.connection.Close() }

// Waiting is how many requests were sent whose replies have not been received.
func (c *Client) Waiting() int { return c.waiting }

// At is the greatest At of all replies that were received, refusals too, or 0 where none had one. It stays when the
// connection ends.
func (c *Client) At() uint64 { return c.at }

// Ask sends a request and waits for its reply. Replies to requests before it have to be received first: a *RequestError
// where one is outstanding. Where the connection has ended, that end is the error again.
func (c *Client) Ask(ctx context.Context, request Request) (Reply, error) {
	if c.ended != nil {
		return nil, c.ended
	}
	if c.waiting > 0 {
		return nil, &RequestError{Reason: fmt.Sprintf("%d replies are to be received first", c.waiting)}
	}
	if err := c.Send(ctx, request); err != nil {
		return nil, err
	}
	return c.receive(ctx)
}

// Send sends requests, by one write, and does not wait for their replies, which are to be received later. Where an error
// says that a request can't be sent, none is.
func (c *Client) Send(ctx context.Context, requests ...Request) error {
	frames := c.frames[:0]
	for _, request := range requests {
		var err error
		if frames, err = AppendFrame(frames, request); err != nil {
			return err
		}
	}
	c.frames = frames
	if err := c.SendBytes(ctx, frames); err != nil {
		return err
	}
	c.waiting += len(requests)
	return nil
}

// SendBytes sends bytes, which need not be a frame. No reply to them is counted as outstanding.
func (c *Client) SendBytes(ctx context.Context, bytes []byte) error {
	if err := c.begin(ctx); err != nil {
		return err
	}
	stop := c.watch(ctx)
	_, err := c.connection.Write(bytes)
	stop()
	if err != nil {
		return c.end(ctx, err, nil)
	}
	return nil
}

// Receive waits for the next reply.
func (c *Client) Receive(ctx context.Context) (Reply, error) {
	if err := c.begin(ctx); err != nil {
		return nil, err
	}
	return c.receive(ctx)
}

// AskAll sends requests without waiting for each reply, and returns the replies in the order of the requests. At most
// `window` requests wait for their replies at a time: the service takes the next request only when the reply before was
// taken from it, so without a bound both sides could wait for each other.
//
// The service answers the requests one after another, as if each had been sent behind the reply to the one before. With
// an error come the replies before it; whoever goes on then receives the outstanding ones by Receive.
func (c *Client) AskAll(ctx context.Context, requests []Request, window int) ([]Reply, error) {
	if window < 1 || c.waiting > 0 {
		return nil, &RequestError{Reason: "the window is at least 1, and no reply is outstanding"}
	}
	replies := make([]Reply, 0, len(requests))
	for len(requests) > 0 || c.waiting > 0 {
		// Half of the window is sent at once, so most writes carry many requests.
		burst := window - c.waiting
		if burst > len(requests) {
			burst = len(requests)
		}
		if err := c.Send(ctx, requests[:burst]...); err != nil {
			return replies, err
		}
		requests = requests[burst:]
		keep := window / 2
		if len(requests) == 0 {
			keep = 0
		}
		for c.waiting > keep {
			reply, err := c.receive(ctx)
			if err != nil {
				return replies, err
			}
			replies = append(replies, reply)
		}
	}
	return replies, nil
}

// receive waits for the next reply, also where the context is done: then what was sent is given up.
func (c *Client) receive(ctx context.Context) (Reply, error) {
	if c.ended != nil {
		return nil, c.ended
	}
	stop := c.watch(ctx)
	reply, start, err := readReply(c.reader)
	stop()
	if err != nil {
		return nil, c.end(ctx, err, start)
	}
	if c.waiting > 0 {
		c.waiting--
	}
	if at := pointOf(reply); at > c.at {
		c.at = at
	}
	return reply, nil
}

// readReply reads a reply, and no byte behind it. Where it can't it returns what came of it; without an error of reading
// that begins no reply.
func readReply(reader *bufio.Reader) (Reply, []byte, error) {
	var bytes [4 + 33]byte
	got, err := io.ReadFull(reader, bytes[:4])
	if err != nil {
		return nil, bytes[:got], err
	}
	length := binary.BigEndian.Uint32(bytes[:4])
	if !isLength(length) {
		return nil, bytes[:4], &BadReply{append([]byte(nil), bytes[:4]...)}
	}
	kind, err := reader.ReadByte()
	if err != nil {
		return nil, bytes[:4], err
	}
	bytes[4] = kind
	if int(length) != 1+8*numbersOf(kind) {
		return nil, bytes[:5], &BadReply{append([]byte(nil), bytes[:5]...)}
	}
	if _, err = io.ReadFull(reader, bytes[5:4+length]); err != nil {
		return nil, bytes[:5], err
	}
	reply, err := ParseReply(bytes[4 : 4+length])
	return reply, nil, err
}

// begin returns the end of the connection where it has ended, and a *RequestError where the context is done.
func (c *Client) begin(ctx context.Context) error {
	if c.ended != nil {
		return c.ended
	}
	if err := ctx.Err(); err != nil {
		return &RequestError{Reason: err.Error(), Err: err}
	}
	return nil
}

// watch ends what is read and written where the context is done, until what it returns is called.
func (c *Client) watch(ctx context.Context) func() {
	if ctx.Done() == nil {
		return func() {}
	}
	over, seen := make(chan struct{}), make(chan struct{})
	go func() {
		defer close(seen)
		select {
		case <-ctx.Done():
			// A time that is over.
			c.connection.SetDeadline(time.Unix(1, 0))
		case <-over:
		}
	}()
	return func() {
		close(over)
		<-seen
		c.connection.SetDeadline(time.Time{})
	}
}

// end gives the connection up, and keeps why: for an error of the system, or a reply of which this is the start.
func (c *Client) end(ctx context.Context, err error, start []byte) Ended {
	var bad *BadReply
	switch {
	case errors.As(err, &bad):
		c.ended = bad
	case ctx.Err() != nil:
		c.ended = &TimedOut{ctx.Err()}
	case !errors.Is(err, io.EOF) && !errors.Is(err, io.ErrUnexpectedEOF):
		c.ended = &SystemFault{err}
	case len(start) == 0:
		c.ended = &ClosedAtEdge{}
	default:
		c.ended = &Torn{}
	}
	c.connection.Close()
	return c.ended
}
