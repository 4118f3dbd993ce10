package nexus

import (
	"context"
	"encoding/binary"
	"encoding/hex"
	"errors"
	"io"
	"net"
	"reflect"
	"strings"
	"testing"
	"time"
)

var background = context.Background()

// pair is a client, and the connection of its service.
func pair(t *testing.T) (*Client, *net.TCPConn) {
	t.Helper()
	door, err := net.Listen("tcp", "127.0.0.1:0")
	if err != nil {
		t.Fatal(err)
	}
	defer door.Close()
	client, err := Dial(background, door.Addr().String())
	if err != nil {
		t.Fatal(err)
	}
	service, err := door.Accept()
	if err != nil {
		t.Fatal(err)
	}
	t.Cleanup(func() { client.Close(); service.Close() })
	return client, service.(*net.TCPConn)
}

// expectEnd wants the client to end in the way of this error, now and again, whatever is asked.
func expectEnd(t *testing.T, what string, client *Client, due Ended) {
	t.Helper()
	_, first := client.Receive(background)
	_, second := client.Receive(background)
	third := client.Send(background, NewObject{"f"})
	_, fourth := client.Ask(background, NewObject{"f"})
	for _, err := range []error{first, second, third, fourth} {
		if reflect.TypeOf(err) != reflect.TypeOf(due) || err != first {
			t.Errorf("%s: %T %v, where %T is due", what, err, err, due)
		}
	}
}

func TestClosedAtAnEdge(t *testing.T) {
	client, service := pair(t)
	service.Close()
	expectEnd(t, "no byte", client, &ClosedAtEdge{})
}

func TestTorn(t *testing.T) {
	for _, row := range rows(t, "reply") {
		for cut := 1; cut < len(row.frame); cut++ {
			client, service := pair(t)
			service.Write(row.frame[:cut])
			service.Close()
			expectEnd(t, row.line, client, &Torn{})
		}
	}
}

func TestBadReplies(t *testing.T) {
	for _, digits := range []string{
		"00000000", "00000002", "00000008", "0000000a", "00000022", "00000029", "ffffffff", "0000000140", "0000000149", "000000014a", "0000000148",
		"0000000947", "000000094a", "0000001149", "0000001944",
	} {
		// They are told at once: the service doesn't end the connection.
		client, service := pair(t)
		start, _ := hex.DecodeString(digits)
		service.Write(start)
		expectEnd(t, digits, client, &BadReply{})
	}
}

func TestAReplyBeforeTheEnd(t *testing.T) {
	client, service := pair(t)
	table := rows(t, "reply")
	service.Write(append(append([]byte{}, table[0].frame...), table[13].frame[:4]...))
	service.Close()
	if reply, err := client.Receive(background); reply != (Welcome{1, 0}) || err != nil {
		t.Fatal(reply, err)
	}
	expectEnd(t, "half a reply", client, &Torn{})
}

func TestPieces(t *testing.T) {
	client, service := pair(t)
	go func() {
		for _, row := range rows(t, "reply") {
			for at := range row.frame {
				service.Write(row.frame[at : at+1])
			}
		}
	}()
	for _, wanted := range replies {
		if reply, err := client.Receive(background); reply != wanted || err != nil {
			t.Fatal(reply, err)
		}
	}
}

func TestAReset(t *testing.T) {
	client, service := pair(t)
	service.SetLinger(0)
	service.Close()
	expectEnd(t, "a reset", client, &SystemFault{})
}

func TestNobodyListens(t *testing.T) {
	door, err := net.Listen("tcp", "127.0.0.1:0")
	if err != nil {
		t.Fatal(err)
	}
	door.Close()
	var fault *SystemFault
	if client, err := Dial(background, door.Addr().String()); client != nil || !errors.As(err, &fault) {
		t.Error(err)
	}
	if client, err := Dial(background, "nowhere"); client != nil || !errors.As(err, &fault) {
		t.Error(err)
	}
	done, cancel := context.WithCancel(background)
	cancel()
	var late *TimedOut
	if client, err := Dial(done, door.Addr().String()); client != nil || !errors.As(err, &late) || !errors.Is(err, context.Canceled) {
		t.Error(err)
	}
}

// expectLate wants a TimedOut of this context's error, which stays.
func expectLate(t *testing.T, client *Client, err error, due error) {
	t.Helper()
	var late *TimedOut
	if !errors.As(err, &late) || !errors.Is(err, due) {
		t.Fatalf("%T %v, where %v is due", err, err, due)
	}
	if again := client.Send(background, NewObject{"f"}); again != err {
		t.Fatal(again)
	}
	if _, again := client.Ask(background, NewObject{"f"}); again != err {
		t.Fatal(again)
	}
}

func TestNoReplyInTime(t *testing.T) {
	client, service := pair(t)
	service.Write(make([]byte, 3))
	soon, cancel := context.WithTimeout(background, 50*time.Millisecond)
	defer cancel()
	begun := time.Now()
	_, err := client.Ask(soon, NewObject{"f"})
	expectLate(t, client, err, context.DeadlineExceeded)
	if waited := time.Since(begun); waited < 40*time.Millisecond || waited > 5*time.Second {
		t.Error(waited)
	}
}

// What is given up is closed: the service need not wait for more of it.
func TestWhatIsGivenUpIsClosed(t *testing.T) {
	client, service := pair(t)
	service.Write([]byte{0, 0, 0, 2})
	expectEnd(t, "no reply", client, &BadReply{})
	service.SetReadDeadline(time.Now().Add(5 * time.Second))
	if n, err := service.Read(make([]byte, 1)); n != 0 || err != io.EOF {
		t.Error(n, err)
	}
}

// doneMeanwhile is a context that is done, and was not when it was asked.
type doneMeanwhile struct{ context.Context }

func (doneMeanwhile) Err() error { return nil }

// A context that is done when the reply is there already gives nothing up, and ends no later wait.
func TestAContextThatIsDoneTooLate(t *testing.T) {
	done, cancel := context.WithCancel(background)
	cancel()
	client, service := pair(t)
	for turn := 0; turn < 50; turn++ {
		service.Write([]byte{0, 0, 0, 1, 71, 0, 0, 0, 1, 71})
		for _, ctx := range []context.Context{background, doneMeanwhile{done}} {
			if reply, err := client.Receive(ctx); reply != (NoMemory{}) || err != nil {
				t.Fatal(turn, reply, err)
			}
		}
	}
}

func TestAContextThatIsCancelled(t *testing.T) {
	client, _ := pair(t)
	ctx, cancel := context.WithCancel(background)
	time.AfterFunc(30*time.Millisecond, cancel)
	_, err := client.Ask(ctx, NewObject{"f"})
	expectLate(t, client, err, context.Canceled)
}

func TestNothingTakenInTime(t *testing.T) {
	client, _ := pair(t)
	soon, cancel := context.WithTimeout(background, 50*time.Millisecond)
	defer cancel()
	var err error
	for err == nil {
		err = client.Send(soon, Say{"bob", strings.Repeat("x", 30_000)})
	}
	expectLate(t, client, err, context.DeadlineExceeded)
}

// A context that is done before sends nothing, and gives nothing up; and one that is done later doesn't touch what comes
// behind.
func TestAContextThatWasDone(t *testing.T) {
	client, service := pair(t)
	done, cancel := context.WithCancel(background)
	cancel()
	_, asked := client.Ask(done, NewObject{"f"})
	_, received := client.Receive(done)
	for _, err := range []error{asked, received} {
		var wrong *RequestError
		if !errors.As(err, &wrong) || !errors.Is(err, context.Canceled) {
			t.Fatalf("%T %v", err, err)
		}
	}
	for turn := 0; turn < 100; turn++ {
		ctx, cancel := context.WithTimeout(background, time.Minute)
		service.Write([]byte{0, 0, 0, 1, 71})
		if reply, err := client.Ask(ctx, NewObject{"f"}); reply != (NoMemory{}) || err != nil {
			t.Fatal(reply, err)
		}
		cancel()
	}
	frame, _ := AppendFrame(nil, NewObject{"f"})
	taken := make([]byte, 101*len(frame))
	service.SetReadDeadline(time.Now().Add(100 * time.Millisecond))
	got := 0
	for got < len(taken) {
		n, err := service.Read(taken[got:])
		got += n
		if err != nil {
			break
		}
	}
	if got != 100*len(frame) {
		t.Error(got)
	}
}

func TestOutstandingReplies(t *testing.T) {
	client, service := pair(t)
	if err := client.Send(background, NewObject{"f"}, NewObject{"g"}); err != nil || client.Waiting() != 2 {
		t.Fatal(err, client.Waiting())
	}
	var wrong *RequestError
	if _, err := client.Ask(background, NewObject{"h"}); !errors.As(err, &wrong) {
		t.Error(err)
	}
	if _, err := client.AskAll(background, requests, 1); !errors.As(err, &wrong) {
		t.Error(err)
	}
	if err := client.Send(background, NewObject{"h"}, NewObject{"1"}); !errors.As(err, &wrong) || client.Waiting() != 2 {
		t.Error(err, client.Waiting())
	}
	service.Write([]byte{0, 0, 0, 1, 71, 0, 0, 0, 1, 71})
	for left := 1; left >= 0; left-- {
		if _, err := client.Receive(background); err != nil || client.Waiting() != left {
			t.Fatal(err, client.Waiting())
		}
	}
}

// told is the frame of a reply of this kind with these numbers.
func told(kind byte, numbers ...uint64) []byte {
	frame := []byte{0, 0, 0, byte(1 + 8*len(numbers)), kind}
	for _, number := range numbers {
		frame = binary.BigEndian.AppendUint64(frame, number)
	}
	return frame
}

// A Seen is a length, and any other reply an error that leaves the connection as it is.
func TestSee(t *testing.T) {
	client, service := pair(t)
	sent := 0
	for _, row := range []struct {
		length uint64
		reply  []byte
		at     uint64
	}{{0, told(73, 0), 0}, {0, told(73, 3), 3}, {5, told(73, 5), 5}, {5, told(73, 7), 7}, {1<<64 - 1, told(73, 1<<64-1), 1<<64 - 1}} {
		service.Write(row.reply)
		if at, err := client.See(background, row.length); at != row.at || err != nil {
			t.Fatal(row.length, at, err)
		}
		sent++
	}
	for _, row := range []struct {
		reply    []byte
		wanted   Reply
		isNotYet bool
	}{
		{told(69, 7, 23), Refused{7, NotYet}, true}, {told(69, 0, 23), Refused{0, NotYet}, true}, {told(69, 0, 1), Refused{0, NotOpen}, false},
		{told(71), NoMemory{}, false}, {told(72, 23), Bad{23}, false}, {told(66, 8, 23), Done{8, 23}, false},
	} {
		service.Write(row.reply)
		at, err := client.See(background, 8)
		var not *NotSeen
		if at != 0 || !errors.As(err, &not) || not.Reply != row.wanted || not.IsNotYet() != row.isNotYet {
			t.Fatal(at, err)
		}
		var ended Ended
		if errors.As(err, &ended) || err.Error() != "nexus: not seen: "+row.wanted.String() {
			t.Error(err)
		}
		sent++
	}
	taken := make([]byte, 13*sent)
	if _, err := io.ReadFull(service, taken); err != nil {
		t.Fatal(err)
	}
	for turn, length := range []uint64{0, 0, 5, 5, 1<<64 - 1, 8} {
		frame, _ := AppendFrame(nil, See{length})
		if string(taken[13*turn:13*turn+13]) != string(frame) {
			t.Errorf("%x, where %x is due", taken[13*turn:13*turn+13], frame)
		}
	}
	service.Write(told(73, 9))
	if reply, err := client.Ask(background, See{9}); reply != (Seen{9}) || err != nil {
		t.Error(reply, err)
	}
}

// A See that can't be sent is a RequestError, and one whose connection has ended is the end.
func TestSeeWithoutAReply(t *testing.T) {
	client, service := pair(t)
	done, cancel := context.WithCancel(background)
	cancel()
	var wrong *RequestError
	if at, err := client.See(done, 1); at != 0 || !errors.As(err, &wrong) || !errors.Is(err, context.Canceled) {
		t.Error(at, err)
	}
	client.Send(background, NewObject{"f"})
	if at, err := client.See(background, 1); at != 0 || !errors.As(err, &wrong) {
		t.Error(at, err)
	}
	service.Write(told(66, 1, 0))
	client.Receive(background)
	service.Write(told(73, 1)[:12])
	service.CloseWrite()
	at, err := client.See(background, 1)
	var torn *Torn
	if at != 0 || !errors.As(err, &torn) || client.At() != 1 {
		t.Error(at, err, client.At())
	}
	if _, again := client.Receive(background); again != err {
		t.Error(again)
	}
}

// Each reply that has a point counts by it, and by no other number of it. It counts when it is received.
func TestAt(t *testing.T) {
	client, service := pair(t)
	if client.At() != 0 {
		t.Error(client.At())
	}
	for _, row := range []struct {
		reply []byte
		at    uint64
	}{
		{told(71), 0}, {told(69, 0, 23), 0}, {told(69, 1, 23), 1}, {told(65, 99, 2), 2}, {told(66, 3, 99), 3}, {told(66, 1, 99), 3},
		{told(67, 4, 99, 99), 4}, {told(68, 5, 99, 99, 99), 5}, {told(70, 6, 99), 6}, {told(69, 7, 99), 7}, {told(73, 8), 8}, {told(65, 9, 0), 8},
		{told(72, 99), 8}, {told(71), 8}, {told(73, 7), 8},
	} {
		service.Write(row.reply)
		if reply, err := client.Receive(background); err != nil || client.At() != row.at {
			t.Errorf("%v %v: %d, where %d is due", reply, err, client.At(), row.at)
		}
	}
	service.Write(append(told(73, 20), told(69, 21, 23)...))
	for _, due := range []uint64{20, 21} {
		if _, err := client.Receive(background); err != nil || client.At() != due {
			t.Error(err, client.At())
		}
	}
	service.Write(append(told(73, 22), told(69, 21, 23)...))
	if replies, err := client.AskAll(background, []Request{See{22}, See{23}}, 64); len(replies) != 2 || err != nil || client.At() != 22 {
		t.Error(replies, err, client.At())
	}
	service.Write(told(73, 99)[:12])
	service.CloseWrite()
	expectEnd(t, "half a reply", client, &Torn{})
	if client.At() != 22 {
		t.Error(client.At())
	}
}

// No more requests than the window has are sent ahead of their replies.
func TestWindow(t *testing.T) {
	if _, err := (&Client{}).AskAll(background, nil, 0); err == nil {
		t.Error("a window of 0")
	}
	for _, window := range []int{1, 2, 5, 64} {
		client, service := pair(t)
		frame, _ := AppendFrame(nil, NewObject{"f"})
		most := make(chan int, 1)
		go func() {
			buffer, taken, told, ahead := make([]byte, 4096), 0, 0, 0
			for told < 100 {
				n, err := service.Read(buffer)
				if err != nil {
					break
				}
				taken += n
				if taken/len(frame)-told > ahead {
					ahead = taken/len(frame) - told
				}
				for told < taken/len(frame) {
					service.Write([]byte{0, 0, 0, 1, 71})
					told++
				}
			}
			most <- ahead
		}()
		many := make([]Request, 100)
		for at := range many {
			many[at] = NewObject{"f"}
		}
		got, err := client.AskAll(background, many, window)
		if len(got) != 100 || err != nil {
			t.Fatal(len(got), err)
		}
		if ahead := <-most; ahead > window || window == 64 && ahead < 2 {
			t.Errorf("%d ahead with a window of %d", ahead, window)
		}
	}
}
