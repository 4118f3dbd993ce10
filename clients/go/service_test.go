package nexus

import (
	"bytes"
	"context"
	"errors"
	"fmt"
	"net"
	"os"
	"os/exec"
	"reflect"
	"strings"
	"sync"
	"testing"
	"time"
)

// service is a service of the program that the variable NEXUS names.
type service struct {
	address string
	command *exec.Cmd
	written bytes.Buffer
}

// start starts a service of the policy. It is killed at the end of the test where it has not ended.
func start(t *testing.T, policy string, workers, sessions int) *service {
	t.Helper()
	program := os.Getenv("NEXUS")
	if program == "" {
		t.Skip("NEXUS names no program")
	}
	door, err := net.Listen("tcp", "127.0.0.1:0")
	if err != nil {
		t.Fatal(err)
	}
	door.Close()
	it := &service{address: door.Addr().String()}
	it.command = exec.Command(program, "serve", it.address, fmt.Sprint(workers), fmt.Sprint(sessions))
	it.command.Stdin = strings.NewReader(policy)
	it.command.Stdout = &it.written
	if err := it.command.Start(); err != nil {
		t.Fatal(err)
	}
	t.Cleanup(func() { it.command.Process.Kill(); it.command.Wait() })
	return it
}

// dial connects once the service listens.
func (it *service) dial(t *testing.T) *Client {
	t.Helper()
	for end := time.Now().Add(20 * time.Second); ; time.Sleep(10 * time.Millisecond) {
		client, err := Dial(background, it.address)
		if err == nil {
			t.Cleanup(func() { client.Close() })
			return client
		}
		if time.Now().After(end) {
			t.Fatal(err)
		}
	}
}

// text is the policy text, once the service has ended.
func (it *service) text(t *testing.T) string {
	t.Helper()
	if err := it.command.Wait(); err != nil {
		t.Fatal(err)
	}
	return it.written.String()
}

// expect wants this reply, and no error.
func expect(t *testing.T, wanted Reply) func(Reply, error) {
	t.Helper()
	return func(reply Reply, err error) {
		t.Helper()
		if reply != wanted || err != nil {
			t.Fatalf("%v %v, where %v is due", reply, err, wanted)
		}
	}
}

// expectSeen wants this length, and no error.
func expectSeen(t *testing.T, wanted uint64) func(uint64, error) {
	t.Helper()
	return func(at uint64, err error) {
		t.Helper()
		if at != wanted || err != nil {
			t.Fatalf("%d %v, where %d is due", at, err, wanted)
		}
	}
}

// expectNotYet wants a *NotSeen, whose reply is Refused with NotYet at this length.
func expectNotYet(t *testing.T, wanted uint64) func(uint64, error) {
	t.Helper()
	return func(at uint64, err error) {
		t.Helper()
		var not *NotSeen
		if at != 0 || !errors.As(err, &not) || not.Reply != (Refused{wanted, NotYet}) || !not.IsNotYet() {
			t.Fatalf("%d %v, where NotYet at %d is due", at, err, wanted)
		}
	}
}

// Each kind of request once, and what is then written.
func TestEachRequest(t *testing.T) {
	head := "nexus 2\nprincipal alice pa\nprincipal bob pb\nauthority 3 clock\n"
	it := start(t, head+"end\n", 1, 1)
	client := it.dial(t)
	ctx, cancel := context.WithTimeout(background, 20*time.Second)
	defer cancel()
	expect(t, Refused{0, NotOpen})(client.Call(ctx, "read", "f", 0))
	expect(t, Refused{0, BadSecret})(client.Hello(ctx, "alice", "pb"))
	expect(t, Welcome{1, 0})(client.Hello(ctx, "alice", "pa"))
	expect(t, Done{1, 0})(client.NewObject(ctx, "f"))
	expect(t, Denied{1, GoalUnset, 0, 0})(client.Call(ctx, "write", "f", 7))
	expect(t, Done{2, 0})(client.SetGoal(ctx, "write", "f", "alice says ok"))
	expect(t, Done{3, 3})(client.Say(ctx, "alice", "ok"))
	expect(t, Done{4, 0})(client.SetProof(ctx, "write", "f", "proof 2\n1 label : alice says ok\nend\n"))
	expect(t, Allowed{4, 0, 0})(client.Call(ctx, "write", "f", 7))
	expect(t, Allowed{4, 1, 7})(client.Call(ctx, "write", "f", 8))
	expect(t, Done{5, 0})(client.Bind(ctx, "alice.clock", 3))
	expect(t, Done{6, 0})(client.Unbind(ctx, "alice.clock"))
	expect(t, Done{7, 0})(client.ClearProof(ctx, "write", "f"))
	expect(t, Denied{7, NoProof, 0, 0})(client.Call(ctx, "write", "f", 7))
	expect(t, Done{8, 0})(client.ClearGoal(ctx, "write", "f"))
	expect(t, Done{9, 0})(client.Transfer(ctx, 3, "bob"))
	expect(t, Refused{9, NotHolder})(client.Delete(ctx, 3))
	expect(t, Refused{9, BadFormula})(client.Say(ctx, "alice", "no ("))
	expectSeen(t, 9)(client.See(ctx, 9))
	expectNotYet(t, 9)(client.See(ctx, 10))
	client.Close()
	wanted := head
	for _, entry := range []string{
		"object f", "goal write f : alice says ok", "say alice : ok", "proof write f : proof 2 ; 1 label : alice says ok ; end",
		"bind alice.clock 3", "unbind alice.clock", "noproof write f", "nogoal write f", "transfer 3 bob",
	} {
		wanted += "1 alice " + entry + "\n"
	}
	if text := it.text(t); text != wanted+"end\n" {
		t.Error(text)
	}
}

// Two sessions: what one was told of the other can ask for, and nothing is written of that.
func TestSeeOfAnother(t *testing.T) {
	head := "nexus 2\nprincipal alice pa\nprincipal bob pb\n"
	it := start(t, head+"end\n", 2, 1)
	alice, bob := it.dial(t), it.dial(t)
	var not *NotSeen
	if at, err := bob.See(background, 0); at != 0 || !errors.As(err, &not) || not.Reply != (Refused{0, NotOpen}) || not.IsNotYet() {
		t.Fatal(at, err)
	}
	for client, name := range map[*Client]string{alice: "alice", bob: "bob"} {
		if reply, err := client.Hello(background, name, "p"+name[:1]); reflect.TypeOf(reply) != reflect.TypeOf(Welcome{}) {
			t.Fatal(reply, err)
		}
	}
	expectSeen(t, 0)(bob.See(background, 0))
	expectNotYet(t, 0)(bob.See(background, 1))
	expectNotYet(t, 0)(bob.See(background, 1<<64-1))
	for at := uint64(1); at <= 100; at++ {
		expect(t, Done{at, at})(alice.Say(background, "alice", "ok"))
		if alice.At() != at || bob.At() != at-1 {
			t.Fatal(at, alice.At(), bob.At())
		}
		expectNotYet(t, at)(bob.See(background, at+1))
		expectSeen(t, at)(bob.See(background, alice.At()))
		expectSeen(t, at)(bob.See(background, 0))
	}
	expect(t, Refused{100, NoSuchObject})(bob.Call(background, "read", "f", 0))
	got, err := bob.AskAll(background, []Request{See{100}, Say{"bob", "ok"}, See{101}, See{102}}, 64)
	if err != nil || !reflect.DeepEqual(got, []Reply{Seen{100}, Done{101, 101}, Seen{101}, Refused{101, NotYet}}) {
		t.Fatal(got, err)
	}
	if alice.At() != 100 || bob.At() != 101 {
		t.Error(alice.At(), bob.At())
	}
	expectSeen(t, 101)(alice.See(background, bob.At()))
	alice.Close()
	bob.Close()
	text := it.text(t)
	if !strings.HasPrefix(text, head) || strings.Count(text, "\n") != 3+101+1 || strings.Count(text, " alice say alice : ok\n") != 100 {
		t.Error(text)
	}
}

// A line with a fault, a missing label, a port that isn't bound, and an authority that says No or is not there.
func TestDenials(t *testing.T) {
	authority, err := net.Listen("tcp", "127.0.0.1:0")
	if err != nil {
		t.Fatal(err)
	}
	it := start(t, "nexus 2\nprincipal alice pa\nauthority 0 clock\nauthority 1 "+authority.Addr().String()+"\n1 alice object f\nend\n", 1, 1)
	client := it.dial(t)
	authority.Close()
	expect(t, Welcome{2, 1})(client.Hello(background, "alice", "pa"))
	at := uint64(1)
	for _, row := range []struct {
		goal, rule string
		wanted     Reply
	}{
		{"alice says ok", "hyp", Denied{3, Line, 1, StillOpen}},
		{"alice says ok", "label", Denied{5, LabelMissing, 1, 0}},
		{"alice says TimeNow < 5", "ask", Denied{7, NotBound, 1, 0}},
	} {
		expect(t, Done{at + 1, 0})(client.SetGoal(background, "read", "f", row.goal))
		expect(t, Done{at + 2, 0})(client.SetProof(background, "read", "f", "proof 2;1 "+row.rule+":"+row.goal+";end"))
		expect(t, row.wanted)(client.Call(background, "read", "f", 0))
		at += 2
	}
	expect(t, Done{8, 0})(client.Bind(background, "alice", 0))
	expect(t, Denied{8, AuthorityNo, 1, 0})(client.Call(background, "read", "f", 0))
	expect(t, Done{9, 0})(client.Bind(background, "alice", 1))
	expect(t, Down{9, 1})(client.Call(background, "read", "f", 0))
	client.Close()
	it.text(t)
}

// Three thousand requests, with many outstanding, are answered in their order.
func TestPipelining(t *testing.T) {
	it := start(t, "nexus 2\nprincipal alice pa\nend\n", 1, 1)
	client := it.dial(t)
	many, wanted := []Request{Hello{"alice", "pa"}}, []Reply{Welcome{1, 0}}
	for k := uint64(1); k <= 3000; k++ {
		many = append(many, Say{"alice", fmt.Sprintf("ok(%d)", k)})
		wanted = append(wanted, Done{k, k})
	}
	got, err := client.AskAll(background, many, 64)
	if err != nil || !reflect.DeepEqual(got, wanted) {
		t.Fatal(len(got), err)
	}
	expect(t, Refused{3000, NoSuchLabel})(client.Delete(background, 3001))
	client.Close()
	if lines := strings.Count(it.text(t), "\n"); lines != 2+3000+1 {
		t.Error(lines)
	}
}

// Requests that together are larger than what the system keeps for a connection: none waits for the other side for ever.
func TestPipeliningOfLargeRequests(t *testing.T) {
	it := start(t, "nexus 2\nprincipal alice pa\n1 alice object f\nend\n", 1, 1)
	client := it.dial(t)
	expect(t, Welcome{2, 1})(client.Hello(background, "alice", "pa"))
	many := make([]Request, 300)
	for at := range many {
		many[at] = SetProof{"read", "f", strings.Repeat("x", 32_000)}
	}
	got, err := client.AskAll(background, many, 64)
	if err != nil || len(got) != 300 || got[299] != (Refused{1, BadProof}) {
		t.Fatal(len(got), err)
	}
	client.Close()
	it.text(t)
}

// One client each for eight goroutines: each is told of its own changes.
func TestClientsAtOnce(t *testing.T) {
	policy := "nexus 2\n"
	for k := 0; k < 8; k++ {
		policy += fmt.Sprintf("principal p%d s%d\n", k, k)
	}
	it := start(t, policy+"end\n", 8, 1)
	var all sync.WaitGroup
	for k := 0; k < 8; k++ {
		client, name, secret := it.dial(t), fmt.Sprintf("p%d", k), fmt.Sprintf("s%d", k)
		all.Add(1)
		go func() {
			defer all.Done()
			defer client.Close()
			client.Hello(background, name, secret)
			for turn := 0; turn < 100; turn++ {
				if reply, err := client.Say(background, name, "ok"); reflect.TypeOf(reply) != reflect.TypeOf(Done{}) {
					t.Error(reply, err)
				}
			}
		}()
	}
	all.Wait()
	if lines := strings.Count(it.text(t), " : ok\n"); lines != 800 {
		t.Error(lines)
	}
}

// A frame that is too long, one of an unknown kind, one with a name that is none, and ones with too few or too many fields
// are told, and the session is over.
func TestWhatIsNoFrame(t *testing.T) {
	it := start(t, "nexus 2\nend\n", 1, 5)
	for _, row := range []struct {
		data  string
		place uint64
	}{
		{"\x00\x00\x84\x01", 0}, {"\x00\x00\x00\x01\x0e", 4}, {"\x00\x00\x00\x0a\x01\x00\x031ob\x00\x02pw", 5},
		{"\x00\x00\x00\x01\x0d", 5}, {"\x00\x00\x00\x11\x0d" + strings.Repeat("\x00", 16), 13},
	} {
		client := it.dial(t)
		if err := client.SendBytes(background, []byte(row.data)); err != nil {
			t.Fatal(err)
		}
		expect(t, Bad{row.place})(client.Receive(background))
		expectEnd(t, "a session that is over", client, &ClosedAtEdge{})
	}
	it.text(t)
}

func TestAKilledService(t *testing.T) {
	it := start(t, "nexus 2\nprincipal alice pa\nend\n", 1, 1)
	client := it.dial(t)
	expect(t, Welcome{1, 0})(client.Hello(background, "alice", "pa"))
	it.command.Process.Kill()
	it.command.Wait()
	var err error
	for err == nil {
		_, err = client.Call(background, "read", "f", 0)
	}
	var ended Ended
	if !errors.As(err, &ended) {
		t.Error(err)
	}
}
