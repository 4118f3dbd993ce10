package nexus_test

import (
	"context"
	"errors"
	"fmt"
	"io"
	"net"
	"os"
	"strings"
	"testing"
	"time"

	"nexus"
)

// mayRead says whether bob may read the report. README.md shows it.
func mayRead(address string) string {
	ctx, cancel := context.WithTimeout(context.Background(), 5*time.Second)
	defer cancel()
	client, err := nexus.Dial(ctx, address)
	if err != nil {
		return "no answer: " + err.Error()
	}
	defer client.Close()
	client.Hello(ctx, "bob", "bob-secret")
	reply, err := client.Call(ctx, "read", "report", 0)
	var late *nexus.TimedOut
	if errors.As(err, &late) {
		return "no answer in time"
	}
	if err != nil {
		return "no answer: " + err.Error()
	}
	if _, isAllowed := reply.(nexus.Allowed); isAllowed {
		return "come in"
	}
	return fmt.Sprint("no: ", reply)
}

// follow waits until the session has come to the point of another one, or the context is done. README.md shows it.
func follow(ctx context.Context, client *nexus.Client, at uint64) error {
	for {
		_, err := client.See(ctx, at)
		var not *nexus.NotSeen
		if !errors.As(err, &not) || !not.IsNotYet() {
			return err
		}
		time.Sleep(10 * time.Millisecond)
	}
}

// words are those of a text, with one space between each two.
func words(text string) string { return strings.Join(strings.Fields(text), " ") }

func TestREADME(t *testing.T) {
	readme, _ := os.ReadFile("README.md")
	source, _ := os.ReadFile("example_test.go")
	for _, name := range []string{"func mayRead", "func follow"} {
		_, code, _ := strings.Cut(string(source), name)
		code, _, _ = strings.Cut(code, "\n}\n")
		if !strings.Contains(words(string(readme)), words(name+code+"\n}")) {
			t.Error("README.md shows another example than example_test.go has: " + name)
		}
	}
}

// A service that is behind at first, and one that lets nobody see.
func TestTheExampleOfPoints(t *testing.T) {
	ours, theirs := net.Pipe()
	defer theirs.Close()
	client := nexus.New(ours)
	defer client.Close()
	refused, seen := "\x00\x00\x00\x11\x45\x00\x00\x00\x00\x00\x00\x00", "\x00\x00\x00\x09\x49\x00\x00\x00\x00\x00\x00\x00"
	notYet, notOpen := "\x00\x00\x00\x00\x00\x00\x00\x17", "\x00\x00\x00\x00\x00\x00\x00\x01"
	go func() {
		asked := make([]byte, 13)
		for _, reply := range []string{refused + "\x00" + notYet, refused + "\x02" + notYet, seen + "\x03", refused + "\x03" + notOpen} {
			io.ReadFull(theirs, asked)
			io.WriteString(theirs, reply)
		}
		for {
			io.ReadFull(theirs, asked)
			if _, err := io.WriteString(theirs, refused+"\x03"+notYet); err != nil {
				return
			}
		}
	}()
	ctx, cancel := context.WithTimeout(context.Background(), 20*time.Second)
	defer cancel()
	if err := follow(ctx, client, 3); err != nil || client.At() != 3 {
		t.Fatal(err, client.At())
	}
	if err := follow(ctx, client, 3); fmt.Sprint(err) != "nexus: not seen: refused 3 NotOpen" {
		t.Error(err)
	}
	soon, cancel := context.WithTimeout(context.Background(), 50*time.Millisecond)
	defer cancel()
	if err := follow(soon, client, 4); !errors.Is(err, context.DeadlineExceeded) {
		t.Error(err)
	}
}

func TestTheExample(t *testing.T) {
	policy := "nexus 2\nprincipal bob bob-secret\n1 bob object report\n1 bob goal read report : bob says ok\n"
	if told := mayRead(nexus.StartService(t, policy+"end\n")); told != "no: denied 2 NoProof" {
		t.Error(told)
	}
	policy += "1 bob say bob : ok\n1 bob proof read report : proof 2 ; 1 label : bob says ok ; end\nend\n"
	if told := mayRead(nexus.StartService(t, policy)); told != "come in" {
		t.Error(told)
	}
	if told := mayRead("127.0.0.1:1"); !strings.HasPrefix(told, "no answer: ") {
		t.Error(told)
	}
}
