package nexus

import (
	"bytes"
	"encoding/hex"
	"errors"
	"os"
	"reflect"
	"strings"
	"testing"
)

// The requests of clients/frames.txt, in their order.
var requests = []Request{
	Hello{"bob", "pw"}, Say{"bob", "ok"}, Transfer{3, "bob"}, Delete{258}, NewObject{"f"}, SetGoal{"read", "f", "true"},
	ClearGoal{"read", "f"}, SetProof{"read", "f", ""}, ClearProof{"read", "f"}, Bind{"bob.x", 1<<64 - 1}, Unbind{"bob"},
	Call{"read", "ledger_of_2026", 7}, See{258}, See{0},
}

// The replies of clients/frames.txt, in their order.
var replies = []Reply{
	Welcome{1, 0}, Done{3, 3}, Allowed{4, 1, 7}, Denied{1, GoalUnset, 0, 0}, Denied{5, LabelMissing, 1, 0},
	Denied{6, Line, 1, NotGoal}, Denied{6, 9, 1, 13}, Refused{1, NotRecorded}, Refused{1, ReadOnly}, Refused{262_144, JournalFull},
	Refused{7, NotYet}, Refused{0, 24}, Down{4, 2}, NoMemory{}, Bad{5}, Seen{258},
}

// row is a line, and its frame where it has one.
type row struct {
	line  string
	frame []byte
}

// rows are those of clients/frames.txt that begin with this word.
func rows(t *testing.T, word string) []row {
	t.Helper()
	text, err := os.ReadFile("../frames.txt")
	if err != nil {
		t.Fatal(err)
	}
	var found []row
	for _, line := range strings.Split(string(text), "\n") {
		if rest := strings.TrimPrefix(line, word+": "); rest != line {
			line, digits, _ := strings.Cut(rest, " -> ")
			frame, err := hex.DecodeString(strings.ReplaceAll(digits, " ", ""))
			if err != nil {
				t.Fatal(err)
			}
			found = append(found, row{line, frame})
		}
	}
	return found
}

func TestRequests(t *testing.T) {
	table := rows(t, "request")
	if len(table) != len(requests) {
		t.Fatalf("%d rows", len(table))
	}
	for at, request := range requests {
		frame, err := AppendFrame([]byte("before"), request)
		if err != nil || !bytes.Equal(frame, append([]byte("before"), table[at].frame...)) {
			t.Errorf("%s: %x, %v", table[at].line, frame, err)
		}
		if parsed, err := ParseLine(table[at].line); err != nil || parsed != request {
			t.Errorf("%s: %#v, %v", table[at].line, parsed, err)
		}
	}
}

func TestReplies(t *testing.T) {
	table := rows(t, "reply")
	if len(table) != len(replies) {
		t.Fatalf("%d rows", len(table))
	}
	for at, reply := range replies {
		if parsed, err := ParseReply(table[at].frame[4:]); err != nil || parsed != reply {
			t.Errorf("%s: %#v, %v", table[at].line, parsed, err)
		}
		if reply.String() != table[at].line {
			t.Errorf("%s: %s", table[at].line, reply)
		}
	}
}

// The names are those of docs/LOGIC.md and docs/FORMATS.md by their numbers.
func TestNames(t *testing.T) {
	names := map[string]string{
		Cause(1).String(): "GoalUnset", Cause(6).String(): "AuthorityNo", Fault(1).String(): "NoSuchRef", NotFresh.String(): "NotFresh",
		Fault(12).String(): "NotGoal", Refusal(1).String(): "NotOpen", Refusal(17).String(): "Quota", Refusal(20).String(): "NotRecorded",
		Refusal(21).String(): "ReadOnly", Refusal(22).String(): "JournalFull", Refusal(23).String(): "NotYet", Refusal(24).String(): "24",
		Cause(7).String(): "7", Fault(13).String(): "13", Refusal(1<<64 - 1).String(): "18446744073709551615",
	}
	for got, wanted := range names {
		if got != wanted {
			t.Errorf("%s, where %s is due", got, wanted)
		}
	}
	if NotBound != 5 || StillOpen != 11 || NoSuchObject != 8 || BadProof != 16 || ReadOnly != 21 || JournalFull != 22 || NotYet != 23 {
		t.Error("a name has another number")
	}
}

func TestLinesThatAreNone(t *testing.T) {
	lines := []string{
		"hello bob p\x7f", "hello bob pw\n", "say alice : a\nb", "hello " + strings.Repeat("b", 65) + " pw", "hello bob " + strings.Repeat("p", 65),
		"say alice : " + strings.Repeat("x", 33_689),
	}
	for _, row := range rows(t, "none") {
		lines = append(lines, strings.Trim(row.line, `"`))
	}
	if len(lines) < 20 {
		t.Fatalf("%d lines", len(lines))
	}
	for _, line := range lines {
		var wrong *RequestError
		if request, err := ParseLine(line); request != nil || !errors.As(err, &wrong) {
			t.Errorf("%.40q: %#v, %v", line, request, err)
		}
	}
	for line, wanted := range map[string]Request{
		"say alice : " + strings.Repeat("x", 33_688): Say{"alice", strings.Repeat("x", 33_688)},
		"say alice :  ok : ok ":                      Say{"alice", " ok : ok "},
	} {
		if request, err := ParseLine(line); err != nil || request != wanted {
			t.Errorf("%.40q: %v", line, err)
		}
	}
}

func TestRequestsThatAreNone(t *testing.T) {
	for _, request := range []Request{
		Hello{"says", "pw"}, Hello{"bob", ""}, Hello{"bob", "p w"}, NewObject{"1f"}, NewObject{"f\n"}, NewObject{""}, NewObject{"f\u00e9"},
		Say{"a", strings.Repeat("x", 65_536)}, SetGoal{"read", "f.g", "true"}, Say{"", strings.Repeat("x", 33_788)},
	} {
		var wrong *RequestError
		if frame, err := AppendFrame(nil, request); frame != nil || !errors.As(err, &wrong) {
			t.Errorf("%.40v: %v", request, err)
		}
	}
	if frame, err := AppendFrame(nil, Say{"", strings.Repeat("x", 33_787)}); err != nil || len(frame) != 4+33_792 {
		t.Error(len(frame), err)
	}
}

func TestPayloadsThatAreNone(t *testing.T) {
	for _, digits := range []string{
		"", "40", "49", "4a", "48", "47" + "0000000000000000", "41" + "0000000000000000", "44" + strings.Repeat("00", 24), "49" + strings.Repeat("00", 16),
		"4a" + "0000000000000000",
	} {
		payload, _ := hex.DecodeString(digits)
		reply, err := ParseReply(payload)
		var bad *BadReply
		if reply != nil || !errors.As(err, &bad) || !reflect.DeepEqual(append([]byte{}, bad.Start...), payload) {
			t.Errorf("%s: %v, %v", digits, reply, err)
		}
	}
}
