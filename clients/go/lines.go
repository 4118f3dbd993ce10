package nexus

import (
	"strconv"
	"strings"
)

// LongestLine is how many bytes a request line has at most.
const LongestLine = 33_700

// words are those of a line, and what is wrong with them.
type words struct {
	left  []string
	wrong bool
}

// next takes a word. An empty one is none.
func (w *words) next() string {
	if len(w.left) == 0 || w.left[0] == "" {
		w.wrong = true
		return ""
	}
	word := w.left[0]
	w.left = w.left[1:]
	return word
}

// number takes a word that is a number: decimal, without a leading zero, below 2^64.
func (w *words) number() uint64 {
	word := w.next()
	number, err := strconv.ParseUint(word, 10, 64)
	if err != nil || word != strconv.FormatUint(number, 10) {
		w.wrong = true
	}
	return number
}

// requestOf is the request of a line: its first word, the words behind it up to the text, and the text.
func requestOf(word string, w *words, text string) Request {
	switch word {
	case "hello":
		return Hello{w.next(), w.next()}
	case "say":
		return Say{w.next(), text}
	case "transfer":
		return Transfer{w.number(), w.next()}
	case "delete":
		return Delete{w.number()}
	case "object":
		return NewObject{w.next()}
	case "goal":
		return SetGoal{w.next(), w.next(), text}
	case "nogoal":
		return ClearGoal{w.next(), w.next()}
	case "proof":
		return SetProof{w.next(), w.next(), text}
	case "noproof":
		return ClearProof{w.next(), w.next()}
	case "bind":
		return Bind{w.next(), w.number()}
	case "unbind":
		return Unbind{w.next()}
	case "call":
		return Call{w.next(), w.next(), w.number()}
	case "see":
		return See{w.number()}
	}
	return nil
}

// ParseLine is the request of a request line, without its line end, as docs/FORMATS.md, "Request lines", states it. A
// *RequestError where it is none.
func ParseLine(line string) (Request, error) {
	word, rest, _ := strings.Cut(line, " ")
	text, hasText := "", true
	if word == "say" || word == "goal" || word == "proof" {
		rest, text, hasText = strings.Cut(rest, " : ")
	}
	words := words{left: strings.Split(rest, " ")}
	request := requestOf(word, &words, text)
	if request == nil || words.wrong || len(words.left) > 0 || !hasText || len(line) > LongestLine || strings.Contains(line, "\n") {
		return nil, &RequestError{Reason: "this is no request line"}
	}
	_, err := AppendFrame(nil, request)
	if err != nil {
		return nil, err
	}
	return request, nil
}
