package nexus

import (
	"encoding/binary"
	"fmt"
	"strings"
)

// LongestPayload is how many bytes the payload of a request has at most.
const LongestPayload = 33_792

// reserved are the words that are no names.
var reserved = strings.Fields("says speaksfor on and or not forall exists true false")

// frame is a frame that is being written, and the first thing that is wrong with a field.
type frame struct {
	bytes []byte
	wrong *RequestError
}

// refuse keeps what is wrong, where nothing was before.
func (f *frame) refuse(format string, values ...any) {
	if f.wrong == nil {
		f.wrong = &RequestError{Reason: fmt.Sprintf(format, values...)}
	}
}

func (f *frame) number(number uint64) {
	f.bytes = binary.BigEndian.AppendUint64(f.bytes, number)
}

func (f *frame) text(text string) {
	// One that is too long for these two bytes is too long for a frame.
	f.bytes = binary.BigEndian.AppendUint16(f.bytes, uint16(len(text)))
	f.bytes = append(f.bytes, text...)
}

func (f *frame) name(name string) {
	if !isName(name) {
		f.refuse("%.80q is no name", name)
	}
	f.text(name)
}

func (f *frame) secret(secret string) {
	if !isSecret(secret) {
		f.refuse("the secret is not 1 to 64 bytes from 0x21 to 0x7E")
	}
	f.text(secret)
}

func isLetter(char byte) bool { return 'a' <= char|0x20 && char|0x20 <= 'z' }

func isDigit(char byte) bool { return '0' <= char && char <= '9' }

// isName says whether a text is a name: docs/FORMATS.md, "Tokens".
func isName(text string) bool {
	if text == "" || len(text) > 64 || !isLetter(text[0]) {
		return false
	}
	for at := 0; at < len(text); at++ {
		if !isLetter(text[at]) && !isDigit(text[at]) && text[at] != '_' {
			return false
		}
	}
	for _, word := range reserved {
		if text == word {
			return false
		}
	}
	return true
}

// isSecret says whether a text is a secret: 1 to 64 bytes from 0x21 to 0x7E.
func isSecret(text string) bool {
	for at := 0; at < len(text); at++ {
		if text[at] < 0x21 || text[at] > 0x7E {
			return false
		}
	}
	return text != "" && len(text) <= 64
}

// AppendFrame appends the frame of a request. A *RequestError where a name or a secret is none, or where the payload
// would have more than LongestPayload bytes. What the texts spell is not looked at: that is for the service to say.
func AppendFrame(to []byte, request Request) ([]byte, error) {
	begin := len(to)
	frame := frame{bytes: append(to, 0, 0, 0, 0, request.kind())}
	request.fields(&frame)
	length := len(frame.bytes) - begin - 4
	if length > LongestPayload {
		frame.refuse("a frame of %d bytes is too long", length)
	}
	if frame.wrong != nil {
		return to, frame.wrong
	}
	binary.BigEndian.PutUint32(frame.bytes[begin:], uint32(length))
	return frame.bytes, nil
}

// numbersOf is how many numbers a reply of this kind has, or -1 where the kind is that of no reply.
func numbersOf(kind byte) int {
	switch kind {
	case 65, 66, 69, 70:
		return 2
	case 67:
		return 3
	case 68:
		return 4
	case 71:
		return 0
	case 72, 73:
		return 1
	}
	return -1
}

// isLength says whether a reply may have a payload of so many bytes.
func isLength(length uint32) bool {
	return length%8 == 1 && length <= 33
}

// replyOf is the reply with this kind and these numbers, which are as many as the kind has.
func replyOf(kind byte, n []uint64) Reply {
	switch kind {
	case 65:
		return Welcome{n[0], n[1]}
	case 66:
		return Done{n[0], n[1]}
	case 67:
		return Allowed{n[0], n[1], n[2]}
	case 68:
		return Denied{n[0], Cause(n[1]), n[2], Fault(n[3])}
	case 69:
		return Refused{n[0], Refusal(n[1])}
	case 70:
		return Down{n[0], n[1]}
	case 71:
		return NoMemory{}
	case 72:
		return Bad{n[0]}
	}
	return Seen{n[0]}
}

// ParseReply is the reply with this payload, which is the kind and the fields, without the length in front. A *BadReply
// where it is none.
func ParseReply(payload []byte) (Reply, error) {
	if len(payload) == 0 || len(payload) != 1+8*numbersOf(payload[0]) {
		return nil, &BadReply{append([]byte(nil), payload...)}
	}
	var numbers [4]uint64
	for at := 1; at < len(payload); at += 8 {
		numbers[at/8] = binary.BigEndian.Uint64(payload[at:])
	}
	return replyOf(payload[0], numbers[:]), nil
}
