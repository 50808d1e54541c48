// Package kmipttlv prints, redacts, lists, checks, decodes and encodes TTLV, the encoding of OASIS KMIP, as JSON too, by the C library
// kmip_ttlv.
//
// Offsets and lengths are in bytes. Any call can fail with ErrOutOfMemory. The library keeps nothing of what it is passed, and any
// number of goroutines may call at a time.
//
// openEmpty is whether an empty structure stays open until the one around it ends, as in the texts of the Rust crate kmip-ttlv; pass
// false unless you compare with these. limit is how many bytes of memory the library may hold to make a text, since a text can grow with
// the square of the depth: UsualLimit, or NoLimit.
package kmipttlv

// #cgo LDFLAGS: -l:libkmip_ttlv.a
// #include <kmip_ttlv.h>
import "C"

import (
	"errors"
	"math"
)

// NoLimit is so much memory that no text is too long.
const NoLimit = math.MaxInt

// UsualLimit returns what is enough memory for the text of a message, or of a diagnostic, of so many bytes that doesn't nest deep.
func UsualLimit(length int) int {
	if length > (NoLimit-1<<20)/512 {
		return NoLimit
	}
	return 512*length + 1<<20
}

// An Item is an item of a message.
type Item struct {
	Offset int    // where its header begins, from the first byte; its value begins 8 bytes later
	Depth  int    // how many structures it is in: 0 for the root
	Tag    uint32 // below 2^24
	Type   Type
	Length uint32 // of its value, without padding
}

// A Diagnostic has tags, types, nesting and the values of enumerations.
type Diagnostic struct {
	Text string
	Read int // how many items the call tried to read
}

// A Redact says which values ToJSON hides: null stands in their place.
type Redact uint32

const (
	RedactNothing Redact = C.KMIP_TTLV_SHOW_ALL
	RedactSecrets Redact = C.KMIP_TTLV_REDACT_SECRETS // those of secret tags, which can hold a key, data or proof of identity, and of all items in them
	RedactValues  Redact = C.KMIP_TTLV_REDACT_VALUES  // all but those of enumerations
)

// ErrBadRedact says that a Redact is none of the three.
var ErrBadRedact = errors.New("it is none of RedactNothing, RedactSecrets and RedactValues")

// nothing is where an empty slice begins, for calls that take no null pointer.
var nothing [1]C.uint8_t

// lent returns where bytes begin, and their number.
func lent(bytes []byte) (*C.uint8_t, C.size_t) {
	if len(bytes) == 0 {
		return &nothing[0], 0
	}
	return (*C.uint8_t)(&bytes[0]), C.size_t(len(bytes))
}

func limited(limit int) C.size_t {
	if limit < 0 {
		limit = 0
	}
	return C.size_t(limit)
}

// filled calls with a buffer of room bytes, and with one as large as is asked for, and returns what was written, or the status.
func filled(room int, call func(out *C.uint8_t, room C.size_t, length *C.size_t) C.kmip_ttlv_status) ([]byte, C.kmip_ttlv_status) {
	for {
		out, length := make([]byte, room+1), C.size_t(0)
		status := call((*C.uint8_t)(&out[0]), C.size_t(room), &length)
		if status == C.KMIP_TTLV_OK {
			return out[:length], status
		}
		if status != C.KMIP_TTLV_NO_ROOM {
			return nil, status
		}
		room = int(length)
	}
}

// Check returns nil if bytes are one whole message, or a *MalformedError without items.
func Check(message []byte) error {
	from, length := lent(message)
	var fault C.kmip_ttlv_fault
	return refusal(C.kmip_ttlv_check(from, length, &fault), fault, nil, 0)
}

// Items returns the items of one whole message in document order. For other bytes it returns a *MalformedError with the items before the
// first fault.
func Items(message []byte) ([]Item, error) {
	from, length := lent(message)
	// a message of n bytes has at most n / 8 items
	out := make([]C.kmip_ttlv_item, len(message)/8+1)
	var count C.size_t
	var fault C.kmip_ttlv_fault
	status := C.kmip_ttlv_items(from, length, &out[0], C.size_t(len(out)), &count, &fault)
	found := make([]Item, count)
	for at := range found {
		it := out[at]
		found[at] = Item{int(it.offset), int(it.depth), uint32(it.tag), Type(it.typ), uint32(it.length)}
	}
	if status != C.KMIP_TTLV_OK {
		return nil, refusal(status, fault, found, 0)
	}
	return found, nil
}

// Write returns the canonical bytes of items, as Items returns them, whose values are in bytes. An item belongs to the last structure
// before it of one depth less; Offset and Length of a structure are ignored. For the first item that can't be written it returns a
// *BadItemError.
func Write(items []Item, bytes []byte) ([]byte, error) {
	from, length := lent(bytes)
	listed := make([]C.kmip_ttlv_item, len(items)+1)
	for at, it := range items {
		listed[at].offset, listed[at].depth = C.size_t(it.Offset), C.size_t(it.Depth)
		listed[at].tag, listed[at].typ, listed[at].length = C.uint32_t(it.Tag), C.uint32_t(it.Type), C.uint32_t(it.Length)
	}
	var bad C.kmip_ttlv_bad_item
	written, status := filled(len(bytes)+16*len(items), func(out *C.uint8_t, room C.size_t, size *C.size_t) C.kmip_ttlv_status {
		return C.kmip_ttlv_write(&listed[0], C.size_t(len(items)), from, length, out, room, size, &bad)
	})
	if status != C.KMIP_TTLV_OK {
		return nil, &BadItemError{int(bad.index), FaultKind(bad.kind)}
	}
	return written, nil
}

// ToDiag returns the redacted diagnostic of any bytes, whose tags don't have the digits prefix in front. It ends with ERR where an item
// can't be read. Check first: in malformed bytes those of a key may stand where a tag is expected; or take ToDiagChecked.
func ToDiag(message []byte, prefix string, openEmpty bool) (Diagnostic, error) {
	from, length := lent(message)
	prefixFrom, prefixLength := lent([]byte(prefix))
	var read C.size_t
	text, status := filled(len(message)+64, func(out *C.uint8_t, room C.size_t, size *C.size_t) C.kmip_ttlv_status {
		return C.kmip_ttlv_to_diag(from, length, prefixFrom, prefixLength, C.bool(openEmpty), out, room, size, &read)
	})
	return Diagnostic{string(text), int(read)}, refusal(status, C.kmip_ttlv_fault{}, nil, 0)
}

// ToDiagChecked returns the redacted diagnostic of one whole message, in which empty structures are closed. For other bytes it returns a
// *MalformedError without items: nothing is shown of them.
func ToDiagChecked(message []byte, prefix string) (string, error) {
	from, length := lent(message)
	prefixFrom, prefixLength := lent([]byte(prefix))
	var fault C.kmip_ttlv_fault
	text, status := filled(len(message)+64, func(out *C.uint8_t, room C.size_t, size *C.size_t) C.kmip_ttlv_status {
		return C.kmip_ttlv_to_diag_checked(from, length, prefixFrom, prefixLength, out, room, size, &fault)
	})
	return string(text), refusal(status, fault, nil, 0)
}

// ToText returns any bytes as readable text with every value, and the names of KMIP's tags. It ends with a line "ERROR: .." where an item
// can't be read. Texts keep their control characters: escape them before you print them.
func ToText(message []byte, openEmpty bool, limit int) (string, error) {
	from, length := lent(message)
	text, status := filled(4*len(message)+256, func(out *C.uint8_t, room C.size_t, size *C.size_t) C.kmip_ttlv_status {
		return C.kmip_ttlv_to_standard_text(from, length, C.bool(openEmpty), limited(limit), out, room, size)
	})
	return string(text), refusal(status, C.kmip_ttlv_fault{}, nil, 0)
}

// ToTextNamed is ToText with the names of a table, of which each line is a tag's digits, a space and its name. For a line that can't be
// read it returns a *BadNamesError.
func ToTextNamed(message []byte, names string, openEmpty bool, limit int) (string, error) {
	from, length := lent(message)
	namesFrom, namesLength := lent([]byte(names))
	var line C.size_t
	text, status := filled(4*len(message)+256, func(out *C.uint8_t, room C.size_t, size *C.size_t) C.kmip_ttlv_status {
		return C.kmip_ttlv_to_text(from, length, namesFrom, namesLength, C.bool(openEmpty), limited(limit), out, room, size, &line)
	})
	return string(text), refusal(status, C.kmip_ttlv_fault{}, nil, int(line))
}

// FromDiag reads a diagnostic under a prefix back as lines, with the names of a table, which may be empty. It ends where the text stops
// being a diagnostic, and has "<redacted>" in place of the values that a diagnostic doesn't show.
func FromDiag(diagnostic, prefix, names string, limit int) (string, error) {
	from, length := lent([]byte(diagnostic))
	prefixFrom, prefixLength := lent([]byte(prefix))
	namesFrom, namesLength := lent([]byte(names))
	var line C.size_t
	text, status := filled(8*len(diagnostic)+256, func(out *C.uint8_t, room C.size_t, size *C.size_t) C.kmip_ttlv_status {
		return C.kmip_ttlv_from_diag(from, length, prefixFrom, prefixLength, namesFrom, namesLength, limited(limit), out, room, size, &line)
	})
	return string(text), refusal(status, C.kmip_ttlv_fault{}, nil, int(line))
}

// ToRedactedText returns one whole message as readable text without any value but those of enumerations, and with the names of KMIP's
// tags. For other bytes it returns a *MalformedError without items: nothing is shown of them.
func ToRedactedText(message []byte, limit int) (string, error) {
	from, length := lent(message)
	var fault C.kmip_ttlv_fault
	text, status := filled(4*len(message)+256, func(out *C.uint8_t, room C.size_t, size *C.size_t) C.kmip_ttlv_status {
		return C.kmip_ttlv_to_redacted_text(from, length, limited(limit), out, room, size, &fault)
	})
	return string(text), refusal(status, fault, nil, 0)
}

// ToJSON returns one whole message as JSON (OASIS "KMIP Additional Message Encodings", in hexadecimal forms), in one line without a line
// feed. For other bytes it returns a *MalformedError without items.
func ToJSON(message []byte, redact Redact) (string, error) {
	from, length := lent(message)
	var fault C.kmip_ttlv_fault
	text, status := filled(8*len(message)+64, func(out *C.uint8_t, room C.size_t, size *C.size_t) C.kmip_ttlv_status {
		return C.kmip_ttlv_to_json(from, length, C.uint32_t(redact), out, room, size, &fault)
	})
	if status == C.KMIP_TTLV_BAD_ARGUMENT {
		return "", ErrBadRedact
	}
	return string(text), refusal(status, fault, nil, 0)
}

// FromJSON returns the canonical bytes of the message whose JSON a text is, in any form of OASIS's encoding, as that of ToJSON or with
// names. For another text it returns a *MalformedError without items.
func FromJSON(json string) ([]byte, error) {
	from, length := lent([]byte(json))
	var fault C.kmip_ttlv_fault
	bytes, status := filled(len(json)/2+64, func(out *C.uint8_t, room C.size_t, size *C.size_t) C.kmip_ttlv_status {
		return C.kmip_ttlv_from_json(from, length, out, room, size, &fault)
	})
	return bytes, refusal(status, fault, nil, 0)
}

// name returns what a call for names wrote, and whether there is a name.
func name(call func(out *C.uint8_t, room C.size_t, size *C.size_t) C.kmip_ttlv_status) (string, bool, error) {
	text, status := filled(64, call)
	if status == C.KMIP_TTLV_NO_NAME {
		return "", false, nil
	}
	return string(text), status == C.KMIP_TTLV_OK, refusal(status, C.kmip_ttlv_fault{}, nil, 0)
}

// TagName returns the name that the KMIP specifications give a tag, and whether it has one. The library makes a table for each call: keep
// what is asked for often.
func TagName(tag uint32) (string, bool, error) {
	return name(func(out *C.uint8_t, room C.size_t, size *C.size_t) C.kmip_ttlv_status {
		return C.kmip_ttlv_tag_name(C.uint32_t(tag), out, room, size)
	})
}

// ValueName returns the name that they give a value of the enumeration with this tag, and whether it has one.
func ValueName(tag, value uint32) (string, bool, error) {
	return name(func(out *C.uint8_t, room C.size_t, size *C.size_t) C.kmip_ttlv_status {
		return C.kmip_ttlv_value_name(C.uint32_t(tag), C.uint32_t(value), out, room, size)
	})
}

// MaskNames returns the names that they give the bits that are set in a mask with this tag, as "Encrypt | Decrypt", and whether it is the
// tag of a mask.
func MaskNames(tag, mask uint32) (string, bool, error) {
	return name(func(out *C.uint8_t, room C.size_t, size *C.size_t) C.kmip_ttlv_status {
		return C.kmip_ttlv_mask_names(C.uint32_t(tag), C.uint32_t(mask), out, room, size)
	})
}

// Version returns the version of the C library, which ends in "-unproved" if nothing was proved.
func Version() string {
	text, _ := filled(32, func(out *C.uint8_t, room C.size_t, size *C.size_t) C.kmip_ttlv_status {
		return C.kmip_ttlv_version(out, room, size)
	})
	return string(text)
}

// refusal returns the error that a status means, and nil for success.
func refusal(status C.kmip_ttlv_status, fault C.kmip_ttlv_fault, found []Item, line int) error {
	switch status {
	case C.KMIP_TTLV_OK:
		return nil
	case C.KMIP_TTLV_NOT_UTF8:
		return ErrNotUTF8
	case C.KMIP_TTLV_MALFORMED:
		return &MalformedError{int(fault.offset), FaultKind(fault.kind), found}
	case C.KMIP_TTLV_BAD_NAMES:
		return &BadNamesError{line}
	default:
		return ErrOutOfMemory
	}
}
