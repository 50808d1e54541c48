package kmipttlv

// #include <kmip_ttlv.h>
import "C"

import (
	"errors"
	"fmt"
)

// ErrOutOfMemory says that memory ran out, or that a text needs more than its limit.
var ErrOutOfMemory = errors.New("out of memory, or the text takes more than its limit")

// ErrNotUTF8 says that a text that was passed is not UTF-8.
var ErrNotUTF8 = errors.New("a text is not UTF-8")

// ErrContainsItself says that a node can't be encoded because it is in itself.
var ErrContainsItself = errors.New("a node contains itself")

// A FaultKind is what is wrong with a message, with an item that is to be written, or with JSON.
type FaultKind uint32

// What is wrong with a message; of NotInside to TooLong and of UnknownType, WrongLength and InvalidValue, with an item to write; of the
// last five and of NoStructure, UnknownType and InvalidValue, with JSON.
const (
	Cut           FaultKind = C.KMIP_TTLV_CUT            // the bytes end before the root does, within this item: more may help
	NoStructure   FaultKind = C.KMIP_TTLV_NO_STRUCTURE   // the root is no structure
	UnknownType   FaultKind = C.KMIP_TTLV_UNKNOWN_TYPE   // the type code is unknown
	PartialHeader FaultKind = C.KMIP_TTLV_PARTIAL_HEADER // too few bytes are left in the structure around for a header
	WrongLength   FaultKind = C.KMIP_TTLV_WRONG_LENGTH   // no value of the type has this length
	Overlong      FaultKind = C.KMIP_TTLV_OVERLONG       // the item, with its padding, goes past the end of the structure around
	InvalidValue  FaultKind = C.KMIP_TTLV_INVALID_VALUE  // the content is no value of the type
	Surplus       FaultKind = C.KMIP_TTLV_SURPLUS        // more bytes follow the root
	NotInside     FaultKind = C.KMIP_TTLV_NOT_INSIDE     // no structure before it contains it
	LongTag       FaultKind = C.KMIP_TTLV_LONG_TAG       // its tag is 2^24 or more
	Outside       FaultKind = C.KMIP_TTLV_OUTSIDE        // its value goes past the end of the bytes
	TooLong       FaultKind = C.KMIP_TTLV_TOO_LONG       // with it a structure has 2^32 bytes or more
	NotJSON       FaultKind = C.KMIP_TTLV_NOT_JSON       // a token can't stand there, or the text ends too early
	TooDeep       FaultKind = C.KMIP_TTLV_TOO_DEEP       // JSON that nests more than 127 deep
	NotItem       FaultKind = C.KMIP_TTLV_NOT_ITEM       // no object of exactly the members tag, type and value
	NotTag        FaultKind = C.KMIP_TTLV_NOT_TAG        // a tag is not 0x and six hexadecimal digits
)

var words = map[FaultKind]string{
	Cut:           "the bytes end within the root",
	NoStructure:   "the root is no Structure",
	UnknownType:   "unknown type",
	PartialHeader: "fewer than eight bytes are left of the structure around",
	WrongLength:   "the length is none of a value of the type",
	Overlong:      "the item goes past the end of the structure around",
	InvalidValue:  "the content is no value of the type",
	Surplus:       "further bytes follow the root",
	NotInside:     "no structure before it contains it",
	LongTag:       "its tag is no number below 2^24",
	Outside:       "its value goes past the end of the bytes",
	TooLong:       "with it a structure takes 2^32 bytes or more",
	NotJSON:       "not JSON",
	TooDeep:       "nested more than 127 deep",
	NotItem:       "an item without exactly tag, type and value",
	NotTag:        "a tag is not 0x and six hexadecimal digits",
}

func (kind FaultKind) String() string {
	if text, known := words[kind]; known {
		return text
	}
	return fmt.Sprintf("unknown fault %d", uint32(kind))
}

// A MalformedError says that bytes are not one whole message, or that a text is not the JSON of one.
type MalformedError struct {
	Offset int // where the bad item or the surplus begins, from the first byte; of JSON in the text
	Kind   FaultKind
	Items  []Item // those before it, of a call that lists or decodes them
}

func (it *MalformedError) Error() string {
	return fmt.Sprintf("at byte %d: %v", it.Offset, it.Kind)
}

// A BadItemError says that an item can't be written.
type BadItemError struct {
	Index int // from 0, in document order
	Kind  FaultKind
}

func (it *BadItemError) Error() string {
	return fmt.Sprintf("item %d: %v", it.Index, it.Kind)
}

// A BadNamesError says that a line of a table of names can't be read.
type BadNamesError struct {
	Line int // from 1
}

func (it *BadNamesError) Error() string {
	return fmt.Sprintf("line %d of the table of names can't be read", it.Line)
}
