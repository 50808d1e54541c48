package kmipttlv

// #include <kmip_ttlv.h>
import "C"

import (
	"encoding/binary"
	"fmt"
	"math"
	"math/big"
	"strings"
)

// A Type is the code of a type.
type Type uint32

// The types of TTLV.
const (
	TypeStructure   Type = C.KMIP_TTLV_STRUCTURE
	TypeInteger     Type = C.KMIP_TTLV_INTEGER
	TypeLongInteger Type = C.KMIP_TTLV_LONG_INTEGER
	TypeBigInteger  Type = C.KMIP_TTLV_BIG_INTEGER
	TypeEnumeration Type = C.KMIP_TTLV_ENUMERATION
	TypeBoolean     Type = C.KMIP_TTLV_BOOLEAN
	TypeTextString  Type = C.KMIP_TTLV_TEXT_STRING
	TypeByteString  Type = C.KMIP_TTLV_BYTE_STRING
	TypeDateTime    Type = C.KMIP_TTLV_DATE_TIME
	TypeInterval    Type = C.KMIP_TTLV_INTERVAL
)

// A Node is an item of a message: its tag and its value, which says its type. Printing it, by any verb of fmt, shows tags, types, nesting
// and the values of enumerations, and no other value, since it may be a key.
type Node struct {
	Tag   uint32 // below 2^24
	Value Value
}

// A Value is the value of an item, of one of the ten types below. It is printed as a node is; a conversion gives the value itself.
type Value interface {
	Type() Type
	// append adds the content of a leaf to bytes, without padding
	append(bytes []byte) []byte
}

// The ten types of values.
type (
	Structure   []*Node
	Integer     int32
	LongInteger int64
	BigInteger  []byte // two's complement, the most significant byte first; KMIP asks for a multiple of eight bytes
	Enumeration uint32
	Boolean     bool
	TextString  string
	ByteString  []byte
	DateTime    int64  // seconds since 1970 in UTC
	Interval    uint32 // seconds
)

func (Structure) Type() Type   { return TypeStructure }
func (Integer) Type() Type     { return TypeInteger }
func (LongInteger) Type() Type { return TypeLongInteger }
func (BigInteger) Type() Type  { return TypeBigInteger }
func (Enumeration) Type() Type { return TypeEnumeration }
func (Boolean) Type() Type     { return TypeBoolean }
func (TextString) Type() Type  { return TypeTextString }
func (ByteString) Type() Type  { return TypeByteString }
func (DateTime) Type() Type    { return TypeDateTime }
func (Interval) Type() Type    { return TypeInterval }

func (it Structure) append(bytes []byte) []byte { return bytes }
func (it Integer) append(bytes []byte) []byte {
	return binary.BigEndian.AppendUint32(bytes, uint32(it))
}
func (it LongInteger) append(bytes []byte) []byte {
	return binary.BigEndian.AppendUint64(bytes, uint64(it))
}
func (it BigInteger) append(bytes []byte) []byte { return append(bytes, it...) }
func (it Enumeration) append(bytes []byte) []byte {
	return binary.BigEndian.AppendUint32(bytes, uint32(it))
}
func (it TextString) append(bytes []byte) []byte { return append(bytes, it...) }
func (it ByteString) append(bytes []byte) []byte { return append(bytes, it...) }
func (it DateTime) append(bytes []byte) []byte {
	return binary.BigEndian.AppendUint64(bytes, uint64(it))
}
func (it Interval) append(bytes []byte) []byte {
	return binary.BigEndian.AppendUint32(bytes, uint32(it))
}

func (it Boolean) append(bytes []byte) []byte {
	if it {
		return binary.BigEndian.AppendUint64(bytes, 1)
	}
	return binary.BigEndian.AppendUint64(bytes, 0)
}

// Int returns the number.
func (it BigInteger) Int() *big.Int {
	number := new(big.Int).SetBytes(it)
	if len(it) > 0 && it[0] >= 0x80 {
		number.Sub(number, new(big.Int).Lsh(big.NewInt(1), 8*uint(len(it))))
	}
	return number
}

// NewBigInteger returns a number in the fewest bytes, a multiple of eight, that hold it.
func NewBigInteger(number *big.Int) BigInteger {
	// the bits of a negative number's two's complement are those of its complement
	bits := number.BitLen()
	if number.Sign() < 0 {
		bits = new(big.Int).Not(number).BitLen()
	}
	bytes := make([]byte, 8*(bits/64+1))
	if number.Sign() < 0 {
		number = new(big.Int).Add(number, new(big.Int).Lsh(big.NewInt(1), 8*uint(len(bytes))))
	}
	return number.FillBytes(bytes)
}

// valueOf returns the value of a checked item, without the nodes of a structure.
func valueOf(typ Type, content []byte) Value {
	switch typ {
	case TypeInteger:
		return Integer(binary.BigEndian.Uint32(content))
	case TypeLongInteger:
		return LongInteger(binary.BigEndian.Uint64(content))
	case TypeBigInteger:
		return append(BigInteger{}, content...)
	case TypeEnumeration:
		return Enumeration(binary.BigEndian.Uint32(content))
	case TypeBoolean:
		return Boolean(binary.BigEndian.Uint64(content) == 1)
	case TypeTextString:
		return TextString(content)
	case TypeByteString:
		return append(ByteString{}, content...)
	case TypeDateTime:
		return DateTime(binary.BigEndian.Uint64(content))
	case TypeInterval:
		return Interval(binary.BigEndian.Uint32(content))
	default:
		return Structure{}
	}
}

// Decode returns the root of one whole message. For other bytes it returns a *MalformedError with the items before the first fault.
// Nesting takes no stack.
func Decode(message []byte) (*Node, error) {
	found, err := Items(message)
	if err != nil {
		return nil, err
	}
	var around []*Node
	for _, it := range found {
		// the content of a structure is its nodes: a copy of it at each depth would cost the square of the depth
		length := int(it.Length)
		if it.Type == TypeStructure {
			length = 0
		}
		node := &Node{it.Tag, valueOf(it.Type, message[it.Offset+8:it.Offset+8+length])}
		around = append(around[:it.Depth], node)
		if it.Depth > 0 {
			parent := around[it.Depth-1]
			parent.Value = append(parent.Value.(Structure), node)
		}
	}
	return around[0], nil
}

// A placed node is one with its depth below the root.
type placed struct {
	node  *Node
	depth int
}

// walk calls with this node and all below it in document order, each with its depth, until a call returns false.
func (it *Node) walk(call func(node *Node, depth int) bool) {
	waiting := []placed{{it, 0}}
	for len(waiting) > 0 {
		last := waiting[len(waiting)-1]
		waiting = waiting[:len(waiting)-1]
		if !call(last.node, last.depth) {
			return
		}
		nodes := last.node.nodes()
		for at := len(nodes) - 1; at >= 0; at-- {
			waiting = append(waiting, placed{nodes[at], last.depth + 1})
		}
	}
}

// nodes returns those of a structure, and none of anything else.
func (it *Node) nodes() Structure {
	if it == nil {
		return nil
	}
	nodes, _ := it.Value.(Structure)
	return nodes
}

// path is the structures around a node, to find one that contains itself.
type path struct {
	around []*Node
	open   map[*Node]bool
}

// enter says that a node comes at a depth, and returns whether it is around itself.
func (it *path) enter(node *Node, depth int) bool {
	for _, ended := range it.around[depth:] {
		delete(it.open, ended)
	}
	it.around = append(it.around[:depth], node)
	again := it.open[node]
	it.open[node] = true
	return again
}

// Encode returns the canonical bytes of a node: a message, if it is a structure. The bytes of a BigInteger stay as they are. For the first
// node, in document order, that can't be encoded it returns a *BadItemError, with UnknownType for one without a value, and
// ErrContainsItself for one that is in itself. Nesting takes no stack.
func Encode(root *Node) ([]byte, error) {
	found, bytes, seen := []Item(nil), make([]byte, 8), path{nil, map[*Node]bool{}}
	var bad error
	root.walk(func(node *Node, depth int) bool {
		if node == nil || node.Value == nil {
			bad = &BadItemError{len(found), UnknownType}
			return false
		}
		if seen.enter(node, depth) {
			bad = ErrContainsItself
			return false
		}
		offset := len(bytes) - 8
		bytes = node.Value.append(bytes)
		length := len(bytes) - 8 - offset
		if uint64(length) > math.MaxUint32 {
			bad = &BadItemError{len(found), TooLong}
			return false
		}
		found = append(found, Item{offset, depth, node.Tag, node.Value.Type(), uint32(length)})
		return true
	})
	if bad != nil {
		return nil, bad
	}
	return Write(found, bytes)
}

// shown writes what is shown of a node and all below it. One that contains itself ends with "..".
func (it *Node) shown() string {
	var text strings.Builder
	seen, open, between := path{nil, map[*Node]bool{}}, 0, ""
	it.walk(func(node *Node, depth int) bool {
		text.WriteString(strings.Repeat("]", open-depth))
		if open > depth {
			between = ", "
		}
		text.WriteString(between)
		again := seen.enter(node, depth)
		if node == nil || again {
			text.WriteString("..")
			open, between = depth, ", "
			return !again
		}
		fmt.Fprintf(&text, "0x%06X %s", node.Tag, alone(node.Value))
		open, between = depth, ", "
		if _, isStructure := node.Value.(Structure); isStructure {
			open, between = depth+1, ""
		}
		return true
	})
	return text.String() + strings.Repeat("]", open)
}

// alone returns what is shown of a value, without the nodes of a structure.
func alone(value Value) string {
	switch it := value.(type) {
	case Structure:
		return "["
	case Enumeration:
		return fmt.Sprintf("Enumeration 0x%08X", uint32(it))
	case nil:
		return ".."
	default:
		return it.Type().String()
	}
}

var names = [...]string{
	TypeStructure: "Structure", TypeInteger: "Integer", TypeLongInteger: "LongInteger", TypeBigInteger: "BigInteger",
	TypeEnumeration: "Enumeration", TypeBoolean: "Boolean", TypeTextString: "TextString", TypeByteString: "ByteString",
	TypeDateTime: "DateTime", TypeInterval: "Interval",
}

func (typ Type) String() string {
	if TypeStructure <= typ && typ <= TypeInterval {
		return names[typ]
	}
	return fmt.Sprintf("type %d", uint32(typ))
}

// Format prints without values, whatever the verb is.
func (it Node) Format(f fmt.State, _ rune) { fmt.Fprint(f, it.shown()) }

func (it Structure) Format(f fmt.State, _ rune) {
	for at, node := range it {
		fmt.Fprint(f, [2]string{"[", ", "}[min(at, 1)], node.shown())
	}
	fmt.Fprint(f, [2]string{"[]", "]"}[min(len(it), 1)])
}

func min(one, two int) int {
	if one < two {
		return one
	}
	return two
}

func (it Integer) Format(f fmt.State, _ rune)     { fmt.Fprint(f, alone(it)) }
func (it LongInteger) Format(f fmt.State, _ rune) { fmt.Fprint(f, alone(it)) }
func (it BigInteger) Format(f fmt.State, _ rune)  { fmt.Fprint(f, alone(it)) }
func (it Enumeration) Format(f fmt.State, _ rune) { fmt.Fprint(f, alone(it)) }
func (it Boolean) Format(f fmt.State, _ rune)     { fmt.Fprint(f, alone(it)) }
func (it TextString) Format(f fmt.State, _ rune)  { fmt.Fprint(f, alone(it)) }
func (it ByteString) Format(f fmt.State, _ rune)  { fmt.Fprint(f, alone(it)) }
func (it DateTime) Format(f fmt.State, _ rune)    { fmt.Fprint(f, alone(it)) }
func (it Interval) Format(f fmt.State, _ rune)    { fmt.Fprint(f, alone(it)) }
