package kmipttlv

import (
	"bytes"
	"encoding/hex"
	"errors"
	"fmt"
	"math"
	"math/big"
	"math/rand"
	"reflect"
	"strings"
	"sync"
	"testing"
)

func decoded(digits string) []byte {
	bytes, err := hex.DecodeString(strings.ReplaceAll(digits, " ", ""))
	if err != nil {
		panic(err)
	}
	return bytes
}

// The protocol version 1.0, in a structure of two integers.
var version = decoded("42006901 00000020 42006A02 00000004 00000001 00000000 42006B02 00000004 00000000 00000000")

func versionNode() *Node {
	return &Node{0x420069, Structure{{0x42006A, Integer(1)}, {0x42006B, Integer(0)}}}
}

// around returns a structure of one item: its type, its length and its value in hexadecimal.
func around(item string) []byte {
	content := decoded("420020" + item)
	return append([]byte{0x42, 0, 0x20, 1, 0, 0, 0, byte(len(content))}, content...)
}

// nested returns structures, each in the one before.
func nested(depth int) []byte {
	var bytes []byte
	for at := depth - 1; at >= 0; at-- {
		bytes = append(bytes, 0x42, 0, 0x20, 1, byte(8*at>>24), byte(8*at>>16), byte(8*at>>8), byte(8*at))
	}
	return bytes
}

func same(t *testing.T, found, wanted any) {
	t.Helper()
	if !reflect.DeepEqual(found, wanted) {
		t.Errorf("%#v, wanted %#v", found, wanted)
	}
}

func good[T any](t *testing.T) func(T, error) T {
	return func(found T, err error) T {
		t.Helper()
		if err != nil {
			t.Fatal(err)
		}
		return found
	}
}

func TestTexts(t *testing.T) {
	text := good[string](t)
	lines := text(ToText(version, false, NoLimit))
	same(t, strings.Contains(lines, "Tag: Protocol Version Major (0x42006A), Type: Integer (0x02), Data: 0x000001 (1)\n"), true)
	lines = text(ToTextNamed(version, "420069 Version", false, NoLimit))
	same(t, strings.HasPrefix(lines, "Tag: Version (0x420069), Type: Structure (0x01), Data:\n"), true)
	same(t, good[Diagnostic](t)(ToDiag(version, "4200", false)), Diagnostic{"69[6Ai6Bi]", 3})
	same(t, text(ToDiagChecked(version, "4200")), "69[6Ai6Bi]")
	lines = text(FromDiag("69[6Ai6Bi]", "4200", "42006A Major", NoLimit))
	same(t, strings.Contains(lines, "  Tag: Major (0x42006A), Type: Integer (0x02), Data: <redacted>\n"), true)
	same(t, strings.TrimSuffix(Version(), "-unproved"), "0.2.0")
	text(ToText(nil, false, NoLimit))
	text(ToTextNamed([]byte{}, "", true, NoLimit))
	text(FromDiag("", "", "", NoLimit))
}

func TestTextsThatFail(t *testing.T) {
	_, err := ToTextNamed(version, "\nMajor", false, NoLimit)
	same(t, err, &BadNamesError{2})
	_, err = FromDiag("69[6Ai6Bi]", "4200", "\nMajor", NoLimit)
	same(t, err, &BadNamesError{2})
	for _, limit := range []int{16, 0, -1} {
		_, err = ToText(version, false, limit)
		same(t, errors.Is(err, ErrOutOfMemory), true)
	}
	_, err = ToText(nested(10_000), false, UsualLimit(80_000))
	same(t, errors.Is(err, ErrOutOfMemory), true)
	same(t, UsualLimit(math.MaxInt), NoLimit)
	_, err = ToDiag(version, "\xff", false)
	same(t, errors.Is(err, ErrNotUTF8), true)
	_, err = ToDiagChecked(version[:39], "")
	same(t, err, &MalformedError{24, Cut, nil})
	same(t, Check(version[:39]).Error(), "at byte 24: the bytes end within the root")
}

func TestJSON(t *testing.T) {
	message := good[[]byte](t)(Encode(&Node{0x420023, Structure{{0x4200A1, TextString("p")}, {0x420024, Enumeration(1)}}}))
	shown := `{"tag":"0x420023","type":"Structure","value":[{"tag":"0x4200A1","type":"TextString","value":%s},` +
		`{"tag":"0x420024","type":"Enumeration","value":"0x00000001"}]}`
	text := good[string](t)
	same(t, text(ToJSON(message, RedactNothing)), fmt.Sprintf(shown, `"p"`))
	same(t, text(ToJSON(message, RedactSecrets)), fmt.Sprintf(shown, "null"))
	same(t, text(ToJSON(message, RedactValues)), fmt.Sprintf(shown, "null"))
	same(t, good[[]byte](t)(FromJSON(text(ToJSON(message, RedactNothing)))), message)
	_, err := ToJSON(message, 3)
	same(t, err, ErrBadRedact)
	_, err = ToJSON(version[:39], RedactValues)
	same(t, err, &MalformedError{24, Cut, nil})
	_, err = FromJSON(" {}")
	same(t, err, &MalformedError{1, NotItem, nil})
	same(t, err.Error(), "at byte 1: an item without exactly tag, type and value")
	_, err = FromJSON("\xff")
	same(t, errors.Is(err, ErrNotUTF8), true)
}

func TestNames(t *testing.T) {
	for _, row := range []struct {
		wanted string
		is     bool
		found  func() (string, bool, error)
	}{
		{"Key Material", true, func() (string, bool, error) { return TagName(0x420043) }},
		{"", false, func() (string, bool, error) { return TagName(0x1420043) }},
		{"Destroy", true, func() (string, bool, error) { return ValueName(0x42005C, 0x14) }},
		{"", false, func() (string, bool, error) { return ValueName(0x420069, 1) }},
		{"Encrypt | Decrypt", true, func() (string, bool, error) { return MaskNames(0x42002C, 12) }},
		{"", true, func() (string, bool, error) { return MaskNames(0x42002C, 0) }},
		{"", false, func() (string, bool, error) { return MaskNames(0x42005C, 1) }},
	} {
		found, is, err := row.found()
		same(t, []any{found, is, err}, []any{row.wanted, row.is, nil})
	}
}

func TestRedactedText(t *testing.T) {
	rest := ", Type: Integer (0x02), Data: <redacted>"
	wanted := "Tag: Protocol Version (0x420069), Type: Structure (0x01), Data: \n  Tag: Protocol Version Major (0x42006A)" + rest +
		"\n  Tag: Protocol Version Minor (0x42006B)" + rest
	same(t, good[string](t)(ToRedactedText(version, NoLimit)), wanted)
	_, err := ToRedactedText(version[:39], NoLimit)
	same(t, err, &MalformedError{24, Cut, nil})
	_, err = ToRedactedText(version, 16)
	same(t, errors.Is(err, ErrOutOfMemory), true)
}

func TestItems(t *testing.T) {
	found := good[[]Item](t)(Items(version))
	same(t, found[1:], []Item{{8, 1, 0x42006A, TypeInteger, 4}, {24, 1, 0x42006B, TypeInteger, 4}})
	write := good[[]byte](t)
	same(t, write(Write(found, version)), version)
	same(t, len(write(Write([]Item{found[0], found[1], found[1], found[2]}, version))), 56)
	same(t, len(write(Write(nil, nil))), 0)
	_, err := Items(version[:39])
	same(t, err, &MalformedError{24, Cut, found[:2]})
	same(t, Check(version[:39]), error(&MalformedError{24, Cut, nil}))
	same(t, Check(version), nil)
}

func TestFaults(t *testing.T) {
	for _, row := range []struct {
		bytes  []byte
		offset int
		kind   FaultKind
	}{
		{nil, 0, Cut},
		{decoded("42006901000000"), 0, Cut},
		{decoded("4200690100000008"), 8, Cut},
		{decoded("42006A02 00000004 00000001 00000000"), 0, NoStructure},
		{make([]byte, 8), 0, UnknownType},
		{decoded("42002001 00000004 00000000"), 8, PartialHeader},
		{around("02 00000005 0000000000000000"), 8, WrongLength},
		{decoded("42002001 00000008 42006A02 00000004 00000001 00000000"), 8, Overlong},
		{around("06 00000008 0000000000000002"), 8, InvalidValue},
		{decoded("42006901 00000000 42"), 8, Surplus},
	} {
		same(t, Check(row.bytes), error(&MalformedError{row.offset, row.kind, nil}))
	}
}

func TestItemsThatCannotBeWritten(t *testing.T) {
	root, item := Item{0, 0, 0x420020, TypeStructure, 0}, Item{0, 1, 0x420020, TypeInteger, 4}
	for _, row := range []struct {
		bad  Item
		kind FaultKind
	}{
		{Item{0, 2, 0x420020, TypeInteger, 4}, NotInside},
		{Item{0, -1, 0x420020, TypeInteger, 4}, NotInside},
		{Item{0, 1, 1 << 24, TypeInteger, 4}, LongTag},
		{Item{0, 1, 0x420020, 11, 4}, UnknownType},
		{Item{0, 1, 0x420020, TypeInteger, 5}, WrongLength},
		{Item{13, 1, 0x420020, TypeInteger, 4}, Outside},
		{Item{-1, 1, 0x420020, TypeInteger, 4}, Outside},
		{Item{0, 1, 0x420020, TypeBoolean, 8}, InvalidValue},
	} {
		_, err := Write([]Item{root, item, row.bad}, bytes.Repeat([]byte{2}, 24))
		same(t, err, &BadItemError{2, row.kind})
	}
	itself := &Node{0x420020, nil}
	itself.Value = Structure{{0x420020, Structure{itself}}}
	_, err := Encode(itself)
	same(t, errors.Is(err, ErrContainsItself), true)
	same(t, fmt.Sprint(itself), "0x420020 [0x420020 [0x420020 [..]]]")
	for _, bad := range []*Node{nil, {0x420020, nil}} {
		_, err = Encode(&Node{0x420020, Structure{{0x420020, Boolean(true)}, bad}})
		same(t, err, &BadItemError{2, UnknownType})
	}
	_, err = Encode(&Node{0x420020, Structure{{1 << 24, Boolean(true)}}})
	same(t, err.Error(), "item 1: its tag is no number below 2^24")
}

// The standard's examples of encodings (9.1.2), and values at the ends of their ranges.
func TestValues(t *testing.T) {
	for _, row := range []struct {
		item  string
		value Value
	}{
		{"02 00000004 00000008 00000000", Integer(8)},
		{"02 00000004 FFFFFFFF 00000000", Integer(-1)},
		{"03 00000008 01B69B4BA5749200", LongInteger(123456789000000000)},
		{"04 00000010 0000000003FD35EB6BC2DF4618080000", BigInteger(decoded("0000000003FD35EB6BC2DF4618080000"))},
		{"05 00000004 000000FF 00000000", Enumeration(255)},
		{"05 00000004 FFFFFFFF 00000000", Enumeration(math.MaxUint32)},
		{"06 00000008 0000000000000001", Boolean(true)},
		{"06 00000008 0000000000000000", Boolean(false)},
		{"07 0000000B 48656C6C6F20576F726C640000000000", TextString("Hello World")},
		{"08 00000003 0102030000000000", ByteString{1, 2, 3}},
		{"09 00000008 0000000047DA67F8", DateTime(1205495800)},
		{"09 00000008 8000000000000000", DateTime(math.MinInt64)},
		{"0A 00000004 000D2F00 00000000", Interval(10 * 24 * 60 * 60)},
		{"01 00000000", Structure{}},
	} {
		root := &Node{0x420020, Structure{{0x420020, row.value}}}
		same(t, good[*Node](t)(Decode(around(row.item))), root)
		same(t, good[[]byte](t)(Encode(root)), around(row.item))
	}
	same(t, good[*Node](t)(Decode(version)), versionNode())
	_, err := Decode(version[:39])
	var malformed *MalformedError
	same(t, errors.As(err, &malformed) && len(malformed.Items) == 2, true)
}

func TestBigIntegers(t *testing.T) {
	for bytes, text := range map[string]string{
		"0000000003FD35EB6BC2DF4618080000":   "1234567890000000000000000000",
		"0000000000000000":                   "0",
		"FFFFFFFFFFFFFFFF":                   "-1",
		"8000000000000000":                   "-9223372036854775808",
		"00000000000000008000000000000000":   "9223372036854775808",
		"FFFFFFFFFFFFFFFF7FFFFFFFFFFFFFFF":   "-9223372036854775809",
		"7FFFFFFFFFFFFFFF":                   "9223372036854775807",
		"FFFFFFFFFFFFFFFF0000000000000000":   "-18446744073709551616",
		"80000000000000000000000000000000":   "-170141183460469231731687303715884105728",
		"0000000000000001 0000000000000000 ": "18446744073709551616",
	} {
		number, _ := new(big.Int).SetString(text, 10)
		same(t, NewBigInteger(number), BigInteger(decoded(bytes)))
		same(t, BigInteger(decoded(bytes)).Int().String(), text)
	}
	same(t, BigInteger(nil).Int().String(), "0")
	same(t, BigInteger{0xFF}.Int().String(), "-1")
}

// No value is shown but those of enumerations, whatever the verb is.
func TestWhatIsShown(t *testing.T) {
	secret := &Node{0x420043, ByteString("0123456789")}
	inner := &Node{0x420045, Structure{secret, {0x420042, Enumeration(1)}}}
	root := &Node{0x420040, Structure{inner, secret, {0x420008, Structure{}}, secret}}
	key := "0x420043 ByteString"
	wanted := "0x420040 [0x420045 [" + key + ", 0x420042 Enumeration 0x00000001], " + key + ", 0x420008 [], " + key + "]"
	for _, verb := range []string{"%v", "%+v", "%#v", "%s", "%q", "%x", "%d"} {
		same(t, fmt.Sprintf(verb, root), wanted)
		same(t, fmt.Sprintf(verb, *root), wanted)
		same(t, fmt.Sprintf(verb, secret.Value), "ByteString")
		same(t, fmt.Sprintf(verb, TextString("key")), "TextString")
		same(t, fmt.Sprintf(verb, versionNode().Value), "[0x42006A Integer, 0x42006B Integer]")
	}
	for _, value := range []Value{Integer(1), LongInteger(1), BigInteger{1}, Boolean(true), DateTime(1), Interval(1)} {
		same(t, fmt.Sprint(value), value.Type().String())
	}
	same(t, fmt.Sprint(Structure{}), "[]")
}

// Decoding, encoding and printing take no stack.
func TestDeepNodes(t *testing.T) {
	depth := 300_000
	message := nested(depth)
	node := good[*Node](t)(Decode(message))
	same(t, len(fmt.Sprint(node)), depth*len("0x420020 []"))
	same(t, bytes.Equal(good[[]byte](t)(Encode(node)), message), true)
	count := 0
	for it := node; it != nil; count++ {
		if below := it.Value.(Structure); len(below) == 1 {
			it = below[0]
		} else {
			it = nil
		}
	}
	same(t, count, depth)
}

// Several goroutines at a time, each with hostile messages of its own.
func TestHostileBytes(t *testing.T) {
	var all sync.WaitGroup
	for worker := int64(0); worker < 4; worker++ {
		all.Add(1)
		go func(chance *rand.Rand) {
			defer all.Done()
			for count := 0; count < 1000; count++ {
				hostile := append([]byte{}, version[:chance.Intn(len(version)+1)]...)
				if len(hostile) > 0 {
					hostile[chance.Intn(len(hostile))] ^= 1 << chance.Intn(8)
				}
				tryHostile(t, hostile)
			}
		}(rand.New(rand.NewSource(20251123 + worker)))
	}
	all.Wait()
}

func tryHostile(t *testing.T, hostile []byte) {
	fault := Check(hostile)
	_, err := ToDiagChecked(hostile, "4200")
	same(t, err, fault)
	node, err := Decode(hostile)
	same(t, err == nil, fault == nil)
	if err == nil {
		written, err := Encode(node)
		again, _ := Decode(written)
		same(t, err, nil)
		same(t, again, node)
	}
	_, err = ToDiag(hostile, "4200", false)
	same(t, err, nil)
	_, err = ToText(hostile, false, UsualLimit(len(hostile)))
	same(t, err, nil)
}
