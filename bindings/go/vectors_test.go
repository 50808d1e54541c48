package kmipttlv

import (
	"bytes"
	"errors"
	"fmt"
	"os"
	"strconv"
	"strings"
	"testing"
	"unicode"
)

// The tests that are data (docs/VECTORS.md in the repository), as rows that vectors.py of the C library's callers prints into the file that
// KMIP_TTLV_ROWS names. A row is a line: the test, the member and a number, and in hexadecimal the input, a prefix of tags, a table of names
// and what is wanted, with tabs between.
func TestVectors(t *testing.T) {
	rows, err := os.ReadFile(os.Getenv("KMIP_TTLV_ROWS"))
	if err != nil {
		t.Skip("KMIP_TTLV_ROWS names no file")
	}
	values, differ := 0, 0
	for _, line := range strings.Split(strings.TrimSuffix(string(rows), "\n"), "\n") {
		row := strings.Split(line, "\t")
		values++
		number, made := found(row[1], decoded(row[3]), string(decoded(row[4])), string(decoded(row[5])))
		if wanted, _ := strconv.Atoi(row[2]); number != wanted || made != string(decoded(row[6])) {
			differ++
			t.Errorf("%s: %s: differs", row[0], row[1])
		}
	}
	fmt.Printf("vectors: %d values, %d differ\n", values, differ)
}

// Kinds of faults as the tests call them.
var kinds = map[FaultKind]string{
	Cut: "cut", NoStructure: "no_structure", UnknownType: "unknown_type", PartialHeader: "partial_header", WrongLength: "wrong_length",
	Overlong: "overlong", InvalidValue: "invalid_value", Surplus: "surplus", TooLong: "too_long", NotJSON: "not_json", TooDeep: "too_deep",
	NotItem: "not_item", NotTag: "not_tag",
}

// found returns the number that a row of a test has, and what is wanted, or a text that says what went wrong.
func found(member string, given []byte, prefix, names string) (int, string) {
	plain := func(text string, err error) (int, string) {
		if err != nil {
			return 0, err.Error()
		}
		return 0, text
	}
	switch member {
	case "fault", "items", "cut":
		return walked(member, given)
	case "bad_line":
		var bad *BadNamesError
		_, err := ToTextNamed(given, names, false, NoLimit)
		errors.As(err, &bad)
		return bad.Line, ""
	case "printed_json":
		return plain(ToJSON(given, RedactNothing))
	case "printed_hidden_json":
		return plain(ToJSON(given, RedactValues))
	case "read_json":
		made, err := FromJSON(string(given))
		return plain(string(made), err)
	case "bad_json":
		var bad *MalformedError
		_, err := FromJSON(string(given))
		errors.As(err, &bad)
		return bad.Offset, kinds[bad.Kind]
	case "redacted_text":
		return plain(ToRedactedText(given, NoLimit))
	case "standard_text":
		return plain(ToText(given, false, NoLimit))
	case "text", "closed_text":
		return plain(ToTextNamed(given, names, member == "text", NoLimit))
	case "diagnostic", "closed_diagnostic":
		made, err := ToDiag(given, prefix, member == "diagnostic")
		_, text := plain(made.Text, err)
		return made.Read, text
	case "checked_diagnostic":
		return plain(ToDiagChecked(given, prefix))
	case "lines":
		return plain(FromDiag(string(given), prefix, names, NoLimit))
	default:
		return plain(decodedAs(member, given))
	}
}

// walked tries the calls that refuse other bytes than one whole message: each has the same fault, those that list or decode items the
// same items before it.
func walked(member string, given []byte) (int, string) {
	fault, shown, items, nodes := &MalformedError{}, &MalformedError{}, &MalformedError{}, &MalformedError{}
	errors.As(Check(given), &fault)
	_, err := ToDiagChecked(given, "")
	errors.As(err, &shown)
	listed, err := Items(given)
	errors.As(err, &items)
	_, err = Decode(given)
	errors.As(err, &nodes)
	for _, it := range []*MalformedError{shown, items, nodes} {
		if it.Offset != fault.Offset || it.Kind != fault.Kind || len(items.Items) != len(nodes.Items) {
			return -1, "faults differ"
		}
	}
	switch {
	case member == "items":
		return len(listed) + len(items.Items), ""
	case member == "fault" && fault.Kind == 0:
		return 0, "whole"
	case member == "fault":
		return fault.Offset, kinds[fault.Kind]
	}
	made, err := ToDiag(given, "", false)
	if err != nil || !strings.HasSuffix(made.Text, "ERR") {
		return -1, "no ERR"
	}
	return 0, kinds[fault.Kind]
}

// decodedAs returns what a message is decoded as, by its JSON, or written as, both by its items and by its nodes.
func decodedAs(member string, given []byte) (string, error) {
	node, err := Decode(given)
	if err != nil || member == "json" {
		return json(node), err
	}
	items, err := Items(given)
	if err != nil {
		return "", err
	}
	written, err := Write(items, given)
	encoded, again := Encode(node)
	if !bytes.Equal(written, encoded) || again != nil {
		return "items and nodes differ", nil
	}
	return string(written), err
}

// json returns the JSON of a node, which says of each value how it was decoded.
func json(node *Node) string {
	if node == nil {
		return ""
	}
	value := ""
	switch it := node.Value.(type) {
	case Structure:
		parts := make([]string, len(it))
		for at, below := range it {
			parts[at] = json(below)
		}
		value = "[" + strings.Join(parts, ",") + "]"
	case Integer:
		value = fmt.Sprintf(`"0x%08X"`, uint32(it))
	case Enumeration:
		value = fmt.Sprintf(`"0x%08X"`, uint32(it))
	case Interval:
		value = fmt.Sprintf(`"0x%08X"`, uint32(it))
	case LongInteger:
		value = fmt.Sprintf(`"0x%016X"`, uint64(it))
	case DateTime:
		value = fmt.Sprintf(`"0x%016X"`, uint64(it))
	case BigInteger:
		value = fmt.Sprintf(`"0x%X"`, []byte(it))
	case ByteString:
		value = fmt.Sprintf(`"%X"`, []byte(it))
	case Boolean:
		value = strconv.FormatBool(bool(it))
	case TextString:
		value = quoted(string(it))
	}
	return fmt.Sprintf(`{"tag":"0x%06X","type":"%v","value":%s}`, node.Tag, node.Value.Type(), value)
}

func quoted(text string) string {
	short := map[rune]string{'"': `\"`, '\\': `\\`, '\n': `\n`, '\r': `\r`, '\t': `\t`, '\b': `\b`, '\f': `\f`}
	var made strings.Builder
	for _, it := range text {
		if escape, known := short[it]; known {
			made.WriteString(escape)
		} else if unicode.IsControl(it) {
			fmt.Fprintf(&made, `\u%04x`, it)
		} else {
			made.WriteRune(it)
		}
	}
	return `"` + made.String() + `"`
}
