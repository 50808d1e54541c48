import static kmipttlv.KmipTtlv.*;

import java.nio.charset.StandardCharsets;
import java.nio.file.Files;
import java.nio.file.Path;
import java.util.ArrayList;
import java.util.Arrays;
import java.util.HexFormat;
import java.util.List;
import java.util.Locale;
import java.util.Objects;
import java.util.Optional;
import java.util.Random;
import java.util.concurrent.atomic.AtomicInteger;
import java.util.stream.Collectors;
import kmipttlv.*;

/**
 * Tests of the library from Java: worked messages, walks, errors, nodes, hostile bytes from several threads, and, as rows of a file that is
 * named, the tests that are data (docs/VECTORS.md in the repository), which vectors.py of the C library's callers prints.
 */
public final class Tests {
    private Tests() {}

    /** A call that may throw. */
    interface Call {
        Object made() throws Exception;
    }

    private static final AtomicInteger FAILED = new AtomicInteger();

    private static void same(Object found, Object wanted) {
        if (!Objects.equals(found, wanted)) {
            FAILED.incrementAndGet();
            StackWalker.getInstance().forEach(it -> System.out.println("  " + it));
            System.out.println(found + ", wanted " + wanted);
        }
    }

    /** What a call throws, in its words. */
    private static String refused(Class<? extends Throwable> kind, Call call) {
        try {
            return "nothing was thrown, but returned " + call.made();
        } catch (Throwable why) {
            return kind.isInstance(why) ? String.valueOf(why.getMessage()) : why.toString();
        }
    }

    private static byte[] decoded(String digits) {
        return HexFormat.of().parseHex(digits.replace(" ", ""));
    }

    private static String digits(byte[] bytes) {
        return HexFormat.of().withUpperCase().formatHex(bytes);
    }

    /** The protocol version 1.0, in a Structure of two Integers. */
    private static final byte[] VERSION = decoded("42006901 00000020 42006A02 00000004 00000001 00000000 42006B02 00000004 00000000 00000000");

    private static Node structure(int tag, Node... nodes) {
        return new Node(tag, new Value.Structure(nodes));
    }

    private static final Node VERSION_NODE =
            structure(0x420069, new Node(0x42006A, new Value.Integer(1)), new Node(0x42006B, new Value.Integer(0)));

    /** A Structure of one item: its type, its length and its value in hexadecimal. */
    private static byte[] around(String item) {
        String content = "420020" + item.replace(" ", "");
        return decoded("42002001%08X%s".formatted(content.length() / 2, content));
    }

    /** Structures, each in the one before. */
    private static byte[] nested(int depth) {
        StringBuilder all = new StringBuilder();
        for (int at = depth - 1; at >= 0; at--) {
            all.append("42002001%08X".formatted(8 * at));
        }
        return decoded(all.toString());
    }

    private static void texts() throws Exception {
        same(toText(VERSION, false, Long.MAX_VALUE).contains("Tag: Protocol Version Major (0x42006A), Type: Integer (0x02), Data: 0x000001 (1)\n"), true);
        same(toText(VERSION, "420069 Version", false, 1 << 20).startsWith("Tag: Version (0x420069), Type: Structure (0x01), Data:\n"), true);
        same(toDiag(VERSION, "4200", false), new Diagnostic("69[6Ai6Bi]", 3));
        same(toDiagChecked(VERSION, "4200"), "69[6Ai6Bi]");
        String lines = fromDiag("69[6Ai6Bi]", "4200", "42006A Major", 1 << 20);
        same(lines.contains("  Tag: Major (0x42006A), Type: Integer (0x02), Data: <redacted>\n"), true);
        same(version().replace("-unproved", ""), "0.2.0");
        same(toDiag(new byte[0], "", true).text(), toDiag(new byte[0], "4200", false).text());
        same(fromDiag("", "", "", 1 << 20), "");
    }

    private static void textsThatFail() {
        String line = "line 2 of the table of names can't be read", memory = "out of memory, or the text takes more than its limit";
        same(refused(BadNamesException.class, () -> toText(VERSION, "\nMajor", false, 1 << 20)), line);
        same(refused(BadNamesException.class, () -> fromDiag("69[6Ai6Bi]", "4200", "\nMajor", 1 << 20)), line);
        for (long limit : new long[] {16, 0, -1, Long.MIN_VALUE}) {
            same(refused(OutOfMemoryException.class, () -> toText(VERSION, false, limit)), memory);
        }
        same(refused(OutOfMemoryException.class, () -> toText(nested(10_000), false, usualLimit(80_000))), memory);
        same(refused(IllegalArgumentException.class, () -> toDiag(VERSION, "\ud800", false)), "a text has half of a surrogate pair");
        for (Call call : List.<Call>of(() -> toText(null, false, 1), () -> toDiag(null, "", false), () -> toDiag(VERSION, null, false), () -> decode(null),
                () -> items(null), () -> write(List.of(), null), () -> toText(VERSION, null, false, 1), () -> fromDiag(null, "", "", 1))) {
            same(refused(NullPointerException.class, call).startsWith("nothing"), false);
        }
        String cut = "at byte 24: the bytes end within the root";
        byte[] beginning = Arrays.copyOf(VERSION, 39);
        for (Call call : List.<Call>of(() -> toDiagChecked(beginning, ""), () -> items(beginning), () -> decode(beginning))) {
            same(refused(MalformedException.class, call), cut);
        }
    }

    private static void json() throws Exception {
        Node password = new Node(0x4200A1, new Value.TextString("p")), kind = new Node(0x420024, new Value.Enumeration(1));
        byte[] message = encode(structure(0x420023, password, kind));
        String shown = "{\"tag\":\"0x420023\",\"type\":\"Structure\",\"value\":[{\"tag\":\"0x4200A1\",\"type\":\"TextString\",\"value\":%s},"
                + "{\"tag\":\"0x420024\",\"type\":\"Enumeration\",\"value\":\"0x00000001\"}]}";
        same(toJson(message, Redact.NOTHING), shown.formatted("\"p\""));
        same(toJson(message, Redact.SECRETS), shown.formatted("null"));
        same(toJson(message, Redact.VALUES), shown.formatted("null"));
        same(digits(fromJson(toJson(message, Redact.NOTHING))), digits(message));
        same(refused(MalformedException.class, () -> fromJson(" {}")), "at byte 1: an item without exactly tag, type and value");
        same(refused(MalformedException.class, () -> fromJson("")), "at byte 0: not JSON");
        same(refused(MalformedException.class, () -> toJson(Arrays.copyOf(VERSION, 39), Redact.VALUES)), "at byte 24: the bytes end within the root");
        same(refused(IllegalArgumentException.class, () -> fromJson("\ud800")), "a text has half of a surrogate pair");
    }

    private static void names() {
        same(tagName(0x420043), Optional.of("Key Material"));
        same(valueName(0x42005C, 0x14), Optional.of("Destroy"));
        same(maskNames(0x42002C, 12), Optional.of("Encrypt | Decrypt"));
        same(maskNames(0x42002C, 0), Optional.of(""));
        for (Optional<String> none : List.of(tagName(0x540001), tagName(0x1420043), tagName(-1), valueName(0x42005C, -1), maskNames(0x42005C, 1))) {
            same(none, Optional.empty());
        }
    }

    private static void redactedTexts() throws Exception {
        String rest = ", Type: Integer (0x02), Data: <redacted>", lines = toRedactedText(VERSION, usualLimit(40));
        same(lines, "Tag: Protocol Version (0x420069), Type: Structure (0x01), Data: \n  Tag: Protocol Version Major (0x42006A)" + rest
                + "\n  Tag: Protocol Version Minor (0x42006B)" + rest);
        same(refused(OutOfMemoryException.class, () -> toRedactedText(VERSION, 16)), "out of memory, or the text takes more than its limit");
        same(refused(MalformedException.class, () -> toRedactedText(Arrays.copyOf(VERSION, 39), 1 << 20)), "at byte 24: the bytes end within the root");
    }

    private static void lists() throws Exception {
        List<Item> found = items(VERSION);
        same(found.subList(1, 3), List.of(new Item(8, 1, 0x42006A, 2, 4), new Item(24, 1, 0x42006B, 2, 4)));
        same(digits(write(found, VERSION)), digits(VERSION));
        same(write(List.of(found.get(0), found.get(1), found.get(1), found.get(2)), VERSION).length, 56);
        same(write(List.of(), new byte[0]).length, 0);
        try {
            items(Arrays.copyOf(VERSION, 39));
        } catch (MalformedException why) {
            same(List.of(why.offset, why.fault, why.items), List.of(24L, Fault.CUT, found.subList(0, 2)));
        }
    }

    private static String faultOf(byte[] bytes) {
        try {
            check(bytes);
            return "whole";
        } catch (MalformedException why) {
            same(why.items, List.of());
            return why.offset + " " + why.fault;
        }
    }

    private static void faults() {
        same(faultOf(VERSION), "whole");
        same(faultOf(new byte[0]), "0 CUT");
        same(faultOf(decoded("42006901000000")), "0 CUT");
        same(faultOf(decoded("4200690100000008")), "8 CUT");
        same(faultOf(decoded("42006A02 00000004 00000001 00000000")), "0 NO_STRUCTURE");
        same(faultOf(new byte[8]), "0 UNKNOWN_TYPE");
        same(faultOf(decoded("42002001 00000004 00000000")), "8 PARTIAL_HEADER");
        same(faultOf(around("02 00000005 0000000000000000")), "8 WRONG_LENGTH");
        same(faultOf(decoded("42002001 00000008 42006A02 00000004 00000001 00000000")), "8 OVERLONG");
        same(faultOf(around("06 00000008 0000000000000002")), "8 INVALID_VALUE");
        same(faultOf(decoded("42006901 00000000 42")), "8 SURPLUS");
    }

    private static void itemsThatCannotBeWritten() {
        Item root = new Item(0, 0, 0x420020, 1, 0), good = new Item(0, 1, 0x420020, 2, 4);
        byte[] bytes = new byte[24];
        Arrays.fill(bytes, (byte) 2);
        Object[][] rows = {
            {new Item(0, 2, 0x420020, 2, 4), Fault.NOT_INSIDE},
            {new Item(0, -1, 0x420020, 2, 4), Fault.NOT_INSIDE},
            {new Item(0, 1, 1 << 24, 2, 4), Fault.LONG_TAG},
            {new Item(0, 1, -1, 2, 4), Fault.LONG_TAG},
            {new Item(0, 1, 0x420020, 11, 4), Fault.UNKNOWN_TYPE},
            {new Item(0, 1, 0x420020, -1, 4), Fault.UNKNOWN_TYPE},
            {new Item(0, 1, 0x420020, 2, 5), Fault.WRONG_LENGTH},
            {new Item(13, 1, 0x420020, 2, 4), Fault.OUTSIDE},
            {new Item(-1, 1, 0x420020, 2, 4), Fault.OUTSIDE},
            {new Item(0, 1, 0x420020, 8, 0xFFFF_FFFFL), Fault.OUTSIDE},
            {new Item(0, 1, 0x420020, 6, 8), Fault.INVALID_VALUE},
        };
        for (Object[] row : rows) {
            String words = "item 2: " + ((Fault) row[1]).words;
            same(refused(BadItemException.class, () -> write(List.of(root, good, (Item) row[0]), bytes)), words);
        }
        for (long length : new long[] {-1, 1L << 32}) {
            String words = "the length of an item isn't one of four bytes";
            same(refused(IllegalArgumentException.class, () -> write(List.of(new Item(0, 0, 0x420020, 8, length)), bytes)), words);
        }
        Node bad = structure(0x420020, new Node(1 << 24, new Value.Boolean(true)));
        same(refused(BadItemException.class, () -> encode(bad)), "item 1: its tag is no number below 2^24");
        same(refused(IllegalArgumentException.class, () -> new Value.TextString("a\udfffb")), "a text has half of a surrogate pair");
    }

    /** The standard's examples of encodings (9.1.2), and values at the ends of their ranges. */
    private static void values() throws Exception {
        Object[][] rows = {
            {"02 00000004 00000008 00000000", new Value.Integer(8)},
            {"02 00000004 FFFFFFFF 00000000", new Value.Integer(-1)},
            {"03 00000008 01B69B4BA5749200", new Value.LongInteger(123456789000000000L)},
            {"04 00000010 0000000003FD35EB6BC2DF4618080000", new Value.BigInteger(decoded("0000000003FD35EB6BC2DF4618080000"))},
            {"05 00000004 000000FF 00000000", new Value.Enumeration(255)},
            {"05 00000004 FFFFFFFF 00000000", new Value.Enumeration(0xFFFFFFFF)},
            {"06 00000008 0000000000000001", new Value.Boolean(true)},
            {"06 00000008 0000000000000000", new Value.Boolean(false)},
            {"07 0000000B 48656C6C6F20576F726C640000000000", new Value.TextString("Hello World")},
            {"08 00000003 0102030000000000", new Value.ByteString(new byte[] {1, 2, 3})},
            {"09 00000008 0000000047DA67F8", new Value.DateTime(1205495800)},
            {"09 00000008 8000000000000000", new Value.DateTime(Long.MIN_VALUE)},
            {"0A 00000004 000D2F00 00000000", new Value.Interval(10 * 24 * 60 * 60)},
            {"01 00000000", new Value.Structure()},
        };
        for (Object[] row : rows) {
            Node root = structure(0x420020, new Node(0x420020, (Value) row[1]));
            byte[] message = around((String) row[0]);
            same(decode(message), root);
            same(decode(message).hashCode(), root.hashCode());
            same(digits(encode(root)), digits(message));
        }
        same(decode(VERSION), VERSION_NODE);
        nodesThatDiffer();
        same(new Value.DateTime(1205495800).instant().toString(), "2008-03-14T11:56:40Z");
    }

    /** Of these no two are the same: in tags, types, values, and how they nest. */
    private static void nodesThatDiffer() {
        Node leaf = new Node(2, new Value.Integer(1));
        List<Node> nodes = List.of(leaf, new Node(1, new Value.Integer(1)), new Node(2, new Value.Integer(2)), new Node(2, new Value.Enumeration(1)),
                structure(2), structure(1), structure(1, leaf), structure(1, leaf, leaf), structure(1, structure(1), leaf),
                structure(1, structure(1, leaf)), structure(1, leaf, structure(1)));
        for (Node one : nodes) {
            for (Node two : nodes) {
                same(one.equals(two), one == two);
                same(one.value().equals(two.value()), new Node(3, one.value()).equals(new Node(3, two.value())));
            }
        }
    }

    private static void bigIntegers() {
        String[][] rows = {
            {"0000000003FD35EB6BC2DF4618080000", "1234567890000000000000000000"},
            {"0000000000000000", "0"},
            {"FFFFFFFFFFFFFFFF", "-1"},
            {"8000000000000000", "-9223372036854775808"},
            {"00000000000000008000000000000000", "9223372036854775808"},
            {"FFFFFFFFFFFFFFFF7FFFFFFFFFFFFFFF", "-9223372036854775809"},
            {"FFFFFFFFFFFFFFFF0000000000000000", "-18446744073709551616"},
        };
        for (String[] row : rows) {
            same(digits(Value.BigInteger.of(new java.math.BigInteger(row[1])).bytes()), row[0]);
            same(new Value.BigInteger(decoded(row[0])).number().toString(), row[1]);
        }
        same(new Value.BigInteger(new byte[0]).number().toString(), "0");
        // what was passed and what was read are copies
        byte[] bytes = {1};
        Value.ByteString value = new Value.ByteString(bytes);
        bytes[0] = value.bytes()[0] = 2;
        value.bytes()[0] = 3;
        same(value, new Value.ByteString(new byte[] {1}));
    }

    /** No value is shown but those of Enumerations. */
    private static void whatIsShown() {
        Node secret = new Node(0x420043, new Value.ByteString("0123456789".getBytes(StandardCharsets.UTF_8)));
        Node inner = structure(0x420045, secret, new Node(0x420042, new Value.Enumeration(1)));
        Node root = structure(0x420040, inner, secret, structure(0x420008), secret);
        String key = "0x420043 ByteString";
        same(root.toString(), "0x420040 [0x420045 [" + key + ", 0x420042 Enumeration 0x00000001], " + key + ", 0x420008 [], " + key + "]");
        same(VERSION_NODE.value().toString(), "[0x42006A Integer, 0x42006B Integer]");
        for (Value it : List.of(new Value.Integer(1), new Value.LongInteger(1), new Value.BigInteger(new byte[8]), new Value.Boolean(true),
                new Value.TextString("key"), new Value.ByteString(new byte[8]), new Value.DateTime(1), new Value.Interval(1))) {
            same(it.toString(), it.getClass().getSimpleName());
        }
    }

    /** Decoding, encoding, comparing, hashing and printing take no stack. */
    private static void deepNodes() throws Exception {
        int depth = 100_000;
        byte[] message = nested(depth);
        Node node = decode(message);
        same(node.equals(decode(message)) && !node.equals(decode(nested(depth - 1))), true);
        same(node.hashCode(), decode(message).hashCode());
        same(node.toString().length(), depth * "0x420020 []".length());
        same(Arrays.equals(encode(node), message), true);
    }

    private static void hostileBytes() throws Exception {
        List<Thread> threads = new ArrayList<>();
        for (int worker = 0; worker < 4; worker++) {
            Random chance = new Random(20251123 + worker);
            threads.add(new Thread(() -> {
                for (int count = 0; count < 1000; count++) {
                    byte[] hostile = Arrays.copyOf(VERSION, chance.nextInt(VERSION.length + 1));
                    if (hostile.length > 0) {
                        hostile[chance.nextInt(hostile.length)] ^= (byte) (1 << chance.nextInt(8));
                    }
                    tryHostile(hostile);
                }
            }));
        }
        threads.forEach(Thread::start);
        for (Thread it : threads) {
            it.join();
        }
    }

    private static void tryHostile(byte[] hostile) {
        String fault = faultOf(hostile);
        toDiag(hostile, "4200", false);
        toText(hostile, false, usualLimit(hostile.length));
        try {
            Node node = decode(hostile);
            same(fault, "whole");
            same(decode(encode(node)), node);
        } catch (MalformedException why) {
            same(why.offset + " " + why.fault, fault);
        }
    }

    // ---- the tests that are data ----

    /** The number that a row of a test has, and what is wanted, with a blank between. */
    private static String found(String member, byte[] given, String prefix, String names) throws Exception {
        long any = Long.MAX_VALUE;
        return switch (member) {
            case "fault", "items", "cut" -> walked(member, given);
            case "bad_line" -> refused(BadNamesException.class, () -> toText(given, names, false, any)).replaceAll("\\D", "") + " ";
            case "redacted_text" -> "0 " + toRedactedText(given, any);
            case "printed_json" -> "0 " + toJson(given, Redact.NOTHING);
            case "printed_hidden_json" -> "0 " + toJson(given, Redact.VALUES);
            case "read_json" -> "0 " + new String(fromJson(new String(given, StandardCharsets.UTF_8)), StandardCharsets.ISO_8859_1);
            case "bad_json" -> unread(new String(given, StandardCharsets.UTF_8));
            case "standard_text" -> "0 " + toText(given, false, any);
            case "text", "closed_text" -> "0 " + toText(given, names, member.equals("text"), any);
            case "diagnostic", "closed_diagnostic" -> {
                Diagnostic made = toDiag(given, prefix, member.equals("diagnostic"));
                yield made.read() + " " + made.text();
            }
            case "checked_diagnostic" -> "0 " + toDiagChecked(given, prefix);
            case "lines" -> "0 " + fromDiag(new String(given, StandardCharsets.UTF_8), prefix, names, any);
            case "json" -> "0 " + json(decode(given));
            case "canonical" -> {
                byte[] written = write(items(given), given);
                same(digits(encode(decode(given))), digits(written));
                yield "0 " + new String(written, StandardCharsets.ISO_8859_1);
            }
            default -> throw new IllegalArgumentException(member);
        };
    }

    /** Where and why a text is not the JSON of a message. */
    private static String unread(String json) {
        try {
            return digits(fromJson(json));
        } catch (MalformedException why) {
            return why.offset + " " + why.fault.name().toLowerCase(Locale.ROOT);
        }
    }

    /** The same of the calls that refuse other bytes than one whole message: each has the same fault. */
    private static String walked(String member, byte[] given) {
        String fault = faultOf(given);
        long count = 0;
        for (Call call : List.<Call>of(() -> toDiagChecked(given, ""), () -> decode(given), () -> items(given))) {
            try {
                Object made = call.made();
                same(fault, "whole");
                count = made instanceof List<?> found ? found.size() : 0;
            } catch (MalformedException why) {
                same(why.offset + " " + why.fault, fault);
                count = why.items.size();
            } catch (Exception why) {
                same(why, null);
            }
        }
        String kind = fault.substring(fault.indexOf(' ') + 1).toLowerCase(Locale.ROOT);
        return switch (member) {
            case "items" -> count + " ";
            case "fault" -> (fault.equals("whole") ? "0" : fault.substring(0, fault.indexOf(' '))) + " " + kind;
            default -> "0 " + (toDiag(given, "", false).text().endsWith("ERR") ? kind : "no ERR");
        };
    }

    /** The JSON of a node, which says of each value how it was decoded. */
    private static String json(Node node) {
        Value value = node.value();
        String hexadecimal = digits(value.content()), shown = "\"0x" + hexadecimal + "\"";
        if (value instanceof Value.Structure it) {
            shown = it.nodes().stream().map(Tests::json).collect(Collectors.joining(",", "[", "]"));
        } else if (value instanceof Value.Boolean it) {
            shown = String.valueOf(it.holds());
        } else if (value instanceof Value.TextString it) {
            shown = it.text().chars().mapToObj(Tests::escaped).collect(Collectors.joining("", "\"", "\""));
        } else if (value instanceof Value.ByteString) {
            shown = "\"" + hexadecimal + "\"";
        }
        return "{\"tag\":\"0x%06X\",\"type\":\"%s\",\"value\":%s}".formatted(node.tag(), value.getClass().getSimpleName(), shown);
    }

    private static String escaped(int unit) {
        int at = "\"\\\n\r\t\b\f".indexOf(unit);
        return at >= 0 ? "\\" + "\"\\nrtbf".charAt(at) : Character.isISOControl(unit) ? "\\u%04x".formatted(unit) : String.valueOf((char) unit);
    }

    private static void vectors(Path rows) throws Exception {
        int values = 0, differ = 0;
        for (String line : Files.readAllLines(rows)) {
            String[] row = line.split("\t", -1);
            String[] words = {row[4], row[5], row[6]};
            Arrays.setAll(words, at -> new String(decoded(words[at]), StandardCharsets.UTF_8));
            String wanted = row[2] + " " + (List.of("canonical", "read_json").contains(row[1]) ? new String(decoded(row[6]), StandardCharsets.ISO_8859_1) : words[2]);
            values++;
            if (!found(row[1], decoded(row[3]), words[0], words[1]).equals(wanted)) {
                differ++;
                System.out.println(row[0] + ": " + row[1] + ": differs");
            }
        }
        System.out.println("vectors: " + values + " values, " + differ + " differ");
        same(values > 0 && differ == 0, true);
    }

    public static void main(String[] words) throws Exception {
        texts();
        textsThatFail();
        json();
        names();
        redactedTexts();
        lists();
        faults();
        itemsThatCannotBeWritten();
        values();
        bigIntegers();
        whatIsShown();
        deepNodes();
        hostileBytes();
        if (words.length > 0 && Files.exists(Path.of(words[0]))) {
            vectors(Path.of(words[0]));
        }
        System.out.println(FAILED.get() == 0 ? "Java: all held" : "Java: " + FAILED + " didn't hold");
        System.exit(FAILED.get() == 0 ? 0 : 1);
    }
}
