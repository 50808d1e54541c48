package kmipttlv;

import java.io.ByteArrayOutputStream;
import java.nio.ByteBuffer;
import java.nio.CharBuffer;
import java.nio.charset.CharacterCodingException;
import java.nio.charset.StandardCharsets;
import java.util.ArrayDeque;
import java.util.ArrayList;
import java.util.Arrays;
import java.util.Deque;
import java.util.Iterator;
import java.util.List;
import java.util.Objects;
import java.util.Optional;

/**
 * TTLV, the encoding of OASIS KMIP: prints, redacts, lists, checks, decodes and encodes messages, as JSON too, by the C library kmip_ttlv.
 *
 * <p>Offsets and lengths are in bytes. Each call can throw OutOfMemoryException, and NullPointerException for null, and any number of threads
 * may be in calls at a time. A text that is passed and has half of a surrogate pair is an IllegalArgumentException.
 *
 * <p>{@code openEmpty} is whether an empty Structure stays open until the one around it ends, as in the texts of the Rust crate kmip-ttlv; pass
 * false unless you compare with these. {@code limit} is how many bytes of memory the library may hold to make a text, since a text can grow with
 * the square of the depth: {@link #usualLimit}, or Long.MAX_VALUE.
 *
 * <p>The native library is the file whose absolute path is the system property {@code kmipttlv.library}, or else {@code kmip_ttlv_jni} in
 * {@code java.library.path}.
 */
public final class KmipTtlv {
    private static final int OK = 0, OUT_OF_MEMORY = 1, MALFORMED = 4, BAD_NAMES = 5, NO_NAME = 7;

    static {
        String path = System.getProperty("kmipttlv.library");
        if (path == null) {
            System.loadLibrary("kmip_ttlv_jni");
        } else {
            System.load(path);
        }
    }

    private KmipTtlv() {}

    private static native byte[] toDiag0(byte[] bytes, byte[] prefix, boolean openEmpty, long[] told);

    private static native byte[] toDiagChecked0(byte[] bytes, byte[] prefix, long[] told);

    private static native byte[] toText0(byte[] bytes, byte[] names, boolean openEmpty, long limit, long[] told);

    private static native byte[] toRedactedText0(byte[] bytes, long limit, long[] told);

    private static native byte[] toJson0(byte[] bytes, int redact, long[] told);

    private static native byte[] fromJson0(byte[] text, long[] told);

    private static native byte[] name0(int which, int tag, int number, long[] told);

    private static native byte[] fromDiag0(byte[] diagnostic, byte[] prefix, byte[] names, long limit, long[] told);

    private static native byte[] write0(long[] items, byte[] bytes, long[] told);

    private static native byte[] version0(long[] told);

    private static native void check0(byte[] bytes, long[] told);

    private static native long[] items0(byte[] bytes, long[] told);

    /** A diagnostic: its text, and how many items the call tried to read. */
    public record Diagnostic(String text, long read) {}

    /** What is enough memory for the text of a message, or of a diagnostic, of so many bytes that doesn't nest deep. */
    public static long usualLimit(int length) {
        return 512L * length + (1 << 20);
    }

    /** A text in UTF-8. */
    static byte[] utf8(String text) {
        try {
            ByteBuffer made = StandardCharsets.UTF_8.newEncoder().encode(CharBuffer.wrap(text));
            return Arrays.copyOf(made.array(), made.limit());
        } catch (CharacterCodingException why) {
            throw new IllegalArgumentException("a text has half of a surrogate pair");
        }
    }

    /** The text of a call, or the exception that its status means. */
    private static String text(byte[] made, long[] told) {
        return switch ((int) told[0]) {
            case OK -> new String(made, StandardCharsets.UTF_8);
            case BAD_NAMES -> throw new BadNamesException(told[1]);
            default -> throw new OutOfMemoryException();
        };
    }

    private static MalformedException malformed(long[] told, List<Item> items) {
        return new MalformedException(told[1], Fault.of(told[2]), items);
    }

    /** What a call made that has a fault, without items, for what it refuses. */
    private static byte[] sound(byte[] made, long[] told) throws MalformedException {
        if (told[0] == MALFORMED) {
            throw malformed(told, List.of());
        }
        if (told[0] != OK) {
            throw new OutOfMemoryException();
        }
        return made;
    }

    /** Returns if bytes are one whole message; else throws MalformedException, without items. */
    public static void check(byte[] message) throws MalformedException {
        long[] told = new long[3];
        check0(Objects.requireNonNull(message), told);
        sound(null, told);
    }

    /** The items of one whole message in document order; for other bytes MalformedException, with the items before the first fault. */
    public static List<Item> items(byte[] message) throws MalformedException {
        long[] told = new long[3], numbers = items0(Objects.requireNonNull(message), told);
        if (told[0] == OUT_OF_MEMORY) {
            throw new OutOfMemoryException();
        }
        List<Item> found = new ArrayList<>(numbers.length / 5);
        for (int at = 0; at < numbers.length; at += 5) {
            found.add(new Item(numbers[at], numbers[at + 1], (int) numbers[at + 2], (int) numbers[at + 3], numbers[at + 4]));
        }
        if (told[0] == MALFORMED) {
            throw malformed(told, List.copyOf(found));
        }
        return List.copyOf(found);
    }

    /**
     * The canonical bytes of items, as {@link #items} returns them, whose values are in {@code bytes}. An item belongs to the last Structure
     * before it of one depth less; the offset and the length of a Structure are ignored. BadItemException for the first item that can't be
     * written, and IllegalArgumentException for a length that isn't one of four bytes.
     */
    public static byte[] write(List<Item> items, byte[] bytes) {
        long[] told = new long[3], numbers = new long[Math.multiplyExact(5, items.size())];
        int at = 0;
        for (Item it : items) {
            if (it.length() < 0 || it.length() > 0xFFFF_FFFFL) {
                throw new IllegalArgumentException("the length of an item isn't one of four bytes");
            }
            for (long number : new long[] {it.offset(), it.depth(), it.tag(), it.type(), it.length()}) {
                numbers[at++] = number;
            }
        }
        byte[] made = write0(numbers, Objects.requireNonNull(bytes), told);
        if (told[0] == MALFORMED) {
            throw new BadItemException(told[1], Fault.of(told[2]));
        }
        if (told[0] != OK) {
            throw new OutOfMemoryException();
        }
        return made;
    }

    /**
     * The redacted diagnostic of any bytes, whose tags don't have the digits {@code prefix} in front. It ends with ERR where an item can't be
     * read. Check first: in malformed bytes those of a key may stand where a tag is expected; or take {@link #toDiagChecked}.
     */
    public static Diagnostic toDiag(byte[] message, String prefix, boolean openEmpty) {
        long[] told = new long[3];
        String made = text(toDiag0(Objects.requireNonNull(message), utf8(prefix), openEmpty, told), told);
        return new Diagnostic(made, told[1]);
    }

    /** The redacted diagnostic of one whole message; for other bytes MalformedException, without items: nothing is shown of them. */
    public static String toDiagChecked(byte[] message, String prefix) throws MalformedException {
        long[] told = new long[3];
        return new String(sound(toDiagChecked0(Objects.requireNonNull(message), utf8(prefix), told), told), StandardCharsets.UTF_8);
    }

    /**
     * Any bytes as readable text with every value, and the names of KMIP's tags. It ends with a line {@code ERROR: ..} where an item can't be
     * read. Texts keep their control characters: escape them before you print them.
     */
    public static String toText(byte[] message, boolean openEmpty, long limit) {
        long[] told = new long[3];
        return text(toText0(Objects.requireNonNull(message), null, openEmpty, limit, told), told);
    }

    /** The same with the names of a table, of which each line is a tag's digits, a space and its name; BadNamesException for another line. */
    public static String toText(byte[] message, String names, boolean openEmpty, long limit) {
        long[] told = new long[3];
        return text(toText0(Objects.requireNonNull(message), utf8(names), openEmpty, limit, told), told);
    }

    /**
     * A diagnostic under a prefix read back as lines, with the names of a table, which may be empty. It ends where the text stops being a
     * diagnostic, and has {@code <redacted>} in place of the values that a diagnostic doesn't show.
     */
    public static String fromDiag(String diagnostic, String prefix, String names, long limit) {
        long[] told = new long[3];
        return text(fromDiag0(utf8(diagnostic), utf8(prefix), utf8(names), limit, told), told);
    }

    /**
     * One whole message as readable text without any value but those of Enumerations, and with the names of KMIP's tags; for other bytes
     * MalformedException, without items: nothing is shown of them.
     */
    public static String toRedactedText(byte[] message, long limit) throws MalformedException {
        long[] told = new long[3];
        return new String(sound(toRedactedText0(Objects.requireNonNull(message), limit, told), told), StandardCharsets.UTF_8);
    }

    /**
     * One whole message as JSON (OASIS "KMIP Additional Message Encodings", in hexadecimal forms), in one line without a line feed; for other
     * bytes MalformedException, without items.
     */
    public static String toJson(byte[] message, Redact redact) throws MalformedException {
        long[] told = new long[3];
        return new String(sound(toJson0(Objects.requireNonNull(message), redact.ordinal(), told), told), StandardCharsets.UTF_8);
    }

    /** The canonical bytes of the message whose JSON a text is, in digits or with names; for another text MalformedException. */
    public static byte[] fromJson(String json) throws MalformedException {
        long[] told = new long[3];
        return sound(fromJson0(utf8(json), told), told);
    }

    /** A name of a tag (0), of its value (1) or of the bits of its mask (2). */
    private static Optional<String> name(int which, int tag, int number) {
        long[] told = new long[3];
        byte[] made = name0(which, tag, number, told);
        return told[0] == NO_NAME ? Optional.empty() : Optional.of(text(made, told));
    }

    /** The name that the KMIP specifications give a tag. The library makes a table for each call: keep what is asked for often. */
    public static Optional<String> tagName(int tag) {
        return name(0, tag, 0);
    }

    /** The name that they give a value of the Enumeration with this tag. */
    public static Optional<String> valueName(int tag, int value) {
        return name(1, tag, value);
    }

    /** The names that they give the bits that are set in a mask with this tag, as {@code Encrypt | Decrypt}; none if it is the tag of no mask. */
    public static Optional<String> maskNames(int tag, int mask) {
        return name(2, tag, mask);
    }

    /** The version of the C library, which ends in "-unproved" if nothing was proved. */
    public static String version() {
        long[] told = new long[3];
        return text(version0(told), told);
    }

    /** A Structure whose nodes are still coming, or a leaf. */
    private record Open(int tag, Value leaf, List<Node> nodes) {
        Node node() {
            return new Node(tag, leaf == null ? new Value.Structure(nodes) : leaf);
        }
    }

    /** The root of one whole message; for other bytes MalformedException, with the items before the first fault. Nesting takes no stack. */
    public static Node decode(byte[] message) throws MalformedException {
        Deque<Open> open = new ArrayDeque<>();
        // bytes that change meanwhile are no concern of what was checked
        byte[] bytes = message.clone();
        for (Item it : items(bytes)) {
            close(open, (int) it.depth());
            open.push(new Open(it.tag(), leafOf(it, bytes), new ArrayList<>()));
        }
        close(open, 1);
        return open.pop().node();
    }

    /** Puts the nodes that have ended into the ones around them, so that so many are left open. */
    private static void close(Deque<Open> open, int left) {
        while (open.size() > left) {
            Node ended = open.pop().node();
            open.element().nodes.add(ended);
        }
    }

    /** The value of a leaf, or null for a Structure. */
    private static Value leafOf(Item item, byte[] bytes) {
        if (item.type() == 1) {
            return null;
        }
        int from = (int) item.offset() + 8, length = (int) item.length();
        ByteBuffer content = ByteBuffer.wrap(bytes, from, length);
        return switch (item.type()) {
            case 2 -> new Value.Integer(content.getInt());
            case 3 -> new Value.LongInteger(content.getLong());
            case 4 -> new Value.BigInteger(Arrays.copyOfRange(bytes, from, from + length));
            case 5 -> new Value.Enumeration(content.getInt());
            case 6 -> new Value.Boolean(content.getLong() == 1);
            case 7 -> new Value.TextString(new String(bytes, from, length, StandardCharsets.UTF_8));
            case 8 -> new Value.ByteString(Arrays.copyOfRange(bytes, from, from + length));
            case 9 -> new Value.DateTime(content.getLong());
            default -> new Value.Interval(content.getInt());
        };
    }

    /**
     * The canonical bytes of a node: a message, if it is a Structure. The bytes of a BigInteger stay as they are. BadItemException for the first
     * node, in document order, that can't be encoded. Nesting takes no stack.
     */
    public static byte[] encode(Node root) {
        List<Item> found = new ArrayList<>();
        ByteArrayOutputStream bytes = new ByteArrayOutputStream();
        bytes.writeBytes(new byte[8]);
        for (Iterator<Node.Placed> all = root.walk(); all.hasNext(); ) {
            Node.Placed it = all.next();
            Value value = it.node().value();
            int offset = bytes.size() - 8;
            bytes.writeBytes(value.content());
            found.add(new Item(offset, it.depth(), it.node().tag(), value.type(), bytes.size() - 8 - offset));
        }
        return write(found, bytes.toByteArray());
    }
}
