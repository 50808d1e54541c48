package kmipttlv;

import java.nio.ByteBuffer;
import java.time.Instant;
import java.util.Arrays;
import java.util.HexFormat;
import java.util.List;

/**
 * The value of an item, of one of ten types. {@code toString} shows no value but that of an Enumeration, since it may be a key. Arrays are
 * copied when a value is made and when they are read.
 */
public sealed interface Value {
    /** The code of the type, from 1, a Structure, to 10, an Interval. */
    int type();

    /** The content of a leaf, without padding; of a Structure no bytes. */
    byte[] content();

    /** Nodes, one after the other. */
    record Structure(List<Node> nodes) implements Value {
        /** Keeps a copy of the list, which can't be changed. */
        public Structure {
            nodes = List.copyOf(nodes);
        }

        /** A Structure of these nodes. */
        public Structure(Node... nodes) {
            this(Arrays.asList(nodes));
        }

        @Override
        public int type() {
            return 1;
        }

        @Override
        public byte[] content() {
            return new byte[0];
        }

        @Override
        public boolean equals(Object other) {
            return other instanceof Structure it && new Node(0, this).equals(new Node(0, it));
        }

        @Override
        public int hashCode() {
            return new Node(0, this).hashCode();
        }

        @Override
        public String toString() {
            return nodes.toString();
        }
    }

    /** A number of four bytes. */
    record Integer(int number) implements Value {
        @Override
        public int type() {
            return 2;
        }

        @Override
        public byte[] content() {
            return ByteBuffer.allocate(4).putInt(number).array();
        }

        @Override
        public String toString() {
            return "Integer";
        }
    }

    /** A number of eight bytes. */
    record LongInteger(long number) implements Value {
        @Override
        public int type() {
            return 3;
        }

        @Override
        public byte[] content() {
            return ByteBuffer.allocate(8).putLong(number).array();
        }

        @Override
        public String toString() {
            return "LongInteger";
        }
    }

    /** A number of any length: its bytes, two's complement, the most significant first. KMIP asks for a multiple of eight. */
    record BigInteger(byte[] bytes) implements Value {
        /** Keeps a copy of the bytes. */
        public BigInteger {
            bytes = bytes.clone();
        }

        /** A number in the fewest bytes, a multiple of eight, that hold it. */
        public static BigInteger of(java.math.BigInteger number) {
            byte[] least = number.toByteArray(), bytes = new byte[(least.length + 7) / 8 * 8];
            Arrays.fill(bytes, (byte) (number.signum() < 0 ? -1 : 0));
            System.arraycopy(least, 0, bytes, bytes.length - least.length, least.length);
            return new BigInteger(bytes);
        }

        /** The number. */
        public java.math.BigInteger number() {
            return bytes.length == 0 ? java.math.BigInteger.ZERO : new java.math.BigInteger(bytes);
        }

        @Override
        public byte[] bytes() {
            return bytes.clone();
        }

        @Override
        public int type() {
            return 4;
        }

        @Override
        public byte[] content() {
            return bytes.clone();
        }

        @Override
        public boolean equals(Object other) {
            return other instanceof BigInteger it && Arrays.equals(bytes, it.bytes);
        }

        @Override
        public int hashCode() {
            return Arrays.hashCode(bytes);
        }

        @Override
        public String toString() {
            return "BigInteger";
        }
    }

    /** A number that stands for a name, as four bytes without a sign. */
    record Enumeration(int number) implements Value {
        @Override
        public int type() {
            return 5;
        }

        @Override
        public byte[] content() {
            return ByteBuffer.allocate(4).putInt(number).array();
        }

        @Override
        public String toString() {
            return "Enumeration 0x" + HexFormat.of().withUpperCase().toHexDigits(number);
        }
    }

    /** Whether something holds. */
    record Boolean(boolean holds) implements Value {
        @Override
        public int type() {
            return 6;
        }

        @Override
        public byte[] content() {
            return ByteBuffer.allocate(8).putLong(holds ? 1 : 0).array();
        }

        @Override
        public String toString() {
            return "Boolean";
        }
    }

    /** A text. */
    record TextString(String text) implements Value {
        /** Makes a text, which must have no half of a surrogate pair: that is an IllegalArgumentException. */
        public TextString {
            KmipTtlv.utf8(text);
        }

        @Override
        public int type() {
            return 7;
        }

        @Override
        public byte[] content() {
            return KmipTtlv.utf8(text);
        }

        @Override
        public String toString() {
            return "TextString";
        }
    }

    /** Bytes. */
    record ByteString(byte[] bytes) implements Value {
        /** Keeps a copy of the bytes. */
        public ByteString {
            bytes = bytes.clone();
        }

        @Override
        public byte[] bytes() {
            return bytes.clone();
        }

        @Override
        public int type() {
            return 8;
        }

        @Override
        public byte[] content() {
            return bytes.clone();
        }

        @Override
        public boolean equals(Object other) {
            return other instanceof ByteString it && Arrays.equals(bytes, it.bytes);
        }

        @Override
        public int hashCode() {
            return Arrays.hashCode(bytes);
        }

        @Override
        public String toString() {
            return "ByteString";
        }
    }

    /** A time, in seconds since 1970 in UTC. */
    record DateTime(long seconds) implements Value {
        /** The time; java.time.DateTimeException if an Instant can't hold it. */
        public Instant instant() {
            return Instant.ofEpochSecond(seconds);
        }

        @Override
        public int type() {
            return 9;
        }

        @Override
        public byte[] content() {
            return ByteBuffer.allocate(8).putLong(seconds).array();
        }

        @Override
        public String toString() {
            return "DateTime";
        }
    }

    /** A number of seconds, as four bytes without a sign. */
    record Interval(int seconds) implements Value {
        @Override
        public int type() {
            return 10;
        }

        @Override
        public byte[] content() {
            return ByteBuffer.allocate(4).putInt(seconds).array();
        }

        @Override
        public String toString() {
            return "Interval";
        }
    }
}
