package kmipttlv;

/** What is wrong with a message, with an item that is to be written, or with JSON. The order is that of the library's numbers, from 1. */
public enum Fault {
    /** The bytes end before the root does, within this item: more may help. */
    CUT("the bytes end within the root"),
    /** The root is no Structure. */
    NO_STRUCTURE("the root is no Structure"),
    /** The type code is unknown. */
    UNKNOWN_TYPE("unknown type"),
    /** Too few bytes are left in the Structure around for a header. */
    PARTIAL_HEADER("fewer than eight bytes are left of the structure around"),
    /** No value of the type has this length. */
    WRONG_LENGTH("the length is none of a value of the type"),
    /** The item, with its padding, goes past the end of the Structure around. */
    OVERLONG("the item goes past the end of the structure around"),
    /** The content is no value of the type. */
    INVALID_VALUE("the content is no value of the type"),
    /** More bytes follow the root. */
    SURPLUS("further bytes follow the root"),
    /** No Structure before it contains it. */
    NOT_INSIDE("no structure before it contains it"),
    /** Its tag is 2^24 or more. */
    LONG_TAG("its tag is no number below 2^24"),
    /** Its value goes past the end of the bytes. */
    OUTSIDE("its value goes past the end of the bytes"),
    /** With it a Structure has 2^32 bytes or more. */
    TOO_LONG("with it a structure takes 2^32 bytes or more"),
    /** It is not JSON: a token can't stand there, or it ends too early. */
    NOT_JSON("not JSON"),
    /** It is JSON that nests more than 127 deep. */
    TOO_DEEP("nested more than 127 deep"),
    /** An item in JSON is no object of exactly the members tag, type and value. */
    NOT_ITEM("an item without exactly tag, type and value"),
    /** A tag in JSON is not 0x and six hexadecimal digits. */
    NOT_TAG("a tag is not 0x and six hexadecimal digits");

    /** What is wrong, in words. */
    public final String words;

    Fault(String words) {
        this.words = words;
    }

    static Fault of(long number) {
        return values()[Math.toIntExact(number) - 1];
    }
}
