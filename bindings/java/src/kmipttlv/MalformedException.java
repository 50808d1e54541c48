package kmipttlv;

import java.util.List;

/** Bytes are not one whole message, or a text is not the JSON of one. */
public final class MalformedException extends Exception {
    private static final long serialVersionUID = 1;
    /** Where the bad item or the surplus begins, in bytes from the first; of JSON in bytes of the text in UTF-8. */
    public final long offset;
    /** What is wrong there. */
    public final Fault fault;
    /** The items before it, of a call that lists or decodes them. */
    public final transient List<Item> items;

    MalformedException(long offset, Fault fault, List<Item> items) {
        super("at byte " + offset + ": " + fault.words);
        this.offset = offset;
        this.fault = fault;
        this.items = items;
    }
}
