package kmipttlv;

/** An item can't be written, or a node encoded. */
public final class BadItemException extends IllegalArgumentException {
    private static final long serialVersionUID = 1;
    /** The index of the first such item, from 0 in document order. */
    public final long index;
    /** What is wrong with it. */
    public final Fault fault;

    BadItemException(long index, Fault fault) {
        super("item " + index + ": " + fault.words);
        this.index = index;
        this.fault = fault;
    }
}
