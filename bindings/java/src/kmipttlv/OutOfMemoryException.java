package kmipttlv;

/** The library's memory ran out, or a text needs more than its limit, or more bytes than an array has. */
public final class OutOfMemoryException extends RuntimeException {
    private static final long serialVersionUID = 1;

    OutOfMemoryException() {
        super("out of memory, or the text takes more than its limit");
    }
}
