package kmipttlv;

/** A line of a table of names can't be read. */
public final class BadNamesException extends IllegalArgumentException {
    private static final long serialVersionUID = 1;
    /** The number of the first such line, from 1. */
    public final long line;

    BadNamesException(long line) {
        super("line " + line + " of the table of names can't be read");
        this.line = line;
    }
}
