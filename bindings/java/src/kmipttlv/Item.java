package kmipttlv;

/**
 * An item of a message.
 *
 * @param offset where its header begins, in bytes from the first; its value begins 8 bytes later
 * @param depth how many Structures it is in: 0 for the root
 * @param tag its tag, below 2^24
 * @param type the code of its type, from 1, a Structure, to 10, an Interval
 * @param length the length of its value in bytes, without padding
 */
public record Item(long offset, long depth, int tag, int type, long length) {}
