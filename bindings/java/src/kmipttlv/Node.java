package kmipttlv;

import java.util.ArrayDeque;
import java.util.Deque;
import java.util.Iterator;
import java.util.List;
import java.util.Objects;

/**
 * An item of a message. Comparing, hashing and printing take no stack, however deep a node is, and {@code toString} shows tags, types, nesting
 * and the values of Enumerations, and no other value, since it may be a key.
 *
 * @param tag its tag, below 2^24
 * @param value its value, which says its type
 */
public record Node(int tag, Value value) {
    /** A node of a tag and a value. */
    public Node {
        Objects.requireNonNull(value);
    }

    /** A node with its depth below another one. */
    record Placed(Node node, int depth) {
        /** Whether two nodes are the same, if what is in Structures isn't looked at. */
        boolean isAloneAs(Placed other) {
            Value one = node.value, two = other.node.value;
            boolean same = one instanceof Value.Structure ? two instanceof Value.Structure : !(two instanceof Value.Structure) && one.equals(two);
            return same && depth == other.depth && node.tag == other.node.tag;
        }
    }

    /** This node and all below it, in document order. */
    Iterator<Placed> walk() {
        Deque<Placed> waiting = new ArrayDeque<>(List.of(new Placed(this, 0)));
        return new Iterator<>() {
            @Override
            public boolean hasNext() {
                return !waiting.isEmpty();
            }

            @Override
            public Placed next() {
                Placed last = waiting.pop();
                if (last.node.value instanceof Value.Structure it) {
                    for (int at = it.nodes().size() - 1; at >= 0; at--) {
                        waiting.push(new Placed(it.nodes().get(at), last.depth + 1));
                    }
                }
                return last;
            }
        };
    }

    @Override
    public boolean equals(Object other) {
        if (!(other instanceof Node that)) {
            return false;
        }
        Iterator<Placed> one = walk(), two = that.walk();
        while (one.hasNext() && two.hasNext()) {
            if (!one.next().isAloneAs(two.next())) {
                return false;
            }
        }
        return one.hasNext() == two.hasNext();
    }

    @Override
    public int hashCode() {
        int hash = 0;
        for (Iterator<Placed> all = walk(); all.hasNext(); ) {
            Placed it = all.next();
            Value value = it.node.value;
            hash = 31 * hash + Objects.hash(it.depth, it.node.tag, value instanceof Value.Structure ? null : value);
        }
        return hash;
    }

    @Override
    public String toString() {
        StringBuilder text = new StringBuilder();
        int open = 0;
        String between = "";
        for (Iterator<Placed> all = walk(); all.hasNext(); ) {
            Placed it = all.next();
            boolean isStructure = it.node.value instanceof Value.Structure;
            text.append("]".repeat(open - it.depth)).append(open > it.depth ? ", " : between);
            text.append("0x%06X ".formatted(it.node.tag)).append(isStructure ? "[" : it.node.value);
            open = isStructure ? it.depth + 1 : it.depth;
            between = isStructure ? "" : ", ";
        }
        return text.append("]".repeat(open)).toString();
    }
}
