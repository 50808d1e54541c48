import java.io.IOException;
import kmipttlv.KmipTtlv;
import kmipttlv.MalformedException;

/** Prints a message from standard input. */
public final class Show {
    private Show() {}

    public static void main(String[] words) throws IOException {
        byte[] message = System.in.readAllBytes();
        try {
            KmipTtlv.check(message);
            String text = KmipTtlv.toText(message, false, KmipTtlv.usualLimit(message.length));
            // control characters in a text would reach the terminal
            System.out.print(text.replaceAll("[\\p{Cntrl}&&[^\n]]", "?"));
        } catch (MalformedException why) {
            System.err.println(why.getMessage());
            System.exit(1);
        }
    }
}
