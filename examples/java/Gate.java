import java.nio.ByteBuffer;
import java.nio.ByteOrder;
import java.nio.charset.StandardCharsets;
import java.util.ArrayList;
import java.util.List;
import java.util.OptionalLong;

/**
 * A gate that owns its memory, over libekhurtza by JNI (gate_jni.c). The memory is direct buffers: they do not move, are zeroed, and are nobody
 * else's. One gate wants one thread at a time, so its methods are synchronized. Every number of the library is below 2^63 but for DASH, so a long
 * holds it; money is in mils, quotas in millions of yuan.
 */
public final class Gate {
    static {
        System.loadLibrary("ekhurtza_jni"); // java -Djava.library.path=..
    }

    public static final int REGISTER_WORDS = 2000, BOOK_WORDS = 194, PLACE_WORDS = 4;
    public static final int ROW_BYTES = 108, ROW_WORDS = 9, CALL_BYTES = 39, MOST_GROUPS = 64;
    public static final int NOT_THERE = 6, NO_MAXIMUM = 15;
    public static final long DASH = -1; // 2^64 - 1

    /** What a call answers: the refusal, or 0; and the group or order number given, or 0. */
    public record Answer(long refusal, long number) {}

    /** A row of the listing; maximum and own quota are empty where the maximum is none. */
    public record Row(long code, long controlClass, OptionalLong maximum, OptionalLong own, long net, long open, long bought, long sold) {}

    private final ByteBuffer register = ByteBuffer.allocateDirect(4 * REGISTER_WORDS);
    private final ByteBuffer book = ByteBuffer.allocateDirect(8 * BOOK_WORDS);
    private final ByteBuffer places;

    /** A fresh gate with so many order places, 1 to 65,536. */
    public Gate(int orders) {
        places = ByteBuffer.allocateDirect(Math.multiplyExact(8 * PLACE_WORDS, orders));
        accept(open(register, book, places));
    }

    /** A ratio file, before the first group is enrolled: 0, 2 or 23. Quotas follow from bases by it from then on. */
    public synchronized long load(String text) {
        byte[] bytes = text.getBytes(StandardCharsets.ISO_8859_1);
        return load(register, book, places, ByteBuffer.allocateDirect(bytes.length).put(bytes));
    }

    public synchronized Answer call(long code, long a, long b, long c, long d) {
        return answer(call(register, book, places, code, a, b, c, d));
    }

    public synchronized String listing() {
        ByteBuffer buffer = ByteBuffer.allocateDirect(ROW_BYTES * MOST_GROUPS);
        Answer listed = answer(listing(register, book, places, buffer));
        accept(listed.refusal());
        return text(buffer, (int) listed.number());
    }

    /** Own quota - net, in mils; empty where the maximum is none. A buy passes the quota exactly where it is 1 or more. */
    public synchronized OptionalLong room(long group) {
        ByteBuffer words = words(2);
        long refusal = room(register, book, places, group, words);
        if (refusal == NO_MAXIMUM) return OptionalLong.empty();
        accept(refusal);
        return OptionalLong.of(signed(words.getLong(0), words.getLong(8)));
    }

    /** The call line of a call, line feed included. */
    public static String callLine(long code, long a, long b, long c, long d) {
        ByteBuffer line = ByteBuffer.allocateDirect(CALL_BYTES);
        accept(callLine(code, a, b, c, d, line));
        return text(line, CALL_BYTES);
    }

    /** The rows of a listing's text; refused by 21 where it is none. */
    public static List<Row> readListing(String listing) {
        byte[] bytes = listing.getBytes(StandardCharsets.ISO_8859_1);
        ByteBuffer held = ByteBuffer.allocateDirect(bytes.length).put(bytes);
        List<Row> rows = new ArrayList<>();
        for (;;) {
            ByteBuffer words = words(ROW_WORDS);
            long refusal = readRow(held, rows.size(), words);
            if (refusal == NOT_THERE) return rows;
            accept(refusal);
            rows.add(row(words));
        }
    }

    private static Row row(ByteBuffer words) {
        long[] w = new long[ROW_WORDS];
        words.asLongBuffer().get(w);
        return new Row(w[0], w[1], limit(w[2]), limit(w[3]), signed(w[4], w[5]), w[6], w[7], w[8]);
    }

    private static OptionalLong limit(long word) {
        return word == DASH ? OptionalLong.empty() : OptionalLong.of(word);
    }

    private static long signed(long below, long size) {
        return below != 0 ? -size : size;
    }

    private static ByteBuffer words(int count) {
        return ByteBuffer.allocateDirect(8 * count).order(ByteOrder.nativeOrder());
    }

    private static String text(ByteBuffer buffer, int bytes) {
        byte[] copy = new byte[bytes];
        buffer.get(copy);
        return new String(copy, StandardCharsets.ISO_8859_1);
    }

    // gate_jni.c hands back refusal and number in one long: the number is at most 65,536
    private static Answer answer(long packed) {
        return new Answer(packed >>> 32, packed & 0xffff_ffffL);
    }

    private static void accept(long refusal) {
        if (refusal != 0) throw new IllegalStateException("refused by " + refusal);
    }

    private static native long open(ByteBuffer register, ByteBuffer book, ByteBuffer places);
    private static native long load(ByteBuffer register, ByteBuffer book, ByteBuffer places, ByteBuffer text);
    private static native long call(ByteBuffer register, ByteBuffer book, ByteBuffer places, long code, long a, long b, long c, long d);
    private static native long listing(ByteBuffer register, ByteBuffer book, ByteBuffer places, ByteBuffer buffer);
    private static native long room(ByteBuffer register, ByteBuffer book, ByteBuffer places, long group, ByteBuffer words);
    private static native long readRow(ByteBuffer text, long k, ByteBuffer words);
    private static native long callLine(long code, long a, long b, long c, long d, ByteBuffer line);
}
