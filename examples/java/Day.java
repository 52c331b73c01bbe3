import java.io.PrintStream;
import java.util.OptionalLong;

/**
 * Document 01's day through libekhurtza, by JNI: each answer as gateday prints it, then the listing, on standard output. On standard error the same
 * day as call lines, then the group's room and the listing read back. The gate is loaded with document 01's own ratios, which changes no answer.
 * docs/EMBEDDING.md has the commands that build and run it (Java 17 or later).
 */
public final class Day {
    private static final long[][] DAY = {
        {1, 1, 1, 0, 0},
        {2, 20001, 0, 0, 0},
        {4, 1, 0, 3, 8},
        {11, 0, 0, 0, 0},
        {7, 0, 5, 0, 0},
        {8, 20001, 1, 12500, 300000},
        {8, 20001, 1, 10000, 200000},
        {8, 20001, 1, 10000, 200000},
        {9, 1, 12400, 100000, 0},
        {10, 2, 0, 0, 0},
        {9, 1, 12600, 1, 0},
    };

    /** A field of a call line, by its columns; only for lines that are well formed, as those written here are. */
    private static long column(String line, int first, int end) {
        return Long.parseLong(line.substring(first, end).trim());
    }

    private static Gate.Answer play(Gate gate, String line) {
        return gate.call(column(line, 0, 2), column(line, 2, 11), column(line, 11, 20), column(line, 20, 29), column(line, 29, 38));
    }

    private static String orDash(OptionalLong limit) {
        return limit.isPresent() ? Long.toString(limit.getAsLong()) : "-";
    }

    public static void main(String[] arguments) {
        PrintStream out = System.out, more = System.err;
        Gate gate = new Gate(2048);
        if (gate.load(" 1   5   2\n 3   1   1\n 4   1   1\n") != 0) throw new IllegalStateException("document 01's ratios are refused");
        for (long[] call : DAY) {
            String line = Gate.callLine(call[0], call[1], call[2], call[3], call[4]);
            more.print(line);
            Gate.Answer answer = play(gate, line);
            out.printf("%3d%6d\n", answer.refusal(), answer.number());
        }
        String listing = gate.listing();
        out.print(listing);

        OptionalLong room = gate.room(0);
        if (room.isPresent()) {
            more.printf("group 0: room %d mils, %s\n", room.getAsLong(), room.getAsLong() >= 1 ? "may buy" : "hold");
        } else {
            more.print("group 0: no maximum, hold\n");
        }
        for (Gate.Row row : Gate.readListing(listing)) {
            more.printf("row: code %d, class %d, maximum %s, own quota %s, net %d, open %d, bought %d, sold %d\n", row.code(), row.controlClass(),
                orDash(row.maximum()), orDash(row.own()), row.net(), row.open(), row.bought(), row.sold());
        }
        out.flush();
        if (out.checkError()) System.exit(1);
    }
}
