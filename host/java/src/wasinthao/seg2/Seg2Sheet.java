package wasinthao.seg2;

import java.math.BigDecimal;
import java.math.BigInteger;
import java.nio.ByteBuffer;
import java.nio.charset.StandardCharsets;
import java.util.ArrayList;
import java.util.Arrays;
import java.util.Collections;
import java.util.List;

/**
 * Collects the strings of a file or a trace, in any order, and makes the sheet of them that {@link Seg2Growing} and {@link Seg2#start} take:
 * the lines sorted as the library wants them.
 *
 * <pre>{@code
 * Seg2Result<String> sheet = new Seg2Sheet()
 *     .number("STACK", 4)
 *     .location("RECEIVER_LOCATION", typed) // "12,5" is refused, and not taken for 125
 *     .note("wet ground", "wind from the west")
 *     .build();
 * }</pre>
 *
 * <p><b>It only sorts; the library judges.</b> Keywords rise in byte order, NOTE stands last, and of equal keywords the one that was put first
 * stays first. So several RECEIVER_GEOMETRY or SOURCE_GEOMETRY, and the lines of a NOTE, keep the order in which they came, and any other
 * keyword that was put twice is refused by 26: none is dropped, none wins. What the rules say against a line is refused by 25: a lower-case
 * letter in a keyword, an accent, a line feed in a text. No character is ever left out or replaced.
 *
 * <p><b>A text is not looked at as a number.</b> What is to be one goes through {@link #number} or {@link #location}: there a comma is refused
 * by 20. There is no form for a double, which has no decimals of its own: 12.50 is {@code new BigDecimal("12.50")}, or a typed text.
 *
 * <p>One thread at a time. Two are equal where they are the same object.
 */
public final class Seg2Sheet {
    private static final String NOTE = "NOTE";

    private enum Kind { TEXT, NUMBER, LOCATION }

    private static final class Entry {
        final Kind kind;
        final String key;
        final String value;
        /** Of a number that no text can say; else null. */
        final Seg2.Refusal unwritten;

        Entry(Kind kind, String key, String value, Seg2.Refusal unwritten) {
            this.kind = kind;
            this.key = Seg2.there(key, "keyword");
            this.value = Seg2.there(value, "value");
            this.unwritten = unwritten;
        }

        String line() {
            return oneLine(key) + "\t" + oneLine(value) + "\n";
        }

        Seg2.Refusal refusal() {
            switch (kind) {
                case NUMBER:
                    return unwritten != null ? unwritten : Seg2.readNumber(value).refusal();
                case LOCATION:
                    return ofLocation(oneLine(value));
                default:
                    return null;
            }
        }
    }

    /** Which of the strings the refusal is about, and where it is wrong. */
    public static final class Fault {
        /** The refusal: number, place and words. */
        public final Seg2.Refusal refusal;
        /** Which of the strings, in the order in which they were put, counted from 0; -1 where all of them together are too much (27). */
        public final int index;
        /** Its keyword; empty where there is none. */
        public final String key;
        /** Its value; empty where there is none. */
        public final String value;
        /** The first character of the keyword that cannot stand there, counted from 0, or -1 where the keyword is not at fault. */
        public final int keyAt;
        /** The first character of the value that cannot stand there, counted from 0; of a location, where the value that is no number starts; -1
         * where the value is not at fault. */
        public final int valueAt;

        private Fault(Seg2.Refusal refusal, int index, Entry entry, int keyAt, int valueAt) {
            this.refusal = refusal;
            this.index = index;
            this.key = entry == null ? "" : entry.key;
            this.value = entry == null ? "" : entry.value;
            this.keyAt = keyAt;
            this.valueAt = valueAt;
        }

        /** The string, the place in it, and the refusal. */
        @Override
        public String toString() {
            String where = keyAt >= 0 ? " at character " + keyAt + " of the keyword" : valueAt >= 0 ? " at character " + valueAt + " of the value" : "";
            return (index < 0 ? "" : key + " " + value + where + ": ") + refusal;
        }
    }

    private final List<Entry> entries = new ArrayList<>();

    // ---- what it is to hold

    /** A string of any text. */
    public Seg2Sheet put(String key, String value) {
        entries.add(new Entry(Kind.TEXT, key, value, null));
        return this;
    }

    /** Lines of the NOTE, behind those that are there already. Each text is one line: one with a line feed in it is refused. */
    public Seg2Sheet note(String... lines) {
        return note(Arrays.asList(Seg2.there(lines, "lines' row")));
    }

    /** The same, of a list of lines. */
    public Seg2Sheet note(List<String> lines) {
        for (String line : Seg2.there(lines, "list of lines")) {
            put(NOTE, line);
        }
        return this;
    }

    /** A number as it was typed; it stays as it is, with its decimals. 20 where it is no number, 21 where it has too many digits. */
    public Seg2Sheet number(String key, String typed) {
        entries.add(new Entry(Kind.NUMBER, key, typed, null));
        return this;
    }

    /** A whole number. */
    public Seg2Sheet number(String key, long whole) {
        return number(key, BigDecimal.valueOf(whole));
    }

    /** A number with the decimals that it has: 12.50 is written as 12.50. 21 where it has more than 18 digits before E or more than 2 behind. */
    public Seg2Sheet number(String key, BigDecimal number) {
        BigInteger digits = Seg2.there(number, "number").unscaledValue().abs();
        // what does not fit a long has more than 18 digits, as this has
        long coefficient = digits.bitLength() < Long.SIZE ? digits.longValue() : Long.MAX_VALUE;
        return written(key, number.signum() < 0, coefficient, -number.scale(), Math.max(number.scale(), 0));
    }

    /** A number that was read, of a file or of a text, with the decimals that were typed there. One that was refused is refused here too. */
    public Seg2Sheet number(String key, Seg2.Decimal number) {
        if (!Seg2.there(number, "number").accepted()) {
            entries.add(new Entry(Kind.NUMBER, key, "", number.refusal()));
            return this;
        }
        return written(key, number.minus, number.coefficient, number.power, number.decimals);
    }

    private Seg2Sheet written(String key, boolean minus, long coefficient, int power, int decimals) {
        byte[] room = new byte[Seg2.MAXIMUM_NUMBER_TEXT];
        Seg2.Length text = Seg2.writeNumber(room, minus, coefficient, power, decimals);
        entries.add(new Entry(Kind.NUMBER, key, new String(room, 0, text.length, StandardCharsets.US_ASCII), text.refusal()));
        return this;
    }

    /**
     * A location as it was typed: x, or x, y and z, in one text with spaces between or in several. 23 where these are neither one value nor
     * three, then 20 to 22 value by value, with the byte at which that value starts.
     */
    public Seg2Sheet location(String key, String... typed) {
        StringBuilder value = new StringBuilder();
        for (String one : Seg2.there(typed, "values' row")) {
            value.append(value.length() == 0 ? "" : " ").append(Seg2.there(one, "value"));
        }
        entries.add(new Entry(Kind.LOCATION, key, value.toString(), null));
        return this;
    }

    // ---- what it is

    /** How many strings were put, each line of the NOTE counted. */
    public int size() {
        return entries.size();
    }

    /**
     * The sheet, sorted, or the first refusal: of the numbers and locations in the order in which they were put (20 to 23), then of the sorted
     * lines (25, 26), then of all together (27). {@link #fault()} tells which string it is about. Nothing here changes by it.
     */
    public Seg2Result<String> build() {
        Fault fault = fault();
        return fault == null ? Seg2Result.ok(text(sorted())) : Seg2Result.refused(fault.refusal);
    }

    /** What {@link #build()} refuses, and which string is at fault; null where it refuses nothing. */
    public Fault fault() {
        for (int i = 0; i < entries.size(); i++) {
            Seg2.Refusal refusal = entries.get(i).refusal();
            if (refusal != null) {
                return new Fault(refusal, i, entries.get(i), -1, refusal.number == Seg2.Refusal.VALUE_COUNT ? -1 : (int) refusal.place);
            }
        }
        List<Entry> sorted = sorted();
        Seg2.Refusal refusal = judged(text(sorted));
        return refusal == null ? null : inSheet(sorted, refusal);
    }

    private List<Entry> sorted() {
        List<Entry> sorted = new ArrayList<>(entries);
        // a stable sort: what has one keyword stays in its order. In ASCII the order of characters is that of bytes
        Collections.sort(sorted, (a, b) -> {
            boolean note = a.key.equals(NOTE);
            return note != b.key.equals(NOTE) ? (note ? 1 : -1) : a.key.compareTo(b.key);
        });
        return sorted;
    }

    private static String text(List<Entry> sorted) {
        StringBuilder text = new StringBuilder();
        for (Entry entry : sorted) {
            text.append(entry.line());
        }
        return text.toString();
    }

    /** A line feed would make two lines of one; in its place stands a character that no line may hold, so that the library refuses the line. */
    private static String oneLine(String text) {
        return text.replace('\n', '\u0080');
    }

    /** The string whose line starts at the place. */
    private Fault inSheet(List<Entry> sorted, Seg2.Refusal refusal) {
        boolean ofLine = refusal.number == Seg2.Refusal.SHEET_LINE || refusal.number == Seg2.Refusal.SHEET_ORDER;
        long place = 0;
        for (int i = 0; ofLine && i < sorted.size(); i++) {
            Entry entry = sorted.get(i);
            if (place == refusal.place) {
                // a line of the NOTE that is not its first may start with a space, so it is judged behind another
                String before = i > 0 && sorted.get(i - 1).key.equals(NOTE) ? NOTE + "\t\n" : "";
                boolean order = refusal.number == Seg2.Refusal.SHEET_ORDER;
                int keyAt = order ? -1 : firstBad("", entry.key, "\t\n");
                int valueAt = order || keyAt >= 0 ? -1 : firstBad(before + entry.key + "\t", entry.value, "\n");
                return new Fault(refusal, entries.indexOf(entry), entry, keyAt, valueAt);
            }
            place += entry.line().length();
        }
        return new Fault(refusal, -1, null, -1, -1);
    }

    /**
     * The first character of a text with which the line is refused: what is shorter is accepted, what is longer is refused too, so half the text
     * is left at each step. A text without characters that is refused is at fault at 0; -1 where all of it is accepted.
     */
    private static int firstBad(String before, String text, String behind) {
        if (judged(before + oneLine(text) + behind) == null) {
            return -1;
        }
        int good = 0;
        int bad = text.length();
        while (bad - good > 1) {
            int middle = (good + bad) / 2;
            if (judged(before + oneLine(text.substring(0, middle)) + behind) == null) {
                good = middle;
            } else {
                bad = middle;
            }
        }
        return good;
    }

    /** What the library says of a sheet's lines. */
    private static Seg2.Refusal judged(String sheet) {
        return Seg2.startSize(Seg2.LOW_FIRST, 1, sheet).refusal();
    }

    /** What the library says of a value as a location: in the smallest file that has it. Where no sheet can hold the value, that is told later. */
    private static Seg2.Refusal ofLocation(String value) {
        ByteBuffer file = ByteBuffer.allocateDirect(128 + value.length());
        Seg2.Length started = Seg2.start(file, Seg2.LOW_FIRST, 1, "L\t" + value + "\n");
        if (!started.accepted()) {
            return null;
        }
        Seg2.Length added = Seg2.addIntegers(file, started.length, "", Seg2.FIXED_16, new int[0]);
        return Seg2.location(file, added.length, Seg2.FILE, "L").refusal();
    }

    /** The sorted lines as they stand in a sheet, judged or not. */
    @Override
    public String toString() {
        return text(sorted());
    }
}
