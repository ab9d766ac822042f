package wasinthao.seg2;

import java.nio.ByteBuffer;
import java.nio.ByteOrder;
import java.nio.IntBuffer;
import java.nio.charset.StandardCharsets;
import java.util.Arrays;

/**
 * SEG-2 shot files, read and written by a proved library: the functions of {@code seg2.h}, for Java and Kotlin.
 *
 * <p><b>Buffers.</b> A file stands in a direct {@link ByteBuffer}: {@link ByteBuffer#allocateDirect}, or a file mapped by
 * {@link java.nio.channels.FileChannel#map}. Its bytes from 0 to its limit are lent to the library and are not copied; its position is
 * neither read nor changed, and all places and starts are counted from its byte 0. {@code length} says how many of these bytes are the
 * file; any length may be given, and one over the limit is refused by 1. A {@code part} is -1 ({@link #FILE}) for the file itself, else a
 * trace, counted from 0.
 *
 * <p><b>Refusals are values.</b> Every answer has {@link Answer#refusal()}: null, or number, part, place and words. After a refusal the
 * answer's other fields are 0 and no lent memory has changed. Every question about a file checks the whole file first, so its refusal may
 * be any row from 1 to 17 of the table, or 34, before one of its own. The methods with quick in their name do not: each reads one trace,
 * and judges what it reads ({@link #quickTraceBlock}). Whoever wants much of a file asks {@link #check} once, and then the quick ones.
 *
 * <p><b>A file as an object</b> is {@link Seg2File}, which asks these methods: open, then traces, strings and samples. One that grows is
 * {@link Seg2Growing}, and {@link Seg2Sheet} makes the sheets.
 *
 * <p><b>Older recorders.</b> The methods with lenient in their name also read files whose strings stand in any order, in lower case or
 * without an end mark, and tell the strict refusal beside their answer ({@link #lenientCheck}).
 *
 * <p><b>Misuse is an {@link IllegalArgumentException}</b>, before the library is called: null, a buffer that is not direct, a read-only
 * one where something is written, a row in another byte order than the machine's, or one that lies in the file's own memory.
 *
 * <p><b>Threads.</b> The library has no state: any number of threads may call it. While a call runs, nobody else may write the memory it
 * is lent, nor read what it writes. 32 KiB of stack are enough.
 */
public final class Seg2 {
    static {
        System.loadLibrary("seg2jni");
    }

    private Seg2() {}

    /** A file is at most this long. */
    public static final int MAXIMUM_LENGTH = 67108864;
    /** The strings of one block need at most this many bytes where we write them. */
    public static final int MAXIMUM_AREA = 65500;
    /** A new file has at most this many pointer slots. */
    public static final int MAXIMUM_SLOTS = 16383;
    /** The text of a number is at most this long where we write it. */
    public static final int MAXIMUM_NUMBER_TEXT = 24;

    /** The part that is the file itself. */
    public static final int FILE = -1;

    /** Byte order: the low byte first. */
    public static final int LOW_FIRST = 0;
    /** Byte order: the high byte first. */
    public static final int HIGH_FIRST = 1;

    /** Format code: 16-bit fixed point. Samples of codes 1 to 3 travel as int. */
    public static final int FIXED_16 = 1;
    /** Format code: 32-bit fixed point. */
    public static final int FIXED_32 = 2;
    /** Format code: 20-bit floating point, four samples in ten bytes. */
    public static final int FLOAT_20 = 3;
    /** Format code: 32-bit floating point. Samples of codes 4 and 5 travel as bit patterns in long. */
    public static final int FLOAT_32 = 4;
    /** Format code: 64-bit floating point. */
    public static final int FLOAT_64 = 5;

    /** Class of a bit pattern: zero. */
    public static final byte CLASS_ZERO = 0;
    /** Class of a bit pattern: exponent bits 0, fraction not 0. */
    public static final byte CLASS_UNDERFLOW = 1;
    /** Class of a bit pattern: number. */
    public static final byte CLASS_NUMBER = 2;
    /** Class of a bit pattern: infinity. */
    public static final byte CLASS_INFINITY = 3;
    /** Class of a bit pattern: not a number. */
    public static final byte CLASS_NOT_A_NUMBER = 4;

    // ---- answers

    /** Which row of the refusal table was met, in which part, at which place. */
    public static final class Refusal {
        // The table in its order; each has the name and the number that seg2.h gives it.
        public static final int LENGTH = 1;
        public static final int FIRST_BYTES = 2;
        public static final int REVISION = 3;
        public static final int POINTER_ROOM = 4;
        public static final int TRACE_COUNT = 5;
        public static final int TERMINATOR = 6;
        public static final int ROOM_END = 7;
        public static final int POINTER = 8;
        public static final int TRACE_MARK = 9;
        public static final int BLOCK_SIZE = 10;
        public static final int DATA_SIZE = 11;
        public static final int FORMAT_CODE = 12;
        public static final int SAMPLE_COUNT = 13;
        public static final int STRING_OFFSET = 14;
        public static final int STRING_END = 15;
        public static final int CHARACTER = 16;
        public static final int KEYWORD_ORDER = 17;
        public static final int NO_TRACE = 18;
        public static final int INPUT_SIZE = 19;
        public static final int NO_NUMBER = 20;
        public static final int DIGITS = 21;
        public static final int NO_DOUBLE = 22;
        public static final int VALUE_COUNT = 23;
        public static final int NO_SLOT = 24;
        public static final int SHEET_LINE = 25;
        public static final int SHEET_ORDER = 26;
        public static final int AREA_SIZE = 27;
        public static final int ENTRY_CODE = 28;
        public static final int SAMPLE_RANGE = 29;
        public static final int NO_ROOM = 30;
        public static final int START_VALUES = 31;
        public static final int ROW_LENGTH = 32;
        public static final int CODE_KIND = 33;
        public static final int CHANNEL_NUMBER = 34;
        public static final int SHEET_CHANNEL = 35;

        /** The row of the table: one of the numbers above. */
        public final int number;
        /** -1 for the file, else the trace. */
        public final int part;
        /** A byte of the file; for 20 to 22 of the value (0 for a text by itself and for a number to be written), for 25 and 26 of the
         * sheet; for 29 the sample's index. */
        public final long place;

        private Refusal(int number, int part, long place) {
            this.number = number;
            this.part = part;
            this.place = place;
        }

        /** The row in plain words: those of seg2.h and of Rust. */
        public String text() {
            return nativeText(number);
        }

        /** Row, part, place and words, as Rust's Display tells them. */
        @Override
        public String toString() {
            return "refused (" + number + ")" + whose() + where() + ": " + text();
        }

        /** Whether the row is one of a file's check: its part is the file or a trace, and its place a byte of the file. */
        boolean isOfCheck() {
            return (number >= LENGTH && number <= KEYWORD_ORDER) || number == CHANNEL_NUMBER;
        }

        private String whose() {
            // of other rows the part is always -1 and says nothing
            if (!isOfCheck()) {
                return "";
            }
            return part < 0 ? " in the file" : " in trace " + part;
        }

        private String where() {
            switch (number) {
                case LENGTH:
                case FIRST_BYTES:
                    return "";
                case NO_NUMBER:
                case DIGITS:
                case NO_DOUBLE:
                    return " at byte " + place + " of the value";
                case SHEET_LINE:
                case SHEET_ORDER:
                    return " at byte " + place + " of the sheet";
                case SAMPLE_RANGE:
                    return " at sample " + place;
                default:
                    return isOfCheck() ? " at byte " + place : "";
            }
        }

        @Override
        public boolean equals(Object other) {
            if (!(other instanceof Refusal)) {
                return false;
            }
            Refusal r = (Refusal) other;
            return r.number == number && r.part == part && r.place == place;
        }

        @Override
        public int hashCode() {
            return (number * 31 + part) * 31 + (int) place;
        }
    }

    /** What every answer has. */
    public abstract static class Answer {
        private final Refusal refusal;

        private Answer(long[] a) {
            refusal = a[0] == 0 ? null : new Refusal((int) a[0], (int) a[1], a[2]);
        }

        /** The refusal, or null where there is none. */
        public final Refusal refusal() {
            return refusal;
        }

        /** Whether there is no refusal. */
        public final boolean accepted() {
            return refusal == null;
        }
    }

    /** No value beside the refusal. */
    public static final class Verdict extends Answer {
        private Verdict(long[] a) {
            super(a);
        }
    }

    /** The file block. */
    public static final class FileBlock extends Answer {
        /** {@link #LOW_FIRST} or {@link #HIGH_FIRST}. */
        public final int order;
        /** M, in bytes: 4 for each pointer slot. */
        public final int pointerRoom;
        /** N. */
        public final int traceCount;
        /** The characters that end a string; empty after a refusal. */
        public final String stringTerminator;
        /** The characters between the lines of a NOTE; empty after a refusal. */
        public final String lineTerminator;

        private FileBlock(long[] a, ByteBuffer buffer) {
            super(a);
            order = (int) a[3];
            pointerRoom = (int) a[4];
            traceCount = (int) a[5];
            // a refusal has no characters, and perhaps not so many bytes
            stringTerminator = accepted() ? textOf(part(buffer, 9, a[6])) : "";
            lineTerminator = accepted() ? textOf(part(buffer, 12, a[7])) : "";
        }
    }

    /** A trace block. The data is {@code dataSize} bytes from {@code start + blockSize} on. */
    public static final class TraceBlock extends Answer {
        /** The pointer. */
        public final int start;
        /** B. */
        public final int blockSize;
        /** D. */
        public final int dataSize;
        /** S. */
        public final int sampleCount;
        /** 1 to 5. */
        public final int formatCode;

        private TraceBlock(long[] a) {
            super(a);
            // a file is at most 2^26 bytes, so what it holds fits an int
            start = (int) a[3];
            blockSize = (int) a[4];
            dataSize = (int) a[5];
            sampleCount = (int) a[6];
            formatCode = (int) a[7];
        }
    }

    /** How many. */
    public static final class Count extends Answer {
        /** How many. */
        public final int count;

        private Count(long[] a) {
            super(a);
            count = (int) a[3];
        }
    }

    /** A string of a part. */
    public static final class Entry extends Answer {
        /** Whether there is one with this index. */
        public final boolean found;
        /** Where the keyword starts in the buffer. */
        public final int keyStart;
        /** The keyword's length. */
        public final int keyLength;
        /** Where the value starts in the buffer. */
        public final int valueStart;
        /** The value's length. */
        public final int valueLength;

        private final ByteBuffer buffer;

        private Entry(long[] a, ByteBuffer buffer) {
            super(a);
            found = a[3] != 0;
            keyStart = (int) a[4];
            keyLength = (int) a[5];
            valueStart = (int) a[6];
            valueLength = (int) a[7];
            this.buffer = buffer;
        }

        /** The keyword as the buffer's own bytes, not a copy. */
        public ByteBuffer key() {
            return part(buffer, keyStart, keyLength);
        }

        /** The value as the buffer's own bytes, not a copy. */
        public ByteBuffer value() {
            return part(buffer, valueStart, valueLength);
        }

        /** The keyword as text: a copy. */
        public String keyText() {
            return textOf(key());
        }

        /** The value as text: a copy. */
        public String valueText() {
            return textOf(value());
        }
    }

    /** Whether a keyword is there. */
    public static final class Keyword extends Answer {
        /** Yes or no. */
        public final boolean found;

        private Keyword(long[] a) {
            super(a);
            found = a[3] != 0;
        }
    }

    /** Where a value stands in the buffer; start and length are 0 for a no or a refusal. */
    public static final class Value extends Answer {
        /** Where the value starts in the buffer. */
        public final int start;
        /** Its length. */
        public final int length;

        private final ByteBuffer buffer;

        private Value(long[] a, ByteBuffer buffer) {
            super(a);
            start = (int) a[3];
            length = (int) a[4];
            this.buffer = buffer;
        }

        /** The value as the buffer's own bytes, not a copy; for a no or a refusal the empty part at the buffer's start. */
        public ByteBuffer bytes() {
            return part(buffer, start, length);
        }

        /** The value as text: a copy. */
        public String text() {
            return textOf(bytes());
        }
    }

    /**
     * A number: coefficient as written, times ten to the power, negated where minus. Zero has no minus. {@code decimals} tells the
     * precision that was typed: 0.250 has 3 and 0.25 has 2.
     */
    public static final class Decimal extends Answer {
        /** Whether it is below zero. */
        public final boolean minus;
        /** All digits before E as one whole number, of at most 18 digits. */
        public final long coefficient;
        /** The power of ten. */
        public final int power;
        /** How many digits stood after the point. */
        public final int decimals;

        private Decimal(long[] a) {
            super(a);
            minus = a[3] != 0;
            power = (int) a[4];
            coefficient = a[5];
            decimals = (int) a[6];
        }

        /**
         * The number as text, to be shown or for a sheet: what {@link #writeNumber} writes of it, so with the decimals that were typed. It
         * reads back as the same number. Empty after a refusal.
         */
        public String text() {
            if (!accepted()) {
                return "";
            }
            byte[] room = new byte[MAXIMUM_NUMBER_TEXT];
            Length written = writeNumber(room, minus, coefficient, power, decimals);
            return textOf(ByteBuffer.wrap(room, 0, written.length));
        }
    }

    /** A double. */
    public static final class DoubleValue extends Answer {
        /** The value. */
        public final double value;

        private DoubleValue(long[] a) {
            super(a);
            value = Double.longBitsToDouble(a[3]);
        }
    }

    /** A location: one value or three, each with how many digits stood after its point; all of absent ones is 0. */
    public static final class Location extends Answer {
        /** 1 or 3. */
        public final int count;
        public final double x;
        public final double y;
        public final double z;
        /** How many digits stood after the point of x. */
        public final int xDecimals;
        /** How many digits stood after the point of y. */
        public final int yDecimals;
        /** How many digits stood after the point of z. */
        public final int zDecimals;

        private Location(long[] a) {
            super(a);
            count = (int) a[3];
            x = Double.longBitsToDouble(a[4]);
            y = Double.longBitsToDouble(a[5]);
            z = Double.longBitsToDouble(a[6]);
            xDecimals = (int) a[7];
            yDecimals = (int) a[8];
            zDecimals = (int) a[9];
        }
    }

    /** The length of the image after a start or an addition; of the text after a number was written. */
    public static final class Length extends Answer {
        /** In bytes. */
        public final int length;

        private Length(long[] a) {
            super(a);
            length = (int) a[3];
        }
    }

    /** What a lenient question tells: its own answer, and beside it, also after a refusal, what the strict check says of the file. */
    public static final class Lenient<A extends Answer> {
        /** The lenient answer, or its refusal. */
        public final A answer;
        /** What {@link #check} answers: no refusal, or the first row that the file meets, 1 to 17 or 34. Only where there is none can a
         * trace be added to the file. */
        public final Verdict strict;

        private Lenient(A answer, long[] a) {
            this.answer = answer;
            strict = new Verdict(Arrays.copyOfRange(a, a.length - STRICT, a.length));
        }
    }

    /** So many numbers stand behind those of a lenient answer: the strict verdict's number, part and place. */
    private static final int STRICT = 3;

    // ---- questions

    /** Whether the first {@code length} bytes are a file that keeps the rules; if not, the first row of the table that they meet, 1 to 17 or
     * 34. */
    public static Verdict check(ByteBuffer buffer, long length) {
        long[] a = new long[3];
        nativeCheck(lent(buffer), buffer.limit(), length, a);
        return new Verdict(a);
    }

    /** The file block: byte order, M, N and the terminators. */
    public static FileBlock fileBlock(ByteBuffer buffer, long length) {
        long[] a = new long[8];
        nativeFileBlock(lent(buffer), buffer.limit(), length, a);
        return new FileBlock(a, buffer);
    }

    /** The block of a trace. 18 where there is no such trace; -1 is none. */
    public static TraceBlock traceBlock(ByteBuffer buffer, long length, int trace) {
        long[] a = new long[8];
        nativeTraceBlock(lent(buffer), buffer.limit(), length, trace, a);
        return new TraceBlock(a);
    }

    /** How many strings a part has. 18 where there is no such part. */
    public static Count stringCount(ByteBuffer buffer, long length, int part) {
        long[] a = new long[4];
        nativeStringCount(lent(buffer), buffer.limit(), length, part, a);
        return new Count(a);
    }

    /** The string of a part with this index, counted from 0; past the last, {@code found} is false, which is no refusal. 18 as above. */
    public static Entry string(ByteBuffer buffer, long length, int part, long index) {
        long[] a = new long[8];
        nativeString(lent(buffer), buffer.limit(), length, part, index, a);
        return new Entry(a, buffer);
    }

    /**
     * All strings of a part in one call, for a listing: its time grows with the strings, where one call for each string goes through the
     * list every time. The row has exactly four elements for each string, so 4 times {@link #stringCount}: where the keyword starts in the
     * buffer, its length, where the value starts, its length, string behind string. It goes by way of a copy. 18 as above, 32 where the row
     * has another length.
     */
    public static Verdict strings(ByteBuffer buffer, long length, int part, long[] row) {
        long[] a = new long[3];
        nativeStrings(lent(buffer), buffer.limit(), length, part, there(row, "row"), a);
        return new Verdict(a);
    }

    /**
     * Whether a part has a keyword: yes, no, or the refusal. What cannot be a keyword is a no. 18 as above.
     *
     * <p>RECEIVER_GEOMETRY and SOURCE_GEOMETRY may stand several times running in a part. The questions on a keyword answer the first of
     * them; {@link #string} and {@link #strings} have them all.
     */
    public static Keyword keyword(ByteBuffer buffer, long length, int part, byte[] key) {
        long[] a = new long[4];
        nativeKeyword(lent(buffer), buffer.limit(), length, part, there(key, "keyword"), a);
        return new Keyword(a);
    }

    /** The same, of a keyword in a String. */
    public static Keyword keyword(ByteBuffer buffer, long length, int part, String key) {
        return keyword(buffer, length, part, bytesOf(key, "keyword"));
    }

    /**
     * The value of a keyword as the buffer's own bytes. A no is start 0 and length 0 without a refusal, so {@link #keyword} tells a keyword
     * without a value from no keyword. 18 as above.
     */
    public static Value value(ByteBuffer buffer, long length, int part, byte[] key) {
        long[] a = new long[5];
        nativeValue(lent(buffer), buffer.limit(), length, part, there(key, "keyword"), a);
        return new Value(a, buffer);
    }

    /** The same, of a keyword in a String. */
    public static Value value(ByteBuffer buffer, long length, int part, String key) {
        return value(buffer, length, part, bytesOf(key, "keyword"));
    }

    /** The value of a keyword as a number. 18 as above, 20 where it is no number (so where the keyword is missing), 21 too many digits. */
    public static Decimal number(ByteBuffer buffer, long length, int part, byte[] key) {
        long[] a = new long[7];
        nativeNumber(lent(buffer), buffer.limit(), length, part, there(key, "keyword"), a);
        return new Decimal(a);
    }

    /** The same, of a keyword in a String. */
    public static Decimal number(ByteBuffer buffer, long length, int part, String key) {
        return number(buffer, length, part, bytesOf(key, "keyword"));
    }

    /** The value of a keyword as a double. The refusals of {@link #number}, then 22. {@code double} is a word of Java's, hence the name. */
    public static DoubleValue doubleValue(ByteBuffer buffer, long length, int part, byte[] key) {
        long[] a = new long[4];
        nativeDouble(lent(buffer), buffer.limit(), length, part, there(key, "keyword"), a);
        return new DoubleValue(a);
    }

    /** The same, of a keyword in a String. */
    public static DoubleValue doubleValue(ByteBuffer buffer, long length, int part, String key) {
        return doubleValue(buffer, length, part, bytesOf(key, "keyword"));
    }

    /** The value of a keyword as a location. 18 as above, 23 where the values are neither one nor three (so where the
     * keyword is missing), then 20 to 22 value by value. */
    public static Location location(ByteBuffer buffer, long length, int part, byte[] key) {
        long[] a = new long[10];
        nativeLocation(lent(buffer), buffer.limit(), length, part, there(key, "keyword"), a);
        return new Location(a);
    }

    /** The same, of a keyword in a String. */
    public static Location location(ByteBuffer buffer, long length, int part, String key) {
        return location(buffer, length, part, bytesOf(key, "keyword"));
    }

    /**
     * The samples of a trace of code 1 to 3, into an array of exactly S elements. Goes through a copy of the array; a direct
     * {@link IntBuffer} does not. 18 where there is no such trace, 33 where its code is 4 or 5, 32 where the row has another length.
     */
    public static Verdict integers(ByteBuffer buffer, long length, int trace, int[] row) {
        long[] a = new long[3];
        nativeIntegersArray(lent(buffer), buffer.limit(), length, trace, there(row, "row"), a);
        return new Verdict(a);
    }

    /**
     * The same, straight into a direct buffer's memory, without a copy: its elements from 0 to its limit are the row. It has the machine's
     * own byte order: {@code ByteBuffer.allocateDirect(4 * s).order(ByteOrder.nativeOrder()).asIntBuffer()}.
     */
    public static Verdict integers(ByteBuffer buffer, long length, int trace, IntBuffer row) {
        long[] a = new long[3];
        nativeIntegersBuffer(lent(buffer), buffer.limit(), length, trace, filled(row), row.limit(), a);
        return new Verdict(a);
    }

    /**
     * The bit patterns of the samples of a trace of code 4 or 5 and their classes, into two arrays of exactly S elements, by way of a copy.
     * A pattern of code 4 is in the low 32 bits: {@code Float.intBitsToFloat((int) row[i])}; one of code 5 is
     * {@code Double.longBitsToDouble(row[i])}. 18, 33 (its code is 1 to 3) and 32 as above.
     */
    public static Verdict bits(ByteBuffer buffer, long length, int trace, long[] row, byte[] classes) {
        long[] a = new long[3];
        nativeBits(lent(buffer), buffer.limit(), length, trace, there(row, "row"), there(classes, "classes' row"), a);
        return new Verdict(a);
    }

    // ---- one trace, quickly (document 02, section 5): without the check of the whole file

    /**
     * The block of a trace, without a check of the file: no string and no data is read. Every question on a trace has such a quick form,
     * with the same arguments and the same answer. What it costs does not grow with the number of traces: one value of a long file is there
     * at once, and all traces of a file take time in proportion to their number.
     *
     * <p>Each reads the file block's first 32 bytes, the trace's pointer and the first 32 bytes of its block; then, where the question is on
     * strings, the trace's strings in order, each whole, as far as its comment says; and where it is on samples, the trace's data. It looks
     * at nothing else: not at the strings behind, the other traces or the file's own strings, at no data where it is asked for strings, and
     * at no string where it is asked for samples. So it may answer where {@link #check} refuses the file, for something that was not read.
     * Where {@link #check} accepts the file, it answers as the method without quick in its name, rows included, for every trace number from
     * 0 on.
     *
     * <p>Refusals, of what was read alone: 1 to 7, then 18 where there is no such trace ({@link #FILE} is none: the file's own strings have
     * no quick form), 8 (a pointer that is no multiple of 4, leads into the pointer room, or leaves no room for a block; it may lead into
     * another trace), 9 to 13, then those of the question, and for strings 14 to 17 before them, string by string. 34 is never given: it
     * would need another trace.
     */
    public static TraceBlock quickTraceBlock(ByteBuffer buffer, long length, int trace) {
        long[] a = new long[8];
        nativeQuickTraceBlock(lent(buffer), buffer.limit(), length, trace, a);
        return new TraceBlock(a);
    }

    /** How many strings a trace has, as {@link #stringCount}: all of them are read, and the end mark. */
    public static Count quickStringCount(ByteBuffer buffer, long length, int trace) {
        long[] a = new long[4];
        nativeQuickStringCount(lent(buffer), buffer.limit(), length, trace, a);
        return new Count(a);
    }

    /**
     * The string of a trace with this index, as {@link #string}: read are those up to it, itself too, and where there are fewer, all of them
     * and the end mark; then {@code found} is false, which is no refusal.
     */
    public static Entry quickString(ByteBuffer buffer, long length, int trace, long index) {
        long[] a = new long[8];
        nativeQuickString(lent(buffer), buffer.limit(), length, trace, index, a);
        return new Entry(a, buffer);
    }

    /**
     * All strings of a trace into a row of four elements each, as {@link #strings}: all of them are read, and the end mark. 32, behind 14 to
     * 17, where the row has not exactly 4 times {@link #quickStringCount} elements.
     */
    public static Verdict quickStrings(ByteBuffer buffer, long length, int trace, long[] row) {
        long[] a = new long[3];
        nativeQuickStrings(lent(buffer), buffer.limit(), length, trace, there(row, "row"), a);
        return new Verdict(a);
    }

    /**
     * Whether a trace has a keyword, as {@link #keyword}: yes, no, or the refusal. Strings are read until the keyword is found or passed:
     * until one stands there that is greater than the asked one, or NOTE. NOTE itself is sought to the end of the list. The found or passed
     * string is judged too.
     */
    public static Keyword quickKeyword(ByteBuffer buffer, long length, int trace, byte[] key) {
        long[] a = new long[4];
        nativeQuickKeyword(lent(buffer), buffer.limit(), length, trace, there(key, "keyword"), a);
        return new Keyword(a);
    }

    /** The same, of a keyword in a String. */
    public static Keyword quickKeyword(ByteBuffer buffer, long length, int trace, String key) {
        return quickKeyword(buffer, length, trace, bytesOf(key, "keyword"));
    }

    /**
     * The value of a trace's keyword as the buffer's own bytes, as {@link #value}; the strings are read as far as by {@link #quickKeyword}. A
     * no is start 0 and length 0 without a refusal. The lines of a NOTE are parted by the line terminator, whose length stands in byte 11 of
     * the file and whose characters in byte 12 on; where there is an answer, both have been judged.
     */
    public static Value quickValue(ByteBuffer buffer, long length, int trace, byte[] key) {
        long[] a = new long[5];
        nativeQuickValue(lent(buffer), buffer.limit(), length, trace, there(key, "keyword"), a);
        return new Value(a, buffer);
    }

    /** The same, of a keyword in a String. */
    public static Value quickValue(ByteBuffer buffer, long length, int trace, String key) {
        return quickValue(buffer, length, trace, bytesOf(key, "keyword"));
    }

    /** That value as a number: then 20 or 21, as {@link #number}. */
    public static Decimal quickNumber(ByteBuffer buffer, long length, int trace, byte[] key) {
        long[] a = new long[7];
        nativeQuickNumber(lent(buffer), buffer.limit(), length, trace, there(key, "keyword"), a);
        return new Decimal(a);
    }

    /** The same, of a keyword in a String. */
    public static Decimal quickNumber(ByteBuffer buffer, long length, int trace, String key) {
        return quickNumber(buffer, length, trace, bytesOf(key, "keyword"));
    }

    /** That value as a double: then 20 to 22, as {@link #doubleValue}. */
    public static DoubleValue quickDoubleValue(ByteBuffer buffer, long length, int trace, byte[] key) {
        long[] a = new long[4];
        nativeQuickDouble(lent(buffer), buffer.limit(), length, trace, there(key, "keyword"), a);
        return new DoubleValue(a);
    }

    /** The same, of a keyword in a String. */
    public static DoubleValue quickDoubleValue(ByteBuffer buffer, long length, int trace, String key) {
        return quickDoubleValue(buffer, length, trace, bytesOf(key, "keyword"));
    }

    /** That value as a location: then 23, and 20 to 22 value by value, as {@link #location}. */
    public static Location quickLocation(ByteBuffer buffer, long length, int trace, byte[] key) {
        long[] a = new long[10];
        nativeQuickLocation(lent(buffer), buffer.limit(), length, trace, there(key, "keyword"), a);
        return new Location(a);
    }

    /** The same, of a keyword in a String. */
    public static Location quickLocation(ByteBuffer buffer, long length, int trace, String key) {
        return quickLocation(buffer, length, trace, bytesOf(key, "keyword"));
    }

    /** The samples of a trace of code 1 to 3 into an array of exactly S elements, by way of a copy: 33, then 32, as {@link #integers}. */
    public static Verdict quickIntegers(ByteBuffer buffer, long length, int trace, int[] row) {
        long[] a = new long[3];
        nativeQuickIntegersArray(lent(buffer), buffer.limit(), length, trace, there(row, "row"), a);
        return new Verdict(a);
    }

    /** The same, straight into a direct buffer's memory, without a copy, as {@link #integers(ByteBuffer, long, int, IntBuffer)} has it. */
    public static Verdict quickIntegers(ByteBuffer buffer, long length, int trace, IntBuffer row) {
        long[] a = new long[3];
        nativeQuickIntegersBuffer(lent(buffer), buffer.limit(), length, trace, filled(row), row.limit(), a);
        return new Verdict(a);
    }

    /**
     * The bit patterns of the samples of a trace of code 4 or 5 and their classes into two arrays of exactly S elements, by way of a copy:
     * 33, then 32, as {@link #bits}.
     */
    public static Verdict quickBits(ByteBuffer buffer, long length, int trace, long[] row, byte[] classes) {
        long[] a = new long[3];
        nativeQuickBits(lent(buffer), buffer.limit(), length, trace, there(row, "row"), there(classes, "classes' row"), a);
        return new Verdict(a);
    }

    // ---- older recorders (document 02, section 11): a lenient reading beside the strict one

    /**
     * Whether the first {@code length} bytes are a file that can be read leniently; if not, the first row that they meet. Recorders from
     * before our own put strings in any order, in lower case, and leave out the end mark in a full area. Every question on a file has such a
     * lenient form, with the same arguments; beside the same answer, {@link Lenient#strict} is what {@link #check} says of the file.
     *
     * <p>Forgiven are, in the file's own strings and in each trace's:
     * <ul>
     * <li>lower-case letters in a keyword, which counts as its upper-case form; so note is NOTE, and its value may have lines;
     * <li>any order of keywords, and repeats: 17 is never given;
     * <li>a list of strings without an end mark, where no byte of its area is left (one byte left is still 14);
     * <li>channel numbers, whatever they are and whichever traces have them: 34 is never given.
     * </ul>
     * Nothing else is: the refusals are 1 to 16 but for these points, then those of the question. Where {@link #check} accepts the file,
     * each answers as the method without lenient in its name, rows included.
     *
     * <p>A key is asked as it is given, so in upper case: one with a lower-case letter is a no, as always. Of a keyword that repeats, the
     * questions on it answer the first; {@link #lenientString} and {@link #lenientStrings} have them all. Starts lead to the bytes as they
     * stand in the file, lower case too.
     *
     * <p>Each call checks the file twice, in both ways, and there are no quick forms: where {@link Lenient#strict} has no refusal, the
     * quick methods answer the same in less time. An addition needs the strict check.
     */
    public static Lenient<Verdict> lenientCheck(ByteBuffer buffer, long length) {
        long[] a = new long[3 + STRICT];
        nativeLenientCheck(lent(buffer), buffer.limit(), length, a);
        return new Lenient<>(new Verdict(a), a);
    }

    /** The file block, as {@link #fileBlock}. */
    public static Lenient<FileBlock> lenientFileBlock(ByteBuffer buffer, long length) {
        long[] a = new long[8 + STRICT];
        nativeLenientFileBlock(lent(buffer), buffer.limit(), length, a);
        return new Lenient<>(new FileBlock(a, buffer), a);
    }

    /** The block of a trace, as {@link #traceBlock}: 18. */
    public static Lenient<TraceBlock> lenientTraceBlock(ByteBuffer buffer, long length, int trace) {
        long[] a = new long[8 + STRICT];
        nativeLenientTraceBlock(lent(buffer), buffer.limit(), length, trace, a);
        return new Lenient<>(new TraceBlock(a), a);
    }

    /** How many strings a part has, repeats counted, as {@link #stringCount}: 18. */
    public static Lenient<Count> lenientStringCount(ByteBuffer buffer, long length, int part) {
        long[] a = new long[4 + STRICT];
        nativeLenientStringCount(lent(buffer), buffer.limit(), length, part, a);
        return new Lenient<>(new Count(a), a);
    }

    /**
     * The string of a part with this index, in the order of the file, as {@link #string}: 18. {@link Entry#keyText()} is the keyword as it
     * stands there; it counts as {@code keyText().toUpperCase(Locale.ROOT)}.
     */
    public static Lenient<Entry> lenientString(ByteBuffer buffer, long length, int part, long index) {
        long[] a = new long[8 + STRICT];
        nativeLenientString(lent(buffer), buffer.limit(), length, part, index, a);
        return new Lenient<>(new Entry(a, buffer), a);
    }

    /** All strings of a part into a row of four elements each, as {@link #strings}: 18, then 32 where the row has not exactly 4 times
     * {@link #lenientStringCount} elements. */
    public static Lenient<Verdict> lenientStrings(ByteBuffer buffer, long length, int part, long[] row) {
        long[] a = new long[3 + STRICT];
        nativeLenientStrings(lent(buffer), buffer.limit(), length, part, there(row, "row"), a);
        return new Lenient<>(new Verdict(a), a);
    }

    /** Whether a part has a keyword in any case of its letters, as {@link #keyword}: yes, no, or 18. */
    public static Lenient<Keyword> lenientKeyword(ByteBuffer buffer, long length, int part, byte[] key) {
        long[] a = new long[4 + STRICT];
        nativeLenientKeyword(lent(buffer), buffer.limit(), length, part, there(key, "keyword"), a);
        return new Lenient<>(new Keyword(a), a);
    }

    /** The same, of a keyword in a String. */
    public static Lenient<Keyword> lenientKeyword(ByteBuffer buffer, long length, int part, String key) {
        return lenientKeyword(buffer, length, part, bytesOf(key, "keyword"));
    }

    /** The value of the first such keyword as the buffer's own bytes, as {@link #value}: 18. */
    public static Lenient<Value> lenientValue(ByteBuffer buffer, long length, int part, byte[] key) {
        long[] a = new long[5 + STRICT];
        nativeLenientValue(lent(buffer), buffer.limit(), length, part, there(key, "keyword"), a);
        return new Lenient<>(new Value(a, buffer), a);
    }

    /** The same, of a keyword in a String. */
    public static Lenient<Value> lenientValue(ByteBuffer buffer, long length, int part, String key) {
        return lenientValue(buffer, length, part, bytesOf(key, "keyword"));
    }

    /** That value as a number: then 20 or 21, as {@link #number}. */
    public static Lenient<Decimal> lenientNumber(ByteBuffer buffer, long length, int part, byte[] key) {
        long[] a = new long[7 + STRICT];
        nativeLenientNumber(lent(buffer), buffer.limit(), length, part, there(key, "keyword"), a);
        return new Lenient<>(new Decimal(a), a);
    }

    /** The same, of a keyword in a String. */
    public static Lenient<Decimal> lenientNumber(ByteBuffer buffer, long length, int part, String key) {
        return lenientNumber(buffer, length, part, bytesOf(key, "keyword"));
    }

    /** That value as a double: then 20 to 22, as {@link #doubleValue}. */
    public static Lenient<DoubleValue> lenientDoubleValue(ByteBuffer buffer, long length, int part, byte[] key) {
        long[] a = new long[4 + STRICT];
        nativeLenientDouble(lent(buffer), buffer.limit(), length, part, there(key, "keyword"), a);
        return new Lenient<>(new DoubleValue(a), a);
    }

    /** The same, of a keyword in a String. */
    public static Lenient<DoubleValue> lenientDoubleValue(ByteBuffer buffer, long length, int part, String key) {
        return lenientDoubleValue(buffer, length, part, bytesOf(key, "keyword"));
    }

    /** That value as a location: then 23, and 20 to 22 value by value, as {@link #location}. */
    public static Lenient<Location> lenientLocation(ByteBuffer buffer, long length, int part, byte[] key) {
        long[] a = new long[10 + STRICT];
        nativeLenientLocation(lent(buffer), buffer.limit(), length, part, there(key, "keyword"), a);
        return new Lenient<>(new Location(a), a);
    }

    /** The same, of a keyword in a String. */
    public static Lenient<Location> lenientLocation(ByteBuffer buffer, long length, int part, String key) {
        return lenientLocation(buffer, length, part, bytesOf(key, "keyword"));
    }

    /** The samples of a trace of code 1 to 3 into an array of exactly S elements, by way of a copy: 18, 33, then 32, as {@link #integers}. */
    public static Lenient<Verdict> lenientIntegers(ByteBuffer buffer, long length, int trace, int[] row) {
        long[] a = new long[3 + STRICT];
        nativeLenientIntegersArray(lent(buffer), buffer.limit(), length, trace, there(row, "row"), a);
        return new Lenient<>(new Verdict(a), a);
    }

    /** The same, straight into a direct buffer's memory, without a copy, as {@link #integers(ByteBuffer, long, int, IntBuffer)} has it. */
    public static Lenient<Verdict> lenientIntegers(ByteBuffer buffer, long length, int trace, IntBuffer row) {
        long[] a = new long[3 + STRICT];
        nativeLenientIntegersBuffer(lent(buffer), buffer.limit(), length, trace, filled(row), row.limit(), a);
        return new Lenient<>(new Verdict(a), a);
    }

    /**
     * The bit patterns of the samples of a trace of code 4 or 5 and their classes into two arrays of exactly S elements, by way of a copy:
     * 18, 33, then 32, as {@link #bits}.
     */
    public static Lenient<Verdict> lenientBits(ByteBuffer buffer, long length, int trace, long[] row, byte[] classes) {
        long[] a = new long[3 + STRICT];
        nativeLenientBits(lent(buffer), buffer.limit(), length, trace, there(row, "row"), there(classes, "classes' row"), a);
        return new Lenient<>(new Verdict(a), a);
    }

    // ---- a number and its text: no file is lent, so no row of its check comes first

    /**
     * A text as a number: what a user typed, before it goes into a sheet. The answer is the one that {@link #number} gives where a keyword's
     * value is this text. 20 where it is no number, 21 where it has too many digits; place 0.
     */
    public static Decimal readNumber(byte[] text) {
        long[] a = new long[7];
        nativeReadNumber(there(text, "text"), a);
        return new Decimal(a);
    }

    /** The same, of a text in a String. */
    public static Decimal readNumber(String text) {
        return readNumber(bytesOf(text, "text"));
    }

    /**
     * Writes a number as text at the array's start, by way of a copy, and answers the text's length: exactly {@code decimals} digits after
     * the point, at least one before it and otherwise no zero in front, then E with the power plus the decimals where this is not 0. Any
     * numbers may be given; the coefficient and the decimals count without a sign. Refusals in order, place 0: 20 for zero with a minus, 21
     * for more than 18 digits before E or more than 2 after it, 30 where the text is longer than the array. A refusal has changed no byte;
     * bytes past the text stay as they were. An array of {@link #MAXIMUM_NUMBER_TEXT} bytes is room enough. {@link Decimal#text()} gives a
     * number that was read as a String.
     */
    public static Length writeNumber(byte[] text, boolean minus, long coefficient, int power, int decimals) {
        long[] a = new long[4];
        nativeWriteNumber(there(text, "text"), minus, coefficient, power, decimals, a);
        return new Length(a);
    }

    // ---- writing. A refusal has changed no byte; bytes past the answered length stay as they were.

    /**
     * Writes the image of a new file without traces at the buffer's start and answers its length. The sheet is lines of text, each a
     * keyword, a tab, a value and a line feed, with the keywords rising. RECEIVER_GEOMETRY and SOURCE_GEOMETRY may have several lines
     * running, each a string of its own; consecutive NOTE lines at its end are the lines of one NOTE.
     * Refusals in order: 31, 25, 26 (line by line), 27, 30. The image is no file yet: the questions refuse it by 5.
     */
    public static Length start(ByteBuffer buffer, int order, int slots, byte[] sheet) {
        long[] a = new long[4];
        nativeStart(written(buffer), buffer.limit(), order, slots, there(sheet, "sheet"), a);
        return new Length(a);
    }

    /** The same, of a sheet in a String; a place in it is an index of the String. */
    public static Length start(ByteBuffer buffer, int order, int slots, String sheet) {
        return start(buffer, order, slots, bytesOf(sheet, "sheet"));
    }

    /**
     * Adds a trace of code 1 to 3 behind the file, or new image, that the first {@code length} bytes are, and answers the new length.
     * The samples go through a copy; those of a direct {@link IntBuffer} do not. Refusals in order: 1 to 17 and 34 for the file, 24, 25, 26
     * (line by line), 27, 35, 28, 29, 30. The first trace chooses whether sheets have a CHANNEL_NUMBER, 1 to 32,767 in plain digits: later
     * ones have it or not as the first has.
     */
    public static Length addIntegers(ByteBuffer buffer, long length, byte[] sheet, int code, int[] row) {
        long[] a = new long[4];
        nativeAddIntegersArray(written(buffer), buffer.limit(), length, there(sheet, "sheet"), code, there(row, "row"), a);
        return new Length(a);
    }

    /** The same, of a sheet in a String. */
    public static Length addIntegers(ByteBuffer buffer, long length, String sheet, int code, int[] row) {
        return addIntegers(buffer, length, bytesOf(sheet, "sheet"), code, row);
    }

    /** The same, straight from a direct buffer's memory, without a copy: its elements from 0 to its limit are the row. */
    public static Length addIntegers(ByteBuffer buffer, long length, byte[] sheet, int code, IntBuffer row) {
        long[] a = new long[4];
        nativeAddIntegersBuffer(written(buffer), buffer.limit(), length, there(sheet, "sheet"), code, direct(row), row.limit(), a);
        return new Length(a);
    }

    /** The same, of a sheet in a String. */
    public static Length addIntegers(ByteBuffer buffer, long length, String sheet, int code, IntBuffer row) {
        return addIntegers(buffer, length, bytesOf(sheet, "sheet"), code, row);
    }

    /** Adds a trace of code 4 or 5 from bit patterns, in the same way and with the same refusals, by way of a copy. */
    public static Length addBits(ByteBuffer buffer, long length, byte[] sheet, int code, long[] row) {
        long[] a = new long[4];
        nativeAddBits(written(buffer), buffer.limit(), length, there(sheet, "sheet"), code, there(row, "row"), a);
        return new Length(a);
    }

    /** The same, of a sheet in a String. */
    public static Length addBits(ByteBuffer buffer, long length, String sheet, int code, long[] row) {
        return addBits(buffer, length, bytesOf(sheet, "sheet"), code, row);
    }

    // ---- room beforehand

    /** The length that the file of a start would have, without a buffer: the start's refusals 31, 25, 26 and 27. */
    public static Length startSize(int order, int slots, byte[] sheet) {
        long[] a = new long[4];
        nativeStartSize(order, slots, there(sheet, "sheet"), a);
        return new Length(a);
    }

    /** The same, of a sheet in a String. */
    public static Length startSize(int order, int slots, String sheet) {
        return startSize(order, slots, bytesOf(sheet, "sheet"));
    }

    /**
     * The length that the file would have after an addition, without room for it and without the samples; their count is without a sign. The
     * addition's refusals but 29, and 30 only where the file would be longer than {@link #MAXIMUM_LENGTH}.
     */
    public static Length addSize(ByteBuffer buffer, long length, byte[] sheet, int code, long sampleCount) {
        long[] a = new long[4];
        nativeAddSize(lent(buffer), buffer.limit(), length, there(sheet, "sheet"), code, sampleCount, a);
        return new Length(a);
    }

    /** The same, of a sheet in a String. */
    public static Length addSize(ByteBuffer buffer, long length, String sheet, int code, long sampleCount) {
        return addSize(buffer, length, bytesOf(sheet, "sheet"), code, sampleCount);
    }

    // ---- what is lent

    static <T> T there(T given, String what) {
        if (given == null) {
            throw new IllegalArgumentException("the " + what + " is null");
        }
        return given;
    }

    static ByteBuffer lent(ByteBuffer buffer) {
        if (!there(buffer, "buffer").isDirect()) {
            throw new IllegalArgumentException("the buffer is not direct: use ByteBuffer.allocateDirect, or map the file");
        }
        return buffer;
    }

    private static ByteBuffer written(ByteBuffer buffer) {
        if (lent(buffer).isReadOnly()) {
            throw new IllegalArgumentException("the buffer is read-only, and the file is written into it");
        }
        return buffer;
    }

    private static IntBuffer direct(IntBuffer row) {
        if (!there(row, "row").isDirect()) {
            throw new IllegalArgumentException("the row is not direct: use an int[], or asIntBuffer of a direct ByteBuffer");
        }
        if (row.order() != ByteOrder.nativeOrder()) {
            throw new IllegalArgumentException("the row has not the machine's byte order: set ByteOrder.nativeOrder() before asIntBuffer");
        }
        return row;
    }

    private static IntBuffer filled(IntBuffer row) {
        if (direct(row).isReadOnly()) {
            throw new IllegalArgumentException("the row is read-only, and the samples go into it");
        }
        return row;
    }

    /**
     * One byte a character, so that places in a sheet are indexes of the String. A character that is no ASCII becomes 80h, which neither
     * keyword nor value may hold; no encoding does this, as each has something, often '?', that it puts for what it cannot say.
     */
    private static byte[] bytesOf(String text, String what) {
        byte[] bytes = new byte[there(text, what).length()];
        for (int i = 0; i < bytes.length; i++) {
            char c = text.charAt(i);
            bytes[i] = c < 0x80 ? (byte) c : (byte) 0x80;
        }
        return bytes;
    }

    /** Bytes of the buffer that share its memory, whatever its position and limit are. */
    private static ByteBuffer part(ByteBuffer buffer, long start, long length) {
        ByteBuffer all = buffer.duplicate();
        all.clear();
        all.limit((int) (start + length));
        all.position((int) start);
        return all.slice();
    }

    private static String textOf(ByteBuffer bytes) {
        byte[] copy = new byte[bytes.remaining()];
        bytes.get(copy);
        return new String(copy, StandardCharsets.ISO_8859_1);
    }

    // ---- the native side: each fills `answer` with number, part, place and its fields; behind them a lenient one puts the strict verdict

    private static native String nativeText(int number);

    private static native void nativeCheck(ByteBuffer buffer, int size, long length, long[] answer);

    private static native void nativeFileBlock(ByteBuffer buffer, int size, long length, long[] answer);

    private static native void nativeTraceBlock(ByteBuffer buffer, int size, long length, int trace, long[] answer);

    private static native void nativeStringCount(ByteBuffer buffer, int size, long length, int part, long[] answer);

    private static native void nativeString(ByteBuffer buffer, int size, long length, int part, long index, long[] answer);

    private static native void nativeStrings(ByteBuffer buffer, int size, long length, int part, long[] row, long[] answer);

    private static native void nativeKeyword(ByteBuffer buffer, int size, long length, int part, byte[] key, long[] answer);

    private static native void nativeValue(ByteBuffer buffer, int size, long length, int part, byte[] key, long[] answer);

    private static native void nativeNumber(ByteBuffer buffer, int size, long length, int part, byte[] key, long[] answer);

    private static native void nativeDouble(ByteBuffer buffer, int size, long length, int part, byte[] key, long[] answer);

    private static native void nativeLocation(ByteBuffer buffer, int size, long length, int part, byte[] key, long[] answer);

    private static native void nativeQuickTraceBlock(ByteBuffer buffer, int size, long length, int trace, long[] answer);

    private static native void nativeQuickStringCount(ByteBuffer buffer, int size, long length, int trace, long[] answer);

    private static native void nativeQuickString(ByteBuffer buffer, int size, long length, int trace, long index, long[] answer);

    private static native void nativeQuickStrings(ByteBuffer buffer, int size, long length, int trace, long[] row, long[] answer);

    private static native void nativeQuickKeyword(ByteBuffer buffer, int size, long length, int trace, byte[] key, long[] answer);

    private static native void nativeQuickValue(ByteBuffer buffer, int size, long length, int trace, byte[] key, long[] answer);

    private static native void nativeQuickNumber(ByteBuffer buffer, int size, long length, int trace, byte[] key, long[] answer);

    private static native void nativeQuickDouble(ByteBuffer buffer, int size, long length, int trace, byte[] key, long[] answer);

    private static native void nativeQuickLocation(ByteBuffer buffer, int size, long length, int trace, byte[] key, long[] answer);

    private static native void nativeLenientCheck(ByteBuffer buffer, int size, long length, long[] answer);

    private static native void nativeLenientFileBlock(ByteBuffer buffer, int size, long length, long[] answer);

    private static native void nativeLenientTraceBlock(ByteBuffer buffer, int size, long length, int trace, long[] answer);

    private static native void nativeLenientStringCount(ByteBuffer buffer, int size, long length, int part, long[] answer);

    private static native void nativeLenientString(ByteBuffer buffer, int size, long length, int part, long index, long[] answer);

    private static native void nativeLenientStrings(ByteBuffer buffer, int size, long length, int part, long[] row, long[] answer);

    private static native void nativeLenientKeyword(ByteBuffer buffer, int size, long length, int part, byte[] key, long[] answer);

    private static native void nativeLenientValue(ByteBuffer buffer, int size, long length, int part, byte[] key, long[] answer);

    private static native void nativeLenientNumber(ByteBuffer buffer, int size, long length, int part, byte[] key, long[] answer);

    private static native void nativeLenientDouble(ByteBuffer buffer, int size, long length, int part, byte[] key, long[] answer);

    private static native void nativeLenientLocation(ByteBuffer buffer, int size, long length, int part, byte[] key, long[] answer);

    private static native void nativeReadNumber(byte[] text, long[] answer);

    private static native void nativeWriteNumber(byte[] text, boolean minus, long coefficient, int power, int decimals, long[] answer);

    private static native void nativeIntegersArray(ByteBuffer buffer, int size, long length, int trace, int[] row, long[] answer);

    private static native void nativeIntegersBuffer(ByteBuffer buffer, int size, long length, int trace, IntBuffer row, int count, long[] answer);

    private static native void nativeBits(ByteBuffer buffer, int size, long length, int trace, long[] row, byte[] classes, long[] answer);

    private static native void nativeQuickIntegersArray(ByteBuffer buffer, int size, long length, int trace, int[] row, long[] answer);

    private static native void nativeQuickIntegersBuffer(ByteBuffer buffer, int size, long length, int trace, IntBuffer row, int count, long[] answer);

    private static native void nativeQuickBits(ByteBuffer buffer, int size, long length, int trace, long[] row, byte[] classes, long[] answer);

    private static native void nativeLenientIntegersArray(ByteBuffer buffer, int size, long length, int trace, int[] row, long[] answer);

    private static native void nativeLenientIntegersBuffer(ByteBuffer buffer, int size, long length, int trace, IntBuffer row, int count, long[] answer);

    private static native void nativeLenientBits(ByteBuffer buffer, int size, long length, int trace, long[] row, byte[] classes, long[] answer);

    private static native void nativeStart(ByteBuffer buffer, int size, int order, int slots, byte[] sheet, long[] answer);

    private static native void nativeAddIntegersArray(ByteBuffer buffer, int size, long length, byte[] sheet, int code, int[] row, long[] answer);

    private static native void nativeAddIntegersBuffer(ByteBuffer buffer, int size, long length, byte[] sheet, int code, IntBuffer row, int count, long[] answer);

    private static native void nativeAddBits(ByteBuffer buffer, int size, long length, byte[] sheet, int code, long[] row, long[] answer);

    private static native void nativeStartSize(int order, int slots, byte[] sheet, long[] answer);

    private static native void nativeAddSize(ByteBuffer buffer, int size, long length, byte[] sheet, int code, long sampleCount, long[] answer);
}
