package wasinthao.seg2;

import java.nio.ByteBuffer;
import java.nio.IntBuffer;

/**
 * A trace of an opened file: its block, its strings, its samples. It never changes, and any thread may ask it; two are equal where they are
 * the same trace of the same file object. What is asked reads this trace alone, however many the file has (in a file that is read leniently, the whole file).
 *
 * <p>Samples, by format code:
 * <table>
 * <caption>which method answers for which code; the others are refused by 33</caption>
 * <tr><th>method<th>codes<th>what it answers
 * <tr><td>{@link #integers()}<td>1, 2, 3<td>the samples
 * <tr><td>{@link #floats()}<td>4<td>the samples
 * <tr><td>{@link #doubles()}<td>all<td>the samples: each of them is a double, so nothing is rounded
 * <tr><td>{@link #bits()}<td>4, 5<td>the bit patterns as they stand in the file, and the class of each
 * </table>
 * Nothing is scaled: DESCALING_FACTOR and the like are the caller's. Of codes 4 and 5, whatever IEEE 754 has passes through: zeros with
 * their sign, underflow, infinities, and what is not a number. That one alone may come with other bits: where a machine moves or widens a
 * signalling one it may make it a quiet one. {@link #bits()} is exact always.
 *
 * <p>Each has a form that fills a row of the caller's, of exactly {@link #sampleCount()} elements (32 where it has others), and answers that
 * same row: for going through many traces without an array for each. After a refusal the row is as it was.
 */
public final class Seg2Trace extends Seg2Part {
    private final Seg2File file;
    private final Seg2.TraceBlock block;

    Seg2Trace(Seg2File file, ByteBuffer buffer, int part, Calls calls, Seg2.TraceBlock block) {
        super(buffer, part, calls);
        this.file = file;
        this.block = block;
    }

    /** The file that it is a trace of. */
    public Seg2File file() {
        return file;
    }

    /** Which trace of the file, counted from 0. */
    public int index() {
        return part;
    }

    /** The block: where it starts, its sizes, the samples' number and code. */
    public Seg2.TraceBlock block() {
        return block;
    }

    /** The format code, 1 to 5: {@link Seg2#FIXED_16} and the four others. */
    public int formatCode() {
        return block.formatCode;
    }

    /** How many samples. */
    public int sampleCount() {
        return block.sampleCount;
    }

    /** The samples of code 1 to 3. */
    public Seg2Result<int[]> integers() {
        return integers(new int[hasIntegers() ? block.sampleCount : 0]);
    }

    /** The same, into a row of the caller's. */
    public Seg2Result<int[]> integers(int[] row) {
        return Seg2Result.of(calls.integers(buffer, part, row), row);
    }

    /** The same, straight into a direct buffer's memory, without a copy: its elements from 0 to its limit are the row ({@link Seg2#integers}). */
    public Seg2Result<IntBuffer> integers(IntBuffer row) {
        return Seg2Result.of(calls.integers(buffer, part, row), row);
    }

    /** The bit patterns of the samples of code 4 or 5, and their classes. */
    public Seg2Result<Seg2Bits> bits() {
        int count = hasIntegers() ? 0 : block.sampleCount;
        return bits(new long[count], new byte[count]);
    }

    /** The same, into two rows of the caller's. */
    public Seg2Result<Seg2Bits> bits(long[] patterns, byte[] classes) {
        return Seg2Result.of(calls.bits(buffer, part, patterns, classes), new Seg2Bits(patterns, classes));
    }

    /**
     * The samples of code 4. Any other code is refused by 33: whole numbers of 32 bits and doubles cannot all be floats, and none is rounded
     * here unasked. {@link #doubles()} answers for every code.
     */
    public Seg2Result<float[]> floats() {
        return floats(new float[block.formatCode == Seg2.FLOAT_32 ? block.sampleCount : 0]);
    }

    /** The same, into a row of the caller's. */
    public Seg2Result<float[]> floats(float[] row) {
        Seg2.there(row, "row");
        if (block.formatCode == Seg2.FLOAT_64) {
            // a trace of code 5 has bit patterns too, so it is asked for what it has not, and the library refuses
            return Seg2Result.refused(calls.integers(buffer, part, new int[0]).refusal());
        }
        long[] patterns = new long[row.length];
        Seg2.Verdict verdict = calls.bits(buffer, part, patterns, new byte[row.length]);
        if (verdict.accepted()) {
            for (int i = 0; i < row.length; i++) {
                row[i] = Float.intBitsToFloat((int) patterns[i]);
            }
        }
        return Seg2Result.of(verdict, row);
    }

    /** The samples of any code: a double holds each of them exactly. */
    public Seg2Result<double[]> doubles() {
        return doubles(new double[block.sampleCount]);
    }

    /** The same, into a row of the caller's. */
    public Seg2Result<double[]> doubles(double[] row) {
        Seg2.there(row, "row");
        return hasIntegers() ? widened(row) : patterned(row);
    }

    private boolean hasIntegers() {
        return block.formatCode <= Seg2.FLOAT_20;
    }

    private Seg2Result<double[]> widened(double[] row) {
        int[] integers = new int[row.length];
        Seg2.Verdict verdict = calls.integers(buffer, part, integers);
        if (verdict.accepted()) {
            for (int i = 0; i < row.length; i++) {
                row[i] = integers[i];
            }
        }
        return Seg2Result.of(verdict, row);
    }

    private Seg2Result<double[]> patterned(double[] row) {
        long[] patterns = new long[row.length];
        Seg2.Verdict verdict = calls.bits(buffer, part, patterns, new byte[row.length]);
        if (verdict.accepted()) {
            boolean floats = block.formatCode == Seg2.FLOAT_32;
            for (int i = 0; i < row.length; i++) {
                row[i] = floats ? Float.intBitsToFloat((int) patterns[i]) : Double.longBitsToDouble(patterns[i]);
            }
        }
        return Seg2Result.of(verdict, row);
    }

    @Override
    String lineTerminator() {
        return file.lineTerminator();
    }

    @Override
    public boolean equals(Object other) {
        return other instanceof Seg2Trace && ((Seg2Trace) other).file == file && ((Seg2Trace) other).part == part;
    }

    @Override
    public int hashCode() {
        return 31 * System.identityHashCode(file) + part;
    }

    /** Which trace, its samples' number and code. */
    @Override
    public String toString() {
        return "trace " + part + ": " + block.sampleCount + " samples of code " + block.formatCode;
    }
}
