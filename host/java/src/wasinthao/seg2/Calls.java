package wasinthao.seg2;

import java.nio.ByteBuffer;
import java.nio.IntBuffer;

/**
 * The calls that answer the questions of a part. A full question, its quick form and its lenient form differ in this alone: the file's own
 * strings are asked fully, traces quickly, and both leniently where the file was read so. The length is always the buffer's limit.
 */
abstract class Calls {
    abstract Seg2.TraceBlock traceBlock(ByteBuffer b, int part);

    abstract Seg2.Count stringCount(ByteBuffer b, int part);

    abstract Seg2.Verdict strings(ByteBuffer b, int part, long[] row);

    abstract Seg2.Keyword keyword(ByteBuffer b, int part, String key);

    abstract Seg2.Value value(ByteBuffer b, int part, String key);

    abstract Seg2.Decimal number(ByteBuffer b, int part, String key);

    abstract Seg2.DoubleValue doubleValue(ByteBuffer b, int part, String key);

    abstract Seg2.Location location(ByteBuffer b, int part, String key);

    abstract Seg2.Verdict integers(ByteBuffer b, int part, int[] row);

    abstract Seg2.Verdict integers(ByteBuffer b, int part, IntBuffer row);

    abstract Seg2.Verdict bits(ByteBuffer b, int part, long[] row, byte[] classes);

    /** Each checks the whole file first. */
    static final Calls FULL = new Calls() {
        @Override
        Seg2.TraceBlock traceBlock(ByteBuffer b, int part) {
            return Seg2.traceBlock(b, b.limit(), part);
        }

        @Override
        Seg2.Count stringCount(ByteBuffer b, int part) {
            return Seg2.stringCount(b, b.limit(), part);
        }

        @Override
        Seg2.Verdict strings(ByteBuffer b, int part, long[] row) {
            return Seg2.strings(b, b.limit(), part, row);
        }

        @Override
        Seg2.Keyword keyword(ByteBuffer b, int part, String key) {
            return Seg2.keyword(b, b.limit(), part, key);
        }

        @Override
        Seg2.Value value(ByteBuffer b, int part, String key) {
            return Seg2.value(b, b.limit(), part, key);
        }

        @Override
        Seg2.Decimal number(ByteBuffer b, int part, String key) {
            return Seg2.number(b, b.limit(), part, key);
        }

        @Override
        Seg2.DoubleValue doubleValue(ByteBuffer b, int part, String key) {
            return Seg2.doubleValue(b, b.limit(), part, key);
        }

        @Override
        Seg2.Location location(ByteBuffer b, int part, String key) {
            return Seg2.location(b, b.limit(), part, key);
        }

        @Override
        Seg2.Verdict integers(ByteBuffer b, int part, int[] row) {
            return Seg2.integers(b, b.limit(), part, row);
        }

        @Override
        Seg2.Verdict integers(ByteBuffer b, int part, IntBuffer row) {
            return Seg2.integers(b, b.limit(), part, row);
        }

        @Override
        Seg2.Verdict bits(ByteBuffer b, int part, long[] row, byte[] classes) {
            return Seg2.bits(b, b.limit(), part, row, classes);
        }
    };

    /** Each reads one trace, and judges what it reads. */
    static final Calls QUICK = new Calls() {
        @Override
        Seg2.TraceBlock traceBlock(ByteBuffer b, int part) {
            return Seg2.quickTraceBlock(b, b.limit(), part);
        }

        @Override
        Seg2.Count stringCount(ByteBuffer b, int part) {
            return Seg2.quickStringCount(b, b.limit(), part);
        }

        @Override
        Seg2.Verdict strings(ByteBuffer b, int part, long[] row) {
            return Seg2.quickStrings(b, b.limit(), part, row);
        }

        @Override
        Seg2.Keyword keyword(ByteBuffer b, int part, String key) {
            return Seg2.quickKeyword(b, b.limit(), part, key);
        }

        @Override
        Seg2.Value value(ByteBuffer b, int part, String key) {
            return Seg2.quickValue(b, b.limit(), part, key);
        }

        @Override
        Seg2.Decimal number(ByteBuffer b, int part, String key) {
            return Seg2.quickNumber(b, b.limit(), part, key);
        }

        @Override
        Seg2.DoubleValue doubleValue(ByteBuffer b, int part, String key) {
            return Seg2.quickDoubleValue(b, b.limit(), part, key);
        }

        @Override
        Seg2.Location location(ByteBuffer b, int part, String key) {
            return Seg2.quickLocation(b, b.limit(), part, key);
        }

        @Override
        Seg2.Verdict integers(ByteBuffer b, int part, int[] row) {
            return Seg2.quickIntegers(b, b.limit(), part, row);
        }

        @Override
        Seg2.Verdict integers(ByteBuffer b, int part, IntBuffer row) {
            return Seg2.quickIntegers(b, b.limit(), part, row);
        }

        @Override
        Seg2.Verdict bits(ByteBuffer b, int part, long[] row, byte[] classes) {
            return Seg2.quickBits(b, b.limit(), part, row, classes);
        }
    };

    /** Each checks the whole file twice. The strict verdict beside an answer is the same for all of them: the file keeps it once. */
    static final Calls LENIENT = new Calls() {
        @Override
        Seg2.TraceBlock traceBlock(ByteBuffer b, int part) {
            return Seg2.lenientTraceBlock(b, b.limit(), part).answer;
        }

        @Override
        Seg2.Count stringCount(ByteBuffer b, int part) {
            return Seg2.lenientStringCount(b, b.limit(), part).answer;
        }

        @Override
        Seg2.Verdict strings(ByteBuffer b, int part, long[] row) {
            return Seg2.lenientStrings(b, b.limit(), part, row).answer;
        }

        @Override
        Seg2.Keyword keyword(ByteBuffer b, int part, String key) {
            return Seg2.lenientKeyword(b, b.limit(), part, key).answer;
        }

        @Override
        Seg2.Value value(ByteBuffer b, int part, String key) {
            return Seg2.lenientValue(b, b.limit(), part, key).answer;
        }

        @Override
        Seg2.Decimal number(ByteBuffer b, int part, String key) {
            return Seg2.lenientNumber(b, b.limit(), part, key).answer;
        }

        @Override
        Seg2.DoubleValue doubleValue(ByteBuffer b, int part, String key) {
            return Seg2.lenientDoubleValue(b, b.limit(), part, key).answer;
        }

        @Override
        Seg2.Location location(ByteBuffer b, int part, String key) {
            return Seg2.lenientLocation(b, b.limit(), part, key).answer;
        }

        @Override
        Seg2.Verdict integers(ByteBuffer b, int part, int[] row) {
            return Seg2.lenientIntegers(b, b.limit(), part, row).answer;
        }

        @Override
        Seg2.Verdict integers(ByteBuffer b, int part, IntBuffer row) {
            return Seg2.lenientIntegers(b, b.limit(), part, row).answer;
        }

        @Override
        Seg2.Verdict bits(ByteBuffer b, int part, long[] row, byte[] classes) {
            return Seg2.lenientBits(b, b.limit(), part, row, classes).answer;
        }
    };
}
