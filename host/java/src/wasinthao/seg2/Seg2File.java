package wasinthao.seg2;

import java.io.File;
import java.io.IOException;
import java.io.InputStream;
import java.io.RandomAccessFile;
import java.nio.ByteBuffer;
import java.nio.channels.FileChannel;
import java.util.AbstractList;
import java.util.List;
import java.util.RandomAccess;

/**
 * An opened SEG-2 file. The whole file is checked once, when it is opened; what is asked of its traces then reads one trace each and checks
 * nothing again.
 *
 * <pre>{@code
 * Seg2Result<Seg2File> opened = Seg2File.open(new File("shot.sg2"));
 * if (!opened.isOk()) {
 *     show(opened.refusal().toString()); // "refused (16) in trace 0 at byte 88: a forbidden character .."
 *     return;
 * }
 * for (Seg2Trace trace : opened.value().traces()) {
 *     show(trace.value("RECEIVER_LOCATION"), trace.doubles().value());
 * }
 * }</pre>
 *
 * <p><b>Memory.</b> The bytes are not copied: a direct buffer is lent, and nobody may write it as long as the file is used; an array is
 * copied once, when it is opened; a file is mapped. There is nothing to close: memory and mapping go when nobody holds the object any more.
 *
 * <p><b>The file's own strings</b> have no quick calls: each question on them checks the whole file. Whoever needs several asks
 * {@link #strings()} once.
 *
 * <p><b>Older recorders.</b> {@link #openLenient(ByteBuffer)} and its like also open files whose strings stand in any order, in lower case or
 * without an end mark; {@link #strict()} tells what is wrong with such a file. Then every question, those of its traces too, goes through the
 * whole file twice, so the traces' questions take time with the square of their number. Of a file that keeps the rules it is the same as
 * {@code open}.
 *
 * <p><b>Threads.</b> It never changes: any number of threads may ask it at a time. Two are equal where they are the same object.
 */
public final class Seg2File extends Seg2Part {
    private final Seg2.FileBlock block;
    private final Seg2.Refusal strict;

    private Seg2File(ByteBuffer buffer, Seg2.FileBlock block, Seg2.Refusal strict) {
        super(buffer, Seg2.FILE, strict == null ? Calls.FULL : Calls.LENIENT);
        this.block = block;
        this.strict = strict;
    }

    // ---- opening

    /** Opens the bytes of a direct buffer from 0 to its limit, without a copy: its position does not matter, and later changes of its limit do
     * not either. The refusals are the check's: 1 to 17 or 34. */
    public static Seg2Result<Seg2File> open(ByteBuffer buffer) {
        return checked(lent(buffer), buffer.limit(), false);
    }

    /** Opens a copy of these bytes. */
    public static Seg2Result<Seg2File> open(byte[] bytes) {
        return checked(copied(bytes), bytes.length, false);
    }

    /**
     * Opens a file, mapped: nothing is read before it is asked for. Nobody may write the file or cut it short as long as it is used: what is
     * read then is what stands there by then, and where the bytes are gone the system ends the whole program. For a file that others may
     * change, read it and open the bytes: {@link #open(InputStream)}.
     */
    public static Seg2Result<Seg2File> open(File file) throws IOException {
        return mapped(file, false);
    }

    /** Reads a stream to its end and opens what was read; the stream is left open. At most one byte more than the longest file is read. */
    public static Seg2Result<Seg2File> open(InputStream stream) throws IOException {
        ByteBuffer read = read(stream);
        return checked(read, read.limit(), false);
    }

    /** The same as {@link #open(ByteBuffer)}, for files of older recorders too: 1 to 16. */
    public static Seg2Result<Seg2File> openLenient(ByteBuffer buffer) {
        return checked(lent(buffer), buffer.limit(), true);
    }

    /** The same as {@link #open(byte[])}, for files of older recorders too. */
    public static Seg2Result<Seg2File> openLenient(byte[] bytes) {
        return checked(copied(bytes), bytes.length, true);
    }

    /** The same as {@link #open(File)}, for files of older recorders too. */
    public static Seg2Result<Seg2File> openLenient(File file) throws IOException {
        return mapped(file, true);
    }

    /** The same as {@link #open(InputStream)}, for files of older recorders too. */
    public static Seg2Result<Seg2File> openLenient(InputStream stream) throws IOException {
        ByteBuffer read = read(stream);
        return checked(read, read.limit(), true);
    }

    private static Seg2Result<Seg2File> checked(ByteBuffer buffer, long length, boolean leniently) {
        if (leniently) {
            Seg2.Lenient<Seg2.FileBlock> block = Seg2.lenientFileBlock(buffer, length);
            return Seg2Result.of(block.answer, new Seg2File(buffer, block.answer, block.strict.refusal()));
        }
        Seg2.FileBlock block = Seg2.fileBlock(buffer, length);
        return Seg2Result.of(block, new Seg2File(buffer, block, null));
    }

    /** A view of its own, through which nothing is written. */
    private static ByteBuffer lent(ByteBuffer buffer) {
        return Seg2.lent(buffer).asReadOnlyBuffer();
    }

    /** In direct memory; of more bytes than any file has, none, as the library refuses such a length without looking at a byte. */
    static ByteBuffer copied(byte[] bytes) {
        if (Seg2.there(bytes, "row of bytes").length > Seg2.MAXIMUM_LENGTH) {
            return ByteBuffer.allocateDirect(0);
        }
        ByteBuffer buffer = ByteBuffer.allocateDirect(bytes.length);
        buffer.put(bytes);
        buffer.clear();
        return buffer;
    }

    /** Mapped as far as there is something to map; a file that is longer than any may be is told by its length alone. */
    private static Seg2Result<Seg2File> mapped(File file, boolean leniently) throws IOException {
        try (RandomAccessFile opened = new RandomAccessFile(Seg2.there(file, "file"), "r")) {
            long length = opened.length();
            boolean none = length == 0 || length > Seg2.MAXIMUM_LENGTH;
            ByteBuffer bytes = none ? ByteBuffer.allocateDirect(0) : opened.getChannel().map(FileChannel.MapMode.READ_ONLY, 0, length);
            return checked(bytes, length, leniently);
        }
    }

    /** All of a stream, but at most one byte more than a file may have: that length is refused like a longer one. */
    static ByteBuffer read(InputStream stream) throws IOException {
        Seg2.there(stream, "stream");
        ByteBuffer all = ByteBuffer.allocateDirect(1 << 16);
        byte[] some = new byte[1 << 16];
        for (int n = stream.read(some); n >= 0 && all.position() <= Seg2.MAXIMUM_LENGTH; n = stream.read(some)) {
            int take = Math.min(n, Seg2.MAXIMUM_LENGTH + 1 - all.position());
            if (all.remaining() < take) {
                ByteBuffer more = ByteBuffer.allocateDirect(Math.min(2 * all.capacity(), Seg2.MAXIMUM_LENGTH + 1));
                all.flip();
                more.put(all);
                all = more;
            }
            all.put(some, 0, take);
        }
        all.flip();
        return all.slice();
    }

    // ---- the file block: free, as it was asked for at the opening

    /** The strict check's refusal, 14, 16, 17 or 34: null for a file that keeps the rules, so always null behind {@code open}. */
    public Seg2.Refusal strict() {
        return strict;
    }

    /** {@link Seg2#LOW_FIRST} or {@link Seg2#HIGH_FIRST}. */
    public int order() {
        return block.order;
    }

    /** The file block: byte order, pointer room, number of traces, terminators. */
    public Seg2.FileBlock block() {
        return block;
    }

    /** How many traces. */
    public int traceCount() {
        return block.traceCount;
    }

    /** The file's bytes, which are not a copy and cannot be written. */
    public ByteBuffer bytes() {
        ByteBuffer view = buffer.asReadOnlyBuffer();
        view.position(0);
        return view;
    }

    // ---- traces

    /** A trace, counted from 0; 18 where there is none. */
    public Seg2Result<Seg2Trace> trace(int index) {
        Calls calls = strict == null ? Calls.QUICK : Calls.LENIENT;
        Seg2.TraceBlock block = calls.traceBlock(buffer, index);
        return Seg2Result.of(block, new Seg2Trace(this, buffer, index, calls, block));
    }

    /**
     * All traces in order: a list that cannot be changed and holds none of them, so each {@code get} is one quick call. What is outside the
     * list is an {@link IndexOutOfBoundsException}, as of any list.
     */
    public List<Seg2Trace> traces() {
        return new Traces(this);
    }

    private static final class Traces extends AbstractList<Seg2Trace> implements RandomAccess {
        private final Seg2File file;

        Traces(Seg2File file) {
            this.file = file;
        }

        @Override
        public Seg2Trace get(int index) {
            if (index < 0 || index >= size()) {
                throw new IndexOutOfBoundsException("trace " + index + " of " + size());
            }
            return file.trace(index).value();
        }

        @Override
        public int size() {
            return file.traceCount();
        }
    }

    @Override
    String lineTerminator() {
        return block.lineTerminator;
    }

    /** Traces, byte order and length. */
    @Override
    public String toString() {
        String order = block.order == Seg2.LOW_FIRST ? "low" : "high";
        return "SEG-2 file: " + block.traceCount + " traces, " + order + " byte first, " + buffer.limit() + " bytes";
    }
}
