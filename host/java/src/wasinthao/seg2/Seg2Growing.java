package wasinthao.seg2;

import java.io.File;
import java.io.FileInputStream;
import java.io.FileOutputStream;
import java.io.IOException;
import java.io.InputStream;
import java.io.OutputStream;
import java.nio.ByteBuffer;

/**
 * A file that grows: started anew or opened to be extended, and added to trace by trace, in memory of its own that grows with it. A refusal
 * leaves it as it was.
 *
 * <pre>{@code
 * Seg2Growing shot = Seg2Growing.start(Seg2.LOW_FIRST, 24, "UNITS\tMETERS\n").value();
 * Seg2Result<Integer> added = shot.add(new Seg2Sheet().location("RECEIVER_LOCATION", typed), Seg2.FIXED_32, samples);
 * if (!added.isOk()) {
 *     show(added.refusal().toString());
 * }
 * shot.writeTo(new File("shot.sg2"));
 * }</pre>
 *
 * <p>Each addition is one call, which checks what is there already, so a file of very many traces takes time with the square of their number.
 * The first trace chooses whether sheets have a CHANNEL_NUMBER: later ones have it or not as the first has (35).
 *
 * <p>One thread at a time, as with any list. Two are equal where they are the same object.
 */
public final class Seg2Growing {
    /** Its bytes from 0 to {@code length} are the file; what is behind is room. */
    private ByteBuffer buffer;
    private int length;
    private int traceCount;

    private Seg2Growing(ByteBuffer buffer, int length, int traceCount) {
        this.buffer = buffer;
        this.length = length;
        this.traceCount = traceCount;
    }

    // ---- beginnings

    /**
     * A new file without traces. {@code order} is {@link Seg2#LOW_FIRST} or {@link Seg2#HIGH_FIRST}, {@code slots} how many traces it can take, 1
     * to {@link Seg2#MAXIMUM_SLOTS}. Refusals in order: 31, 25, 26 (line by line), 27. It is no file until a trace is added.
     */
    public static Seg2Result<Seg2Growing> start(int order, int slots, String sheet) {
        Seg2.Length size = Seg2.startSize(order, slots, sheet);
        if (!size.accepted()) {
            return Seg2Result.refused(size.refusal());
        }
        ByteBuffer buffer = ByteBuffer.allocateDirect(size.length);
        Seg2.Length started = Seg2.start(buffer, order, slots, sheet);
        return Seg2Result.of(started, new Seg2Growing(buffer, started.length, 0));
    }

    /** The same, of a sheet that is built here: the refusals of {@link Seg2Sheet#build()} come first. */
    public static Seg2Result<Seg2Growing> start(int order, int slots, Seg2Sheet sheet) {
        Seg2Result<String> built = Seg2.there(sheet, "sheet").build();
        return built.isOk() ? start(order, slots, built.value()) : Seg2Result.<Seg2Growing>refused(built.refusal());
    }

    /**
     * A file, or a new image without traces, that is to get more traces: a copy of these bytes. What an addition does not take is refused, so
     * the strict check's rows, 1 to 17 or 34. A file without a free slot is opened too, and each addition refused by 24.
     */
    public static Seg2Result<Seg2Growing> open(byte[] bytes) {
        return opened(Seg2File.copied(bytes), bytes.length);
    }

    /** The same, of the bytes of a buffer from 0 to its limit. */
    public static Seg2Result<Seg2Growing> open(ByteBuffer bytes) {
        ByteBuffer view = Seg2.there(bytes, "buffer").duplicate();
        view.position(0);
        ByteBuffer own = ByteBuffer.allocateDirect(view.limit() > Seg2.MAXIMUM_LENGTH ? 0 : view.limit());
        if (own.limit() == view.limit()) {
            own.put(view);
        }
        own.clear();
        return opened(own, bytes.limit());
    }

    /** The same, of a file, which is read and not changed: {@link #writeTo(File)} puts the longer one in its place. */
    public static Seg2Result<Seg2Growing> open(File file) throws IOException {
        try (FileInputStream stream = new FileInputStream(Seg2.there(file, "file"))) {
            return open(stream);
        }
    }

    /** The same, of a stream, which is read to its end and left open. */
    public static Seg2Result<Seg2Growing> open(InputStream stream) throws IOException {
        ByteBuffer read = Seg2File.read(stream);
        return opened(read, read.limit());
    }

    private static Seg2Result<Seg2Growing> opened(ByteBuffer own, int length) {
        // The room of an addition that cannot be: no samples have code 0. Where the file is sound the refusal is one behind its check: 24, 35 or 28
        Seg2.Refusal judged = Seg2.addSize(own, length, "", 0, 0).refusal();
        if (judged.isOfCheck()) {
            return Seg2Result.refused(judged);
        }
        // the questions refuse an image without traces, by 5: then their number is 0, as in all that is refused
        return Seg2Result.ok(new Seg2Growing(own, length, Seg2.fileBlock(own, length).traceCount));
    }

    // ---- additions: each answers which trace the new one is, counted from 0

    /** Adds a trace of code 1 to 3. Refusals in order: 24, 25, 26 (line by line), 27, 35, 28, 29, and 30 where the file would be too long. */
    public Seg2Result<Integer> add(String sheet, int code, int[] row) {
        return added(sheet, code, Seg2.there(row, "row").length, () -> Seg2.addIntegers(buffer, length, sheet, code, row));
    }

    /** Adds a trace of code 4, each float by its bits. The same refusals. */
    public Seg2Result<Integer> add(String sheet, float[] row) {
        long[] patterns = new long[Seg2.there(row, "row").length];
        for (int i = 0; i < row.length; i++) {
            patterns[i] = Float.floatToRawIntBits(row[i]) & 0xFFFFFFFFL;
        }
        return addBits(sheet, Seg2.FLOAT_32, patterns);
    }

    /** Adds a trace of code 5, each double by its bits. The same refusals. */
    public Seg2Result<Integer> add(String sheet, double[] row) {
        long[] patterns = new long[Seg2.there(row, "row").length];
        for (int i = 0; i < row.length; i++) {
            patterns[i] = Double.doubleToRawLongBits(row[i]);
        }
        return addBits(sheet, Seg2.FLOAT_64, patterns);
    }

    /** Adds a trace of code 4 or 5 from bit patterns. The same refusals. */
    public Seg2Result<Integer> addBits(String sheet, int code, long[] patterns) {
        return added(sheet, code, Seg2.there(patterns, "row").length, () -> Seg2.addBits(buffer, length, sheet, code, patterns));
    }

    /** The same as {@link #add(String, int, int[])}, of a sheet that is built here: the refusals of {@link Seg2Sheet#build()} come first. */
    public Seg2Result<Integer> add(Seg2Sheet sheet, int code, int[] row) {
        Seg2Result<String> built = Seg2.there(sheet, "sheet").build();
        return built.isOk() ? add(built.value(), code, row) : Seg2Result.<Integer>refused(built.refusal());
    }

    /** The same of floats. */
    public Seg2Result<Integer> add(Seg2Sheet sheet, float[] row) {
        Seg2Result<String> built = Seg2.there(sheet, "sheet").build();
        return built.isOk() ? add(built.value(), row) : Seg2Result.<Integer>refused(built.refusal());
    }

    /** The same of doubles. */
    public Seg2Result<Integer> add(Seg2Sheet sheet, double[] row) {
        Seg2Result<String> built = Seg2.there(sheet, "sheet").build();
        return built.isOk() ? add(built.value(), row) : Seg2Result.<Integer>refused(built.refusal());
    }

    /** The same of bit patterns. */
    public Seg2Result<Integer> addBits(Seg2Sheet sheet, int code, long[] patterns) {
        Seg2Result<String> built = Seg2.there(sheet, "sheet").build();
        return built.isOk() ? addBits(built.value(), code, patterns) : Seg2Result.<Integer>refused(built.refusal());
    }

    private interface Addition {
        Seg2.Length tried();
    }

    private Seg2Result<Integer> added(String sheet, int code, int sampleCount, Addition addition) {
        Seg2.Length answer = addition.tried();
        // 30 is the last of the refusals, so where it is given nothing else is wrong
        while (!answer.accepted() && answer.refusal().number == Seg2.Refusal.NO_ROOM) {
            int room = roomFor(sheet, code, sampleCount);
            if (room <= buffer.capacity()) {
                break;
            }
            grow(room);
            answer = addition.tried();
        }
        if (!answer.accepted()) {
            return Seg2Result.refused(answer.refusal());
        }
        length = answer.length;
        return Seg2Result.ok(traceCount++);
    }

    // ---- room

    /** How much room the file needs with such a trace behind it; 0 where no room would do. */
    private int roomFor(String sheet, int code, int sampleCount) {
        return Seg2.addSize(buffer, length, sheet, code, sampleCount).length;
    }

    /** At least so much room: half as much again as there is, so that many additions do not copy the file each time. */
    private void grow(int room) {
        long more = Math.min(buffer.capacity() + buffer.capacity() / 2L, Seg2.MAXIMUM_LENGTH);
        ByteBuffer larger = ByteBuffer.allocateDirect((int) Math.max(room, more));
        larger.put(bytes());
        larger.clear();
        buffer = larger;
    }

    // ---- what there is

    /** How many traces. */
    public int traceCount() {
        return traceCount;
    }

    /** How many bytes. */
    public int length() {
        return length;
    }

    /** The bytes so far, which are not a copy and cannot be written: to be used before the next addition, and taken anew behind it. */
    public ByteBuffer bytes() {
        ByteBuffer view = buffer.duplicate();
        view.clear();
        view.limit(length);
        return view.slice().asReadOnlyBuffer();
    }

    /** The bytes so far: a copy. */
    public byte[] toByteArray() {
        byte[] copy = new byte[length];
        bytes().get(copy);
        return copy;
    }

    /** What there is so far as an opened file, of a copy: what is added later does not change it. 5 where there is no trace yet. */
    public Seg2Result<Seg2File> file() {
        ByteBuffer copy = ByteBuffer.allocateDirect(length);
        copy.put(bytes());
        copy.clear();
        return Seg2File.open(copy);
    }

    /**
     * Writes the bytes so far in the place of a file: into a new file beside it, which is written to the disk and then given its name. So
     * whatever happens, the old file is there or the new one, whole. Where a system does not rename over a file that is there, as Windows may
     * not, the old one stays and this is an IOException.
     */
    public void writeTo(File file) throws IOException {
        File target = Seg2.there(file, "file").getCanonicalFile();
        File beside = File.createTempFile("seg2-", ".part", target.getParentFile());
        boolean renamed = false;
        try {
            try (FileOutputStream stream = new FileOutputStream(beside)) {
                writeTo(stream);
                stream.getFD().sync();
            }
            renamed = beside.renameTo(target);
            if (!renamed) {
                throw new IOException("the file cannot be given its name: " + target);
            }
        } finally {
            if (!renamed) {
                beside.delete();
            }
        }
    }

    /** Writes the bytes so far to a stream, which is left open. */
    public void writeTo(OutputStream stream) throws IOException {
        Seg2.there(stream, "stream");
        ByteBuffer rest = bytes();
        byte[] some = new byte[Math.min(1 << 16, length)];
        while (rest.hasRemaining()) {
            int n = Math.min(some.length, rest.remaining());
            rest.get(some, 0, n);
            stream.write(some, 0, n);
        }
    }

    /** Traces and length. */
    @Override
    public String toString() {
        return "growing SEG-2 file: " + traceCount + " traces, " + length + " bytes";
    }
}
