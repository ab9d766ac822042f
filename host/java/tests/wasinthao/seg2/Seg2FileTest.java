package wasinthao.seg2;

import static wasinthao.seg2.Seg2Test.copy;
import static wasinthao.seg2.Seg2Test.direct;
import static wasinthao.seg2.Seg2Test.example;
import static wasinthao.seg2.Seg2Test.misused;
import static wasinthao.seg2.Seg2Test.olderFile;
import static wasinthao.seg2.Seg2Test.same;
import static wasinthao.seg2.Seg2Test.test;
import static wasinthao.seg2.Seg2Test.threeTraces;

import java.io.ByteArrayInputStream;
import java.io.ByteArrayOutputStream;
import java.io.File;
import java.io.IOException;
import java.io.InputStream;
import java.io.RandomAccessFile;
import java.lang.management.ManagementFactory;
import java.lang.management.ThreadMXBean;
import java.math.BigDecimal;
import java.math.BigInteger;
import java.nio.ByteBuffer;
import java.nio.IntBuffer;
import java.nio.file.Files;
import java.util.ArrayList;
import java.util.Arrays;
import java.util.Collections;
import java.util.List;
import java.util.Random;
import java.util.concurrent.atomic.AtomicReference;

/** Tests of the file object beside Seg2's own answers and the worked values of docs/FORMAT.md: Seg2File, Seg2Trace, Seg2Growing, Seg2Sheet. */
final class Seg2FileTest {
    private Seg2FileTest() {}

    /** The whole file of docs/FORMAT.md, "Worked values", byte for byte. */
    private static final String WORKED =
        "55 3A 01 00 04 00 01 00  01 00 00 01 0A 00 00 00 00 00 00 00 00 00 00 00  00 00 00 00 00 00 00 00 "
        + "38 00 00 00 0F 00 55 4E  49 54 53 20 4D 45 54 45 52 53 00 00 00 00 00 00  22 44 2C 00 08 00 00 00 "
        + "03 00 00 00 01 00 00 00  00 00 00 00 00 00 00 00 00 00 00 00 00 00 00 00  0A 00 53 54 41 43 4B 20 "
        + "31 00 00 00 01 00 FF FF  00 01 00 00";

    private static byte[] worked() {
        String[] bytes = WORKED.split(" +");
        byte[] all = new byte[bytes.length];
        for (int i = 0; i < all.length; i++) {
            all[i] = (byte) Integer.parseInt(bytes[i], 16);
        }
        return all;
    }

    private static void refused(int number, long place, Seg2Result<?> result) {
        refused(number, -1, place, result);
    }

    private static void refused(int number, int part, long place, Seg2Result<?> result) {
        Seg2.Refusal r = result.refusal();
        if (r == null || result.isOk() || result.orNull() != null || r.number != number || r.part != part || r.place != place) {
            throw new AssertionError("wanted " + number + " " + part + " " + place + ", got " + result);
        }
    }

    private static void thrown(int number, Seg2Test.Body body) throws Exception {
        try {
            body.run();
        } catch (Seg2Refused e) {
            same(number, e.refusal().number);
            same(e.refusal().toString(), e.getMessage());
            return;
        }
        throw new AssertionError("not thrown: " + number);
    }

    /** A file with one trace of each code and each kind of string, in this byte order. */
    private static byte[] allCodes(int order) {
        Seg2Growing shot = Seg2Growing.start(order, 6, "CLIENT\t\nDATUM\t-34.6\nUNITS\tMETERS\nNOTE\ta\nNOTE\t\nNOTE\t b\n").value();
        String sheet = "DELAY\t-0.020\nRECEIVER_GEOMETRY\t1 2.50 0\nRECEIVER_GEOMETRY\t2 2.50 0\nSTACK\t0,5\n";
        shot.add(sheet, Seg2.FIXED_16, new int[] {1, -1, -32768, 32767}).value();
        shot.add(sheet, Seg2.FIXED_32, new int[] {Integer.MIN_VALUE, Integer.MAX_VALUE, 16777217}).value();
        shot.add(sheet, Seg2.FLOAT_20, new int[] {1, -2, 20, 1073709056}).value();
        shot.add(sheet, new float[] {1.5f, -0f, Float.MIN_VALUE, Float.NEGATIVE_INFINITY}).value();
        shot.add(sheet, new double[] {Math.PI, Double.MIN_VALUE, Double.POSITIVE_INFINITY}).value();
        shot.add("", Seg2.FIXED_16, new int[0]).value();
        return shot.toByteArray();
    }

    // ---- reading

    private static void theWorkedFile() throws Exception {
        byte[] bytes = worked();
        same(108, bytes.length);
        ByteBuffer lent = ByteBuffer.allocateDirect(108);
        lent.put(bytes); // its position is behind the file now, which does not matter
        File path = File.createTempFile("seg2", ".sg2");
        try {
            Files.write(path.toPath(), bytes);
            ByteArrayInputStream stream = new ByteArrayInputStream(bytes);
            for (Seg2File file : Arrays.asList(Seg2File.open(lent).value(), Seg2File.open(bytes).value(), Seg2File.open(path).value(),
                Seg2File.open(stream).value(), Seg2File.openLenient(lent).value(), Seg2File.openLenient(bytes).value(),
                Seg2File.openLenient(path).value(), Seg2File.openLenient(new ByteArrayInputStream(bytes)).value())) {
                same(null, file.strict());
                same(Seg2.LOW_FIRST, file.order());
                same(1, file.traceCount());
                same(4, file.block().pointerRoom);
                same("[UNITS METERS]", file.strings().toString());
                same("METERS", file.value("UNITS"));
                same(null, file.value("STACK"));
                same(108, file.bytes().remaining());
                same(true, file.bytes().isReadOnly());
                same("SEG-2 file: 1 traces, low byte first, 108 bytes", file.toString());
                Seg2Trace trace = file.trace(0).value();
                same(file, trace.file());
                same("0 1 3", trace.index() + " " + trace.formatCode() + " " + trace.sampleCount());
                same(56, trace.block().start);
                same("[STACK 1]", trace.strings().toString());
                same("1", trace.value("STACK"));
                same(new int[] {1, -1, 256}, trace.integers().value());
                same(new double[] {1, -1, 256}, trace.doubles().value());
                same("trace 0: 3 samples of code 1", trace.toString());
                same(true, trace.equals(file.traces().get(0)) && trace.hashCode() == file.traces().get(0).hashCode());
                same(false, trace.equals(Seg2File.open(bytes).value().traces().get(0)));
            }
            same(0, stream.available());
        } finally {
            path.delete();
        }
        // what the caller does with its buffer later is its own affair
        Seg2File file = Seg2File.open(lent).value();
        lent.limit(5);
        same("METERS", file.value("UNITS"));
    }

    /** Every question of an opened file beside what Seg2's full questions say of the same bytes. */
    private static void asSeg2Answers() {
        for (int order = 0; order < 2; order++) {
            byte[] bytes = allCodes(order);
            ByteBuffer b = Seg2File.copied(bytes);
            int n = b.limit();
            Seg2File file = Seg2File.open(b).value();
            same(order, file.order());
            same(Seg2.fileBlock(b, n).traceCount, file.traces().size());
            beside(b, Seg2.FILE, file);
            for (Seg2Trace trace : file.traces()) {
                int k = trace.index();
                beside(b, k, trace);
                Seg2.TraceBlock block = Seg2.traceBlock(b, n, k);
                same(block.formatCode, trace.formatCode());
                same(block.sampleCount, trace.sampleCount());
                int[] integers = new int[block.sampleCount];
                Seg2.Verdict whole = Seg2.integers(b, n, k, integers);
                same(whole.refusal(), trace.integers().refusal());
                same(whole.accepted() ? integers : null, trace.integers().orNull());
                long[] patterns = new long[block.sampleCount];
                byte[] classes = new byte[block.sampleCount];
                Seg2.Verdict bits = Seg2.bits(b, n, k, patterns, classes);
                same(bits.refusal(), trace.bits().refusal());
                same(bits.accepted() ? new Seg2Bits(patterns, classes) : null, trace.bits().orNull());
                double[] doubles = trace.doubles().value();
                same(block.sampleCount, doubles.length);
                for (int i = 0; i < doubles.length; i++) {
                    double wanted = block.formatCode <= 3 ? integers[i]
                        : block.formatCode == 4 ? Float.intBitsToFloat((int) patterns[i]) : Double.longBitsToDouble(patterns[i]);
                    same(Double.doubleToRawLongBits(wanted), Double.doubleToRawLongBits(doubles[i]));
                }
            }
        }
    }

    private static void beside(ByteBuffer b, int part, Seg2Part is) {
        int n = b.limit();
        int count = Seg2.stringCount(b, n, part).count;
        same(count, is.strings().size());
        for (int i = 0; i < count; i++) {
            Seg2.Entry entry = Seg2.string(b, n, part, i);
            same(entry.keyText(), is.strings().get(i).key());
            same(entry.valueText(), is.strings().get(i).value());
        }
        for (String key : new String[] {"CLIENT", "DATUM", "UNITS", "NOTE", "DELAY", "RECEIVER_GEOMETRY", "STACK", "units", "", "\u00c4"}) {
            boolean found = Seg2.keyword(b, n, part, key).found;
            same(found, is.has(key));
            same(found ? Seg2.value(b, n, part, key).text() : null, is.value(key));
            Seg2.Decimal number = Seg2.number(b, n, part, key);
            same(number.refusal(), is.number(key).refusal());
            same(number.text(), is.number(key).isOk() ? is.number(key).value().text() : "");
            Seg2.DoubleValue value = Seg2.doubleValue(b, n, part, key);
            same(value.refusal(), is.doubleValue(key).refusal());
            same(value.accepted() ? (Double) value.value : null, is.doubleValue(key).orNull());
            Seg2.Location at = Seg2.location(b, n, part, key);
            same(at.refusal(), is.location(key).refusal());
            same(at.accepted() ? at.x + " " + at.y + " " + at.z + " " + at.count : null,
                is.location(key).isOk() ? is.location(key).value().x + " " + is.location(key).value().y + " " + is.location(key).value().z + " "
                    + is.location(key).value().count : null);
        }
    }

    /** The worked values of docs/FORMAT.md through the object. */
    private static void theWorkedValues() {
        String sheet = "A\t0.020\nB\t-34.6\nC\t-2.3E6\nD\t1.345E24\nE\t0,020\nF\t12.\nG\t1 2\nH\t0.250\nI\t2.50E-3\nJ\t1 2,5 3\nK\t\n";
        Seg2Growing shot = Seg2Growing.start(Seg2.LOW_FIRST, 3, "").value();
        shot.add(sheet, Seg2.FIXED_16, new int[] {-1, -32768}).value();
        shot.add("", Seg2.FLOAT_20, new int[] {100000, -32769, 1073741823, 0}).value();
        refused(29, 0, shot.add("", Seg2.FLOAT_20, new int[] {1073741824, 0, 0, 0}));
        Seg2File file = shot.file().value();
        Seg2Trace t = file.trace(0).value();
        Seg2.Decimal a = t.number("A").value();
        same("false 20 -3 3", a.minus + " " + a.coefficient + " " + a.power + " " + a.decimals);
        Seg2.Decimal c = t.number("C").value();
        same("true 23 5 1", c.minus + " " + c.coefficient + " " + c.power + " " + c.decimals);
        same(-34.6, t.doubleValue("B").value());
        same(21, t.number("D").value().power);
        refused(22, 0, t.doubleValue("D"));
        refused(20, 0, t.number("E"));
        refused(20, 0, t.doubleValue("F"));
        refused(23, 0, t.location("G"));
        same("0.250 2.50E-3", t.number("H").value().text() + " " + t.number("I").value().text());
        refused(20, 2, t.location("J")); // the byte at which the comma's value starts
        refused(20, 0, t.number("MISSING"));
        refused(23, 0, t.location("MISSING"));
        same("", t.value("K"));
        same(new int[] {-1, -32768}, t.integers().value());
        same(new int[] {100000, -32768, 1073709056, 0}, file.trace(1).value().integers().value());
        same("refused (20) at byte 2 of the value: this is not a number, the keyword is missing, or a zero to be written has a minus",
            t.location("J").toString());
        // the bytes of code 3 in the table
        byte[] group = {0x10, (byte) 0xF2, 1, 0, (byte) 0xFE, (byte) 0xFF, 5, 0, (byte) 0xFF, 0x7F};
        byte[] bytes = shot.toByteArray();
        Seg2.TraceBlock block = file.trace(1).value().block();
        System.arraycopy(group, 0, bytes, block.start + block.blockSize, 10);
        same(new int[] {1, -2, 20, 1073709056}, Seg2File.open(bytes).value().trace(1).value().integers().value());
    }

    private static void stringsAndNotes() {
        Seg2File file = Seg2File.open(allCodes(1)).value();
        same(Arrays.asList("a", "", " b"), file.note());
        same("a\n\n b", file.value("NOTE"));
        same(Collections.emptyList(), file.trace(0).value().note());
        same("", file.value("CLIENT"));
        same(true, file.has("CLIENT"));
        same(Arrays.asList("1 2.50 0", "2 2.50 0"), file.trace(0).value().strings().stream()
            .filter(s -> s.key().equals("RECEIVER_GEOMETRY")).map(Seg2String::value).collect(java.util.stream.Collectors.toList()));
        same("1 2.50 0", file.trace(0).value().value("RECEIVER_GEOMETRY"));
        same(file.trace(0).value().strings(), file.trace(1).value().strings());
        same(file.trace(0).value().strings().hashCode(), file.trace(1).value().strings().hashCode());
        same(false, file.strings().equals(file.trace(0).value().strings()));
        try {
            file.strings().clear();
            throw new AssertionError("the list can be changed");
        } catch (UnsupportedOperationException e) {
            // as it should be
        }
    }

    private static void traces() {
        Seg2File file = Seg2File.open(allCodes(0)).value();
        refused(18, 0, file.trace(6));
        refused(18, 0, file.trace(-1));
        refused(18, 0, file.trace(Integer.MAX_VALUE));
        List<Seg2Trace> traces = file.traces();
        same(6, traces.size());
        same(4, traces.get(3).formatCode());
        same(3, traces.indexOf(traces.get(3)));
        for (int wrong : new int[] {-1, 6}) {
            try {
                traces.get(wrong);
                throw new AssertionError("there is no trace " + wrong);
            } catch (IndexOutOfBoundsException e) {
                same("trace " + wrong + " of 6", e.getMessage());
            }
        }
        try {
            traces.remove(0);
            throw new AssertionError("the list can be changed");
        } catch (UnsupportedOperationException e) {
            same(6, traces.size());
        }
    }

    private static void samplesByKind() throws Exception {
        Seg2File file = Seg2File.open(allCodes(0)).value();
        for (Seg2Trace trace : file.traces()) {
            boolean whole = trace.formatCode() <= 3;
            same(whole, trace.integers().isOk());
            same(!whole, trace.bits().isOk());
            same(trace.formatCode() == 4, trace.floats().isOk());
            same(true, trace.doubles().isOk());
            for (Seg2Result<?> other : Arrays.asList(trace.integers(), trace.bits(), trace.floats())) {
                if (!other.isOk()) {
                    refused(33, 0, other);
                }
            }
            // rows of the caller's are filled, and answered themselves
            int s = trace.sampleCount();
            double[] doubles = new double[s];
            same(true, trace.doubles(doubles).value() == doubles);
            same(trace.doubles().value(), doubles);
            if (whole) {
                int[] row = new int[s];
                same(true, trace.integers(row).value() == row);
                same(trace.integers().value(), row);
                IntBuffer view = direct(new int[s]);
                same(true, trace.integers(view).value() == view);
                for (int i = 0; i < s; i++) {
                    same(row[i], view.get(i));
                }
            } else {
                long[] patterns = new long[s];
                byte[] classes = new byte[s];
                same(true, trace.bits(patterns, classes).value().patterns() == patterns);
                same(trace.bits().value(), new Seg2Bits(patterns, classes));
            }
            // others are refused and stay as they are
            int[] integers = new int[s + 1];
            Arrays.fill(integers, 77);
            double[] long1 = new double[s + 1];
            Arrays.fill(long1, 7.5);
            float[] floats = new float[s + 1];
            Arrays.fill(floats, 7.5f);
            refused(whole ? 32 : 33, 0, trace.integers(integers));
            refused(32, 0, trace.doubles(long1));
            refused(trace.formatCode() == 4 ? 32 : 33, 0, trace.floats(floats));
            refused(whole ? 33 : 32, 0, trace.bits(new long[s], new byte[s + 1]));
            same(true, integers[0] == 77 && long1[0] == 7.5 && floats[0] == 7.5f);
        }
        same(new float[] {1.5f, -0f, Float.MIN_VALUE, Float.NEGATIVE_INFINITY}, file.trace(3).value().floats().value());
        float[] row = new float[4];
        same(true, file.trace(3).value().floats(row).value() == row);
        same(new double[] {1.5, -0.0, Float.MIN_VALUE, Double.NEGATIVE_INFINITY}, file.trace(3).value().doubles().value());
        same(new double[] {Integer.MIN_VALUE, Integer.MAX_VALUE, 16777217}, file.trace(1).value().doubles().value());
        same(new byte[] {Seg2.CLASS_NUMBER, Seg2.CLASS_ZERO, Seg2.CLASS_UNDERFLOW, Seg2.CLASS_INFINITY}, file.trace(3).value().bits().value().classes());
        Seg2Trace first = file.trace(0).value();
        misused("null", () -> first.doubles((double[]) null));
        misused("null", () -> first.floats((float[]) null));
        misused("null", () -> first.integers((int[]) null));
        misused("null", () -> first.value(null));
    }

    /** What is not a number keeps its bits where Java keeps them: quiet ones everywhere, all of them in bits(). */
    private static void notNumbers() {
        long[] quiet = {0x7FC00001L, 0xFFC12345L, 0x7FFFFFFFL};
        long[] signalling = {0x7F800001L, 0xFFA12345L};
        long[] wide = {0x7FF8000000000001L, 0xFFFFFFFFFFFFFFFFL, 0x7FF0000000000001L};
        Seg2Growing shot = Seg2Growing.start(Seg2.HIGH_FIRST, 4, "").value();
        shot.addBits("", Seg2.FLOAT_32, quiet).value();
        shot.addBits("", Seg2.FLOAT_32, signalling).value();
        shot.addBits("", Seg2.FLOAT_64, wide).value();
        Seg2File file = shot.file().value();
        same(quiet, file.trace(0).value().bits().value().patterns());
        same(signalling, file.trace(1).value().bits().value().patterns());
        same(wide, file.trace(2).value().bits().value().patterns());
        float[] floats = file.trace(0).value().floats().value();
        double[] widened = file.trace(0).value().doubles().value();
        double[] doubles = file.trace(2).value().doubles().value();
        for (int i = 0; i < quiet.length; i++) {
            same((int) quiet[i], Float.floatToRawIntBits(floats[i]));
            // widened by the machine: sign, and the fraction in front
            long bits = (quiet[i] >>> 31 << 63) | 0x7FF0000000000000L | (quiet[i] & 0x7FFFFF) << 29;
            same(bits, Double.doubleToRawLongBits(widened[i]));
        }
        same(wide[0], Double.doubleToRawLongBits(doubles[0]));
        same(wide[1], Double.doubleToRawLongBits(doubles[1]));
        for (float f : file.trace(1).value().floats().value()) {
            same(true, Float.isNaN(f));
        }
        same(true, Double.isNaN(doubles[2]));
        // written back from floats, the quiet ones are the same bytes
        Seg2Growing again = Seg2Growing.start(Seg2.HIGH_FIRST, 4, "").value();
        again.add("", floats).value();
        same(quiet, again.file().value().trace(0).value().bits().value().patterns());
    }

    private static void results() throws Exception {
        Seg2Result<Seg2File> refused = Seg2File.open(new byte[32]);
        refused(2, 0, refused);
        same("refused (2) in the file: the first two bytes are not those of a SEG-2 file", refused.toString());
        thrown(2, refused::value);
        same(refused, Seg2File.open(new byte[40]));
        same(refused.hashCode(), Seg2File.open(new byte[40]).hashCode());
        same(false, refused.equals(Seg2File.open(new byte[31])));
        Seg2Trace trace = Seg2File.open(worked()).value().trace(0).value();
        same(trace.integers(), trace.integers()); // arrays by their elements
        same(trace.integers().hashCode(), trace.integers().hashCode());
        same(false, trace.integers().equals(trace.doubles()));
        same(false, trace.integers().equals(refused));
        same(null, trace.integers().refusal());
    }

    private static void refusedFiles() throws Exception {
        byte[] good = worked();
        // cut anywhere, each is refused as Seg2 refuses it, and never answered
        for (int length = 0; length < good.length; length++) {
            byte[] cut = Arrays.copyOf(good, length);
            Seg2.Refusal wanted = Seg2.check(Seg2File.copied(cut), length).refusal();
            same(wanted, Seg2File.open(cut).refusal());
            same(wanted, Seg2File.open(new ByteArrayInputStream(cut)).refusal());
            same(wanted, Seg2File.openLenient(cut).refusal());
            same(wanted, Seg2Growing.open(cut).refusal());
        }
        File path = File.createTempFile("seg2", ".sg2");
        try {
            refused(1, 0, Seg2File.open(path)); // empty
            refused(1, 0, Seg2File.openLenient(path));
            try (RandomAccessFile file = new RandomAccessFile(path, "rw")) {
                file.setLength(Seg2.MAXIMUM_LENGTH);
                refused(2, 0, Seg2File.open(path));
                file.setLength(Seg2.MAXIMUM_LENGTH + 1L);
                refused(1, 0, Seg2File.open(path));
                file.setLength(3L << 30); // more than a mapping holds
                refused(1, 0, Seg2File.open(path));
            }
        } finally {
            path.delete();
        }
        try {
            Seg2File.open(path);
            throw new AssertionError("there is no file any more");
        } catch (IOException e) {
            same(true, e.getMessage().contains(path.getName()));
        }
        // a stream without an end is read as far as a file may go
        long[] read = {0};
        InputStream endless = new InputStream() {
            @Override
            public int read() {
                return 0x55;
            }

            @Override
            public int read(byte[] row, int from, int count) {
                read[0] += count;
                return count;
            }
        };
        refused(1, 0, Seg2File.open(endless));
        same(true, read[0] <= Seg2.MAXIMUM_LENGTH + 200_000L);
        misused("not direct", () -> Seg2File.open(ByteBuffer.allocate(108)));
        misused("null", () -> Seg2File.open((ByteBuffer) null));
        misused("null", () -> Seg2File.open((byte[]) null));
        misused("null", () -> Seg2File.open((File) null));
        misused("null", () -> Seg2File.open((InputStream) null));
    }

    private static void olderFiles() throws Exception {
        ByteBuffer b = olderFile();
        int n = b.limit();
        b.put(n - 3, (byte) 7); // the first sample of the second trace
        refused(16, 40, Seg2File.open(b));
        refused(16, 40, Seg2Growing.open(b));
        byte[] bytes = Arrays.copyOf(copy(b), n);
        File path = File.createTempFile("seg2", ".sg2");
        Files.write(path.toPath(), bytes);
        List<Seg2File> ways = Arrays.asList(Seg2File.openLenient(b).value(), Seg2File.openLenient(bytes).value(), Seg2File.openLenient(path).value(),
            Seg2File.openLenient(new ByteArrayInputStream(bytes)).value());
        path.delete();
        for (Seg2File file : ways) {
            same(Seg2.check(b, n).refusal(), file.strict());
            same(16, file.strict().number);
            same("[Units METERS, note one\ntwo, units FEET, Date x]", file.strings().toString());
            same("METERS", file.value("UNITS"));
            same(null, file.value("units"));
            same(Arrays.asList("one", "two"), file.note());
            same(2, file.traces().size());
            Seg2Trace trace = file.trace(0).value();
            same("4", trace.value("STACK"));
            same(true, trace.has("DELAY"));
            same("-0.020", trace.number("DELAY").value().text());
            same(-0.020, trace.doubleValue("DELAY").value());
            same(2.5, trace.location("RECEIVER_LOCATION").value().y);
            same(new int[] {1, -1}, trace.integers().value());
            same(new double[] {1, -1}, trace.doubles().value());
            IntBuffer view = direct(0, 0);
            same(-1, trace.integers(view).value().get(1));
            same(new int[] {7, -1}, file.trace(1).value().integers().value());
            same(7, file.trace(1).value().integers(view).value().get(0));
            same("8", file.trace(1).value().value("STACK"));
            same(8.0, file.trace(1).value().doubleValue("STACK").value());
            same("[Channel_Number none, STACK 8]", file.trace(1).value().strings().toString());
            refused(33, 0, trace.bits());
            refused(33, 0, trace.floats());
            refused(18, 0, file.trace(2));
            refused(20, 0, file.trace(1).value().number("CHANNEL_NUMBER"));
        }
        // what is not forgiven is refused here too
        bytes[0] = 0;
        refused(2, 0, Seg2File.openLenient(bytes));
        // and a file that keeps the rules is asked by the quick calls: the other traces are not looked at
        ByteBuffer three = threeTraces();
        Seg2File file = Seg2File.openLenient(three).value();
        same(null, file.strict());
        three.put(Seg2.traceBlock(three, three.limit(), 2).start, (byte) 0);
        same("0", file.trace(0).value().value("STACK"));
    }

    /** Bytes that somebody changes behind the object's back: the refusal, never another answer. */
    private static void changedBytes() throws Exception {
        ByteBuffer b = example();
        b.limit(108);
        Seg2File file = Seg2File.open(b).value();
        Seg2Trace trace = file.trace(0).value();
        b.put(90, (byte) 's');
        thrown(16, () -> file.strings());
        thrown(16, () -> trace.strings());
        thrown(16, () -> trace.value("STACK"));
        thrown(16, () -> trace.has("STACK"));
        thrown(16, () -> trace.note());
        refused(16, 0, 88, trace.number("STACK"));
        same(new int[] {1, -1, 256}, trace.integers().value()); // no string is read for these
        b.put(56, (byte) 0);
        refused(9, 0, 56, trace.integers());
        thrown(9, () -> file.traces().get(0));
    }

    /** The least time of some runs: this thread's own, as others may have the processor in between. */
    private static long least(Seg2Test.Body body) throws Exception {
        ThreadMXBean clock = ManagementFactory.getThreadMXBean();
        long least = Long.MAX_VALUE;
        for (int i = 0; i < 9; i++) {
            long began = clock.getCurrentThreadCpuTime();
            body.run();
            least = Math.min(least, clock.getCurrentThreadCpuTime() - began);
        }
        return least;
    }

    private static byte[] manyTraces(int count) {
        Seg2Growing shot = Seg2Growing.start(Seg2.LOW_FIRST, count, "UNITS\tMETERS\n").value();
        for (int k = 0; k < count; k++) {
            same(k, shot.add("RECEIVER_LOCATION\t" + k + ".5\nSTACK\t1\n", Seg2.FIXED_16, new int[] {k, -k}).value());
        }
        return shot.toByteArray();
    }

    private static int list(byte[] bytes) {
        int sum = 0;
        for (Seg2Trace trace : Seg2File.open(bytes).value().traces()) {
            sum += trace.strings().size() + trace.value("STACK").length() + trace.integers().value()[0];
        }
        return sum;
    }

    private static void twoThousandTraces() throws Exception {
        byte[] few = manyTraces(250);
        byte[] many = manyTraces(2000);
        same(2000 * 3 + 2000 * 1999 / 2, list(many));
        same(1999.5, Seg2File.open(many).value().trace(1999).value().doubleValue("RECEIVER_LOCATION").value());
        list(many); // the machine compiles what is used often
        long first = least(() -> list(few));
        long second = least(() -> list(many));
        System.out.println("250 traces: " + first / 1000 + " microseconds, 2,000: " + second / 1000);
        // 8 times the traces: 8 times the time, and 64 times if each question went through the whole file
        if (second > 24 * first) {
            throw new AssertionError("2,000 traces took " + second + " ns, 250 took " + first);
        }
    }

    private static void manyThreads() throws Exception {
        Seg2File file = Seg2File.open(allCodes(0)).value();
        List<Object> wanted = asked(file);
        AtomicReference<Throwable> wrong = new AtomicReference<>();
        Thread[] threads = new Thread[8];
        for (int t = 0; t < threads.length; t++) {
            threads[t] = new Thread(() -> {
                for (int i = 0; i < 30; i++) {
                    same(wanted, asked(file));
                }
            });
            threads[t].setUncaughtExceptionHandler((thread, e) -> wrong.compareAndSet(null, e));
            threads[t].start();
        }
        for (Thread thread : threads) {
            thread.join();
        }
        if (wrong.get() != null) {
            throw new AssertionError("on a thread", wrong.get());
        }
    }

    private static List<Object> asked(Seg2File file) {
        List<Object> all = new ArrayList<>(file.strings());
        for (Seg2Trace trace : file.traces()) {
            all.addAll(trace.strings());
            all.addAll(Arrays.asList(trace.integers(), trace.bits(), trace.floats(), trace.doubles(), trace.doubleValue("DELAY")));
        }
        return all;
    }

    // ---- a growing file

    private static void growing() {
        Seg2Growing shot = Seg2Growing.start(Seg2.LOW_FIRST, 1, "UNITS\tMETERS\n").value();
        same(56, shot.length());
        refused(5, 6, shot.file());
        same(0, shot.add("STACK\t1\n", Seg2.FIXED_16, new int[] {1, -1, 256}).value());
        same(worked(), shot.toByteArray());
        same(1, shot.traceCount());
        same("growing SEG-2 file: 1 traces, 108 bytes", shot.toString());
        same(true, shot.bytes().isReadOnly());
        same(108, shot.bytes().limit());
        refused(24, 0, shot.add("", Seg2.FIXED_16, new int[0]));
        refused(31, 0, Seg2Growing.start(2, 1, ""));
        refused(31, 0, Seg2Growing.start(0, 0, ""));
        refused(31, 0, Seg2Growing.start(0, 16384, ""));
        refused(31, 0, Seg2Growing.start(0, -1, ""));
        refused(25, 0, Seg2Growing.start(0, 1, "UNITS METERS\n"));
        same(32 + 4 * 16383 + 4, Seg2Growing.start(1, 16383, "").value().length());
        // each file is the one that Seg2's own calls write
        for (int order = 0; order < 2; order++) {
            ByteBuffer b = ByteBuffer.allocateDirect(1000);
            int n = Seg2.start(b, order, 3, "UNITS\tMETERS\n").length;
            n = Seg2.addIntegers(b, n, "A\tb\n", Seg2.FLOAT_20, new int[] {100000, 0, 0, 0}).length;
            n = Seg2.addBits(b, n, "", Seg2.FLOAT_32, new long[] {Float.floatToRawIntBits(-2.5f) & 0xFFFFFFFFL}).length;
            n = Seg2.addBits(b, n, "", Seg2.FLOAT_64, new long[] {Double.doubleToRawLongBits(1e300)}).length;
            Seg2Growing own = Seg2Growing.start(order, 3, "UNITS\tMETERS\n").value();
            same(0, own.add("A\tb\n", Seg2.FLOAT_20, new int[] {100000, 0, 0, 0}).value());
            same(1, own.add("", new float[] {-2.5f}).value());
            same(2, own.add("", new double[] {1e300}).value());
            same(Arrays.copyOf(copy(b), n), own.toByteArray());
        }
    }

    private static void growingFar() {
        Seg2Growing shot = Seg2Growing.start(Seg2.HIGH_FIRST, 40, "").value();
        Random random = new Random(7);
        List<int[]> rows = new ArrayList<>();
        for (int k = 0; k < 40; k++) {
            int[] row = new int[random.nextInt(20000)];
            for (int i = 0; i < row.length; i++) {
                row[i] = random.nextInt();
            }
            rows.add(row);
            same(k, shot.add("CHANNEL_NUMBER\t" + (k + 1) + "\n", Seg2.FIXED_32, row).value());
        }
        Seg2File file = shot.file().value();
        for (int k = 0; k < 40; k++) {
            same(rows.get(k), file.trace(k).value().integers().value());
        }
    }

    /** Every refusal of an addition, and behind each the same bytes, length and count. */
    private static void refusedAdditions() {
        Seg2Growing shot = Seg2Growing.start(Seg2.LOW_FIRST, 3, "").value();
        shot.add("CHANNEL_NUMBER\t1\n", Seg2.FIXED_16, new int[] {1}).value();
        byte[] before = shot.toByteArray();
        String good = "CHANNEL_NUMBER\t2\n";
        StringBuilder much = new StringBuilder(good);
        for (int i = 0; i < 700; i++) {
            much.append("RECEIVER_GEOMETRY\t").append(new String(new char[100]).replace('\0', '1')).append('\n');
        }
        List<Seg2Result<Integer>> all = Arrays.asList(
            shot.add("channel\t1\n", Seg2.FIXED_16, new int[1]), shot.add(good + "A\t1\n", Seg2.FIXED_16, new int[1]),
            shot.add(much.toString(), Seg2.FIXED_16, new int[1]), shot.add("", Seg2.FIXED_16, new int[1]),
            shot.add("CHANNEL_NUMBER\t0\n", Seg2.FIXED_16, new int[1]), shot.add(good, Seg2.FLOAT_32, new int[1]),
            shot.addBits(good, Seg2.FIXED_16, new long[1]), shot.add(good, Seg2.FLOAT_20, new int[3]),
            shot.add(good, Seg2.FIXED_16, new int[] {0, 40000}), shot.addBits(good, Seg2.FLOAT_32, new long[] {0, 0, 1L << 32}));
        int[][] wanted = {{25, 0}, {26, 17}, {27, 0}, {35, 0}, {35, 0}, {28, 0}, {28, 0}, {28, 0}, {29, 1}, {29, 2}};
        for (int i = 0; i < wanted.length; i++) {
            refused(wanted[i][0], wanted[i][1], all.get(i));
        }
        same(before, shot.toByteArray());
        same(1, shot.traceCount());
        same(1, shot.add(good, Seg2.FIXED_16, new int[] {5}).value());
    }

    /** A file as long as files may be: what is over it is refused by 30, and the file is as it was. */
    private static void tooLong() {
        Seg2Growing shot = Seg2Growing.start(Seg2.LOW_FIRST, 4, "").value();
        int[] half = new int[8_000_000];
        half[7] = 7;
        same(0, shot.add("", Seg2.FIXED_32, half).value());
        same(1, shot.add("", Seg2.FIXED_32, half).value());
        int length = shot.length();
        int hash = shot.bytes().hashCode();
        refused(30, 0, shot.add("", Seg2.FIXED_32, half));
        same(length, shot.length());
        same(2, shot.traceCount());
        same(hash, shot.bytes().hashCode());
        // what is left to the maximum, to the byte: 36 bytes of block and end mark
        int rest = (Seg2.MAXIMUM_LENGTH - length - 36) / 4;
        refused(30, 0, shot.add("", Seg2.FIXED_32, new int[rest + 1]));
        same(2, shot.add("", Seg2.FIXED_32, new int[rest]).value());
        same(Seg2.MAXIMUM_LENGTH, shot.length());
    }

    private static void extended() throws Exception {
        byte[] old = allCodes(1); // six slots, six traces
        Seg2Growing full = Seg2Growing.open(old).value();
        same(6, full.traceCount());
        refused(24, 0, full.add("", Seg2.FIXED_16, new int[1]));
        same(old, full.toByteArray());
        Seg2Growing image = Seg2Growing.start(Seg2.LOW_FIRST, 2, "").value();
        // an image without traces, a file of one, by every way in
        for (int traces = 0; traces < 2; traces++) {
            File path = File.createTempFile("seg2", ".sg2");
            image.writeTo(path);
            ByteBuffer heap = ByteBuffer.wrap(image.toByteArray());
            heap.position(9);
            List<Seg2Growing> ways = Arrays.asList(Seg2Growing.open(image.toByteArray()).value(), Seg2Growing.open(heap).value(),
                Seg2Growing.open(path).value(), Seg2Growing.open(new ByteArrayInputStream(image.toByteArray())).value());
            path.delete();
            same(traces, image.add("STACK\t" + traces + "\n", Seg2.FIXED_16, new int[] {traces}).value());
            for (Seg2Growing way : ways) {
                same(traces, way.traceCount());
                same(traces, way.add("STACK\t" + traces + "\n", Seg2.FIXED_16, new int[] {traces}).value());
                same(image.toByteArray(), way.toByteArray());
            }
        }
        refused(2, 0, Seg2Growing.open(new byte[40]));
        // the file on the disk stays as it was until it is written
        byte[] kept = image.toByteArray();
        ByteBuffer lent = Seg2File.copied(kept);
        Seg2Growing.open(lent).value();
        same(kept, copy(lent));
    }

    private static void writtenFiles() throws Exception {
        File folder = Files.createTempDirectory("seg2").toFile();
        File path = new File(folder, "shot.sg2");
        Seg2Growing shot = Seg2Growing.open(worked()).value();
        shot.writeTo(path);
        same(worked(), Files.readAllBytes(path.toPath()));
        byte[] longer = allCodes(0);
        Seg2Growing.open(longer).value().writeTo(path);
        same(longer, Files.readAllBytes(path.toPath()));
        same(Arrays.asList("shot.sg2"), Arrays.asList(folder.list()));
        ByteArrayOutputStream stream = new ByteArrayOutputStream();
        shot.writeTo(stream);
        same(worked(), stream.toByteArray());
        // what cannot be written leaves nothing behind, and what was there
        File taken = new File(folder, "taken");
        same(true, taken.mkdir() && new File(taken, "x").createNewFile());
        for (File wrong : new File[] {taken, new File(new File(folder, "none"), "shot.sg2")}) {
            try {
                shot.writeTo(wrong);
                throw new AssertionError("written: " + wrong);
            } catch (IOException e) {
                same(2, folder.list().length);
            }
        }
        same(true, new File(taken, "x").delete() && taken.delete() && path.delete() && folder.delete());
    }

    // ---- sheets

    private static void refusedSheet(Seg2Sheet sheet, int number, long place, int index, int keyAt, int valueAt) {
        refused(number, place, sheet.build());
        Seg2Sheet.Fault fault = sheet.fault();
        same(sheet.build().refusal(), fault.refusal);
        same(index + " " + keyAt + " " + valueAt, fault.index + " " + fault.keyAt + " " + fault.valueAt);
        // and the growing file refuses it too, by the same
        refused(number, place, Seg2Growing.start(Seg2.LOW_FIRST, 1, sheet));
    }

    private static void sheetsAreSorted() {
        Seg2Sheet sheet = new Seg2Sheet().note("wet").put("STACK", "4").put("RECEIVER_GEOMETRY", "2 0 0").put("A", "").put("NOTE", " and cold")
            .put("RECEIVER_GEOMETRY", "1 0 0").put("AA", "x").note("", "end").put("NOTES", "y").put("SOURCE_GEOMETRY", "1").put("SOURCE_GEOMETRY", "1")
            .put("_", "after all letters");
        same(13, sheet.size());
        same(null, sheet.fault());
        String text = sheet.build().value();
        same("A\t\nAA\tx\nNOTES\ty\nRECEIVER_GEOMETRY\t2 0 0\nRECEIVER_GEOMETRY\t1 0 0\nSOURCE_GEOMETRY\t1\nSOURCE_GEOMETRY\t1\nSTACK\t4\n"
            + "_\tafter all letters\nNOTE\twet\nNOTE\t and cold\nNOTE\t\nNOTE\tend\n", text);
        same(text, sheet.toString());
        Seg2File file = grown(sheet);
        same(Arrays.asList("wet", " and cold", "", "end"), file.trace(0).value().note());
        same("4", file.trace(0).value().value("STACK"));
        same("", new Seg2Sheet().build().value());
    }

    private static Seg2File grown(Seg2Sheet sheet) {
        Seg2Growing shot = Seg2Growing.start(Seg2.LOW_FIRST, 4, "").value();
        shot.add(sheet, Seg2.FIXED_16, new int[1]).value();
        shot.add(sheet, new float[1]).value();
        shot.add(sheet, new double[1]).value();
        shot.addBits(sheet, Seg2.FLOAT_64, new long[1]).value();
        return shot.file().value();
    }

    private static void sheetsThatAreRefused() throws Exception {
        refusedSheet(new Seg2Sheet().put("B", "1").put("a", "2"), 25, 4, 1, 0, -1);
        refusedSheet(new Seg2Sheet().put("RECEIVER_location", "2"), 25, 0, 0, 9, -1);
        refusedSheet(new Seg2Sheet().put("", "2"), 25, 0, 0, 0, -1);
        refusedSheet(new Seg2Sheet().put("A B", "2"), 25, 0, 0, 1, -1);
        refusedSheet(new Seg2Sheet().put("A\tB", "2"), 25, 0, 0, 1, -1);
        refusedSheet(new Seg2Sheet().put("A\n", "2"), 25, 0, 0, 1, -1);
        // an accent, a typographic minus, a tab, a line feed that would make a line of its own
        refusedSheet(new Seg2Sheet().put("B", "1").put("CLIENT", "M\u00fcller"), 25, 4, 1, -1, 1);
        refusedSheet(new Seg2Sheet().put("DELAY", "\u22120.5"), 25, 0, 0, -1, 0);
        refusedSheet(new Seg2Sheet().put("A", "1\t2"), 25, 0, 0, -1, 1);
        refusedSheet(new Seg2Sheet().put("A", "1\nB\t2"), 25, 0, 0, -1, 1);
        refusedSheet(new Seg2Sheet().put("A", " 1"), 25, 0, 0, -1, 0);
        refusedSheet(new Seg2Sheet().put("A", "1").note("one", " two", "thr\u00e9e").put("B", "2"), 25, 8 + 9 + 10, 3, -1, 3);
        refusedSheet(new Seg2Sheet().put("A", "1").note(" one"), 25, 4, 1, -1, 0);
        refusedSheet(new Seg2Sheet().note("one\ntwo"), 25, 0, 0, -1, 3);
        // twice: neither is dropped
        refusedSheet(new Seg2Sheet().put("STACK", "4").put("DELAY", "0").put("STACK", "5"), 26, 16, 2, -1, -1);
        // too much
        StringBuilder much = new StringBuilder();
        for (int i = 0; i < 65500; i++) {
            much.append('x');
        }
        refusedSheet(new Seg2Sheet().put("A", much.toString()), 27, 0, -1, -1, -1);
        same("a 2 at character 0 of the keyword: refused (25) at byte 0 of the sheet: a line of the sheet is not a keyword, a tab and a value",
            new Seg2Sheet().put("a", "2").fault().toString());
        same("CLIENT M\u00fcller at character 1 of the value: refused (25) at byte 0 of the sheet: a line of the sheet is not a keyword, a tab and a value",
            new Seg2Sheet().put("CLIENT", "M\u00fcller").fault().toString());
        same("refused (27): the sheet's strings need more than 65,500 bytes", new Seg2Sheet().put("A", much.toString()).fault().toString());
        misused("null", () -> new Seg2Sheet().put(null, ""));
        misused("null", () -> new Seg2Sheet().put("A", null));
        misused("null", () -> new Seg2Sheet().note((String) null));
        misused("null", () -> new Seg2Sheet().location("A", "1", null));
        misused("null", () -> new Seg2Sheet().number("A", (BigDecimal) null));
    }

    private static void numbersInSheets() {
        Seg2Sheet sheet = new Seg2Sheet().number("E", "0.250").number("D", 12).number("C", new BigDecimal("-12.50")).number("B", new BigDecimal("1E+3"))
            .number("A", Seg2.readNumber("2.50E-3")).number("F", -7L).number("G", new BigDecimal("0.000"))
            .location("H", "1 2.50 0").location("I", "1", "-2", "3").location("J", "5.0");
        same("A\t2.50E-3\nB\t1E3\nC\t-12.50\nD\t12\nE\t0.250\nF\t-7\nG\t0.000\nH\t1 2.50 0\nI\t1 -2 3\nJ\t5.0\n", sheet.build().value());
        // a comma is no point: refused where it stands, and not dropped
        refusedSheet(new Seg2Sheet().put("A", "1").number("DELAY", "0,5"), 20, 0, 1, -1, 0);
        refusedSheet(new Seg2Sheet().location("RECEIVER_LOCATION", "12,5"), 20, 0, 0, -1, 0);
        refusedSheet(new Seg2Sheet().location("RECEIVER_LOCATION", "1 2 0,5"), 20, 4, 0, -1, 4);
        refusedSheet(new Seg2Sheet().location("RECEIVER_LOCATION", "1", "2,5", "0"), 20, 2, 0, -1, 2);
        refusedSheet(new Seg2Sheet().location("RECEIVER_LOCATION", "1 2"), 23, 0, 0, -1, -1);
        refusedSheet(new Seg2Sheet().location("RECEIVER_LOCATION", ""), 23, 0, 0, -1, -1);
        refusedSheet(new Seg2Sheet().location("RECEIVER_LOCATION", "1 2 1E20"), 22, 4, 0, -1, 4);
        refusedSheet(new Seg2Sheet().location("A", "1 \u00bd 2"), 25, 0, 0, -1, 2);
        refusedSheet(new Seg2Sheet().location("A", "1\n2"), 25, 0, 0, -1, 1);
        for (String typed : new String[] {"", "x", "+1", " 1", "1 ", "1.", ".5", "1e5", "\u0661", "1\u00a0000", "0.5\n"}) {
            refusedSheet(new Seg2Sheet().number("A", typed), 20, 0, 0, -1, 0);
        }
        refusedSheet(new Seg2Sheet().number("A", "1234567890123456789"), 21, 0, 0, -1, 0);
        refusedSheet(new Seg2Sheet().number("A", Long.MIN_VALUE), 21, 0, 0, -1, 0);
        refusedSheet(new Seg2Sheet().number("A", new BigDecimal(BigInteger.TEN.pow(40))), 21, 0, 0, -1, 0);
        // of more than 64 bits nothing is cut off: this is no 5
        refusedSheet(new Seg2Sheet().number("A", new BigDecimal(BigInteger.ONE.shiftLeft(64).add(BigInteger.valueOf(5)))), 21, 0, 0, -1, 0);
        refusedSheet(new Seg2Sheet().number("A", new BigDecimal(BigInteger.ONE, Integer.MIN_VALUE)), 21, 0, 0, -1, 0);
        refusedSheet(new Seg2Sheet().number("A", new BigDecimal(BigInteger.ONE, Integer.MAX_VALUE)), 21, 0, 0, -1, 0);
        refusedSheet(new Seg2Sheet().number("A", Seg2.readNumber("0,5")), 20, 0, 0, -1, 0);
        same("DELAY 0,5 at character 0 of the value: refused (20) at byte 0 of the value: "
            + "this is not a number, the keyword is missing, or a zero to be written has a minus", new Seg2Sheet().number("DELAY", "0,5").fault().toString());
        // as a plain text it is one: the caller says what is a number
        same("DELAY\t0,5\n", new Seg2Sheet().put("DELAY", "0,5").build().value());
    }

    /** Sheets at random: refused exactly where the library refuses the sorted lines, and what is written is what was put. */
    private static void sheetsAtRandom() {
        String[] keys = {"A", "B", "C", "D", "E", "F", "G", "NOTE", "NOTE", "RECEIVER_GEOMETRY", "SOURCE_GEOMETRY", "z", "Z Z"};
        String[] values = {"", "1", "x y ", "0,5", " ", "1.50", "a", "b", "c", "d", "e", "\u00e9", "1\n2"};
        Random random = new Random(11);
        int good = 0;
        for (int round = 0; round < 600; round++) {
            Seg2Sheet sheet = new Seg2Sheet();
            List<String> put = new ArrayList<>();
            int count = random.nextInt(6);
            boolean whole = true;
            for (int i = 0; i < count; i++) {
                String key = keys[random.nextInt(random.nextInt(4) == 0 ? keys.length : 11)];
                String value = values[random.nextInt(random.nextInt(4) == 0 ? values.length : 10)];
                sheet.put(key, value);
                put.add(key + "\t" + value + "\n");
                whole &= !value.contains("\n");
            }
            Collections.sort(put, (a, b) -> {
                boolean note = a.startsWith("NOTE\t");
                String one = a.substring(0, a.indexOf('\t'));
                String other = b.substring(0, b.indexOf('\t'));
                return note != b.startsWith("NOTE\t") ? (note ? 1 : -1) : one.compareTo(other);
            });
            String text = String.join("", put);
            Seg2.Length wanted = Seg2.start(ByteBuffer.allocateDirect(500), Seg2.LOW_FIRST, 1, text);
            Seg2Result<String> built = sheet.build();
            if (whole) {
                same(wanted.refusal(), built.refusal());
            } else {
                same(false, built.isOk());
            }
            if (!built.isOk()) {
                same(true, sheet.fault().index >= 0);
                continue;
            }
            good++;
            same(text, built.value());
            Seg2Part part = grown(sheet).trace(0).value();
            StringBuilder back = new StringBuilder();
            for (Seg2String string : part.strings()) {
                for (String line : string.key().equals("NOTE") ? part.note() : Arrays.asList(string.value())) {
                    back.append(string.key()).append('\t').append(line).append('\n');
                }
            }
            same(text, back.toString());
        }
        same(true, good > 100 && good < 500);
    }

    static void all() {
        test("the worked file, opened in every way", Seg2FileTest::theWorkedFile);
        test("every question of a file object beside Seg2's own answers", Seg2FileTest::asSeg2Answers);
        test("the worked values through it", Seg2FileTest::theWorkedValues);
        test("its strings, and the lines of a NOTE", Seg2FileTest::stringsAndNotes);
        test("its traces as a list", Seg2FileTest::traces);
        test("samples by kind, into rows of the caller's too", Seg2FileTest::samplesByKind);
        test("what is not a number keeps its bits", Seg2FileTest::notNumbers);
        test("results and exceptions", Seg2FileTest::results);
        test("files that are refused, cut or too long", Seg2FileTest::refusedFiles);
        test("files of older recorders", Seg2FileTest::olderFiles);
        test("bytes that changed since", Seg2FileTest::changedBytes);
        test("2,000 traces in linear time", Seg2FileTest::twoThousandTraces);
        test("one file asked by many threads", Seg2FileTest::manyThreads);
        test("a growing file, byte for byte", Seg2FileTest::growing);
        test("it grows far", Seg2FileTest::growingFar);
        test("a refused addition leaves it as it was", Seg2FileTest::refusedAdditions);
        test("as long as a file may be", Seg2FileTest::tooLong);
        test("a file that is extended", Seg2FileTest::extended);
        test("files written whole or not at all", Seg2FileTest::writtenFiles);
        test("a sheet is sorted", Seg2FileTest::sheetsAreSorted);
        test("sheets that are refused, with their character", Seg2FileTest::sheetsThatAreRefused);
        test("numbers and locations in a sheet", Seg2FileTest::numbersInSheets);
        test("sheets at random", Seg2FileTest::sheetsAtRandom);
    }
}
