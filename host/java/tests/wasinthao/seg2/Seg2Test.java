package wasinthao.seg2;

import java.io.IOException;
import java.io.RandomAccessFile;
import java.lang.reflect.Constructor;
import java.lang.reflect.Field;
import java.lang.reflect.Modifier;
import java.nio.ByteBuffer;
import java.nio.ByteOrder;
import java.nio.IntBuffer;
import java.nio.channels.FileChannel;
import java.nio.charset.StandardCharsets;
import java.nio.file.Files;
import java.nio.file.Path;
import java.nio.file.Paths;
import java.util.ArrayList;
import java.util.Arrays;
import java.util.HashSet;
import java.util.List;
import java.util.Random;
import java.util.Set;
import java.util.concurrent.atomic.AtomicReference;
import java.util.regex.Matcher;
import java.util.regex.Pattern;

/** Tests of Seg2, and behind them those of the file object: a main that counts, and no library beside Java's own. The arguments are the paths of
 * seg2.h and of the list of refusals in words. */
public final class Seg2Test {
    private Seg2Test() {}

    interface Body {
        void run() throws Exception;
    }

    private static int passed;
    private static int failed;

    static void test(String name, Body body) {
        try {
            body.run();
            passed++;
            System.out.println("test " + name + " ... ok");
        } catch (Exception | AssertionError e) {
            failed++;
            System.out.println("test " + name + " ... FAILED");
            e.printStackTrace(System.out);
        }
    }

    static void same(Object wanted, Object is) {
        if (!java.util.Objects.deepEquals(wanted, is)) {
            throw new AssertionError("wanted " + wanted + ", got " + is);
        }
    }

    static void accepted(Seg2.Answer answer) {
        if (!answer.accepted() || answer.refusal() != null) {
            throw new AssertionError("refused: " + answer.refusal());
        }
    }

    private static void refused(int number, int part, long place, Seg2.Answer answer) {
        Seg2.Refusal r = answer.refusal();
        if (r == null || answer.accepted() || r.number != number || r.part != part || r.place != place) {
            throw new AssertionError("wanted " + number + " " + part + " " + place + ", got " + r);
        }
    }

    /** Misuse: IllegalArgumentException with a sentence that has these words. */
    static void misused(String words, Body body) throws Exception {
        try {
            body.run();
        } catch (IllegalArgumentException e) {
            if (e.getMessage() == null || !e.getMessage().contains(words)) {
                throw new AssertionError("wanted a sentence with '" + words + "', got " + e.getMessage());
            }
            return;
        }
        throw new AssertionError("no IllegalArgumentException: " + words);
    }

    static byte[] copy(ByteBuffer buffer) {
        byte[] all = new byte[buffer.capacity()];
        ByteBuffer view = buffer.duplicate();
        view.clear();
        view.get(all);
        return all;
    }

    private static ByteBuffer painted(int size) {
        ByteBuffer buffer = ByteBuffer.allocateDirect(size);
        for (int i = 0; i < size; i++) {
            buffer.put(i, (byte) 0xA5);
        }
        return buffer;
    }

    static IntBuffer direct(int... values) {
        IntBuffer row = ByteBuffer.allocateDirect(4 * values.length).order(ByteOrder.nativeOrder()).asIntBuffer();
        for (int i = 0; i < values.length; i++) {
            row.put(i, values[i]);
        }
        return row;
    }

    /** Document 01's example, in a buffer of 200 bytes. */
    static ByteBuffer example() {
        ByteBuffer buffer = painted(200);
        Seg2.Length started = Seg2.start(buffer, Seg2.LOW_FIRST, 1, "UNITS\tMETERS\n");
        accepted(started);
        Seg2.Length added = Seg2.addIntegers(buffer, started.length, "STACK\t1\n", Seg2.FIXED_16, new int[] {1, -1, 256});
        accepted(added);
        same(108, added.length);
        return buffer;
    }

    /** A file of one trace without samples, whose sheet is given. */
    private static ByteBuffer withSheet(String sheet) {
        ByteBuffer buffer = painted(2000);
        Seg2.Length started = Seg2.start(buffer, Seg2.HIGH_FIRST, 1, "");
        accepted(started);
        Seg2.Length added = Seg2.addIntegers(buffer, started.length, sheet, Seg2.FIXED_32, new int[0]);
        accepted(added);
        buffer.limit(added.length);
        return buffer;
    }

    private static void theExample() {
        ByteBuffer b = example();
        accepted(Seg2.check(b, 108));
        Seg2.FileBlock file = Seg2.fileBlock(b, 108);
        accepted(file);
        same(Seg2.LOW_FIRST, file.order);
        same(4, file.pointerRoom);
        same(1, file.traceCount);
        same("\0", file.stringTerminator);
        same("\n", file.lineTerminator);
        Seg2.TraceBlock trace = Seg2.traceBlock(b, 108, 0);
        accepted(trace);
        same(56, trace.start);
        same(44, trace.blockSize);
        same(8, trace.dataSize);
        same(3, trace.sampleCount);
        same(Seg2.FIXED_16, trace.formatCode);
        int[] row = new int[3];
        accepted(Seg2.integers(b, 108, 0, row));
        same(new int[] {1, -1, 256}, row);
        same((byte) 0xA5, b.get(108)); // past the answered length nothing changed
        same(1, Seg2.stringCount(b, 108, Seg2.FILE).count);
        Seg2.Entry units = Seg2.string(b, 108, Seg2.FILE, 0);
        same(true, units.found);
        same("UNITS", units.keyText());
        same("METERS", units.valueText());
        Seg2.Entry past = Seg2.string(b, 108, Seg2.FILE, 1);
        accepted(past);
        same(false, past.found);
        same(0, past.key().remaining() + past.value().remaining());
        same("1", Seg2.value(b, 108, 0, "STACK").text());
    }

    private static void theSameBytesFromBothRows() {
        ByteBuffer a = painted(300);
        ByteBuffer b = painted(300);
        for (int order = 0; order < 2; order++) {
            for (int code = 1; code <= 3; code++) {
                int[] samples = {1, -1, 256, -32768, 32767, 0, 77, -77};
                int length = Seg2.start(a, order, 2, "").length;
                same(length, Seg2.start(b, order, 2, "").length);
                Seg2.Length x = Seg2.addIntegers(a, length, "A\tb\n", code, samples);
                Seg2.Length y = Seg2.addIntegers(b, length, "A\tb\n", code, direct(samples));
                accepted(x);
                same(x.length, y.length);
                same(copy(a), copy(b));
                int[] row = new int[8];
                IntBuffer view = direct(new int[8]);
                accepted(Seg2.integers(a, x.length, 0, row));
                accepted(Seg2.integers(b, x.length, 0, view));
                for (int i = 0; i < 8; i++) {
                    same(samples[i], row[i]);
                    same(samples[i], view.get(i));
                }
            }
        }
    }

    private static void valuesAreTheBuffersOwnBytes() {
        ByteBuffer b = example();
        b.position(17);
        Seg2.Value value = Seg2.value(b, 108, Seg2.FILE, "UNITS");
        accepted(value);
        same(17, b.position());
        ByteBuffer bytes = value.bytes();
        same(6, bytes.remaining());
        same(true, bytes.isDirect());
        b.put(value.start, (byte) 'X');
        same((byte) 'X', bytes.get(0));
        same("XETERS", value.text());
        // a no: the empty part at the start, no refusal; and a keyword without a value is another thing
        Seg2.Value no = Seg2.value(b, 108, Seg2.FILE, "NOTHING");
        accepted(no);
        same(0, no.start + no.length + no.bytes().remaining());
        same(false, Seg2.keyword(b, 108, Seg2.FILE, "NOTHING").found);
        same(true, Seg2.keyword(b, 108, Seg2.FILE, "UNITS").found);
        same(true, Seg2.keyword(b, 108, Seg2.FILE, "UNITS".getBytes(StandardCharsets.US_ASCII)).found);
        // a refusal: the same empty part
        Seg2.Value refusal = Seg2.value(b, 107, Seg2.FILE, "UNITS");
        refused(11, 0, 60, refusal);
        same(0, refusal.start + refusal.length + refusal.bytes().remaining());
        ByteBuffer empty = withSheet("EMPTY\t\n");
        same(true, Seg2.keyword(empty, empty.limit(), 0, "EMPTY").found);
        same("", Seg2.value(empty, empty.limit(), 0, "EMPTY").text());
        Seg2.Value readOnly = Seg2.value(b.asReadOnlyBuffer(), 108, Seg2.FILE, "UNITS");
        same(true, readOnly.bytes().isReadOnly());
        same("XETERS", readOnly.text());
    }

    private static void refusals() {
        ByteBuffer b = example();
        b.put(90, (byte) 's');
        Seg2.Verdict verdict = Seg2.check(b, 108);
        refused(16, 0, 88, verdict);
        same("a forbidden character in a keyword or value, or an empty keyword", verdict.refusal().text());
        same("refused (16) in trace 0 at byte 88: a forbidden character in a keyword or value, or an empty keyword", verdict.refusal().toString());
        same(verdict.refusal(), Seg2.fileBlock(b, 108).refusal());
        same(verdict.refusal().hashCode(), Seg2.fileBlock(b, 108).refusal().hashCode());
        Seg2.FileBlock file = Seg2.fileBlock(b, 108);
        same(0, file.order + file.pointerRoom + file.traceCount + file.stringTerminator.length() + file.lineTerminator.length());
        ByteBuffer good = example();
        for (long length : new long[] {0, 31, 201, Long.MAX_VALUE, -1, Long.MIN_VALUE}) {
            refused(1, -1, 0, Seg2.check(good, length));
        }
        same("refused (1) in the file: the length is under 32 bytes, over 67,108,864 bytes, or over the buffer", Seg2.check(good, 0).refusal().toString());
        refused(1, -1, 0, Seg2.check(ByteBuffer.allocateDirect(0), 0));
        refused(1, -1, 0, Seg2.fileBlock(ByteBuffer.allocateDirect(0), 0));
        for (int part : new int[] {-2, 1, Integer.MIN_VALUE, Integer.MAX_VALUE}) {
            refused(18, -1, 0, Seg2.traceBlock(good, 108, part));
            refused(18, -1, 0, Seg2.stringCount(good, 108, part));
            refused(18, -1, 0, Seg2.string(good, 108, part, 0));
            refused(18, -1, 0, Seg2.keyword(good, 108, part, "UNITS"));
            refused(18, -1, 0, Seg2.value(good, 108, part, "UNITS"));
            refused(18, -1, 0, Seg2.number(good, 108, part, "UNITS"));
            refused(18, -1, 0, Seg2.doubleValue(good, 108, part, "UNITS"));
            refused(18, -1, 0, Seg2.location(good, 108, part, "UNITS"));
            refused(18, -1, 0, Seg2.strings(good, 108, part, new long[4]));
            refused(18, -1, 0, Seg2.integers(good, 108, part, new int[3]));
            refused(18, -1, 0, Seg2.bits(good, 108, part, new long[3], new byte[3]));
            for (Seg2.Answer answer : quickAnswers(good, 108, part, "UNITS")) {
                refused(18, -1, 0, answer);
            }
        }
        refused(18, -1, 0, Seg2.traceBlock(good, 108, Seg2.FILE));
        int[] row = {7, 7};
        refused(32, -1, 0, Seg2.integers(good, 108, 0, row));
        same(new int[] {7, 7}, row);
        IntBuffer view = direct(7, 7, 7, 7);
        refused(32, -1, 0, Seg2.integers(good, 108, 0, view));
        same(7, view.get(0) & view.get(3));
        long[] patterns = {7, 7, 7};
        byte[] classes = {7, 7, 7};
        refused(33, -1, 0, Seg2.bits(good, 108, 0, patterns, classes));
        same(new long[] {7, 7, 7}, patterns);
        same(new byte[] {7, 7, 7}, classes);
        same(false, Seg2.string(good, 108, Seg2.FILE, -1).found);
        same(false, Seg2.string(good, 108, Seg2.FILE, Long.MAX_VALUE).found);
    }

    /** The answers of all quick methods to one trace: of its block and its samples, then of its strings. */
    private static List<Seg2.Answer> quickAnswers(ByteBuffer b, long n, int trace, String key) {
        List<Seg2.Answer> answers = new ArrayList<>();
        answers.add(Seg2.quickTraceBlock(b, n, trace));
        answers.add(Seg2.quickIntegers(b, n, trace, new int[3]));
        answers.add(Seg2.quickIntegers(b, n, trace, direct(0, 0, 0)));
        answers.add(Seg2.quickBits(b, n, trace, new long[3], new byte[3]));
        answers.addAll(quickAnswersOnStrings(b, n, trace, key));
        return answers;
    }

    private static List<Seg2.Answer> quickAnswersOnStrings(ByteBuffer b, long n, int trace, String key) {
        return Arrays.asList(Seg2.quickStringCount(b, n, trace), Seg2.quickString(b, n, trace, Long.MAX_VALUE),
            Seg2.quickStrings(b, n, trace, new long[4]), Seg2.quickKeyword(b, n, trace, key), Seg2.quickValue(b, n, trace, key),
            Seg2.quickNumber(b, n, trace, key), Seg2.quickDoubleValue(b, n, trace, key), Seg2.quickLocation(b, n, trace, key));
    }

    /** The constants and the texts are those of the header. */
    private static void theTable(Path header) throws Exception {
        String text = new String(Files.readAllBytes(header), StandardCharsets.US_ASCII);
        int found = 0;
        Set<String> words = new HashSet<>();
        for (Field field : Seg2.Refusal.class.getFields()) {
            if (!Modifier.isStatic(field.getModifiers())) {
                continue;
            }
            Matcher m = Pattern.compile("\\bSEG2_" + field.getName() + " = (\\d+)\\b").matcher(text);
            same(true, m.find());
            int number = field.getInt(null);
            same(Integer.parseInt(m.group(1)), number);
            Matcher said = Pattern.compile("case SEG2_" + field.getName() + ": return \"(.*)\";").matcher(text);
            same(true, said.find());
            same(true, words.add(said.group(1)));
            found++;
        }
        // "accepted" is no row
        same(named(text).size() - 1, found);
        for (String[] pair : new String[][] {{"MAXIMUM_LENGTH", "67108864"}, {"MAXIMUM_AREA", "65500"}, {"MAXIMUM_SLOTS", "16383"},
            {"MAXIMUM_NUMBER_TEXT", "24"}}) {
            same(true, text.contains("#define SEG2_" + pair[0] + " " + pair[1]));
            same(Integer.parseInt(pair[1]), Seg2.class.getField(pair[0]).getInt(null));
        }
        for (String name : new String[] {"LOW_FIRST", "HIGH_FIRST", "FIXED_16", "FIXED_32", "FLOAT_20", "FLOAT_32", "FLOAT_64",
            "CLASS_ZERO", "CLASS_UNDERFLOW", "CLASS_NUMBER", "CLASS_INFINITY", "CLASS_NOT_A_NUMBER"}) {
            Matcher m = Pattern.compile("\\bSEG2_" + name + " = (\\d+)\\b").matcher(text);
            same(true, m.find());
            same(Long.parseLong(m.group(1)), ((Number) Seg2.class.getField(name).get(null)).longValue());
        }
    }

    /** Every row is told in the words of a list that Rust is held to as well: number, part, place and words, with tabs between them. */
    private static void theWords(Path list, Path header) throws Exception {
        Constructor<Seg2.Refusal> refusal = Seg2.Refusal.class.getDeclaredConstructor(int.class, int.class, long.class);
        refusal.setAccessible(true);
        Set<String> numbers = new HashSet<>();
        for (String line : Files.readAllLines(list, StandardCharsets.US_ASCII)) {
            String[] told = line.split("\t");
            same(4, told.length);
            same(told[3], refusal.newInstance(Integer.parseInt(told[0]), Integer.parseInt(told[1]), Long.parseLong(told[2])).toString());
            numbers.add(told[0]);
        }
        Set<String> wanted = new HashSet<>(named(new String(Files.readAllBytes(header), StandardCharsets.US_ASCII)));
        wanted.remove("0");
        same(wanted, numbers);
    }

    /** The numbers of the header's refusal table. */
    private static List<String> named(String header) {
        String table = header.substring(header.indexOf("enum seg2_refusal {"));
        Matcher m = Pattern.compile("\\bSEG2_\\w+ = (\\d+)\\b").matcher(table.substring(0, table.indexOf("};")));
        List<String> numbers = new ArrayList<>();
        while (m.find()) {
            numbers.add(m.group(1));
        }
        return numbers;
    }

    private static void bitsAndClasses() {
        long[] four = {0, 0x80000000L, 1, Float.floatToRawIntBits(1.5f), 0x7F800000L, 0xFF800000L, 0x7FC00000L, 0x7F800001L};
        long[] five = {0, Long.MIN_VALUE, 1, Double.doubleToRawLongBits(-1.5), 0x7FF0000000000000L, 0xFFF0000000000000L, 0x7FF8000000000000L,
            0x7FF0000000000001L};
        byte[] wanted = {Seg2.CLASS_ZERO, Seg2.CLASS_ZERO, Seg2.CLASS_UNDERFLOW, Seg2.CLASS_NUMBER, Seg2.CLASS_INFINITY, Seg2.CLASS_INFINITY,
            Seg2.CLASS_NOT_A_NUMBER, Seg2.CLASS_NOT_A_NUMBER};
        for (int order = 0; order < 2; order++) {
            ByteBuffer b = painted(600);
            int length = Seg2.start(b, order, 2, "").length;
            Seg2.Length one = Seg2.addBits(b, length, "", Seg2.FLOAT_32, four);
            accepted(one);
            Seg2.Length two = Seg2.addBits(b, one.length, "", Seg2.FLOAT_64, five);
            accepted(two);
            for (int trace = 0; trace < 2; trace++) {
                long[] row = new long[8];
                byte[] classes = new byte[8];
                accepted(Seg2.bits(b, two.length, trace, row, classes));
                same(trace == 0 ? four : five, row);
                same(wanted, classes);
                refused(33, -1, 0, Seg2.integers(b, two.length, trace, new int[8]));
                refused(32, -1, 0, Seg2.bits(b, two.length, trace, row, new byte[7]));
                refused(32, -1, 0, Seg2.bits(b, two.length, trace, new long[9], classes));
            }
            refused(24, -1, 0, Seg2.addBits(b, two.length, "", Seg2.FLOAT_64, five));
        }
        ByteBuffer b = painted(600);
        int length = Seg2.start(b, 0, 1, "").length;
        byte[] before = copy(b);
        refused(29, -1, 2, Seg2.addBits(b, length, "", Seg2.FLOAT_32, new long[] {0, 1, 1L << 32}));
        refused(28, -1, 0, Seg2.addBits(b, length, "", Seg2.FIXED_16, new long[] {0}));
        refused(28, -1, 0, Seg2.addBits(b, length, "", -1, new long[] {0}));
        same(before, copy(b));
    }

    private static void severalReceivers() {
        ByteBuffer b = withSheet("RECEIVER_GEOMETRY\t-5\nRECEIVER_GEOMETRY\t0.5\nRECEIVER_GEOMETRY\t5\nSTACK\t1\n");
        int n = b.limit();
        same(4, Seg2.stringCount(b, n, 0).count);
        String[] phones = {"-5", "0.5", "5"};
        for (int i = 0; i < 3; i++) {
            Seg2.Entry entry = Seg2.string(b, n, 0, i);
            same("RECEIVER_GEOMETRY", entry.keyText());
            same(phones[i], entry.valueText());
        }
        same("-5", Seg2.value(b, n, 0, "RECEIVER_GEOMETRY").text());
        same(-5.0, Seg2.location(b, n, 0, "RECEIVER_GEOMETRY").x);
        refused(26, -1, 25, Seg2.start(painted(600), 0, 1, "SOURCE_GEOMETRY\t1\nUNITS\t\nSOURCE_GEOMETRY\t2\n"));
    }

    private static void channelNumbers() {
        String[][] habits = {{"CHANNEL_NUMBER\t1\n", "STACK\t1\n"}, {"STACK\t1\n", "CHANNEL_NUMBER\t1\n"}};
        for (String[] habit : habits) {
            ByteBuffer b = painted(600);
            Seg2.Length started = Seg2.start(b, Seg2.HIGH_FIRST, 3, "CHANNEL_NUMBER\tfree\n");
            accepted(started);
            refused(35, -1, 0, Seg2.addIntegers(b, started.length, "CHANNEL_NUMBER\t32768\n", 2, new int[] {1}));
            Seg2.Length first = Seg2.addIntegers(b, started.length, habit[0], 2, new int[] {1});
            accepted(first);
            byte[] before = copy(b);
            refused(Seg2.Refusal.SHEET_CHANNEL, -1, 0, Seg2.addIntegers(b, first.length, habit[1], 2, new int[] {1}));
            refused(Seg2.Refusal.SHEET_CHANNEL, -1, 0, Seg2.addBits(b, first.length, "CHANNEL_NUMBER\t1.0\n", 5, new long[] {1}));
            same(before, copy(b));
            Seg2.Length second = Seg2.addBits(b, first.length, habit[0], 5, new long[] {1});
            accepted(second);
            accepted(Seg2.check(b, second.length));
            if (habit[0].startsWith("CHANNEL")) {
                // the value's only digit: offset, keyword and space stand before it
                int strings = Seg2.traceBlock(b, second.length, 1).start + 32;
                b.put(strings + 17, (byte) '0');
                Seg2.Verdict verdict = Seg2.check(b, second.length);
                refused(Seg2.Refusal.CHANNEL_NUMBER, 1, strings, verdict);
                same(true, verdict.refusal().toString().startsWith("refused (34) in trace 1 at byte " + strings + ": "));
                refused(34, 1, strings, Seg2.value(b, second.length, 0, "CHANNEL_NUMBER"));
            }
        }
    }

    /** A file of three traces, each with a CHANNEL_NUMBER of its own, a STACK and a NOTE of two lines. */
    static ByteBuffer threeTraces() {
        ByteBuffer b = painted(2000);
        int length = Seg2.start(b, Seg2.LOW_FIRST, 3, "UNITS\tMETERS\n").length;
        for (int trace = 0; trace < 3; trace++) {
            String sheet = "CHANNEL_NUMBER\t" + (trace + 1) + "\nSTACK\t" + 4 * trace + "\nUNITS\t\nNOTE\tone\nNOTE\ttwo\n";
            Seg2.Length added = Seg2.addIntegers(b, length, sheet, Seg2.FIXED_16, new int[] {1, 2});
            accepted(added);
            length = added.length;
        }
        b.limit(length);
        return b;
    }

    // The fields of an answer as one row, to be compared.

    private static long[] numbers(Seg2.Decimal a) {
        return new long[] {a.minus ? 1 : 0, a.coefficient, a.power, a.decimals};
    }

    private static double[] numbers(Seg2.Location a) {
        return new double[] {a.count, a.x, a.y, a.z, a.xDecimals, a.yDecimals, a.zDecimals};
    }

    private static long[] numbers(Seg2.Entry a) {
        return new long[] {a.found ? 1 : 0, a.keyStart, a.keyLength, a.valueStart, a.valueLength};
    }

    /** As a row of all strings has them. */
    private static long[] places(Seg2.Entry a) {
        return new long[] {a.keyStart, a.keyLength, a.valueStart, a.valueLength};
    }

    private static long[] numbers(Seg2.TraceBlock a) {
        return new long[] {a.start, a.blockSize, a.dataSize, a.sampleCount, a.formatCode};
    }

    /** The value of a keyword as a number, a double and a location, quickly and fully. */
    private static void sameNumbers(ByteBuffer b, int n, int trace, String key) {
        Seg2.Decimal number = Seg2.number(b, n, trace, key);
        Seg2.Decimal quick = Seg2.quickNumber(b, n, trace, key);
        same(number.refusal(), quick.refusal());
        same(numbers(number), numbers(quick));
        Seg2.DoubleValue value = Seg2.doubleValue(b, n, trace, key);
        Seg2.DoubleValue quickValue = Seg2.quickDoubleValue(b, n, trace, key);
        same(value.refusal(), quickValue.refusal());
        same(value.value, quickValue.value);
        Seg2.Location at = Seg2.location(b, n, trace, key);
        Seg2.Location quickAt = Seg2.quickLocation(b, n, trace, key);
        same(at.refusal(), quickAt.refusal());
        same(numbers(at), numbers(quickAt));
    }

    /** The strings of a trace: how many, each, and all of them in one row, quickly and fully. */
    private static void sameStrings(ByteBuffer b, int n, int trace) {
        Seg2.Count count = Seg2.stringCount(b, n, trace);
        Seg2.Count quick = Seg2.quickStringCount(b, n, trace);
        same(count.refusal(), quick.refusal());
        same(count.count, quick.count);
        long[] places = new long[4 * count.count];
        long[] quickPlaces = new long[4 * count.count];
        same(Seg2.strings(b, n, trace, places).refusal(), Seg2.quickStrings(b, n, trace, quickPlaces).refusal());
        same(places, quickPlaces);
        for (int i = 0; i <= count.count; i++) {
            Seg2.Entry entry = Seg2.string(b, n, trace, i);
            Seg2.Entry quickEntry = Seg2.quickString(b, n, trace, i);
            same(entry.refusal(), quickEntry.refusal());
            same(numbers(entry), numbers(quickEntry));
            same(i < count.count, entry.found);
            if (entry.found) {
                same(places(entry), Arrays.copyOfRange(places, 4 * i, 4 * i + 4));
            }
        }
    }

    /** The block of a trace and its samples, quickly and fully. */
    private static void sameSamples(ByteBuffer b, int n, int trace) {
        Seg2.TraceBlock block = Seg2.traceBlock(b, n, trace);
        Seg2.TraceBlock quick = Seg2.quickTraceBlock(b, n, trace);
        same(block.refusal(), quick.refusal());
        same(numbers(block), numbers(quick));
        int[] row = new int[block.sampleCount];
        int[] quickRow = new int[block.sampleCount];
        IntBuffer view = direct(new int[block.sampleCount]);
        Seg2.Refusal refusal = Seg2.integers(b, n, trace, row).refusal();
        same(refusal, Seg2.quickIntegers(b, n, trace, quickRow).refusal());
        same(refusal, Seg2.quickIntegers(b, n, trace, view).refusal());
        same(row, quickRow);
        for (int i = 0; i < row.length; i++) {
            same(row[i], view.get(i));
        }
        long[] patterns = new long[block.sampleCount];
        long[] quickPatterns = new long[block.sampleCount];
        byte[] classes = new byte[block.sampleCount];
        byte[] quickClasses = new byte[block.sampleCount];
        same(Seg2.bits(b, n, trace, patterns, classes).refusal(), Seg2.quickBits(b, n, trace, quickPatterns, quickClasses).refusal());
        same(patterns, quickPatterns);
        same(classes, quickClasses);
    }

    /** A row has four places for each string, in order, and exactly so many. */
    private static void stringsInOneRow() {
        ByteBuffer b = example();
        long[] places = new long[4];
        accepted(Seg2.strings(b, 108, Seg2.FILE, places));
        same(new long[] {38, 5, 44, 6}, places);
        accepted(Seg2.quickStrings(b, 108, 0, places));
        same(new long[] {90, 5, 96, 1}, places);
        ByteBuffer none = withSheet("");
        accepted(Seg2.strings(none, none.limit(), 0, new long[0]));
        accepted(Seg2.quickStrings(none, none.limit(), 0, new long[0]));
        for (int size : new int[] {0, 3, 5, 8}) {
            long[] row = new long[size];
            Arrays.fill(row, 7);
            refused(32, -1, 0, Seg2.strings(b, 108, Seg2.FILE, row));
            refused(32, -1, 0, Seg2.strings(b, 108, 0, row));
            refused(32, -1, 0, Seg2.quickStrings(b, 108, 0, row));
            for (long left : row) {
                same(7L, left);
            }
        }
        ByteBuffer group = withSheet("RECEIVER_GEOMETRY\t-5\nRECEIVER_GEOMETRY\t0.5\nSTACK\t12\nNOTE\tone\nNOTE\ttwo\n");
        int n = group.limit();
        long[] row = new long[4 * Seg2.quickStringCount(group, n, 0).count];
        accepted(Seg2.quickStrings(group, n, 0, row));
        StringBuilder told = new StringBuilder();
        String bytes = new String(copy(group), StandardCharsets.ISO_8859_1);
        for (int i = 0; i < row.length; i += 2) {
            told.append(bytes, (int) row[i], (int) (row[i] + row[i + 1])).append('|');
        }
        same("RECEIVER_GEOMETRY|-5|RECEIVER_GEOMETRY|0.5|STACK|12|NOTE|one\ntwo|", told.toString());
    }

    /** On an accepted file the quick answers are the full ones, and the values the buffer's own bytes. */
    private static void oneTraceQuickly() {
        ByteBuffer b = threeTraces();
        int n = b.limit();
        b.position(17);
        for (int trace = 0; trace < 4; trace++) {
            for (String key : new String[] {"", "A", "CHANNEL_NUMBER", "CHANNEL_NUMBERS", "NOTE", "STACK", "UNITS", "Z", "stack", "\u00c4", "A B"}) {
                Seg2.Keyword full = Seg2.keyword(b, n, trace, key);
                Seg2.Keyword quick = Seg2.quickKeyword(b, n, trace, key);
                same(full.refusal(), quick.refusal());
                same(full.found, quick.found);
                Seg2.Value whole = Seg2.value(b, n, trace, key);
                Seg2.Value value = Seg2.quickValue(b, n, trace, key);
                same(whole.refusal(), value.refusal());
                same(new int[] {whole.start, whole.length}, new int[] {value.start, value.length});
                sameNumbers(b, n, trace, key);
            }
            sameStrings(b, n, trace);
            sameSamples(b, n, trace);
        }
        same(17, b.position());
        Seg2.Value stack = Seg2.quickValue(b, n, 2, "STACK");
        accepted(stack);
        same("8", stack.text());
        same("8", Seg2.quickValue(b, n, 2, "STACK".getBytes(StandardCharsets.US_ASCII)).text());
        same(8L, Seg2.readNumber(stack.text()).coefficient);
        b.put(stack.start, (byte) '9');
        same((byte) '9', stack.bytes().get(0));
        same("one\ntwo", Seg2.quickValue(b, n, 0, "NOTE").text());
        // a no: the empty part at the start; a keyword without a value is another thing
        Seg2.Value no = Seg2.quickValue(b, n, 0, "DELAY");
        accepted(no);
        same(0, no.start + no.length + no.bytes().remaining());
        same(true, Seg2.quickKeyword(b, n, 0, "UNITS").found);
        same("", Seg2.quickValue(b, n, 0, "UNITS").text());
        // the file's own strings are not asked here
        for (Seg2.Answer answer : quickAnswers(b, n, Seg2.FILE, "UNITS")) {
            refused(18, -1, 0, answer);
        }
        int[] row = {7, 7, 7};
        refused(32, -1, 0, Seg2.quickIntegers(b, n, 0, row));
        long[] patterns = {7, 7};
        byte[] classes = {7, 7};
        refused(33, -1, 0, Seg2.quickBits(b, n, 0, patterns, classes));
        same(new int[] {7, 7, 7}, row);
        same(new long[] {7, 7}, patterns);
        same(new byte[] {7, 7}, classes);
        same("4", Seg2.quickValue(b.asReadOnlyBuffer(), n, 1, "STACK").text());
    }

    /** On a file that the check refuses, it answers unless what is wrong was read. */
    private static void quicklyOfARefusedFile() {
        ByteBuffer b = threeTraces();
        int n = b.limit();
        int first = Seg2.traceBlock(b, n, 0).start;
        int third = Seg2.traceBlock(b, n, 2).start;
        b.put(first, (byte) 0);
        refused(9, 0, first, Seg2.check(b, n));
        for (Seg2.Answer answer : quickAnswers(b, n, 0, "STACK")) {
            refused(9, 0, first, answer);
        }
        same("4", Seg2.quickValue(b, n, 1, "STACK").text());
        same(4L, Seg2.quickNumber(b, n, 1, "STACK").coefficient);
        same(4.0, Seg2.quickDoubleValue(b, n, 1, "STACK".getBytes(StandardCharsets.US_ASCII)).value);
        same(4.0, Seg2.quickLocation(b, n, 1, "STACK").x);
        same("STACK", Seg2.quickString(b, n, 1, 1).keyText());
        same(true, Seg2.quickKeyword(b, n, 1, "STACK").found);
        same(4, Seg2.quickStringCount(b, n, 1).count);
        accepted(Seg2.quickStrings(b, n, 1, new long[16]));
        same(2, Seg2.quickTraceBlock(b, n, 1).sampleCount);
        accepted(Seg2.quickIntegers(b, n, 1, new int[2]));
        accepted(Seg2.quickIntegers(b, n, 1, direct(0, 0)));
        refused(33, -1, 0, Seg2.quickBits(b, n, 1, new long[2], new byte[2]));
        // the CHANNEL_NUMBER is no number any more: 34 is not given, and the value is told as it stands
        int channel = Seg2.quickValue(b, n, 1, "CHANNEL_NUMBER").start;
        b.put(channel, (byte) 'X');
        same("X", Seg2.quickValue(b, n, 1, "CHANNEL_NUMBER").text());
        // a small letter in STACK: what comes before it is found, STACK itself and what comes behind is refused
        int stack = Seg2.quickValue(b, n, 1, "STACK").start - "STACK ".length();
        b.put(stack, (byte) 's');
        same("X", Seg2.quickValue(b, n, 1, "CHANNEL_NUMBER").text());
        for (String key : new String[] {"D", "STACK", "NOTE", "UNITS"}) {
            Seg2.Value refusal = Seg2.quickValue(b, n, 1, key);
            refused(16, 1, stack - 2, refusal);
            same(0, refusal.start + refusal.length);
            refused(16, 1, stack - 2, Seg2.quickKeyword(b, n, 1, key));
        }
        same(true, Seg2.quickValue(b, n, 1, "STACK").refusal().toString().startsWith("refused (16) in trace 1 at byte " + (stack - 2) + ": "));
        // so is every question that goes through the strings; one by index before it, the block and the samples are not
        for (Seg2.Answer answer : quickAnswersOnStrings(b, n, 1, "STACK")) {
            refused(16, 1, stack - 2, answer);
        }
        same("CHANNEL_NUMBER", Seg2.quickString(b, n, 1, 0).keyText());
        refused(16, 1, stack - 2, Seg2.quickString(b, n, 1, 1));
        same(2, Seg2.quickTraceBlock(b, n, 1).sampleCount);
        int[] row = new int[2];
        accepted(Seg2.quickIntegers(b, n, 1, row));
        same(new int[] {1, 2}, row);
        // the length is told beside the buffer, and 18 comes before the pointer
        refused(1, -1, 0, Seg2.quickValue(b, n + 1, 2, "STACK"));
        refused(10, 2, third + 2, Seg2.quickValue(b, third + 32, 2, "STACK"));
        refused(8, 2, 40, Seg2.quickValue(b, third + 31, 2, "STACK"));
        b.put(36, (byte) 1);
        refused(8, 1, 36, Seg2.quickValue(b, n, 1, "STACK"));
        refused(18, -1, 0, Seg2.quickValue(b, n, 3, "STACK"));
    }

    /** An area of strings as an older recorder may have it, high byte first: offset, text and terminator of each, then the given tail. */
    static byte[] area(String tail, String... texts) {
        StringBuilder bytes = new StringBuilder();
        for (String text : texts) {
            bytes.append('\0').append((char) (text.length() + 3)).append(text).append('\0');
        }
        bytes.append(tail);
        same(0, bytes.length() % 4); // as blocks and pointers ask
        return bytes.toString().getBytes(StandardCharsets.ISO_8859_1);
    }

    /** A file laid out by hand: its own strings from byte 32 + 4 * traces on, then a block for each trace, with the samples 1 and -1. */
    static ByteBuffer laid(byte[] own, byte[]... traces) {
        int room = 4 * traces.length;
        ByteBuffer b = ByteBuffer.allocateDirect(4096);
        b.putShort((short) 0x3A55).putShort((short) 1).putShort((short) room).putShort((short) traces.length);
        b.put(new byte[] {1, 0, 0, 1, '\n', 0});
        b.position(32 + room);
        b.put(own);
        for (int k = 0; k < traces.length; k++) {
            int p = b.position();
            b.putInt(32 + 4 * k, p);
            b.putShort((short) 0x4422).putShort((short) (32 + traces[k].length)).putInt(4).putInt(2).put((byte) Seg2.FIXED_16);
            b.position(p + 32);
            b.put(traces[k]).putShort((short) 1).putShort((short) -1);
        }
        b.limit(b.position());
        return b;
    }

    /** The end mark with zeros behind it, so many bytes in all. */
    static String mark(int size) {
        return new String(new char[size]);
    }

    /** A trace that keeps the rules. */
    private static final byte[] GOOD = area(mark(2), "STACK 4");

    /** Mixed case, any order, repeats, a note in the middle, full areas without a mark, a channel number in one trace alone. */
    static ByteBuffer olderFile() {
        byte[] own = area("", "Units METERS", "note one\ntwo", "units FEET", "Date x");
        byte[] first = area("", "stack 4", "Delay -0.020", "receiver_location 1 2.50 0", "STACK 5");
        return laid(own, first, area(mark(4), "Channel_Number none", "STACK 8"));
    }

    /** The answers of all lenient methods. */
    private static List<Seg2.Lenient<?>> lenientAnswers(ByteBuffer b, long n, int part, String key) {
        List<Seg2.Lenient<?>> answers = new ArrayList<>();
        answers.add(Seg2.lenientCheck(b, n));
        answers.add(Seg2.lenientFileBlock(b, n));
        answers.addAll(lenientAnswersOnAPart(b, n, part, key));
        return answers;
    }

    private static List<Seg2.Lenient<?>> lenientAnswersOnAPart(ByteBuffer b, long n, int part, String key) {
        return Arrays.asList(Seg2.lenientTraceBlock(b, n, part), Seg2.lenientStringCount(b, n, part), Seg2.lenientString(b, n, part, 0),
            Seg2.lenientStrings(b, n, part, new long[4]), Seg2.lenientKeyword(b, n, part, key), Seg2.lenientValue(b, n, part, key),
            Seg2.lenientNumber(b, n, part, key), Seg2.lenientDoubleValue(b, n, part, key), Seg2.lenientLocation(b, n, part, key),
            Seg2.lenientIntegers(b, n, part, new int[3]), Seg2.lenientIntegers(b, n, part, direct(0, 0, 0)),
            Seg2.lenientBits(b, n, part, new long[3], new byte[3]));
    }

    /** The file is read, and every answer has the strict check's own row beside it, which an addition is refused by. */
    private static void forgiven(int number, int part, long place, ByteBuffer b) {
        int n = b.limit();
        refused(number, part, place, Seg2.check(b, n));
        for (Seg2.Lenient<?> told : lenientAnswers(b, n, Seg2.FILE, "STACK")) {
            refused(number, part, place, told.strict);
        }
        accepted(Seg2.lenientCheck(b, n).answer);
        byte[] before = copy(b);
        refused(number, part, place, Seg2.addIntegers(b, n, "", Seg2.FIXED_16, new int[1]));
        refused(number, part, place, Seg2.addBits(b, n, "", Seg2.FLOAT_32, new long[1]));
        same(before, copy(b));
    }

    /** Each thing that is forgiven by itself, with the row that the strict check has for it. */
    private static void whatIsForgiven() {
        forgiven(16, -1, 36, laid(area(mark(2), "Units M"), GOOD));
        forgiven(16, 0, 76, laid(area(mark(4)), area(mark(4), "units"), GOOD));
        forgiven(17, -1, 42, laid(area(mark(4), "B 1", "A 2"), GOOD));
        forgiven(17, -1, 42, laid(area(mark(4), "A 1", "A 2"), GOOD));
        forgiven(17, -1, 45, laid(area(mark(6), "NOTE 1", "NOTE 2"), GOOD));
        forgiven(17, 0, 81, laid(area(mark(4)), area(mark(3), "NOTE 1", "A")));
        forgiven(14, -1, 44, laid(area("", "UNITS"), GOOD));
        forgiven(14, 0, 76, laid(new byte[0], area("", "UNITS")));
        forgiven(34, 0, 76, laid(area(mark(4)), area(mark(5), "CHANNEL_NUMBER 0"), area(mark(5), "CHANNEL_NUMBER 1")));
        forgiven(34, 1, 136, laid(area(mark(4)), area(mark(4), "CHANNEL_NUMBER 01"), GOOD));
    }

    /** An older recorder's file, seen whole. */
    private static void olderRecorders() {
        ByteBuffer b = olderFile();
        int n = b.limit();
        forgiven(16, -1, 40, b);
        b.position(17);
        Seg2.Lenient<Seg2.FileBlock> file = Seg2.lenientFileBlock(b, n);
        accepted(file.answer);
        same("1 8 2", file.answer.order + " " + file.answer.pointerRoom + " " + file.answer.traceCount);
        same("\0\n", file.answer.stringTerminator + file.answer.lineTerminator);
        same("Units=METERS|note=one\ntwo|units=FEET|Date=x|", listed(b, Seg2.FILE));
        same("stack=4|Delay=-0.020|receiver_location=1 2.50 0|STACK=5|", listed(b, 0));
        same("Channel_Number=none|STACK=8|", listed(b, 1));
        // keywords count as upper case, and the first of them is answered; a key is asked as it is given
        same("METERS", Seg2.lenientValue(b, n, Seg2.FILE, "UNITS").answer.text());
        same("one\ntwo", Seg2.lenientValue(b, n, Seg2.FILE, "NOTE").answer.text());
        same("none", Seg2.lenientValue(b, n, 1, "CHANNEL_NUMBER".getBytes(StandardCharsets.US_ASCII)).answer.text());
        for (String key : new String[] {"units", "Units", "note", "DATES", "DAT", "", "\u00c4"}) {
            Seg2.Lenient<Seg2.Keyword> no = Seg2.lenientKeyword(b, n, Seg2.FILE, key);
            accepted(no.answer);
            same(false, no.answer.found);
            same(0, Seg2.lenientValue(b, n, Seg2.FILE, key).answer.bytes().remaining());
        }
        same(true, Seg2.lenientKeyword(b, n, Seg2.FILE, "DATE").answer.found);
        Seg2.Decimal delay = Seg2.lenientNumber(b, n, 0, "DELAY").answer;
        same("-0.020", delay.text());
        same(4L, Seg2.lenientNumber(b, n, 0, "STACK").answer.coefficient);
        same(-0.020, Seg2.lenientDoubleValue(b, n, 0, "DELAY").answer.value);
        Seg2.Location at = Seg2.lenientLocation(b, n, 0, "RECEIVER_LOCATION").answer;
        same("3 1.0 2.5 0.0 0 2 0", at.count + " " + at.x + " " + at.y + " " + at.z + " " + at.xDecimals + " " + at.yDecimals + " " + at.zDecimals);
        same(17, b.position());
        Seg2.Value units = Seg2.lenientValue(b, n, Seg2.FILE, "UNITS").answer;
        b.put(units.start, (byte) 'X');
        same((byte) 'X', units.bytes().get(0));
    }

    /** Keywords and values of a part as they stand: one by one, and the same places in one row. */
    private static String listed(ByteBuffer b, int part) {
        int n = b.limit();
        int count = Seg2.lenientStringCount(b, n, part).answer.count;
        long[] places = new long[4 * count];
        accepted(Seg2.lenientStrings(b, n, part, places).answer);
        StringBuilder told = new StringBuilder();
        for (int i = 0; i < count; i++) {
            Seg2.Entry entry = Seg2.lenientString(b, n, part, i).answer;
            same(true, entry.found);
            same(places(entry), Arrays.copyOfRange(places, 4 * i, 4 * i + 4));
            told.append(entry.keyText()).append('=').append(entry.valueText()).append('|');
        }
        same(false, Seg2.lenientString(b, n, part, count).answer.found);
        return told.toString();
    }

    private static void samplesOfAnOlderFile() {
        ByteBuffer b = olderFile();
        int n = b.limit();
        Seg2.TraceBlock block = Seg2.lenientTraceBlock(b, n, 1).answer;
        accepted(block);
        same("4 2 1", block.dataSize + " " + block.sampleCount + " " + block.formatCode);
        int[] row = new int[2];
        IntBuffer view = direct(0, 0);
        Seg2.Lenient<Seg2.Verdict> read = Seg2.lenientIntegers(b, n, 1, row);
        accepted(read.answer);
        refused(16, -1, 40, read.strict);
        accepted(Seg2.lenientIntegers(b, n, 1, view).answer);
        same(new int[] {1, -1}, row);
        same(new int[] {1, -1}, new int[] {view.get(0), view.get(1)});
        // the same four bytes as one pattern of code 4
        b.put(block.start + 11, (byte) 1);
        b.put(block.start + 12, (byte) Seg2.FLOAT_32);
        long[] patterns = new long[1];
        byte[] classes = new byte[1];
        read = Seg2.lenientBits(b, n, 1, patterns, classes);
        accepted(read.answer);
        refused(16, -1, 40, read.strict);
        same(0x0001FFFFL, patterns[0]);
        same(Seg2.CLASS_UNDERFLOW, classes[0]);
    }

    /** A lenient question's own refusals: the strict row stands beside them, the rest is 0, and lent rows are as they were. */
    private static void refusedQuestionsOnAnOlderFile() {
        ByteBuffer b = olderFile();
        int n = b.limit();
        for (int part : new int[] {-2, 2, Integer.MIN_VALUE, Integer.MAX_VALUE}) {
            for (Seg2.Lenient<?> told : lenientAnswersOnAPart(b, n, part, "STACK")) {
                refused(18, -1, 0, told.answer);
                refused(16, -1, 40, told.strict);
            }
        }
        refused(18, -1, 0, Seg2.lenientTraceBlock(b, n, Seg2.FILE).answer);
        int[] row = {7, 7, 7};
        IntBuffer view = direct(7, 7, 7);
        long[] places = {7, 7, 7, 7, 7};
        long[] patterns = {7, 7};
        byte[] classes = {7, 7};
        List<Seg2.Lenient<Seg2.Verdict>> refusals = Arrays.asList(Seg2.lenientIntegers(b, n, 0, row), Seg2.lenientIntegers(b, n, 0, view),
            Seg2.lenientStrings(b, n, 0, places));
        for (Seg2.Lenient<Seg2.Verdict> told : refusals) {
            refused(32, -1, 0, told.answer);
            refused(16, -1, 40, told.strict);
        }
        refused(33, -1, 0, Seg2.lenientBits(b, n, 0, patterns, classes).answer);
        refused(16, -1, 40, Seg2.lenientBits(b, n, 0, patterns, classes).strict);
        same(new int[] {7, 7, 7}, row);
        same(7, view.get(0) & view.get(1) & view.get(2));
        same(new long[] {7, 7, 7, 7, 7}, places);
        same(new long[] {7, 7}, patterns);
        same(new byte[] {7, 7}, classes);
        Seg2.Lenient<Seg2.Decimal> none = Seg2.lenientNumber(b, n, Seg2.FILE, "UNITS");
        refused(20, -1, 0, none.answer);
        refused(16, -1, 40, none.strict);
        same(0L, none.answer.coefficient + none.answer.power + none.answer.decimals);
        refused(20, -1, 0, Seg2.lenientDoubleValue(b, n, Seg2.FILE, "units").answer);
        refused(23, -1, 0, Seg2.lenientLocation(b, n, Seg2.FILE, "MISSING").answer);
    }

    /** Every lenient question on the file is refused by this row, and every strict one beside it by that. */
    private static void bothRefuse(ByteBuffer b, long n, int[] lenient, int[] strict) {
        refused(strict[0], strict[1], strict[2], Seg2.check(b, n));
        for (Seg2.Lenient<?> told : lenientAnswers(b, n, 0, "STACK")) {
            refused(lenient[0], lenient[1], lenient[2], told.answer);
            refused(strict[0], strict[1], strict[2], told.strict);
        }
        Seg2.FileBlock file = Seg2.lenientFileBlock(b, n).answer;
        same(0, file.order + file.pointerRoom + file.traceCount + file.stringTerminator.length() + file.lineTerminator.length());
        int[] row = {7, 7};
        long[] places = {7, 7, 7, 7};
        Seg2.lenientIntegers(b, n, 0, row);
        Seg2.lenientStrings(b, n, 0, places);
        same(new int[] {7, 7}, row);
        same(new long[] {7, 7, 7, 7}, places);
    }

    private static void bothRefuse(int number, int part, int place, ByteBuffer b) {
        int[] row = {number, part, place};
        bothRefuse(b, b.limit(), row, row);
    }

    /** Nothing else is forgiven; and where the strict check meets a forgiven row before, it tells that one. */
    private static void whatIsNotForgiven() {
        bothRefuse(14, -1, 43, laid(area("\0", "UNIT"), GOOD)); // one byte left
        bothRefuse(14, -1, 36, laid(area("\0\3\0\0"), GOOD)); // too small for a keyword
        bothRefuse(14, -1, 36, laid(area("\0\10A\0"), GOOD)); // past the area
        bothRefuse(15, -1, 36, laid(area("\0\6A 12" + mark(2)), GOOD));
        bothRefuse(16, -1, 36, laid(area(mark(2), " 1 2 3 "), GOOD)); // no keyword
        bothRefuse(16, -1, 36, laid(area(mark(4), "A\177B 1"), GOOD));
        bothRefuse(16, -1, 36, laid(area(mark(5), "MEMO 1\n2"), GOOD));
        bothRefuse(16, 0, 72, laid(area(mark(4)), area(mark(5), "MEMO\t\200x2")));
        ByteBuffer b = olderFile();
        int n = b.limit();
        int[] length = {1, -1, 0};
        bothRefuse(b, n + 1L, length, length);
        bothRefuse(b, 31, length, length);
        bothRefuse(b, Long.MIN_VALUE, length, length);
        int first = b.getInt(32);
        int second = b.getInt(36);
        int[] lower = {16, -1, 40};
        // a terminator that is none, in the last of the first trace's strings
        b.put(first + 32 + 63, (byte) 1);
        bothRefuse(b, n, new int[] {15, 0, first + 32 + 54}, lower);
        b.put(first + 32 + 63, (byte) 0);
        b.put(second, (byte) 0);
        bothRefuse(b, n, new int[] {9, 1, second}, lower);
        b.put(second, (byte) 0x44);
        b.putInt(36, second + 2);
        bothRefuse(b, n, new int[] {8, 1, 36}, lower);
        // what comes before the strings meets both alike
        b.putInt(32, first + 1);
        bothRefuse(8, 0, 32, b);
        b.put(3, (byte) 2);
        bothRefuse(3, -1, 2, b);
    }

    /** On a file that keeps the rules every lenient answer is the strict one, and nothing stands beside it. */
    private static void sameLeniently(ByteBuffer b, int n, int part, String key) {
        for (Seg2.Lenient<?> told : lenientAnswers(b, n, part, key)) {
            accepted(told.strict);
        }
        same(Seg2.check(b, n).refusal(), Seg2.lenientCheck(b, n).answer.refusal());
        Seg2.FileBlock file = Seg2.fileBlock(b, n);
        Seg2.FileBlock lenientFile = Seg2.lenientFileBlock(b, n).answer;
        same(file.refusal(), lenientFile.refusal());
        same(file.order + " " + file.pointerRoom + " " + file.traceCount + file.stringTerminator + file.lineTerminator,
            lenientFile.order + " " + lenientFile.pointerRoom + " " + lenientFile.traceCount + lenientFile.stringTerminator + lenientFile.lineTerminator);
        Seg2.Keyword found = Seg2.keyword(b, n, part, key);
        Seg2.Keyword lenientFound = Seg2.lenientKeyword(b, n, part, key).answer;
        same(found.refusal(), lenientFound.refusal());
        same(found.found, lenientFound.found);
        Seg2.Value value = Seg2.value(b, n, part, key);
        Seg2.Value lenientValue = Seg2.lenientValue(b, n, part, key).answer;
        same(value.refusal(), lenientValue.refusal());
        same(new int[] {value.start, value.length}, new int[] {lenientValue.start, lenientValue.length});
        same(numbers(Seg2.number(b, n, part, key)), numbers(Seg2.lenientNumber(b, n, part, key).answer));
        same(Seg2.number(b, n, part, key).refusal(), Seg2.lenientNumber(b, n, part, key).answer.refusal());
        same(Seg2.doubleValue(b, n, part, key).value, Seg2.lenientDoubleValue(b, n, part, key).answer.value);
        same(Seg2.doubleValue(b, n, part, key).refusal(), Seg2.lenientDoubleValue(b, n, part, key).answer.refusal());
        same(numbers(Seg2.location(b, n, part, key)), numbers(Seg2.lenientLocation(b, n, part, key).answer));
        same(Seg2.location(b, n, part, key).refusal(), Seg2.lenientLocation(b, n, part, key).answer.refusal());
    }

    private static void sameStringsLeniently(ByteBuffer b, int n, int part) {
        Seg2.Count count = Seg2.stringCount(b, n, part);
        same(count.refusal(), Seg2.lenientStringCount(b, n, part).answer.refusal());
        same(count.count, Seg2.lenientStringCount(b, n, part).answer.count);
        long[] places = new long[4 * count.count];
        long[] lenientPlaces = new long[4 * count.count];
        same(Seg2.strings(b, n, part, places).refusal(), Seg2.lenientStrings(b, n, part, lenientPlaces).answer.refusal());
        same(places, lenientPlaces);
        for (int i = 0; i <= count.count; i++) {
            same(numbers(Seg2.string(b, n, part, i)), numbers(Seg2.lenientString(b, n, part, i).answer));
        }
    }

    private static void sameSamplesLeniently(ByteBuffer b, int n, int part) {
        Seg2.TraceBlock block = Seg2.traceBlock(b, n, part);
        same(block.refusal(), Seg2.lenientTraceBlock(b, n, part).answer.refusal());
        same(numbers(block), numbers(Seg2.lenientTraceBlock(b, n, part).answer));
        int[] row = new int[block.sampleCount];
        int[] lenientRow = new int[block.sampleCount];
        IntBuffer view = direct(new int[block.sampleCount]);
        Seg2.Refusal refusal = Seg2.integers(b, n, part, row).refusal();
        same(refusal, Seg2.lenientIntegers(b, n, part, lenientRow).answer.refusal());
        same(refusal, Seg2.lenientIntegers(b, n, part, view).answer.refusal());
        same(row, lenientRow);
        for (int i = 0; i < row.length; i++) {
            same(row[i], view.get(i));
        }
        long[] patterns = new long[block.sampleCount];
        long[] lenientPatterns = new long[block.sampleCount];
        byte[] classes = new byte[block.sampleCount];
        byte[] lenientClasses = new byte[block.sampleCount];
        same(Seg2.bits(b, n, part, patterns, classes).refusal(), Seg2.lenientBits(b, n, part, lenientPatterns, lenientClasses).answer.refusal());
        same(patterns, lenientPatterns);
        same(classes, lenientClasses);
    }

    private static void lenientlyOfAnAcceptedFile() {
        ByteBuffer b = threeTraces();
        int n = b.limit();
        for (int part = -2; part < 4; part++) {
            for (String key : new String[] {"", "A", "CHANNEL_NUMBER", "NOTE", "STACK", "UNITS", "stack", "\u00c4"}) {
                sameLeniently(b, n, part, key);
            }
            sameStringsLeniently(b, n, part);
            sameSamplesLeniently(b, n, part);
        }
        sameLeniently(b.asReadOnlyBuffer(), n, 0, "STACK");
    }

    private static void numbersAndLocations() {
        ByteBuffer b = withSheet("DELAY\t-0.020\nLINE\t0,020\nRECEIVER_LOCATION\t12.50\nSOURCE_LOCATION\t1 -2.0  0.500\nSTACK\t1.345E24\nZ\t1 2\n");
        int n = b.limit();
        Seg2.Decimal delay = Seg2.number(b, n, 0, "DELAY");
        accepted(delay);
        same(true, delay.minus);
        same(20L, delay.coefficient);
        same(-3, delay.power);
        same(3, delay.decimals);
        Seg2.DoubleValue asDouble = Seg2.doubleValue(b, n, 0, "DELAY");
        accepted(asDouble);
        same(-0.020, asDouble.value);
        refused(20, -1, 0, Seg2.number(b, n, 0, "LINE"));
        refused(20, -1, 0, Seg2.number(b, n, 0, "MISSING"));
        refused(22, -1, 0, Seg2.doubleValue(b, n, 0, "STACK"));
        same(21, Seg2.number(b, n, 0, "STACK").power);
        Seg2.Location source = Seg2.location(b, n, 0, "SOURCE_LOCATION");
        accepted(source);
        same(3, source.count);
        same(1.0, source.x);
        same(-2.0, source.y);
        same(0.5, source.z);
        same("0 1 3", source.xDecimals + " " + source.yDecimals + " " + source.zDecimals);
        Seg2.Location receiver = Seg2.location(b, n, 0, "RECEIVER_LOCATION");
        same(1, receiver.count);
        same(12.5, receiver.x);
        same(0.0, receiver.y);
        same("2 0 0", receiver.xDecimals + " " + receiver.yDecimals + " " + receiver.zDecimals);
        refused(23, -1, 0, Seg2.location(b, n, 0, "Z"));
        refused(20, -1, 0, Seg2.location(b, n, 0, "LINE"));
        refused(23, -1, 0, Seg2.location(b, n, 0, "MISSING"));
        Seg2.Location none = Seg2.location(b, n, 0, "Z");
        same(0.0, none.x + none.y + none.z + none.count + none.xDecimals + none.yDecimals + none.zDecimals);
    }

    private static void sameNumber(Seg2.Decimal wanted, Seg2.Decimal is) {
        accepted(is);
        same(wanted.minus, is.minus);
        same(new long[] {wanted.coefficient, wanted.power, wanted.decimals}, new long[] {is.coefficient, is.power, is.decimals});
    }

    /** What a surveyor typed is shown with the same precision, and reads back as the same number. */
    private static void numbersAsTheyWereTyped() {
        String[][] typed = {{"0.250", "0.250"}, {"12", "12"}, {"2.50E-3", "2.50E-3"}, {"-2.3E6", "-2.3E6"}, {"-00.0", "0.0"}, {"007", "7"},
            {"1E05", "1E5"}, {"0E99", "0E99"}, {"-1.23456789012345678E-99", "-1.23456789012345678E-99"}};
        for (String[] pair : typed) {
            Seg2.Decimal number = Seg2.readNumber(pair[0]);
            accepted(number);
            same(pair[1], number.text());
            sameNumber(number, Seg2.readNumber(number.text().getBytes(StandardCharsets.US_ASCII)));
            // the same answer as for a keyword's value
            ByteBuffer b = withSheet("DELAY\t" + pair[0] + "\n");
            sameNumber(number, Seg2.number(b, b.limit(), 0, "DELAY"));
        }
        same(3, Seg2.readNumber("0.250").decimals);
        for (String none : new String[] {"", "0,250", "12.", " 1", "\u0661", "1\n"}) {
            Seg2.Decimal refusal = Seg2.readNumber(none);
            refused(20, -1, 0, refusal);
            same(0L, refusal.coefficient + refusal.power + refusal.decimals);
            same("", refusal.text());
        }
        refused(21, -1, 0, Seg2.readNumber("1234567890123456789"));
        refused(21, -1, 0, Seg2.readNumber("1E100"));
    }

    /** Any numbers may be written: refusals in their order, and which bytes change. */
    private static void forgedNumbers() {
        byte[] room = new byte[30];
        Arrays.fill(room, (byte) '_');
        refused(20, -1, 0, Seg2.writeNumber(room, true, 0, 1000, -1));
        refused(21, -1, 0, Seg2.writeNumber(room, false, 1000000000000000000L, 0, 0));
        refused(21, -1, 0, Seg2.writeNumber(room, false, -1, 0, 0)); // 2^64 - 1, without a sign
        refused(21, -1, 0, Seg2.writeNumber(room, false, 5, 0, 18));
        refused(21, -1, 0, Seg2.writeNumber(room, false, 5, 1, -1));
        refused(21, -1, 0, Seg2.writeNumber(room, false, 5, Integer.MIN_VALUE, Integer.MIN_VALUE));
        refused(21, -1, 0, Seg2.writeNumber(room, false, 5, 100, 0));
        refused(21, -1, 0, Seg2.writeNumber(room, false, 5, -100, 0));
        for (byte left : room) {
            same((byte) '_', left);
        }
        Seg2.Length written = Seg2.writeNumber(room, false, 5, 0, 17);
        accepted(written);
        same(22, written.length);
        same("0.00000000000000005E17________", new String(room, StandardCharsets.US_ASCII));
        byte[] four = {'_', '_', '_', '_'};
        Seg2.Length none = Seg2.writeNumber(four, false, 250, -3, 3);
        refused(30, -1, 0, none);
        same(0, none.length);
        same(new byte[] {'_', '_', '_', '_'}, four);
        byte[] five = new byte[5];
        same(5, Seg2.writeNumber(five, false, 250, -3, 3).length);
        same("0.250", new String(five, StandardCharsets.US_ASCII));
        refused(30, -1, 0, Seg2.writeNumber(new byte[0], false, 7, 0, 0));
    }

    private static void noteLines() {
        ByteBuffer b = withSheet("DATE\tTODAY\nNOTE\tfirst line\nNOTE\t\nNOTE\t indented\n");
        Seg2.Value note = Seg2.value(b, b.limit(), 0, "NOTE");
        String[] lines = note.text().split(Pattern.quote(Seg2.fileBlock(b, b.limit()).lineTerminator), -1);
        same(new String[] {"first line", "", " indented"}, lines);
        same(2, Seg2.stringCount(b, b.limit(), 0).count);
    }

    private static void refusedAdditionsChangeNothing() {
        ByteBuffer b = example();
        byte[] before = copy(b);
        refused(24, -1, 0, Seg2.addIntegers(b, 108, "", Seg2.FIXED_16, new int[1]));
        refused(1, -1, 0, Seg2.addIntegers(b, 300, "", Seg2.FIXED_16, new int[1]));
        same(before, copy(b));
        ByteBuffer image = painted(64);
        int length = Seg2.start(image, 0, 2, "").length;
        before = copy(image);
        Seg2.Length answer = Seg2.addIntegers(image, length, "", Seg2.FIXED_16, new int[1]);
        refused(30, -1, 0, answer);
        same(0, answer.length);
        refused(30, -1, 0, Seg2.addIntegers(image, length, "", Seg2.FIXED_16, direct(1)));
        refused(25, -1, 4, Seg2.addIntegers(image, length, "A\t1\nb\t2\n", Seg2.FIXED_16, new int[1]));
        refused(26, -1, 4, Seg2.addIntegers(image, length, "B\t1\nA\t2\n", Seg2.FIXED_16, new int[1]));
        refused(28, -1, 0, Seg2.addIntegers(image, length, "", Seg2.FLOAT_32, new int[1]));
        refused(28, -1, 0, Seg2.addIntegers(image, length, "", Seg2.FLOAT_20, new int[3]));
        refused(29, -1, 1, Seg2.addIntegers(image, length, "", Seg2.FIXED_16, new int[] {0, 32768}));
        char[] long_ = new char[Seg2.MAXIMUM_AREA];
        Arrays.fill(long_, 'X');
        refused(27, -1, 0, Seg2.addIntegers(image, length, "A\t" + new String(long_) + "\n", Seg2.FIXED_16, new int[1]));
        same(before, copy(image));
        refused(31, -1, 0, Seg2.start(image, 2, 1, ""));
        refused(31, -1, 0, Seg2.start(image, -1, 1, ""));
        refused(31, -1, 0, Seg2.start(image, 0, 0, ""));
        refused(31, -1, 0, Seg2.start(image, 0, -1, ""));
        refused(31, -1, 0, Seg2.start(image, 0, Seg2.MAXIMUM_SLOTS + 1, ""));
        refused(30, -1, 0, Seg2.start(image, 0, Seg2.MAXIMUM_SLOTS, ""));
        refused(25, -1, 0, Seg2.start(image, 0, 1, "UNITS METERS"));
        same(before, copy(image));
    }

    /** What a String holds beside ASCII is no keyword and no value, and stands for nothing else. */
    /** Room beforehand: what a start or an addition with room enough answers, of lengths and refusals, and nothing is written. */
    private static void roomBeforehand() {
        String[] sheets = {"", "UNITS\tMETERS\n", "A\tb\nC\td\nNOTE\t1\nNOTE\t 2\n", "UNITS METERS\n", "B\t1\nA\t1\n", "CHANNEL_NUMBER\t1\n",
            "\u00e9\t1\n"};
        for (int order = 0; order < 3; order++) {
            for (int slots : new int[] {0, 1, 2, 16383, 16384, -1}) {
                for (String sheet : sheets) {
                    sameLength(Seg2.start(ByteBuffer.allocateDirect(70000), order, slots, sheet), Seg2.startSize(order, slots, sheet));
                }
            }
        }
        ByteBuffer room = painted(1000);
        int length = Seg2.start(room, Seg2.LOW_FIRST, 2, "").length;
        for (int traces = 0; traces < 3; traces++) {
            ByteBuffer exact = ByteBuffer.allocateDirect(length); // no room for a byte more
            exact.put(copy(room), 0, length);
            byte[] before = copy(exact);
            for (String sheet : sheets) {
                for (int code = 0; code < 7; code++) {
                    for (int count : new int[] {0, 1, 2, 4, 7, 8}) {
                        ByteBuffer larger = ByteBuffer.allocateDirect(1000);
                        larger.put(before);
                        Seg2.Length wanted = code == 4 || code == 5
                            ? Seg2.addBits(larger, length, sheet, code, new long[count]) : Seg2.addIntegers(larger, length, sheet, code, new int[count]);
                        sameLength(wanted, Seg2.addSize(exact, length, sheet, code, count));
                        sameLength(wanted, Seg2.addSize(exact.asReadOnlyBuffer(), length, sheet.getBytes(StandardCharsets.ISO_8859_1), code, count));
                    }
                }
            }
            same(before, copy(exact));
            refused(traces == 2 ? 24 : 30, -1, 0, Seg2.addSize(exact, length, "", Seg2.FIXED_16, 33554432));
            refused(traces == 2 ? 24 : 30, -1, 0, Seg2.addSize(exact, length, "", Seg2.FIXED_16, -1));
            refused(1, -1, 0, Seg2.addSize(exact, length + 1, "", Seg2.FIXED_16, 1));
            if (traces < 2) {
                length = Seg2.addIntegers(room, length, "", Seg2.FIXED_16, new int[] {1}).length;
            }
        }
    }

    private static void sameLength(Seg2.Length wanted, Seg2.Length is) {
        same(wanted.refusal(), is.refusal());
        same(wanted.length, is.length);
    }

    private static void otherCharacters() {
        ByteBuffer b = withSheet("?\t1\nA\t2\n");
        same(true, Seg2.keyword(b, b.limit(), 0, "?").found);
        for (String key : new String[] {"\u00c4", "\uD800", "\u0141", "\uD83D\uDE00", "", "a", "A ", "?\u00e9"}) {
            Seg2.Keyword answer = Seg2.keyword(b, b.limit(), 0, key);
            accepted(answer);
            same(false, answer.found);
        }
        ByteBuffer image = painted(200);
        refused(25, -1, 4, Seg2.start(image, 0, 1, "A\t1\nB\tZ\u00fcrich\n"));
        refused(25, -1, 6, Seg2.start(image, 0, 1, "A\t123\nB\t\uD83D\uDE00\n"));
    }

    /** The bytes past the limit are not lent. */
    private static void theLimitHolds() {
        ByteBuffer b = painted(200);
        b.limit(55);
        refused(30, -1, 0, Seg2.start(b, 0, 1, "UNITS\tMETERS\n"));
        b.limit(56);
        Seg2.Length started = Seg2.start(b, 0, 1, "UNITS\tMETERS\n");
        accepted(started);
        same(56, started.length);
        refused(30, -1, 0, Seg2.addIntegers(b, 56, "", 1, new int[3]));
        refused(1, -1, 0, Seg2.addIntegers(b, 57, "", 1, new int[3]));
        refused(5, -1, 6, Seg2.check(b, 56));
        byte[] all = copy(b);
        for (int i = 56; i < 200; i++) {
            same((byte) 0xA5, all[i]);
        }
        // a slice is a buffer of its own
        ByteBuffer outer = painted(300);
        outer.position(100);
        ByteBuffer inner = outer.slice();
        accepted(Seg2.start(inner, 1, 1, ""));
        same((byte) 0xA5, outer.get(99));
        same((byte) 0x3A, outer.get(100));
        // and a row's limit is its length
        IntBuffer row = direct(9, 9, 9, 9);
        row.limit(3);
        row.position(1);
        accepted(Seg2.integers(example(), 108, 0, row));
        same(1, row.position());
        row.limit(4);
        same(1, row.get(0));
        same(256, row.get(2));
        same(9, row.get(3));
    }

    private static void mappedFile() throws IOException {
        Path path = Files.createTempFile("seg2", ".sg2");
        try {
            ByteBuffer b = example();
            byte[] all = Arrays.copyOf(copy(b), 108);
            Files.write(path, all);
            try (RandomAccessFile file = new RandomAccessFile(path.toFile(), "r")) {
                ByteBuffer mapped = file.getChannel().map(FileChannel.MapMode.READ_ONLY, 0, file.length());
                accepted(Seg2.check(mapped, mapped.limit()));
                int[] row = new int[3];
                accepted(Seg2.integers(mapped, mapped.limit(), 0, row));
                same(new int[] {1, -1, 256}, row);
                same("METERS", Seg2.value(mapped, mapped.limit(), Seg2.FILE, "UNITS").text());
            }
        } finally {
            Files.delete(path);
        }
    }

    private static void misusedBuffers() throws Exception {
        ByteBuffer good = example();
        ByteBuffer heap = ByteBuffer.wrap(Arrays.copyOf(copy(good), 108));
        ByteBuffer readOnly = good.asReadOnlyBuffer();
        byte[] key = {'A'};
        for (ByteBuffer bad : new ByteBuffer[] {null, heap}) {
            String words = bad == null ? "the buffer is null" : "not direct";
            misused(words, () -> Seg2.check(bad, 108));
            misused(words, () -> Seg2.fileBlock(bad, 108));
            misused(words, () -> Seg2.traceBlock(bad, 108, 0));
            misused(words, () -> Seg2.stringCount(bad, 108, 0));
            misused(words, () -> Seg2.string(bad, 108, 0, 0));
            misused(words, () -> Seg2.keyword(bad, 108, 0, key));
            misused(words, () -> Seg2.value(bad, 108, 0, key));
            misused(words, () -> Seg2.number(bad, 108, 0, key));
            misused(words, () -> Seg2.doubleValue(bad, 108, 0, key));
            misused(words, () -> Seg2.location(bad, 108, 0, key));
            misused(words, () -> Seg2.strings(bad, 108, 0, new long[4]));
            misused(words, () -> Seg2.quickTraceBlock(bad, 108, 0));
            misused(words, () -> Seg2.quickStringCount(bad, 108, 0));
            misused(words, () -> Seg2.quickString(bad, 108, 0, 0));
            misused(words, () -> Seg2.quickStrings(bad, 108, 0, new long[4]));
            misused(words, () -> Seg2.quickKeyword(bad, 108, 0, key));
            misused(words, () -> Seg2.quickValue(bad, 108, 0, key));
            misused(words, () -> Seg2.quickNumber(bad, 108, 0, key));
            misused(words, () -> Seg2.quickDoubleValue(bad, 108, 0, key));
            misused(words, () -> Seg2.quickLocation(bad, 108, 0, key));
            misused(words, () -> Seg2.quickIntegers(bad, 108, 0, new int[3]));
            misused(words, () -> Seg2.quickIntegers(bad, 108, 0, direct(0, 0, 0)));
            misused(words, () -> Seg2.quickBits(bad, 108, 0, new long[3], new byte[3]));
            misused(words, () -> Seg2.lenientCheck(bad, 108));
            misused(words, () -> Seg2.lenientFileBlock(bad, 108));
            misused(words, () -> Seg2.lenientTraceBlock(bad, 108, 0));
            misused(words, () -> Seg2.lenientStringCount(bad, 108, 0));
            misused(words, () -> Seg2.lenientString(bad, 108, 0, 0));
            misused(words, () -> Seg2.lenientStrings(bad, 108, 0, new long[4]));
            misused(words, () -> Seg2.lenientKeyword(bad, 108, 0, key));
            misused(words, () -> Seg2.lenientValue(bad, 108, 0, key));
            misused(words, () -> Seg2.lenientNumber(bad, 108, 0, key));
            misused(words, () -> Seg2.lenientDoubleValue(bad, 108, 0, key));
            misused(words, () -> Seg2.lenientLocation(bad, 108, 0, key));
            misused(words, () -> Seg2.lenientIntegers(bad, 108, 0, new int[3]));
            misused(words, () -> Seg2.lenientIntegers(bad, 108, 0, direct(0, 0, 0)));
            misused(words, () -> Seg2.lenientBits(bad, 108, 0, new long[3], new byte[3]));
            misused(words, () -> Seg2.integers(bad, 108, 0, new int[3]));
            misused(words, () -> Seg2.integers(bad, 108, 0, direct(0, 0, 0)));
            misused(words, () -> Seg2.bits(bad, 108, 0, new long[3], new byte[3]));
            misused(words, () -> Seg2.start(bad, 0, 1, key));
            misused(words, () -> Seg2.addIntegers(bad, 108, key, 1, new int[3]));
            misused(words, () -> Seg2.addIntegers(bad, 108, key, 1, direct(0)));
            misused(words, () -> Seg2.addBits(bad, 108, key, 4, new long[3]));
            misused(words, () -> Seg2.addSize(bad, 108, key, 4, 3));
        }
        misused("read-only", () -> Seg2.start(readOnly, 0, 1, ""));
        misused("read-only", () -> Seg2.addIntegers(readOnly, 108, "", 1, new int[1]));
        misused("read-only", () -> Seg2.addIntegers(readOnly, 108, "", 1, direct(1)));
        misused("read-only", () -> Seg2.addBits(readOnly, 108, "", 4, new long[1]));
    }

    private static void misusedTexts() throws Exception {
        ByteBuffer good = example();
        byte[] none = null;
        String noText = null;
        misused("keyword is null", () -> Seg2.keyword(good, 108, 0, none));
        misused("keyword is null", () -> Seg2.value(good, 108, 0, noText));
        misused("keyword is null", () -> Seg2.number(good, 108, 0, none));
        misused("keyword is null", () -> Seg2.doubleValue(good, 108, 0, noText));
        misused("keyword is null", () -> Seg2.location(good, 108, 0, none));
        misused("keyword is null", () -> Seg2.quickKeyword(good, 108, 0, none));
        misused("keyword is null", () -> Seg2.quickKeyword(good, 108, 0, noText));
        misused("keyword is null", () -> Seg2.quickValue(good, 108, 0, none));
        misused("keyword is null", () -> Seg2.quickValue(good, 108, 0, noText));
        misused("keyword is null", () -> Seg2.quickNumber(good, 108, 0, none));
        misused("keyword is null", () -> Seg2.quickDoubleValue(good, 108, 0, noText));
        misused("keyword is null", () -> Seg2.quickLocation(good, 108, 0, none));
        misused("keyword is null", () -> Seg2.lenientKeyword(good, 108, 0, none));
        misused("keyword is null", () -> Seg2.lenientKeyword(good, 108, 0, noText));
        misused("keyword is null", () -> Seg2.lenientValue(good, 108, 0, none));
        misused("keyword is null", () -> Seg2.lenientValue(good, 108, 0, noText));
        misused("keyword is null", () -> Seg2.lenientNumber(good, 108, 0, none));
        misused("keyword is null", () -> Seg2.lenientDoubleValue(good, 108, 0, noText));
        misused("keyword is null", () -> Seg2.lenientLocation(good, 108, 0, none));
        misused("sheet is null", () -> Seg2.start(good, 0, 1, none));
        misused("sheet is null", () -> Seg2.addIntegers(good, 108, noText, 1, new int[1]));
        misused("sheet is null", () -> Seg2.addBits(good, 108, none, 4, new long[1]));
        misused("sheet is null", () -> Seg2.startSize(0, 1, none));
        misused("sheet is null", () -> Seg2.startSize(0, 1, noText));
        misused("sheet is null", () -> Seg2.addSize(good, 108, none, 4, 1));
        misused("sheet is null", () -> Seg2.addSize(good, 108, noText, 4, 1));
        misused("text is null", () -> Seg2.readNumber(none));
        misused("text is null", () -> Seg2.readNumber(noText));
        misused("text is null", () -> Seg2.writeNumber(none, false, 7, 0, 0));
    }

    private static void misusedRows() throws Exception {
        ByteBuffer good = example();
        int[] noRow = null;
        IntBuffer noView = null;
        misused("read-only", () -> Seg2.integers(good, 108, 0, direct(0, 0, 0).asReadOnlyBuffer()));
        misused("row is null", () -> Seg2.integers(good, 108, 0, noRow));
        misused("row is null", () -> Seg2.integers(good, 108, 0, noView));
        misused("row is null", () -> Seg2.bits(good, 108, 0, null, new byte[3]));
        misused("row is null", () -> Seg2.bits(good, 108, 0, new long[3], null));
        misused("read-only", () -> Seg2.quickIntegers(good, 108, 0, direct(0, 0, 0).asReadOnlyBuffer()));
        misused("row is null", () -> Seg2.quickIntegers(good, 108, 0, noRow));
        misused("row is null", () -> Seg2.quickIntegers(good, 108, 0, noView));
        misused("row is null", () -> Seg2.quickBits(good, 108, 0, null, new byte[3]));
        misused("row is null", () -> Seg2.quickBits(good, 108, 0, new long[3], null));
        misused("row is null", () -> Seg2.strings(good, 108, 0, null));
        misused("row is null", () -> Seg2.quickStrings(good, 108, 0, null));
        misused("read-only", () -> Seg2.lenientIntegers(good, 108, 0, direct(0, 0, 0).asReadOnlyBuffer()));
        misused("row is null", () -> Seg2.lenientIntegers(good, 108, 0, noRow));
        misused("row is null", () -> Seg2.lenientIntegers(good, 108, 0, noView));
        misused("row is null", () -> Seg2.lenientBits(good, 108, 0, null, new byte[3]));
        misused("row is null", () -> Seg2.lenientBits(good, 108, 0, new long[3], null));
        misused("row is null", () -> Seg2.lenientStrings(good, 108, 0, null));
        misused("row is null", () -> Seg2.addIntegers(good, 108, "", 1, noRow));
        misused("row is null", () -> Seg2.addIntegers(good, 108, "", 1, noView));
        misused("row is null", () -> Seg2.addBits(good, 108, "", 4, null));
        misused("row is not direct", () -> Seg2.integers(good, 108, 0, IntBuffer.allocate(3)));
        misused("row is not direct", () -> Seg2.addIntegers(good, 108, "", 1, IntBuffer.wrap(new int[3])));
        // Java's own default order is high byte first, so this is easy to get wrong
        ByteOrder other = ByteOrder.nativeOrder() == ByteOrder.LITTLE_ENDIAN ? ByteOrder.BIG_ENDIAN : ByteOrder.LITTLE_ENDIAN;
        IntBuffer swapped = ByteBuffer.allocateDirect(12).order(other).asIntBuffer();
        misused("byte order", () -> Seg2.integers(good, 108, 0, swapped));
        misused("byte order", () -> Seg2.quickIntegers(good, 108, 0, swapped));
        misused("byte order", () -> Seg2.lenientIntegers(good, 108, 0, swapped));
        misused("byte order", () -> Seg2.addIntegers(good, 108, "", 1, swapped));
        ByteBuffer odd = ByteBuffer.allocateDirect(16);
        odd.position(1);
        IntBuffer crooked = odd.slice().order(ByteOrder.nativeOrder()).asIntBuffer();
        misused("multiple of its element's size", () -> Seg2.integers(good, 108, 0, crooked));
        misused("multiple of its element's size", () -> Seg2.quickIntegers(good, 108, 0, crooked));
        misused("multiple of its element's size", () -> Seg2.lenientIntegers(good, 108, 0, crooked));
    }

    private static void rowsInTheFilesOwnMemory() throws Exception {
        ByteBuffer good = example();
        ByteBuffer arena = ByteBuffer.allocateDirect(400).order(ByteOrder.nativeOrder());
        ByteBuffer file = arena.duplicate();
        file.put(copy(good), 0, 108);
        file.clear();
        file.limit(120);
        arena.position(116);
        IntBuffer inside = arena.slice().order(ByteOrder.nativeOrder()).asIntBuffer();
        inside.limit(3);
        misused("own memory", () -> Seg2.integers(file, 108, 0, inside));
        misused("own memory", () -> Seg2.quickIntegers(file, 108, 0, inside));
        misused("own memory", () -> Seg2.lenientIntegers(file, 108, 0, inside));
        misused("own memory", () -> Seg2.addIntegers(file, 108, "", 1, inside));
        arena.position(120);
        IntBuffer beside = arena.slice().order(ByteOrder.nativeOrder()).asIntBuffer();
        beside.limit(3);
        accepted(Seg2.integers(file, 108, 0, beside));
        same(256, beside.get(2));
        beside.put(2, 0);
        accepted(Seg2.quickIntegers(file, 108, 0, beside));
        same(256, beside.get(2));
        beside.put(2, 0);
        accepted(Seg2.lenientIntegers(file, 108, 0, beside).answer);
        same(256, beside.get(2));
    }

    /** All that a crew's app does with a file, on the calling thread. */
    private static void everything(int seed) {
        Random random = new Random(seed);
        int[] samples = new int[4 * (1 + random.nextInt(50))];
        for (int i = 0; i < samples.length; i++) {
            samples[i] = random.nextInt(65536) - 32768;
        }
        ByteBuffer b = painted(10000);
        int length = Seg2.start(b, seed & 1, 5, "UNITS\tMETERS\n").length;
        for (int trace = 0; trace < 5; trace++) {
            long[] patterns = {random.nextInt() & 0xFFFFFFFFL, trace};
            Seg2.Length added = trace < 3
                ? Seg2.addIntegers(b, length, "RECEIVER_LOCATION\t" + trace + ".5\n", trace + 1, samples)
                : Seg2.addBits(b, length, "RECEIVER_LOCATION\t" + trace + ".5\n", trace + 1, patterns);
            accepted(added);
            length = added.length;
        }
        for (int trace = 0; trace < 5; trace++) {
            Seg2.TraceBlock block = Seg2.traceBlock(b, length, trace);
            same(trace + 1, block.formatCode);
            same(trace + 0.5, Seg2.location(b, length, trace, "RECEIVER_LOCATION").x);
            same(trace + 0.5, Seg2.doubleValue(b, length, trace, "RECEIVER_LOCATION").value);
            same(trace + ".5", Seg2.quickValue(b, length, trace, "RECEIVER_LOCATION").text());
            same(true, Seg2.quickKeyword(b, length, trace, "RECEIVER_LOCATION").found);
            Seg2.Decimal number = Seg2.number(b, length, trace, "RECEIVER_LOCATION");
            same(trace * 10L + 5, number.coefficient);
            same(trace + ".5", number.text());
            same("RECEIVER_LOCATION", Seg2.string(b, length, trace, 0).keyText());
            same(1, Seg2.stringCount(b, length, trace).count);
            sameNumbers(b, length, trace, "RECEIVER_LOCATION");
            sameStrings(b, length, trace);
            sameSamples(b, length, trace);
            sameLeniently(b, length, trace, "RECEIVER_LOCATION");
            sameStringsLeniently(b, length, trace);
            sameSamplesLeniently(b, length, trace);
            if (trace < 3) {
                int[] row = new int[block.sampleCount];
                accepted(Seg2.integers(b, length, trace, row));
                for (int i = 0; i < row.length; i++) {
                    same(samples[i], row[i]);
                }
            } else {
                accepted(Seg2.bits(b, length, trace, new long[2], new byte[2]));
            }
        }
        accepted(Seg2.check(b, length));
        same(5, Seg2.fileBlock(b, length).traceCount);
    }

    private static void onThreads(int count, long stack, int rounds) throws Exception {
        AtomicReference<Throwable> wrong = new AtomicReference<>();
        Thread[] threads = new Thread[count];
        for (int t = 0; t < count; t++) {
            int from = t * rounds;
            threads[t] = new Thread(null, () -> {
                for (int i = 0; i < rounds; i++) {
                    everything(from + i);
                }
            }, "reader " + t, stack);
            threads[t].setUncaughtExceptionHandler((thread, e) -> wrong.compareAndSet(null, e));
            threads[t].start();
        }
        for (Thread thread : threads) {
            thread.join();
        }
        if (wrong.get() != null) {
            throw new AssertionError("on a thread", wrong.get());
        }
    }

    public static void main(String[] args) {
        test("document 01's example, written and read back", Seg2Test::theExample);
        test("an array and a direct row give the same", Seg2Test::theSameBytesFromBothRows);
        test("values are the buffer's own bytes", Seg2Test::valuesAreTheBuffersOwnBytes);
        test("refusals with part, place and words", Seg2Test::refusals);
        test("numbers, names and limits are the header's", () -> theTable(Paths.get(args[0])));
        test("a refusal is told as Rust tells it", () -> theWords(Paths.get(args[1]), Paths.get(args[0])));
        test("bit patterns and classes", Seg2Test::bitsAndClasses);
        test("several receivers in one group", Seg2Test::severalReceivers);
        test("channel numbers in all traces or none", Seg2Test::channelNumbers);
        test("all strings of a part in one row", Seg2Test::stringsInOneRow);
        test("one trace, quickly", Seg2Test::oneTraceQuickly);
        test("one trace of a file that is refused", Seg2Test::quicklyOfARefusedFile);
        test("an older recorder's file, seen whole", Seg2Test::olderRecorders);
        test("its samples", Seg2Test::samplesOfAnOlderFile);
        test("each thing that is forgiven, with the strict row beside it", Seg2Test::whatIsForgiven);
        test("nothing else is forgiven", Seg2Test::whatIsNotForgiven);
        test("a refused question on an older file leaves the rows", Seg2Test::refusedQuestionsOnAnOlderFile);
        test("leniently of a file that keeps the rules", Seg2Test::lenientlyOfAnAcceptedFile);
        test("numbers, doubles and locations", Seg2Test::numbersAndLocations);
        test("numbers as they were typed", Seg2Test::numbersAsTheyWereTyped);
        test("numbers that no text gives", Seg2Test::forgedNumbers);
        test("the lines of a NOTE", Seg2Test::noteLines);
        test("a refused start or addition changes nothing", Seg2Test::refusedAdditionsChangeNothing);
        test("room beforehand", Seg2Test::roomBeforehand);
        test("characters that are no ASCII", Seg2Test::otherCharacters);
        test("the limit of a buffer holds", Seg2Test::theLimitHolds);
        test("a mapped file", Seg2Test::mappedFile);
        test("a misused buffer is told before the library is called", Seg2Test::misusedBuffers);
        test("so is a keyword, sheet or text that is null", Seg2Test::misusedTexts);
        test("so is a misused row", Seg2Test::misusedRows);
        test("so is a row in the file's own memory", Seg2Test::rowsInTheFilesOwnMemory);
        // the machine gives a Java thread the least it can live with where less is asked for
        test("a thread with a small stack", () -> onThreads(1, 32 * 1024, 50));
        test("many threads at a time", () -> onThreads(8, 0, 50));
        Seg2FileTest.all();
        System.out.println(passed + " passed, " + failed + " failed");
        System.exit(failed == 0 ? 0 : 1);
    }
}
