package wasinthao.seg2;

import java.nio.ByteBuffer;
import java.nio.charset.StandardCharsets;
import java.util.ArrayList;
import java.util.Collections;
import java.util.List;

/**
 * What a file and each of its traces have: strings, of a keyword and a value each, and values that may be read as numbers.
 *
 * <p>A keyword is asked for as it is given, so in upper case. Of a keyword that stands several times, a question answers the first, and
 * {@link #strings()} has them all. Characters that no keyword has are a plain no.
 *
 * <p>The check at the opening stands for all questions: none here is refused but for what it asks itself. Only where somebody has changed the
 * bytes since can another refusal come; the questions that have no {@link Seg2Result} then throw it as {@link Seg2Refused}.
 */
public abstract class Seg2Part {
    final ByteBuffer buffer;
    final int part;
    final Calls calls;

    Seg2Part(ByteBuffer buffer, int part, Calls calls) {
        this.buffer = buffer;
        this.part = part;
        this.calls = calls;
    }

    /** The characters between the lines of a NOTE. */
    abstract String lineTerminator();

    /** All strings, in the order of the file: an own list that cannot be changed. Two calls, however many strings there are. */
    public final List<Seg2String> strings() {
        long[] row = new long[4 * told(calls.stringCount(buffer, part)).count];
        told(calls.strings(buffer, part, row));
        List<Seg2String> strings = new ArrayList<>(row.length / 4);
        for (int i = 0; i < row.length; i += 4) {
            strings.add(new Seg2String(text(row[i], row[i + 1]), text(row[i + 2], row[i + 3])));
        }
        return Collections.unmodifiableList(strings);
    }

    /** Whether there is a string with this keyword. */
    public final boolean has(String key) {
        return told(calls.keyword(buffer, part, key)).found;
    }

    /** The value of a keyword, or null where there is no such keyword. An empty value is an empty text. */
    public final String value(String key) {
        Seg2.Value value = told(calls.value(buffer, part, key));
        // a no is start 0, where no value stands: not even an empty one is in the first 32 bytes
        return value.start == 0 ? null : value.text();
    }

    /** The lines of the NOTE, empty ones too; no lines where there is no NOTE. */
    public final List<String> note() {
        String rest = value("NOTE");
        if (rest == null) {
            return Collections.emptyList();
        }
        String terminator = lineTerminator();
        List<String> lines = new ArrayList<>();
        for (int cut = rest.indexOf(terminator); cut >= 0; cut = rest.indexOf(terminator)) {
            lines.add(rest.substring(0, cut));
            rest = rest.substring(cut + terminator.length());
        }
        lines.add(rest);
        return Collections.unmodifiableList(lines);
    }

    /**
     * The value of a keyword as a number, exactly, with the decimals that were typed: 20 where it is none (so where the keyword is missing),
     * 21 where it has too many digits.
     */
    public final Seg2Result<Seg2.Decimal> number(String key) {
        return Seg2Result.of(calls.number(buffer, part, key));
    }

    /** The value of a keyword as a double: 20, 21, or 22 where it is too long, too large or too small. */
    public final Seg2Result<Double> doubleValue(String key) {
        Seg2.DoubleValue answer = calls.doubleValue(buffer, part, key);
        return Seg2Result.of(answer, answer.value);
    }

    /**
     * The value of a keyword as a location, x or x, y and z: 23 where it has neither one value nor three (so where the keyword is missing),
     * then 20 to 22 value by value, with the byte at which that value starts.
     */
    public final Seg2Result<Seg2.Location> location(String key) {
        return Seg2Result.of(calls.location(buffer, part, key));
    }

    static <A extends Seg2.Answer> A told(A answer) {
        if (!answer.accepted()) {
            throw new Seg2Refused(answer.refusal());
        }
        return answer;
    }

    private String text(long start, long length) {
        byte[] copy = new byte[(int) length];
        ByteBuffer view = buffer.duplicate();
        view.position((int) start);
        view.get(copy);
        return new String(copy, StandardCharsets.ISO_8859_1);
    }
}
