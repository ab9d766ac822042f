package wasinthao.seg2;

import java.util.Arrays;

/**
 * The bit patterns of a trace of code 4 or 5 and the class of each. Two are equal where all patterns are. The arrays are not copies: they are
 * the caller's own from here on.
 */
public final class Seg2Bits {
    private final long[] patterns;
    private final byte[] classes;

    Seg2Bits(long[] patterns, byte[] classes) {
        this.patterns = patterns;
        this.classes = classes;
    }

    /** The patterns as they stand in the file, those of code 4 in the low 32 bits: {@code Float.intBitsToFloat((int) patterns()[i])}. */
    public long[] patterns() {
        return patterns;
    }

    /** {@link Seg2#CLASS_ZERO} and the four others, one for each pattern. */
    public byte[] classes() {
        return classes;
    }

    @Override
    public boolean equals(Object other) {
        return other instanceof Seg2Bits && Arrays.equals(((Seg2Bits) other).patterns, patterns) && Arrays.equals(((Seg2Bits) other).classes, classes);
    }

    @Override
    public int hashCode() {
        return 31 * Arrays.hashCode(patterns) + Arrays.hashCode(classes);
    }

    @Override
    public String toString() {
        return patterns.length + " bit patterns";
    }
}
