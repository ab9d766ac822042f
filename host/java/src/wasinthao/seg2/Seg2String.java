package wasinthao.seg2;

/** A string of a file or a trace: its keyword and its value. It never changes, and two are equal where both texts are. */
public final class Seg2String {
    private final String key;
    private final String value;

    Seg2String(String key, String value) {
        this.key = key;
        this.value = value;
    }

    /** The keyword as it stands in the file. In a file that is read leniently it may have lower-case letters. */
    public String key() {
        return key;
    }

    /** The value, perhaps empty. The lines of a NOTE are parted by the file's line terminator: {@link Seg2Part#note()} has them one by one. */
    public String value() {
        return value;
    }

    @Override
    public boolean equals(Object other) {
        return other instanceof Seg2String && ((Seg2String) other).key.equals(key) && ((Seg2String) other).value.equals(value);
    }

    @Override
    public int hashCode() {
        return 31 * key.hashCode() + value.hashCode();
    }

    /** Keyword, a space, value. */
    @Override
    public String toString() {
        return key + " " + value;
    }
}
