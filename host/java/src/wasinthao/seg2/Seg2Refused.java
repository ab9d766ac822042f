package wasinthao.seg2;

/**
 * A refusal as an exception: for those who ask {@link Seg2Result#value()} of an answer that was refused, and where bytes that were lent to a
 * {@link Seg2File} changed behind its back. It is unchecked; its message is the refusal's text.
 */
public final class Seg2Refused extends RuntimeException {
    private static final long serialVersionUID = 1;

    private final transient Seg2.Refusal refusal;

    Seg2Refused(Seg2.Refusal refusal) {
        super(refusal.toString());
        this.refusal = refusal;
    }

    /** The refusal. It does not travel with a serialized exception: there its message is left, and this is null. */
    public Seg2.Refusal refusal() {
        return refusal;
    }
}
