package wasinthao.seg2;

import java.util.Objects;

/**
 * What was asked for, or the refusal: one of the two, never both. Every question of {@link Seg2File}, {@link Seg2Trace}, {@link Seg2Growing}
 * and {@link Seg2Sheet} that may be refused answers with it. It never changes, and two are equal where their values (arrays element by
 * element) or their refusals are.
 *
 * <p>In Kotlin, {@code Seg2Kotlin.kt} has {@code getOrNull}, {@code getOrThrow}, {@code onRefusal}, {@code fold} and
 * {@code val (value, refusal) = ..} for it.
 */
public final class Seg2Result<T> {
    private final T value;
    private final Seg2.Refusal refusal;

    private Seg2Result(T value, Seg2.Refusal refusal) {
        this.value = value;
        this.refusal = refusal;
    }

    static <T> Seg2Result<T> ok(T value) {
        return new Seg2Result<>(Objects.requireNonNull(value), null);
    }

    static <T> Seg2Result<T> refused(Seg2.Refusal refusal) {
        return new Seg2Result<>(null, Objects.requireNonNull(refusal));
    }

    /** The value where the answer was accepted, else its refusal. */
    static <T> Seg2Result<T> of(Seg2.Answer answer, T value) {
        return answer.accepted() ? ok(value) : refused(answer.refusal());
    }

    /** An answer that is itself the value. */
    static <A extends Seg2.Answer> Seg2Result<A> of(A answer) {
        return of(answer, answer);
    }

    /** Whether there is a value, and so no refusal. */
    public boolean isOk() {
        return refusal == null;
    }

    /** The value, never null; where it was refused, a {@link Seg2Refused} is thrown, which has the refusal. */
    public T value() {
        if (refusal != null) {
            throw new Seg2Refused(refusal);
        }
        return value;
    }

    /** The value, or null where it was refused. */
    public T orNull() {
        return value;
    }

    /** The refusal, or null where there is none. */
    public Seg2.Refusal refusal() {
        return refusal;
    }

    @Override
    public boolean equals(Object other) {
        if (!(other instanceof Seg2Result)) {
            return false;
        }
        Seg2Result<?> r = (Seg2Result<?>) other;
        return Objects.deepEquals(value, r.value) && Objects.equals(refusal, r.refusal);
    }

    @Override
    public int hashCode() {
        return java.util.Arrays.deepHashCode(new Object[] {value, refusal});
    }

    /** The value's own text, or the refusal's. */
    @Override
    public String toString() {
        return refusal == null ? String.valueOf(value) : refusal.toString();
    }
}
