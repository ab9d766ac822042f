/**
 * Kotlin's side of Seg2File, Seg2Trace, Seg2Growing and Seg2Sheet: nothing but names and types that Kotlin users know, and nullable types where
 * something may be missing, which Java cannot say without a library of annotations. Kotlin 1.3 and later; nothing beside its standard library.
 */
@file:JvmName("Seg2Kotlin")

package wasinthao.seg2

import java.math.BigDecimal

// ---- results: a value or a refusal, never both

/** The value, or null where it was refused. */
fun <T : Any> Seg2Result<T>.getOrNull(): T? = orNull()

/** The value; a refusal is thrown as [Seg2Refused]. */
fun <T : Any> Seg2Result<T>.getOrThrow(): T = value()

/** The value, or what is made of the refusal. A `return` may stand there. */
inline fun <T : Any> Seg2Result<T>.getOrElse(onRefusal: (Seg2.Refusal) -> T): T {
    val (value, refusal) = this
    return value ?: onRefusal(refusal!!)
}

/** Does something with the refusal, if there is one, and hands the result on. */
inline fun <T : Any> Seg2Result<T>.onRefusal(action: (Seg2.Refusal) -> Unit): Seg2Result<T> {
    component2()?.let(action)
    return this
}

/** Does something with the value, if there is one, and hands the result on. */
inline fun <T : Any> Seg2Result<T>.onValue(action: (T) -> Unit): Seg2Result<T> {
    component1()?.let(action)
    return this
}

/** What is made of the value or of the refusal. */
inline fun <T : Any, R> Seg2Result<T>.fold(onValue: (T) -> R, onRefusal: (Seg2.Refusal) -> R): R {
    val (value, refusal) = this
    return if (value != null) onValue(value) else onRefusal(refusal!!)
}

/** `val (value, refusal) = ..`: one of the two is null. */
operator fun <T : Any> Seg2Result<T>.component1(): T? = orNull()

/** `val (value, refusal) = ..`: one of the two is null. */
operator fun <T : Any> Seg2Result<T>.component2(): Seg2.Refusal? = refusal()

/** The refusal in words: row, part, place and text. */
val Seg2.Refusal.words: String get() = toString()

// ---- an opened file and its traces

/** All traces in order. Each look into the list is one quick call. */
val Seg2File.traces: List<Seg2Trace> get() = traces()

/** The strict check's refusal of a file that is read leniently; null where the file keeps the rules. */
val Seg2File.strictRefusal: Seg2.Refusal? get() = strict()

/** Whether the high byte of a word comes first. */
val Seg2File.isHighFirst: Boolean get() = order() == Seg2.HIGH_FIRST

/** All strings in the order of the file. Ask once and keep it: the file's own strings cost a check each time. */
val Seg2Part.strings: List<Seg2String> get() = strings()

/** The lines of the NOTE; none where there is no NOTE. */
val Seg2Part.noteLines: List<String> get() = note()

/** The value of a keyword, or null where there is none: `trace["STACK"]`. */
operator fun Seg2Part.get(key: String): String? = value(key)

/** Whether there is such a keyword: `"STACK" in trace`. */
operator fun Seg2Part.contains(key: String): Boolean = has(key)

/** The value of a keyword as a number with the decimals that were typed, or null where it is none. [Seg2Part.number] tells why. */
fun Seg2Part.numberOrNull(key: String): Seg2.Decimal? = number(key).orNull()

/** The value of a keyword as a double, or null. [Seg2Part.doubleValue] tells why. */
fun Seg2Part.doubleOrNull(key: String): Double? = doubleValue(key).orNull()

/** The value of a keyword as a location, or null. [Seg2Part.location] tells why. */
fun Seg2Part.locationOrNull(key: String): Seg2.Location? = location(key).orNull()

/** `val (key, value) = string`. */
operator fun Seg2String.component1(): String = key()

/** `val (key, value) = string`. */
operator fun Seg2String.component2(): String = value()

/** The samples of a trace in the kind of its format code, each exactly. */
sealed class Seg2Samples {
    /** Codes 1 to 3. */
    class Integers(val values: IntArray) : Seg2Samples()

    /** Code 4. */
    class Floats(val values: FloatArray) : Seg2Samples()

    /** Code 5. */
    class Doubles(val values: DoubleArray) : Seg2Samples()
}

/** The samples in the kind of the format code. [Seg2Trace.doubles] has them as doubles, whatever the code is. */
val Seg2Trace.samples: Seg2Samples
    get() = when (formatCode()) {
        Seg2.FLOAT_32 -> Seg2Samples.Floats(floats().value())
        Seg2.FLOAT_64 -> Seg2Samples.Doubles(doubles().value())
        else -> Seg2Samples.Integers(integers().value())
    }

/** All samples as doubles, of any code: none is rounded. */
val Seg2Trace.doubles: DoubleArray get() = doubles().value()

// ---- sheets

/** Marks what stands in a sheet's braces. */
@DslMarker
annotation class Seg2SheetMarker

/**
 * A sheet, in any order:
 *
 *     val sheet = sheet {
 *         "LINE_ID" to "7 west"
 *         number("STACK", 4)
 *         location("RECEIVER_LOCATION", typed)
 *         note("wet ground")
 *     }
 *
 * It is judged when it is built, or handed to a growing file.
 */
fun sheet(lines: Seg2SheetScope.() -> Unit): Seg2Sheet = Seg2SheetScope(Seg2Sheet()).apply(lines).sheet

/** What can stand in a sheet's braces. */
@Seg2SheetMarker
class Seg2SheetScope internal constructor(internal val sheet: Seg2Sheet) {
    /** A keyword and any text. */
    infix fun String.to(value: String) {
        sheet.put(this, value)
    }

    /** A keyword and a whole number. */
    infix fun String.to(value: Int) {
        sheet.number(this, value.toLong())
    }

    /** A keyword and a whole number. */
    infix fun String.to(value: Long) {
        sheet.number(this, value)
    }

    /** A keyword and a number with its decimals. */
    infix fun String.to(value: BigDecimal) {
        sheet.number(this, value)
    }

    /** Kotlin's own `to` would make a pair that nobody takes, so that a line is lost in silence: here it is an error of the compiler. */
    @Deprecated("a sheet takes a text, a whole number or a BigDecimal; a double has no decimals of its own", level = DeprecationLevel.ERROR)
    @Suppress("UNUSED_PARAMETER", "unused")
    infix fun <A, B> A.to(value: B): Nothing = throw IllegalArgumentException("a sheet takes a text, a whole number or a BigDecimal")

    /** Lines of the NOTE. */
    fun note(vararg lines: String) {
        sheet.note(lines.asList())
    }

    /** Lines of the NOTE: of a text that was typed in several, `note(text.lines())`. */
    fun note(lines: List<String>) {
        sheet.note(lines)
    }

    /** A number as it was typed: a comma is refused, and not passed over. */
    fun number(key: String, typed: String) {
        sheet.number(key, typed)
    }

    /** A whole number. */
    fun number(key: String, whole: Long) {
        sheet.number(key, whole)
    }

    /** A number with the decimals that it has. */
    fun number(key: String, number: BigDecimal) {
        sheet.number(key, number)
    }

    /** A number that was read, with the decimals that were typed. */
    fun number(key: String, number: Seg2.Decimal) {
        sheet.number(key, number)
    }

    /** A location as it was typed: x, or x, y and z. */
    fun location(key: String, vararg typed: String) {
        sheet.location(key, *typed)
    }
}

/** What the sheet is refused for, and which of its strings; null where it is refused for nothing. */
val Seg2Sheet.faultOrNull: Seg2Sheet.Fault? get() = fault()
