package wasinthao.seg2

import examples.first
import examples.list
import examples.openAny
import examples.record
import examples.stacks
import java.io.ByteArrayInputStream
import java.io.File
import java.math.BigDecimal
import java.nio.ByteBuffer
import java.util.Arrays
import kotlin.system.exitProcess

/** Tests of Seg2Kotlin.kt and of the page's Kotlin (examples/Phone.kt): a main that counts. */
object Seg2KotlinTest {
    private var passed = 0
    private var failed = 0

    private fun test(name: String, body: () -> Unit) {
        try {
            body()
            passed++
            println("test $name ... ok")
        } catch (e: Throwable) {
            failed++
            println("test $name ... FAILED")
            e.printStackTrace(System.out)
        }
    }

    private fun same(wanted: Any?, found: Any?) {
        if (!java.util.Objects.deepEquals(wanted, found)) throw AssertionError("wanted $wanted, got $found")
    }

    private fun refused(number: Int, place: Long, result: Seg2Result<*>) {
        val refusal: Seg2.Refusal? = result.refusal()
        if (refusal == null || refusal.number != number || refusal.place != place) throw AssertionError("wanted $number $place, got $result")
    }

    private fun shot(): Seg2Growing {
        val shot = Seg2Growing.start(Seg2.LOW_FIRST, 4, sheet { "UNITS" to "METERS" }).getOrThrow()
        val strings = sheet {
            note("wet", "cold")
            "STACK" to 4
            "RECEIVER_LOCATION" to "12.50"
        }
        shot.add(strings, Seg2.FIXED_16, intArrayOf(1, -1, 256)).getOrThrow()
        shot.add(strings, floatArrayOf(0.5f, Float.NaN)).getOrThrow()
        shot.add(strings, doubleArrayOf(1e300)).getOrThrow()
        return shot
    }

    private fun opening() {
        val bytes = shot().toByteArray()
        val file: Seg2File = Seg2File.open(bytes).getOrThrow()
        same(3, file.traces.size)
        same(false, file.isHighFirst)
        same(null, file.strictRefusal)
        same("METERS", file["UNITS"])
        same(null, file["STACK"])
        same(listOf("RECEIVER_LOCATION" to "12.50", "STACK" to "4", "NOTE" to "wet\ncold"), file.traces[0].strings.map { (key, value) -> key to value })
        same(listOf("wet", "cold"), file.traces[0].noteLines)
        same(emptyList<String>(), file.noteLines)
        same(true, "STACK" in file.traces[0])
        same(false, "STACK" in file)
        same(12.5, file.traces[0].doubleOrNull("RECEIVER_LOCATION"))
        same("12.50", file.traces[0].numberOrNull("RECEIVER_LOCATION")?.text())
        same(12.5, file.traces[0].locationOrNull("RECEIVER_LOCATION")?.x)
        same(null, file.traces[0].numberOrNull("NOTE"))
        same(null, file.traces[0].doubleOrNull("NOTE"))
        same(null, file.traces[0].locationOrNull("MISSING"))
    }

    private fun samples() {
        val traces = Seg2File.open(shot().toByteArray()).getOrThrow().traces
        val kinds = traces.map {
            when (val samples = it.samples) {
                is Seg2Samples.Integers -> "integers " + Arrays.toString(samples.values)
                is Seg2Samples.Floats -> "floats " + Arrays.toString(samples.values)
                is Seg2Samples.Doubles -> "doubles " + Arrays.toString(samples.values)
            }
        }
        same(listOf("integers [1, -1, 256]", "floats [0.5, NaN]", "doubles [1.0E300]"), kinds)
        same(listOf(1.0, -1.0, 256.0), traces[0].doubles.toList())
        same(listOf(0.5, Double.NaN), traces[1].doubles.toList())
        val row = IntArray(3)
        same(true, traces[0].integers(row).getOrThrow() === row)
        same(256, row[2])
        refused(33, 0, traces[1].integers())
        refused(33, 0, traces[2].floats())
    }

    private fun results() {
        val good = Seg2File.open(shot().toByteArray())
        val bad = Seg2File.open(ByteArray(32))
        val words = "refused (2) in the file: the first two bytes are not those of a SEG-2 file"
        same(null, bad.getOrNull())
        same(true, good.getOrNull() != null)
        same(words, bad.fold({ "opened" }, { it.words }))
        same("opened", good.fold({ "opened" }, { it.words }))
        val (value, refusal) = bad
        same(null, value)
        same(2, refusal?.number)
        val (file, none) = good
        same(3, file?.traceCount())
        same(null, none)
        val told = mutableListOf<String>()
        same(true, bad.onRefusal { told += it.words }.onValue { told += "a value" } === bad)
        same(true, good.onRefusal { told += it.words }.onValue { told += "a value" } === good)
        same(listOf(words, "a value"), told)
        same("else", early(bad))
        same("3", early(good))
        try {
            bad.getOrThrow()
            throw AssertionError("not thrown")
        } catch (e: Seg2Refused) {
            same(words, e.message)
            same(2, e.refusal().number)
        }
    }

    private fun early(result: Seg2Result<Seg2File>): String = result.getOrElse { return "else" }.traceCount().toString()

    private fun growing() {
        val shot = shot()
        val before = shot.toByteArray()
        refused(20, 0, shot.add(sheet { location("RECEIVER_LOCATION", "12,5") }, Seg2.FIXED_16, intArrayOf(1)))
        refused(29, 0, shot.add(sheet { "STACK" to 1 }, Seg2.FIXED_16, intArrayOf(40000)))
        refused(28, 0, shot.add(sheet { }, Seg2.FLOAT_32, intArrayOf(1)))
        same(before, shot.toByteArray())
        same(3, shot.traceCount())
        same(3, shot.add(sheet { "STACK" to 1 }, Seg2.FIXED_16, intArrayOf(4)).getOrThrow())
        refused(24, 0, shot.add(sheet { }, Seg2.FIXED_16, intArrayOf(1)))
        same(4, Seg2Growing.open(shot.toByteArray()).getOrThrow().traceCount())
    }

    private fun sheets() {
        val typed = "0.250"
        val good = sheet {
            note("b")
            "Z" to 12345678901L
            "STACK" to "8"
            "B" to BigDecimal("-12.50")
            number("DELAY", typed)
            number("C", 7)
            number("D", BigDecimal("1.0"))
            number("E", Seg2.readNumber("2.50E-3"))
            location("RECEIVER_LOCATION", "1", "2", "3")
            note(listOf("a", ""))
            "A" to -3
        }
        same("A\t-3\nB\t-12.50\nC\t7\nD\t1.0\nDELAY\t0.250\nE\t2.50E-3\nRECEIVER_LOCATION\t1 2 3\nSTACK\t8\nZ\t12345678901\n" +
            "NOTE\tb\nNOTE\ta\nNOTE\t\n", good.build().getOrThrow())
        same(null, good.faultOrNull)
        val comma = sheet { "STACK" to 1; number("DELAY", "0,5") }
        refused(20, 0, comma.build())
        same(1, comma.faultOrNull?.index)
        same("DELAY", comma.faultOrNull?.key)
        val lower = sheet { "Stack" to 1 }
        refused(25, 0, lower.build())
        same(1, lower.faultOrNull?.keyAt)
        val accent = sheet { "A" to "x"; "CLIENT" to "M\u00fcller" }
        refused(25, 4, accent.build())
        same(1, accent.faultOrNull?.valueAt)
        refused(26, 4, sheet { "A" to 1; "A" to 2 }.build())
        // Kotlin's own `to` is kept out: whatever else stands beside it is an error of the compiler, and not a pair that nobody takes
        val other = Seg2SheetScope::class.java.methods.single { it.name == "to" && it.parameterTypes.all { kind -> kind == Any::class.java } }
        same(DeprecationLevel.ERROR, other.getAnnotation(Deprecated::class.java)?.level)
    }

    private fun lenient() {
        val bytes = shot().toByteArray()
        // `Stack` for STACK in trace 0, as an older recorder has it
        val at = String(bytes, Charsets.ISO_8859_1).indexOf("STACK")
        bytes[at + 1] = 0x74
        val (none, refusal) = Seg2File.open(bytes)
        same(null, none)
        same(16, refusal?.number)
        val file = Seg2File.openLenient(bytes).getOrThrow()
        same(refusal, file.strictRefusal)
        same("4", file.traces[0]["STACK"])
        same("StACK", file.traces[0].strings[1].key())
        same(listOf(1.0, -1.0, 256.0), file.traces[0].doubles.toList())
        same(null, Seg2File.openLenient(ByteBuffer.allocateDirect(40)).getOrNull())
    }

    /** The functions that docs/PHONE.md shows. */
    private fun page() {
        val path = File.createTempFile("seg2", ".sg2")
        try {
            val told = mutableListOf<String>()
            same(true, record(path, "12.50", "wet\n cold", intArrayOf(7, -7)) { told += it })
            same(listOf("trace 0: x = 12.5, first sample 7"), list(path))
            val shot = Seg2File.open(path).getOrThrow()
            same("4", stacks(shot, 0))
            same(null, stacks(shot, 1))
            same(listOf("wet", " cold"), shot.traces[0].noteLines)
            val before = path.readBytes()
            same(false, record(path, "12,50", "", intArrayOf(7)) { told += it })
            same(false, record(path, "1", "r\u00e9sum\u00e9", intArrayOf(7)) { told += it })
            same(before, path.readBytes())
            same("RECEIVER_LOCATION 12,50 at character 0 of the value: refused (20) at byte 0 of the value: " +
                "this is not a number, the keyword is missing, or a zero to be written has a minus", told[0])
            same("NOTE r\u00e9sum\u00e9 at character 1 of the value: refused (25) at byte 28 of the sheet: " +
                "a line of the sheet is not a keyword, a tab and a value", told[1])
            same("first of all kinds: null", "first of all kinds: " + first(Seg2Samples.Doubles(DoubleArray(0))))
            same("0.5", first(Seg2Samples.Floats(floatArrayOf(0.5f))))
            told.clear()
            same(1, openAny(ByteArrayInputStream(before)) { told += it }?.traceCount())
            same(emptyList<String>(), told)
            before[String(before, Charsets.ISO_8859_1).indexOf("STACK")] = 0x73
            same(1, openAny(ByteArrayInputStream(before)) { told += it }?.traceCount())
            same(null, openAny(ByteArrayInputStream(ByteArray(3))) { told += it })
            same(2, told.size)
            same(true, told[0].startsWith("An old file, to which nothing can be added: refused (16) in trace 0 at byte "))
            path.writeBytes(ByteArray(40))
            same(listOf("refused (2) in the file: the first two bytes are not those of a SEG-2 file"), list(path))
        } finally {
            path.delete()
        }
    }

    @JvmStatic
    fun main(args: Array<String>) {
        test("Kotlin: a file is opened and listed") { opening() }
        test("Kotlin: samples in the kind of their code") { samples() }
        test("Kotlin: a result or a refusal") { results() }
        test("Kotlin: a growing file") { growing() }
        test("Kotlin: sheets in any order") { sheets() }
        test("Kotlin: an older file") { lenient() }
        test("Kotlin: what docs/PHONE.md shows") { page() }
        println("$passed passed, $failed failed")
        exitProcess(if (failed == 0) 0 else 1)
    }
}
