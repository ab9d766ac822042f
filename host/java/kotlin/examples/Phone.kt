package examples

import java.io.File
import java.io.InputStream
import wasinthao.seg2.*

/** Every trace of a file: where its geophone stood and how its samples begin, or the words for the crew. */
fun list(path: File): List<String> {
    val shot = Seg2File.open(path).getOrElse { return listOf(it.words) } // "refused (16) in trace 0 at byte 88: a forbidden character .."
    return shot.traces.map { trace ->
        val where = trace.location("RECEIVER_LOCATION").fold({ "x = ${it.x}" }, { it.text() })
        "trace ${trace.index()}: $where, first sample ${first(trace.samples)}"
    }
}

/** Samples come in the kind of their format code. For a drawing `trace.doubles` has them all as doubles, none rounded. */
fun first(samples: Seg2Samples): String? = when (samples) {
    is Seg2Samples.Integers -> samples.values.firstOrNull()?.toString()
    is Seg2Samples.Floats -> samples.values.firstOrNull()?.toString()
    is Seg2Samples.Doubles -> samples.values.firstOrNull()?.toString()
}

/** One value, or null where the trace has no such keyword. */
fun stacks(shot: Seg2File, k: Int): String? = shot.trace(k).getOrNull()?.get("STACK")

/** A file that another app hands over, as `contentResolver.openInputStream(uri)` gives it, perhaps of an older recorder. */
fun openAny(stream: InputStream, tell: (String) -> Unit): Seg2File? {
    val (shot, refusal) = stream.use { Seg2File.openLenient(it) }
    refusal?.let { tell(it.words) }
    shot?.strictRefusal?.let { tell("An old file, to which nothing can be added: ${it.words}") }
    return shot
}

/** A new file of 24 slots with one trace, written whole or not at all. The sheet's lines may stand in any order. */
fun record(path: File, typedLocation: String, remarks: String, samples: IntArray, tell: (String) -> Unit): Boolean {
    val shot = Seg2Growing.start(Seg2.LOW_FIRST, 24, sheet { "UNITS" to "METERS" }).getOrThrow()
    val strings = sheet {
        note(remarks.lines())
        "STACK" to 4
        location("RECEIVER_LOCATION", typedLocation) // "12,5" is refused, and not taken for 125
    }
    strings.faultOrNull?.let { tell(it.toString()); return false } // which line, and which character of it
    shot.add(strings, Seg2.FIXED_32, samples).onRefusal { tell(it.words); return false } // the file is as it was
    shot.writeTo(path)
    return true
}
