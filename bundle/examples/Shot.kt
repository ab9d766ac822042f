import wasinthao.seg2.*

/** A shot file with one trace, written into memory, checked and read again. README.md has the line that builds and runs it. */
fun main() {
    val growing = Seg2Growing.start(Seg2.LOW_FIRST, 24, sheet { "UNITS" to "METERS" }).getOrElse { println(it.words); return }
    growing.add(sheet { location("RECEIVER_LOCATION", "12.5") }, Seg2.FIXED_32, intArrayOf(1, -1, 256)).onRefusal { println(it.words); return }
    val shot = growing.file().getOrElse { println(it.words); return }
    println("accepted, ${growing.length()} bytes")
    println("UNITS ${shot["UNITS"]}")
    for (trace in shot.traces) {
        val at = trace.location("RECEIVER_LOCATION").getOrThrow()
        println("trace ${trace.index()} at ${at.x}: ${trace.integers().getOrThrow().joinToString(" ")}")
    }
}
