import wasinthao.seg2.Seg2;
import wasinthao.seg2.Seg2File;
import wasinthao.seg2.Seg2Growing;
import wasinthao.seg2.Seg2Refused;
import wasinthao.seg2.Seg2Sheet;
import wasinthao.seg2.Seg2Trace;

/** A shot file with one trace, written into memory, checked and read again. README.md has the line that builds and runs it. */
public final class Shot {
    private Shot() {}

    public static void main(String[] words) {
        try {
            Seg2Growing growing = Seg2Growing.start(Seg2.LOW_FIRST, 24, new Seg2Sheet().put("UNITS", "METERS")).value();
            growing.add(new Seg2Sheet().location("RECEIVER_LOCATION", "12.5"), Seg2.FIXED_32, new int[] {1, -1, 256}).value();
            Seg2File shot = growing.file().value();
            System.out.println("accepted, " + growing.length() + " bytes");
            System.out.println("UNITS " + shot.value("UNITS"));
            for (Seg2Trace trace : shot.traces()) {
                StringBuilder line = new StringBuilder("trace " + trace.index() + " at " + trace.location("RECEIVER_LOCATION").value().x + ":");
                for (int sample : trace.integers().value()) {
                    line.append(' ').append(sample);
                }
                System.out.println(line);
            }
        } catch (Seg2Refused refused) {
            System.out.println(refused.getMessage());
            System.exit(1);
        }
    }
}
