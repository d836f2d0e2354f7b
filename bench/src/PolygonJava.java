// PolygonJava FILE: Java 2D's Path2D.contains over a flat list of events of two values.
// The file holds, as 32-bit words in native order, the number of vertex words, the number of event words, the vertices
// and the events. For each line of standard input one pass over the events is made; its nanoseconds of processor time
// and the number of events inside are written.

import java.awt.geom.Path2D;
import java.io.BufferedReader;
import java.io.IOException;
import java.io.InputStreamReader;
import java.lang.management.ManagementFactory;
import java.lang.management.ThreadMXBean;
import java.nio.ByteBuffer;
import java.nio.ByteOrder;
import java.nio.IntBuffer;
import java.nio.file.Files;
import java.nio.file.Paths;

public class PolygonJava {
    static int inside(Path2D polygon, int[] events) {
        int count = 0;
        for (int i = 0; i < events.length; i += 2) {
            if (polygon.contains(events[i], events[i + 1])) {
                count++;
            }
        }
        return count;
    }

    public static void main(String[] arguments) throws IOException {
        ByteBuffer bytes = ByteBuffer.wrap(Files.readAllBytes(Paths.get(arguments[0])));
        IntBuffer words = bytes.order(ByteOrder.nativeOrder()).asIntBuffer();
        int[] vertices = new int[words.get()];
        int[] events = new int[words.get()];
        words.get(vertices);
        words.get(events);

        Path2D polygon = new Path2D.Double(Path2D.WIND_NON_ZERO);
        polygon.moveTo(vertices[0], vertices[1]);
        for (int i = 2; i < vertices.length; i += 2) {
            polygon.lineTo(vertices[i], vertices[i + 1]);
        }
        polygon.closePath();

        ThreadMXBean clock = ManagementFactory.getThreadMXBean();
        BufferedReader passes = new BufferedReader(new InputStreamReader(System.in));
        while (passes.readLine() != null) {
            long start = clock.getCurrentThreadCpuTime();
            int count = inside(polygon, events);
            System.out.println((clock.getCurrentThreadCpuTime() - start) + " " + count);
        }
    }
}
