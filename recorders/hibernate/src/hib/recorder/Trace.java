package hib.recorder;

import java.io.BufferedWriter;
import java.io.FileOutputStream;
import java.io.IOException;
import java.io.OutputStreamWriter;
import java.io.Writer;
import java.nio.charset.StandardCharsets;

/**
 * The file of a trace, with a line for each call that has returned. It is named by the system property
 * {@code hib.trace}, else it is {@code hib-trace.jsonl} in the working directory, to which lines are added.
 */
final class Trace {
    private static final long START = System.nanoTime();
    private static Writer file;

    /** What a thread does now: its transactions by number, and the misses that a row may be loaded after. */
    static final class Work {
        final String session = Thread.currentThread().getName();
        long transaction = 1;
        String missed;
        long missedAt;
        boolean isWriting;
        long commitBegin;
    }

    private static final ThreadLocal<Work> WORK = ThreadLocal.withInitial(Work::new);

    private Trace() {}

    static Work work() {
        return WORK.get();
    }

    /** Nanoseconds since the recorder began, by one clock for all threads. */
    static long now() {
        return System.nanoTime() - START;
    }

    /** Writes the line of a call. What is null is left out. */
    static void note(String operation, String key, Row row, long begin, long end, String outcome) {
        Work work = work();
        StringBuilder line = new StringBuilder(160);
        line.append("{\"session\":\"").append(escaped(work.session)).append("\",\"tx\":\"").append(escaped(work.session)).append('/')
            .append(work.transaction).append("\",\"op\":\"").append(operation).append('"');
        if (key != null) line.append(",\"key\":\"").append(escaped(key)).append('"');
        if (row != null && row.version != null) line.append(",\"version\":").append(row.version);
        if (row != null) line.append(",\"value\":\"").append(row.value).append('"');
        line.append(",\"begin\":").append(begin).append(",\"end\":").append(end);
        if (outcome != null) line.append(",\"outcome\":\"").append(outcome).append('"');
        write(line.append("}\n").toString());
    }

    private static String escaped(String text) {
        return text.replace("\\", "\\\\").replace("\"", "\\\"");
    }

    private static synchronized void write(String line) {
        try {
            if (file == null) open();
            file.write(line);
        } catch (IOException e) {
            throw new IllegalStateException("the trace can't be written", e);
        }
    }

    private static void open() throws IOException {
        String path = System.getProperty("hib.trace", "hib-trace.jsonl");
        file = new BufferedWriter(new OutputStreamWriter(new FileOutputStream(path, true), StandardCharsets.UTF_8));
        Runtime.getRuntime().addShutdownHook(new Thread(Trace::flush));
    }

    /** Lines that wait are written. This is done at the end of the program, too. */
    static synchronized void flush() {
        try {
            if (file != null) file.flush();
        } catch (IOException e) {
            System.err.println("hib: the trace can't be written: " + e.getMessage());
        }
    }
}
