// JDK's ConcurrentSkipListMap<Long, Long>, whose keys and pointers are boxed at each call, as its users do. It does with a file of cases
// what src/side.rs does. A second file is run first and not told, so that all is compiled when the clock starts.
import java.io.IOException;
import java.nio.ByteBuffer;
import java.nio.ByteOrder;
import java.nio.LongBuffer;
import java.nio.channels.FileChannel;
import java.nio.file.Path;
import java.util.Map;
import java.util.concurrent.ConcurrentSkipListMap;
import java.util.concurrent.atomic.AtomicInteger;

final class Skip {
    static final int FIND = 0, INSERT = 1, DELETE = 2, REPLACE = 3, SCAN = 4, LOOK = 5;
    // So that a scan whose entries nobody adds isn't left out.
    static volatile long looked;
    static final long MANY = 2, ABSENT = 1, INSERTED = 2, SAME = -1;
    static final int WARM_UPS = 2;

    // The steps of a thread: three words each.
    record Phase(long mode, long[][] threads) {}

    // The words of a file, which may be longer than a buffer.
    static final class Words {
        final FileChannel file;
        final ByteBuffer bytes = ByteBuffer.allocateDirect(1 << 20).order(ByteOrder.LITTLE_ENDIAN);

        Words(String path) throws IOException {
            file = FileChannel.open(Path.of(path));
            bytes.limit(0);
        }

        long next() throws IOException {
            if (bytes.remaining() < 8) {
                bytes.compact();
                while (bytes.position() < 8) if (file.read(bytes) < 0) throw new IOException("the file of cases is cut short");
                bytes.flip();
            }
            return bytes.getLong();
        }

        long[] list(int count) throws IOException {
            long[] words = new long[count];
            for (int i = 0; i < count; i++) words[i] = next();
            return words;
        }

        Phase phase() throws IOException {
            long mode = next();
            long[][] threads = new long[(int) next()][];
            for (int i = 0; i < threads.length; i++) threads[i] = list(3 * (int) next());
            return new Phase(mode, threads);
        }
    }

    static long found(Long pointer) {
        return pointer == null ? ABSENT : pointer;
    }

    static long scan(ConcurrentSkipListMap<Long, Long> map, long from, long count) {
        long sum = 0;
        for (Map.Entry<Long, Long> entry : map.tailMap(from, true).entrySet()) {
            if (count-- == 0) break;
            sum += entry.getKey() ^ entry.getValue();
        }
        return sum;
    }

    static long answer(ConcurrentSkipListMap<Long, Long> map, long[] steps) {
        long sum = 0;
        for (int i = 0; i < steps.length; i += 3) {
            long key = steps[i + 1], pointer = steps[i + 2];
            switch ((int) steps[i]) {
                case FIND -> sum += found(map.get(key));
                case INSERT -> sum += map.putIfAbsent(key, pointer) == null ? INSERTED : ABSENT;
                case DELETE -> sum += found(map.remove(key));
                case REPLACE -> sum += found(map.replace(key, pointer));
                // What it finds is nobody's to know, since others insert meanwhile.
                case LOOK -> looked += scan(map, key, pointer);
                default -> sum += scan(map, key, pointer);
            }
        }
        return sum;
    }

    // Nanoseconds from the first start to the last end, and the sum of the answers.
    static long[] timed(ConcurrentSkipListMap<Long, Long> map, Phase phase) throws InterruptedException {
        int count = phase.threads.length;
        if (count == 1) {
            long start = System.nanoTime(), sum = answer(map, phase.threads[0]);
            return new long[] {System.nanoTime() - start, sum};
        }
        long[] start = new long[count], end = new long[count], sum = new long[count];
        AtomicInteger ready = new AtomicInteger();
        Thread[] threads = new Thread[count];
        for (int i = 0; i < count; i++) {
            int t = i;
            threads[i] = new Thread(() -> {
                ready.incrementAndGet();
                while (ready.get() < count) Thread.yield();
                start[t] = System.nanoTime();
                sum[t] = answer(map, phase.threads[t]);
                end[t] = System.nanoTime();
            });
            threads[i].start();
        }
        long first = Long.MAX_VALUE, last = Long.MIN_VALUE, all = 0;
        for (int i = 0; i < count; i++) {
            threads[i].join();
            first = Math.min(first, start[i]);
            last = Math.max(last, end[i]);
            all += sum[i];
        }
        return new long[] {last - first, all};
    }

    static void run(String path, boolean tells) throws IOException, InterruptedException {
        Words words = new Words(path);
        long[] entries = {}, keys = {};
        long cases = words.next();
        for (long number = 0; number < cases; number++) {
            long size = words.next();
            if (size != SAME) {
                entries = words.list(2 * (int) size);
                keys = words.list((int) words.next());
            }
            Phase[] phases = new Phase[(int) words.next()];
            for (int i = 0; i < phases.length; i++) phases[i] = words.phase();
            // What the case before left isn't collected while the clock runs.
            if (tells) System.gc();
            long begin = System.nanoTime();
            ConcurrentSkipListMap<Long, Long> map = new ConcurrentSkipListMap<>();
            for (int i = 0; i < entries.length; i += 2) map.putIfAbsent(entries[i], entries[i + 1]);
            long begun = System.nanoTime() - begin;
            for (int i = 0; i < phases.length; i++) {
                if (phases[i].mode == MANY) {
                    if (tells) System.out.println("left " + number + " " + i);
                    continue;
                }
                long[] told = timed(map, phases[i]);
                if (tells) System.out.println("phase " + number + " " + i + " " + told[0] + " " + Long.toUnsignedString(told[1]));
            }
            long contents = 0;
            for (long key : keys) contents = contents * 31 + found(map.get(key));
            if (!tells) continue;
            System.out.println("contents " + number + " " + Long.toUnsignedString(contents));
            System.out.println("beside " + number + " begin " + begun);
        }
        words.file.close();
    }

    public static void main(String[] paths) throws IOException, InterruptedException {
        for (int i = 0; paths.length > 1 && i < WARM_UPS; i++) run(paths[1], false);
        run(paths[0], true);
    }
}
