import java.io.BufferedReader;
import java.io.IOException;
import java.io.InputStreamReader;
import java.lang.ref.Reference;
import java.util.ArrayList;
import java.util.HashSet;
import java.util.List;
import java.util.Map;
import java.util.Set;
import java.util.concurrent.ConcurrentSkipListMap;
import java.util.concurrent.CyclicBarrier;
import java.util.concurrent.atomic.AtomicLong;
import java.util.concurrent.atomic.LongAdder;
import java.util.function.LongUnaryOperator;
import java.util.function.ToLongFunction;
import java.util.stream.LongStream;

/**
 * Java's ConcurrentSkipListMap, of which java.rs asks one line at a time: what a map answers, how long writes, ranges, operations and
 * inserts take, or how much memory. Times are measured as work.rs and inserts.rs do it, once the code has been compiled.
 */
final class SkipList {
    /** How many writes a thread makes before it sees whether the interval is over. */
    private static final int BATCH = 16;

    /** How many keys a thread that fills a map takes at a time. */
    private static final long BLOCK = 1_000;

    /** How often the garbage is collected before what is left of it counts. */
    private static final int COLLECTIONS = 3;

    /** The verbs of lines that ask for a time. */
    private static final Set<String> TIMED = Set.of("measure", "operate", "fill");

    /** For how many nanoseconds what such a verb asks for is done before its code is taken to be compiled. */
    private static final long COMPILING = 2_000_000_000;

    /** The verbs for which that was done. */
    private static final Set<String> COMPILED = new HashSet<>();

    private final ConcurrentSkipListMap<Long, Long> map = new ConcurrentSkipListMap<>();
    private final long keys;

    /** A map of so many numbers, of which every other one of each owner is present. */
    private SkipList(long keys, long owners) {
        this.keys = keys;
        for (long key = 0; key < keys; key++) {
            if (key / Math.max(owners, 1) % 2 == 0) {
                map.put(key, key + 7);
            }
        }
    }

    /** How many pairs were told, and a sum of these in their order. */
    private record Told(long count, long sum) {}

    private Told range(long from, long upto) {
        long count = 0;
        long sum = 0;
        for (Map.Entry<Long, Long> pair : map.subMap(from, upto).entrySet()) {
            count++;
            sum = (Long.rotateLeft(sum, 7) ^ pair.getKey()) + pair.getValue();
        }
        return new Told(count, sum);
    }

    private boolean insert(long key, long value) {
        return map.putIfAbsent(key, value) == null;
    }

    private boolean delete(long key) {
        return map.remove(key) != null;
    }

    private Long swap(long key, long value) {
        return map.replace(key, value);
    }

    /** The number below another that a random number stands for, by its upper half. */
    private static long below(long count, long random) {
        return (random >>> 32) * count >>> 32;
    }

    private long write(long random) {
        long key = below(keys, random);
        return switch ((int) Long.remainderUnsigned(random, 3)) {
            case 0 -> insert(key, random) ? 1 : 0;
            case 1 -> delete(key) ? 1 : 0;
            default -> swap(key, random) == null ? 0 : 1;
        };
    }

    /** Finds, inserts or deletes, of which a half are finds and a quarter inserts: what that answers, as a number. */
    private long operate(long random) {
        long key = below(keys, random);
        return switch ((int) Long.remainderUnsigned(random, 4)) {
            case 0 -> insert(key, random) ? 1 : 0;
            case 1 -> delete(key) ? 1 : 0;
            default -> map.getOrDefault(key, 0L);
        };
    }

    /** Asks for a range over so many numbers, or for the next key if that is 1: how many answers there are. */
    private long ask(long width, long random) {
        if (width == 1) {
            sink = map.ceilingEntry(below(keys, random));
            return 1;
        }
        long from = below(keys - width, random);
        Told told = range(from, from + width);
        sink = told;
        return told.count();
    }

    /** Where what nobody needs is put, so that it is made. */
    private static Object sink;

    /** A thread that acts until it is told to end: how long it took, how often it acted, and the sum of its answers. */
    private static final class Worker extends Thread {
        private final CyclicBarrier begin;
        private final long seed;
        private final int batch;
        private final LongUnaryOperator act;
        private volatile boolean isOver;
        private long nanoseconds;
        private long acts;
        private long answers;

        Worker(CyclicBarrier begin, long seed, int batch, LongUnaryOperator act) {
            this.begin = begin;
            this.seed = seed;
            this.batch = batch;
            this.act = act;
            start();
        }

        @Override
        public void run() {
            long random = (seed + 1) * 0x9E3779B97F4A7C15L;
            long batches = 0;
            long sum = 0;
            await(begin);
            long begun = System.nanoTime();
            do {
                for (int i = 0; i < batch; i++) {
                    random = next(random);
                    sum += act.applyAsLong(random);
                }
                batches++;
            } while (!isOver);
            nanoseconds = System.nanoTime() - begun;
            acts = batches * batch;
            answers = sum;
        }
    }

    private static long next(long random) {
        random ^= random << 13;
        random ^= random >>> 7;
        return random ^ random << 17;
    }

    private static void await(CyclicBarrier begin) {
        try {
            begin.await();
        } catch (Exception failed) {
            throw new IllegalStateException(failed);
        }
    }

    /** Ends all of these: how long they took in all, and how much of what counts they did. */
    private static String end(List<Worker> workers, ToLongFunction<Worker> counted) throws InterruptedException {
        long nanoseconds = 0;
        long count = 0;
        for (Worker worker : workers) {
            worker.isOver = true;
        }
        for (Worker worker : workers) {
            worker.join();
            nanoseconds += worker.nanoseconds;
            count += counted.applyAsLong(worker);
        }
        return nanoseconds + " " + count;
    }

    /** Has a map written to and scanned by so many threads: what its writers and its scanners took. */
    private static String measure(long keys, long owners, long readers, long width, long interval) throws InterruptedException {
        SkipList list = new SkipList(keys, owners);
        long random = 51 * 0x9E3779B97F4A7C15L;
        for (long turn = 0; turn < 2 * keys; turn++) {
            random = next(random);
            list.write(random);
        }
        CyclicBarrier begin = new CyclicBarrier((int) (owners + readers) + 1);
        List<Worker> writers = new ArrayList<>();
        for (long seed = 0; seed < owners; seed++) {
            writers.add(new Worker(begin, seed, BATCH, list::write));
        }
        List<Worker> scanners = new ArrayList<>();
        for (long seed = 0; seed < readers; seed++) {
            scanners.add(new Worker(begin, owners + seed, 1, it -> list.ask(width, it)));
        }
        await(begin);
        Thread.sleep(interval / 1_000_000);
        String scanned = end(scanners, worker -> worker.answers);
        return end(writers, worker -> worker.acts) + " " + scanned;
    }

    /** Has so many threads operate on all keys for so long: what they took in all, and how many operations there were. */
    private String operations(long threads, long interval) throws InterruptedException {
        CyclicBarrier begin = new CyclicBarrier((int) threads + 1);
        List<Worker> workers = new ArrayList<>();
        for (long seed = 0; seed < threads; seed++) {
            workers.add(new Worker(begin, seed, BATCH, this::operate));
        }
        await(begin);
        Thread.sleep(interval / 1_000_000);
        return end(workers, worker -> worker.acts);
    }

    /** Inserts the next block of ascending keys that no thread has taken, again and again. */
    private void insertBlocks(AtomicLong next, long end) {
        for (long block = next.getAndAdd(BLOCK); block < end; block = next.getAndAdd(BLOCK)) {
            for (long key = block; key < Math.min(block + BLOCK, end); key++) {
                insert(key, key + 7);
            }
        }
    }

    /** Has so many threads insert ascending keys into a new map: what they took in all, and how many keys there are. */
    private static String fill(long end, long threads) throws InterruptedException {
        SkipList list = new SkipList(0, 0);
        AtomicLong next = new AtomicLong();
        CyclicBarrier begin = new CyclicBarrier((int) threads);
        LongAdder took = new LongAdder();
        List<Thread> filling = new ArrayList<>();
        for (long i = 0; i < threads; i++) {
            Thread thread = new Thread(() -> {
                await(begin);
                long begun = System.nanoTime();
                list.insertBlocks(next, end);
                took.add(System.nanoTime() - begun);
            });
            thread.start();
            filling.add(thread);
        }
        for (Thread thread : filling) {
            thread.join();
        }
        if (list.map.size() != end) {
            throw new IllegalStateException("a key is not there");
        }
        return took + " " + end;
    }

    /** The numbers below another as inserts.rs shuffles them. */
    private static long[] shuffled(int count) {
        long[] keys = LongStream.range(0, count).toArray();
        long random = 5 * 0x9E3779B97F4A7C15L;
        for (int last = count - 1; last > 0; last--) {
            random = next(random);
            int other = (int) ((random >>> 32) % (last + 1));
            long key = keys[last];
            keys[last] = keys[other];
            keys[other] = key;
        }
        return keys;
    }

    /** The bytes of the heap that are used once the garbage is collected. */
    private static long usedHeap() {
        for (int i = 0; i < COLLECTIONS; i++) {
            System.gc();
        }
        Runtime runtime = Runtime.getRuntime();
        return runtime.totalMemory() - runtime.freeMemory();
    }

    /** By how many bytes of the heap a map of so many shuffled keys is heavier than none, and how many keys there are. */
    private static String weigh(long count) {
        long[] keys = shuffled((int) count);
        long before = usedHeap();
        SkipList list = new SkipList(0, 0);
        for (long key : keys) {
            list.insert(key, key + 7);
        }
        long after = usedHeap();
        Reference.reachabilityFence(keys);
        return after - before + " " + list.map.size();
    }

    private static String shown(Long value) {
        return value == null ? "none" : Long.toUnsignedString(value);
    }

    /** What a new map takes for what a line asks of it, or null if it asks the map that is there. */
    private static String once(String verb, long[] words) throws InterruptedException {
        return switch (verb) {
            case "measure" -> measure(words[0], words[1], words[2], words[3], words[4]);
            case "operate" -> new SkipList(words[0], words[1]).operations(words[1], words[2]);
            case "fill" -> fill(words[0], words[1]);
            case "weigh" -> weigh(words[0]);
            default -> null;
        };
    }

    /** The same. What is timed is done without a record before, and again and again for a while if it is the first of its verb. */
    private static String measured(String verb, long[] words) throws InterruptedException {
        if (TIMED.contains(verb)) {
            long end = System.nanoTime() + (COMPILED.add(verb) ? COMPILING : 0);
            do {
                once(verb, words);
            } while (System.nanoTime() < end);
        }
        return once(verb, words);
    }

    private String answer(String verb, long[] words) {
        switch (verb) {
            case "find":
                return shown(map.get(words[0]));
            case "insert":
                return insert(words[0], words[1]) ? "1" : "0";
            case "delete":
                return delete(words[0]) ? "1" : "0";
            case "swap":
                return shown(swap(words[0], words[1]));
            case "range":
                Told told = range(words[0], words[1]);
                return told.count() + " " + Long.toUnsignedString(told.sum());
            case "next":
                Map.Entry<Long, Long> next = map.ceilingEntry(words[0]);
                return next == null ? "none" : shown(next.getKey()) + " " + shown(next.getValue());
            default:
                throw new IllegalArgumentException(verb);
        }
    }

    public static void main(String[] none) throws IOException, InterruptedException {
        BufferedReader lines = new BufferedReader(new InputStreamReader(System.in));
        SkipList list = new SkipList(0, 0);
        for (String line = lines.readLine(); line != null; line = lines.readLine()) {
            String[] parts = line.split(" ");
            long[] words = new long[parts.length - 1];
            for (int at = 0; at < words.length; at++) {
                words[at] = Long.parseUnsignedLong(parts[at + 1]);
            }
            if (parts[0].equals("start")) {
                list = new SkipList(words[0], words[1]);
                System.out.println("started");
            } else {
                String measured = measured(parts[0], words);
                System.out.println(measured == null ? list.answer(parts[0], words) : measured);
            }
        }
    }
}
