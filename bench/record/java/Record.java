import java.util.*;
import java.util.concurrent.atomic.*;

/** Records small histories of threads on a queue, a new queue for each: Record QUEUE CAPACITY [HISTORIES]. A line in Queues.java is what a queue of yours needs. */
public class Record {
    static final int THREADS = 3, CALLS = 8;

    static String[] record(List<Queues.Call> calls, long seed) throws InterruptedException {
        var clock = new AtomicInteger();
        var arrived = new AtomicInteger();
        var lines = new String[2 * THREADS * CALLS];
        var threads = new ArrayList<Thread>();
        for (int each = 0; each < THREADS; each++) {
            int party = each;
            threads.add(new Thread(() -> {
                var random = new SplittableRandom(seed * THREADS + party);
                arrived.incrementAndGet();
                for (int spins = 0; arrived.get() < THREADS; spins++)
                    if (spins > 1000) Thread.yield();
                    else Thread.onSpinWait();
                for (int at = 0; at < CALLS; at++) {
                    var call = calls.get(random.nextInt(calls.size()));
                    long value = 100L * (party + 1) + at;
                    for (int pause = random.nextInt(64); pause > 0; pause--) Thread.onSpinWait();
                    int begin = clock.getAndIncrement();
                    Object result = call.make().apply(value);
                    int end = clock.getAndIncrement();
                    lines[begin] = party + " " + call.words(value);
                    lines[end] = party + " = " + call.reply(result, value);
                }
            }));
        }
        for (var thread : threads) thread.start();
        for (var thread : threads) thread.join();
        return lines;
    }

    public static void main(String[] words) throws Exception {
        long histories = words.length > 2 ? Long.parseLong(words[2]) : 2000;
        for (long seed = 0; seed < histories; seed++)
            System.out.println(String.join("\n", record(Queues.calls(words[0], Integer.parseInt(words[1])), seed)) + "\n");
    }
}
