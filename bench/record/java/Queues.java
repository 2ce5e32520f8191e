import java.util.*;
import java.util.concurrent.*;
import java.util.function.LongFunction;

/** Queues of java.util.concurrent, by the name of the class, or Wrong, and the calls of them that are recorded. Capacity 0 is none. */
class Queues {
    record Call(String name, LongFunction<Object> make) {
        String words(long value) {
            return name.equals("push") ? "push " + value : name;
        }

        String reply(Object result, long value) {
            return switch (name) {
                case "push" -> (boolean) result ? "ok" : "full " + value;
                case "pop" -> result == null ? "empty" : "item " + result;
                default -> result.toString();
            };
        }
    }

    /** A wrong one: it looks at the front, and takes the front off as another call. */
    static class Wrong extends ArrayBlockingQueue<Long> {
        Wrong(int capacity) {
            super(capacity);
        }

        @Override
        public Long poll() {
            Long front = peek();
            super.poll();
            return front;
        }
    }

    @SuppressWarnings("unchecked")
    static Queue<Long> queue(String name, int capacity) throws ReflectiveOperationException {
        if (name.equals("Wrong")) return new Wrong(capacity);
        var type = Class.forName("java.util.concurrent." + name);
        return (Queue<Long>) (capacity == 0 ? type.getConstructor().newInstance() : type.getConstructor(int.class).newInstance(capacity));
    }

    static List<Call> calls(String name, int capacity) throws ReflectiveOperationException {
        var queue = queue(name, capacity);
        Call push = new Call("push", queue::offer), pop = new Call("pop", value -> queue.poll());
        return List.of(push, pop, push, pop, new Call("len", value -> queue.size()), new Call("is_empty", value -> queue.isEmpty()));
    }
}
