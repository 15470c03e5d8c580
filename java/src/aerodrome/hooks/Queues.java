package aerodrome.hooks;

import aerodrome.log.Line;
import aerodrome.log.Log;
import aerodrome.log.LoggedThread;
import aerodrome.names.Numbers;
import aerodrome.names.Text;
import java.util.ArrayDeque;
import java.util.ArrayList;
import java.util.Collection;
import java.util.Deque;
import java.util.HashMap;
import java.util.HashSet;
import java.util.Iterator;
import java.util.List;
import java.util.Map;
import java.util.Queue;
import java.util.Set;
import java.util.concurrent.ArrayBlockingQueue;
import java.util.concurrent.DelayQueue;
import java.util.concurrent.Exchanger;
import java.util.concurrent.LinkedBlockingDeque;
import java.util.concurrent.LinkedBlockingQueue;
import java.util.concurrent.LinkedTransferQueue;
import java.util.concurrent.PriorityBlockingQueue;
import java.util.concurrent.SynchronousQueue;
import java.util.function.Supplier;

/**
 * What is known of a queue for several threads. Each put has a number: it writes `item.N` before the call, which is read behind the
 * call that takes what was put. So those who put don't conflict with each other, and neither do those who take. An object may be in
 * the queue several times, as a small number or a mark of the end. Then who takes it from one end has the put that stands there. An
 * Exchanger is a queue for this, through which each of two threads puts and takes. A put that the queue may refuse isn't written
 * before the call, but as soon as one knows of it: by the thread that takes the object, or behind the call. One that is refused is a
 * look that finds something.
 *
 * Those who look have variables by their thread N: a look that finds nothing, or counts, writes `none.N`, which each later put
 * reads; one that finds something, or counts, writes `head.N`, which each later take reads, and which the next take of the thread
 * itself writes. Where puts may change what stands at an end, a look at that also writes `first.N` or `last.N`, which each later put
 * there reads. So looks don't conflict with each other, and a queue at which nobody looks has no events for it. A look that
 * overlaps with a put or a take isn't logged, as nobody can say which came first.
 */
final class Queues {
    private static final byte[] ITEM = Text.bytes(".item"), NONE = Text.bytes(".none"), HEAD = Text.bytes(".head");
    private static final byte[] FIRST = Text.bytes(".first"), LAST = Text.bytes(".last");

    private static final class Put {
        final long number;
        final Kind kind;
        final int site;
        /** The thread that puts; null once the lines of the put are written. */
        LoggedThread by;
        /** Whether the call has ended, so that the object is in the queue, or was. */
        boolean isEnded;

        Put(long number, Kind kind, int site) {
            this.number = number;
            this.kind = kind;
            this.site = site;
        }
    }

    /** How a queue goes on with what is put. */
    private enum Way {
        /** A put waits until there is room. */
        ROOM,
        /** It has room for all, but a put may wait until its object is taken. */
        ENDLESS,
        /** None is inside: who puts, and who takes, meet. */
        HANDS_OVER
    }
    private final Way way;
    /** Whether it may refuse a put, and whether what is put may go to the front although it isn't put there. */
    private final boolean mayRefuse, isSorted;
    private final boolean isDeque;

    /** The puts whose objects are in the queue, as they stand there, by the objects' numbers; 0 stands for null. */
    private final Map<Long, ArrayDeque<Put>> inside = new HashMap<>();
    /** How many puts and takes have begun, and how many of these haven't ended. */
    private long puts, takes;
    private int putting, taking;
    /** The threads that have looked, as bits. */
    private long foundNone, foundSome, sawFirst, sawLast;

    private static final int MOST = 10_000;
    private int most = MOST;

    private Queues(Object queue) {
        boolean handsOver = queue instanceof SynchronousQueue || queue instanceof Exchanger;
        way = handsOver ? Way.HANDS_OVER : queue instanceof LinkedTransferQueue ? Way.ENDLESS : Way.ROOM;
        isDeque = queue instanceof Deque;
        isSorted = queue instanceof PriorityBlockingQueue || queue instanceof DelayQueue;
        mayRefuse = queue instanceof SynchronousQueue || queue instanceof ArrayBlockingQueue || queue instanceof LinkedBlockingQueue
                || queue instanceof LinkedBlockingDeque;
    }

    /** It doesn't name its queue, which would live as long as it then. */
    static Queues of(Object queue) {
        Numbers.Entry entry = Numbers.entry(queue);
        if (entry.tied instanceof Queues) return (Queues) entry.tied;
        synchronized (entry) {
            if (!(entry.tied instanceof Queues)) entry.tied = new Queues(queue);
            return (Queues) entry.tied;
        }
    }

    /** What a call has to know behind it of what was before it. */
    static final class Before {
        private Put put;
        private long puts, takes;
        /** Whether nobody was putting, or taking. */
        private boolean isUnput, isUntaken;
        /** Whether a thread has looked at the front. */
        private boolean isSeen;
        /** Where what is drained goes, and how much is there already; null where nobody can say what came there. */
        private Collection<?> to;
        private int size;
    }

    // ---- before a call

    synchronized Before put(LoggedThread me, Object queue, Object item, Kind kind, int site) {
        Before before = look();
        Put put = before.put = new Put(++puts, kind, site);
        putting++;
        if (item == null && kind != Kind.HAND_OVER) return before;
        if (inside.size() > most) forget(queue);
        ArrayDeque<Put> same = inside.computeIfAbsent(number(item), number -> new ArrayDeque<>(2));
        if (kind == Kind.SEND_FIRST) same.addFirst(put);
        else same.addLast(put);
        put.by = me;
        if (!mayRefuse && kind != Kind.HAND) tell(queue, put, me.line);
        return before;
    }
    private static long number(Object item) { return item == null ? 0 : Numbers.of(item); }

    /** Writes the lines of a put, unless they are written already. `line` must be a line of the thread that puts. */
    private void tell(Object queue, Put put, Line line) {
        LoggedThread by = put.by;
        put.by = null;
        // What is handed to one who waits for it leaves the queue empty.
        if (put.kind != Kind.HAND) {
            each(by, line, queue, foundNone, NONE, put.site);
            if (put.kind == Kind.SEND_FIRST) each(by, line, queue, sawFirst, FIRST, put.site);
            else each(by, line, queue, sawLast, LAST, put.site);
        }
        write(line, Events.WRITE, queue, ITEM, put.number, put.site);
    }

    /** Puts whose objects have no numbers. */
    synchronized Before putMany() {
        putting++;
        puts++;
        return new Before();
    }

    /** Of what left the queue by code that isn't logged. */
    private void forget(Object queue) {
        boolean isKnown = queue instanceof Collection && queue.getClass().getClassLoader() == null;
        int size = isKnown ? ((Collection<?>) queue).size() : 0;
        if (size < inside.size() / 2) inside.clear();
        most = Math.max(MOST, 2 * size);
    }

    synchronized Before take() {
        takes++;
        Before before = look();
        taking++;
        return before;
    }
    Before drain(Object to) {
        Before before = take();
        if (!isPlain(to)) return before;
        before.size = ((Collection<?>) to).size();
        // What comes to a list stands behind what was there.
        if (before.size == 0 || to instanceof List || to instanceof Deque) before.to = (Collection<?>) to;
        return before;
    }
    /** Whether it is a collection of the JDK whose methods call none of the program, and take no monitor. */
    private static boolean isPlain(Object to) {
        if (!(to instanceof Collection) || to.getClass().getClassLoader() != null) return false;
        return to.getClass().getName().indexOf('$') < 0 && !Monitors.has(to);
    }

    synchronized Before look() {
        Before before = new Before();
        before.puts = puts;
        before.takes = takes;
        before.isUnput = putting == 0;
        before.isUntaken = taking == 0;
        before.isSeen = sawFirst != 0;
        return before;
    }

    // ---- behind it

    void wasPut(LoggedThread me, Object queue, Object item, Before before, int site) {
        boolean isFirst = isSorted && before.isSeen && ask(me, () -> ((Queue<?>) queue).peek()) == item;
        ended(me, queue, before, isFirst, site);
    }
    private synchronized void ended(LoggedThread me, Object queue, Before before, boolean isFirst, int site) {
        putting--;
        before.put.isEnded = true;
        if (before.put.by != null) tell(queue, before.put, me.line);
        if (isFirst) each(me, me.line, queue, sawFirst, FIRST, site);
    }
    /** Forgets a put whose call has put nothing. */
    synchronized void wasNotPut(Object item, Before before) {
        putting--;
        ArrayDeque<Put> same = inside.get(number(item));
        if (same != null && same.remove(before.put) && same.isEmpty()) inside.remove(number(item));
    }
    /** Forgets a put that the full queue refused, and logs the look that the refusal is. */
    synchronized void refused(LoggedThread me, Object queue, Object item, Before before, int site) {
        wasNotPut(item, before);
        if (way == Way.ROOM) sawSome(me, queue, before, site);
    }
    synchronized void wasPutMany(LoggedThread me, Object queue, boolean isPut, int site) {
        putting--;
        if (!isPut) return;
        each(me, me.line, queue, foundNone, NONE, site);
        each(me, me.line, queue, sawLast, LAST, site);
    }
    /** By an Exchanger: another thread has taken the one object, and this one has that thread's. */
    synchronized void handedOver(LoggedThread me, Object exchanger, Object got, Before before, int site) {
        ended(me, exchanger, before, false, site);
        ArrayDeque<Put> same = inside.get(number(got));
        boolean isMine = same != null && same.remove(before.put);
        if (same != null && !same.isEmpty()) received(me, exchanger, got, false, true, site);
        if (isMine) inside.computeIfAbsent(number(got), number -> new ArrayDeque<>(2)).addFirst(before.put);
        else if (same != null && same.isEmpty()) inside.remove(number(got));
    }

    void took(LoggedThread me, Object queue, Object item, boolean isLast, Before before, int site) {
        boolean isNone = item == null && isEmpty(me, queue);
        synchronized (this) {
            taking--;
            if (isNone) foundNothing(me, queue, before, site);
            if (item == null) return;
            received(me, queue, item, isLast, true, site);
            wasTaken(me, queue, before, site);
        }
    }
    /** @param isAll whether it was to take all */
    void drained(LoggedThread me, Object queue, long count, boolean isAll, Before before, int site) {
        boolean isNone = (isAll || count == 0) && isEmpty(me, queue);
        synchronized (this) {
            taking--;
            if (before.to != null && count > 0) {
                Object[] all = before.to.toArray();
                for (int one = before.size; one < all.length; one++) received(me, queue, all[one], false, true, site);
            }
            if (count > 0) wasTaken(me, queue, before, site);
            if (isNone) foundNothing(me, queue, before, site);
        }
    }
    synchronized void ended() { taking--; }
    /** @param item that was taken, or null if it wasn't there */
    synchronized void pulled(LoggedThread me, Object queue, Object item, boolean isLast, Before before, int site) {
        taking--;
        if (item == null) {
            sawNone(me, queue, before, site);
            return;
        }
        received(me, queue, item, isLast, true, site);
        wasTaken(me, queue, before, site);
    }
    /** An object was taken, and nobody can say which. */
    synchronized void tookUnknown(LoggedThread me, Object queue, Before before, int site) {
        taking--;
        inside.clear();
        wasTaken(me, queue, before, site);
    }
    /** All that is inside was looked at, and some of it taken: all, or what doesn't stand there now. */
    void purged(LoggedThread me, Object queue, boolean isAll, Before before, int site) {
        Set<Long> left = isAll ? Set.of() : ask(me, () -> numbers((Collection<?>) queue));
        synchronized (this) {
            taking--;
            boolean isAlone = isFirst(before);
            for (long one : leave(left, before)) if (isAlone) write(me.line, Events.READ, queue, ITEM, one, site);
            wasChanged(me, queue, site);
            sawNone(me, queue, before, site);
        }
    }
    private static Set<Long> numbers(Collection<?> objects) {
        Set<Long> numbers = new HashSet<>();
        for (Object one : objects) numbers.add(Numbers.of(one));
        return numbers;
    }
    /** Drops the puts that had ended before the call and whose objects aren't left, and returns their numbers. */
    private List<Long> leave(Set<Long> left, Before before) {
        List<Long> gone = new ArrayList<>();
        for (Iterator<Map.Entry<Long, ArrayDeque<Put>>> all = inside.entrySet().iterator(); all.hasNext(); ) {
            Map.Entry<Long, ArrayDeque<Put>> one = all.next();
            if (left.contains(one.getKey())) continue;
            for (Put put : one.getValue()) if (put.isEnded && put.number <= before.puts) gone.add(put.number);
            one.getValue().removeIf(put -> put.isEnded && put.number <= before.puts);
            if (one.getValue().isEmpty()) all.remove();
        }
        gone.sort(null);
        return gone;
    }
    /** All that is inside was looked at, and nothing taken. */
    synchronized void keptAll(LoggedThread me, Object queue, Before before, int site) {
        taking--;
        sawNone(me, queue, before, site);
    }

    synchronized void peeked(LoggedThread me, Object queue, Object item, boolean isLast, Before before, int site) {
        if (item == null) {
            sawNone(me, queue, before, site);
            return;
        }
        received(me, queue, item, isLast, false, site);
        sawSome(me, queue, before, site);
        if (isDeque || isSorted) sawEnd(me, queue, isLast, before, site);
    }
    /** @param isSome whether it found what it looked for */
    synchronized void looked(LoggedThread me, Object queue, boolean isSome, Before before, int site) {
        if (isSome) sawSome(me, queue, before, site);
        else sawNone(me, queue, before, site);
    }
    synchronized void counted(LoggedThread me, Object queue, Before before, int site) {
        sawNone(me, queue, before, site);
        sawSome(me, queue, before, site);
    }

    /** Asks the queue, which may be one of a class of the program, without logging what that does for the answer. */
    private static <T> T ask(LoggedThread me, Supplier<T> question) {
        me.isQuiet = true;
        try {
            return question.get();
        } finally {
            me.isQuiet = false;
        }
    }
    /** Whether a take that found nothing found the queue empty: a DelayQueue may have objects whose time isn't up. */
    private static boolean isEmpty(LoggedThread me, Object queue) {
        return !(queue instanceof DelayQueue) || ask(me, () -> ((Queue<?>) queue).isEmpty());
    }

    // ---- lines

    private void received(LoggedThread me, Object queue, Object item, boolean isLast, boolean isGone, int site) {
        ArrayDeque<Put> same = inside.get(number(item));
        if (same == null) return;
        Put put = way == Way.HANDS_OVER ? handed(same) : standing(same, isLast);
        if (isGone && (put == null || same.size() == 1)) inside.remove(number(item));
        else if (isGone) same.remove(put);
        if (put == null) return;
        if (put.by != null) tell(queue, put, put.by.lineForAnother());
        write(me.line, Events.READ, queue, ITEM, put.number, site);
    }
    /**
     * Of several puts of one object: that which stands at this end. One that hasn't ended may still wait for room, so others come
     * before it.
     */
    private Put standing(ArrayDeque<Put> same, boolean isLast) {
        Put next = isLast ? same.getLast() : same.getFirst();
        if (next.isEnded || way == Way.ENDLESS) return next;
        for (Iterator<Put> all = isLast ? same.descendingIterator() : same.iterator(); all.hasNext(); ) {
            Put one = all.next();
            if (one.isEnded) return one;
        }
        return next;
    }
    /** The only one, or, if nobody else takes, the only one that has ended; null where there may be others. */
    private Put handed(ArrayDeque<Put> same) {
        if (same.size() == 1) return same.getFirst();
        Put ended = null;
        for (Put one : same) {
            if (!one.isEnded) continue;
            if (ended != null || taking > 0) return null;
            ended = one;
        }
        return ended;
    }
    private void wasTaken(LoggedThread me, Object queue, Before before, int site) {
        wasChanged(me, queue, site);
        sawAgain(me, queue, before, site);
    }
    private void wasChanged(LoggedThread me, Object queue, int site) {
        each(me, me.line, queue, foundSome, HEAD, site);
        // Of a sorted queue: nobody can say whether what is put later would have been before what was seen, and is gone.
        if (isSorted) sawFirst = 0;
    }
    /** A thread that found something before has had its turn. */
    private void sawAgain(LoggedThread me, Object queue, Before before, int site) {
        if ((foundSome & me.bit()) == 0) return;
        foundSome &= ~me.bit();
        if (isFirst(before)) write(me.line, Events.WRITE, queue, HEAD, me.group(), site);
    }
    private void sawNone(LoggedThread me, Object queue, Before before, int site) {
        // There is never anything in it to see.
        if (way == Way.HANDS_OVER) return;
        sawAgain(me, queue, before, site);
        if (!isUnput(before)) return;
        foundNone |= me.bit();
        write(me.line, Events.WRITE, queue, NONE, me.group(), site);
    }
    /** The queue is empty behind a take, and was so all the time if nobody else took. */
    private void foundNothing(LoggedThread me, Object queue, Before before, int site) {
        if (!(queue instanceof DelayQueue) || isFirst(before)) sawNone(me, queue, before, site);
    }
    private void sawSome(LoggedThread me, Object queue, Before before, int site) {
        if (way == Way.HANDS_OVER || !isFirst(before)) return;
        foundSome |= me.bit();
        write(me.line, Events.WRITE, queue, HEAD, me.group(), site);
    }
    /** It saw what stands at an end, where another object may be put. */
    private void sawEnd(LoggedThread me, Object queue, boolean isLast, Before before, int site) {
        if (!isFirst(before) || !isUnput(before)) return;
        if (isLast) sawLast |= me.bit();
        else sawFirst |= me.bit();
        write(me.line, Events.WRITE, queue, isLast ? LAST : FIRST, me.group(), site);
    }
    /** Whether no other thread took meanwhile. */
    private boolean isFirst(Before before) { return taking == 0 && before.isUntaken && takes == before.takes; }
    /** Whether no thread put meanwhile. */
    private boolean isUnput(Before before) { return putting == 0 && before.isUnput && puts == before.puts; }

    /** Reads the variable of each other thread that has looked. */
    private static void each(LoggedThread by, Line line, Object queue, long looked, byte[] part, int site) {
        for (long left = looked & ~by.bit(); left != 0; left &= left - 1)
            write(line, Events.READ, queue, part, Long.numberOfTrailingZeros(left), site);
    }
    private static void write(Line line, byte[] operation, Object queue, byte[] part, long number, int site) {
        Events.end(Events.putObject(line.begin().put(operation), queue).put(part).put(number), site);
        Log.write(line);
    }
}
