package aerodrome.hooks;

import aerodrome.log.Line;
import aerodrome.log.Log;
import aerodrome.log.LoggedThread;
import aerodrome.names.FieldName;
import aerodrome.names.Numbers;
import java.lang.invoke.VarHandle;
import java.util.Collection;
import java.util.NoSuchElementException;
import java.util.concurrent.ConcurrentHashMap;
import java.util.concurrent.CopyOnWriteArrayList;
import java.util.concurrent.CopyOnWriteArraySet;
import java.util.concurrent.CountDownLatch;
import java.util.concurrent.Phaser;
import java.util.concurrent.atomic.AtomicIntegerArray;
import java.util.concurrent.atomic.AtomicLongArray;
import java.util.concurrent.atomic.AtomicReferenceArray;
import java.util.concurrent.locks.StampedLock;
import java.util.function.BooleanSupplier;

/** A call that is logged, from before it to behind it. */
public final class Call {
    private final LoggedThread me;
    private final Object receiver, argument;
    /** The value that the map must have under the key for the call to change it, as in `replace(key, old, next)`; null: any value. */
    private final Object expected;
    /** The collection or map behind the receiver, or that of an iterator; the receiver itself, if it is neither. */
    private Object of;
    private final long index;
    private final int site;
    private Kind kind;
    /** How often the lock was held that the call gives back. */
    private int times;
    /** Of a call of a queue, or of an iterator of one. */
    private Queues.Before queue;
    /** In which it arrived at a phaser. */
    private int phase;
    /** The meeting of the barrier at which this call arrived; null: none. */
    private Meetings meeting;
    private boolean wasWithin;
    /** Whether the call found nothing to change before it ran. It is then logged as a read, though another thread may have changed that. */
    private boolean mayChange;

    /** @param index of the element that is accessed, or an offset; below 0: none */
    Call(LoggedThread me, Object receiver, Object argument, long index, int site) {
        this(me, receiver, argument, index, null, site);
    }
    Call(LoggedThread me, Object receiver, Object argument, long index, Object expected, int site) {
        this.me = me;
        this.receiver = receiver;
        this.argument = argument;
        this.index = index;
        this.expected = expected;
        this.site = site;
    }

    // ---- before the call

    /** @param of the collection or map behind the receiver */
    void before(Kind kind, Object of) {
        this.kind = kind;
        this.of = of;
        switch (kind) {
            case READ: case STATE_READ: Log.hold(variable(Events.READ)); return;
            case WRITE: case STATE_WRITE: Log.hold(variable(Events.WRITE)); return;
            case SWAP: case EXCHANGE: case STATE_SWAP: case OPEN_TRY:
                variable(kind == Kind.OPEN_TRY ? Events.READ : Events.WRITE);
                Log.lock();
                return;
            case OPEN_ADD: Parts.hold(me, receiver, Parts.Way.ADDS, site); return;
            case OPEN_LOOK: Parts.hold(me, receiver, Parts.Way.LOOKS, site); return;
            case OPEN_RESET: Parts.hold(me, receiver, Parts.Way.RESETS, site); return;
            case SIGNAL: Parts.write(me, receiver, Parts.Way.ADDS, site); return;
            case MEET: me.arriving = this; return;
            case COUNT_DOWN: Parts.countDown(me, (CountDownLatch) receiver, site); return;
            case ARRIVE: case ARRIVE_AND_WAIT: phase = Phases.arrive(me, (Phaser) receiver, site); return;
            case RESETTING: Parts.write(me, receiver, Parts.Way.RESETS, site); return;
            case READ_IF_HELD:
                if (((StampedLock) receiver).isReadLocked()) write(Events.READ);
                return;
            case WRITE_IF_HELD:
                if (((StampedLock) receiver).isWriteLocked()) write(Events.WRITE);
                return;
            case STAMPED: beforeStamped(); return;
            case WRITE_BEFORE: Log.write(variable(Events.WRITE)); return;
            case COLLECTION_WRITE: Events.write(me, Events.WRITE, of, site); return;
            case COLLECTION_ADD: case COLLECTION_ADD_NEW: case COLLECTION_REMOVE: beforeCopying(); return;
            case UNLOCK: Locks.unlocking(me, receiver, site); return;
            case WAIT: times = Thread.holdsLock(receiver) ? Events.release(me, receiver, Integer.MAX_VALUE, site) : 0; return;
            case AWAIT: times = Locks.giveBack(me, receiver, site); return;
            case RELEASE: Permits.of(me, receiver).release(me, receiver, permits(), site); return;
            case ACQUIRE: case ACQUIRE_IF_TRUE: case ACQUIRE_ALL: Permits.of(me, receiver); return;
            case SEND: case SEND_FIRST: case HAND: case HAND_OVER:
                queue = Queues.of(of).put(me, of, argument, kind, site);
                return;
            case SEND_MANY: queue = Queues.of(of).putMany(); return;
            case RECEIVE: case RECEIVE_LAST: case PULL: case PULL_LAST: case PURGE: case SIFT:
                queue = Queues.of(of).take();
                return;
            case DRAIN: case DRAIN_SOME: queue = Queues.of(of).drain(argument); return;
            case PEEK: case PEEK_LAST: case LOOK: case SEEK: case COUNT: queue = Queues.of(of).look(); return;
            case UNPARK:
                if (argument != null) Parts.write(me, argument, Parts.Way.ADDS, site);
                return;
            case KEY_WRITE: case WHOLE_WRITE: Maps.write(me, kind, of, argument, site); return;
            case KEY_IF_ABSENT: case KEY_IF_PRESENT: case KEY_WITHIN: beforeChange(); return;
            case WHOLE_TAKE: beforeTake(); return;
            case ITERATOR_WRITE: beforeIterator(); return;
            default:
        }
    }

    /** Logs the access to the lock before the call if the stamp is a valid one of a lock, and after it if the stamp is optimistic. */
    private void beforeStamped() {
        boolean isWriter = StampedLock.isWriteLockStamp(index), isReader = StampedLock.isReadLockStamp(index);
        if (!isWriter && !isReader) kind = Kind.READ_IF_TRUE;
        else if (ask(() -> ((StampedLock) receiver).validate(index))) write(isWriter ? Events.WRITE : Events.READ);
    }

    private long permits() { return Math.max(index, index < 0 ? 1 : 0); }

    private void beforeChange() {
        boolean isIfAbsent = kind == Kind.KEY_IF_ABSENT, isIfPresent = kind == Kind.KEY_IF_PRESENT;
        if (receiver.getClass() == ConcurrentHashMap.class) {
            kind = Kind.KEY_WITHIN;
            return;
        }
        boolean isKept = argument != null && (isIfAbsent || isIfPresent) && hasKey() == isIfAbsent;
        mayChange = isKept && isIfPresent;
        kind = isKept ? Kind.KEY_READ : Kind.KEY_WRITE;
        if (!isKept) Maps.write(me, kind, of, argument, site);
    }
    private boolean hasKey() { return ask(() -> Maps.hasKey(of, argument, expected)); }
    /** Asks the map or set without logging what methods of the program do for the answer: the program hasn't asked. */
    private boolean ask(BooleanSupplier question) {
        me.isQuiet = true;
        try {
            return question.getAsBoolean();
        } finally {
            me.isQuiet = false;
        }
    }

    /** Logs a read, and no write, if the set, the map or the view doesn't have anything that the call would remove. */
    private void beforeTake() {
        mayChange = ask(() -> !Maps.hasSome(receiver, argument));
        kind = mayChange ? Kind.WHOLE_READ : Kind.WHOLE_WRITE;
        if (!mayChange) Maps.write(me, kind, of, argument, site);
    }

    /** Logs a call of a copy-on-write collection. If the call changes nothing, it takes no lock and is a read. */
    private void beforeCopying() {
        boolean isSet = of instanceof CopyOnWriteArraySet, isCopied = isSet || of instanceof CopyOnWriteArrayList;
        boolean removes = kind == Kind.COLLECTION_REMOVE && index < 0, adds = isSet || kind == Kind.COLLECTION_ADD_NEW;
        boolean mayStay = isCopied && (removes || kind != Kind.COLLECTION_REMOVE && adds);
        mayChange = mayStay && ask(() -> ((Collection<?>) of).contains(argument)) != removes;
        kind = mayChange ? Kind.COLLECTION_READ : Kind.COLLECTION_WRITE;
        if (!mayChange) Events.write(me, Events.WRITE, of, site);
    }
    boolean isWithin() { return kind == Kind.KEY_WITHIN; }
    /** Within the call: the key is changed, or only looked at. */
    void within(boolean isChanged) {
        wasWithin = true;
        if (Log.on) Maps.write(me, isChanged ? Kind.KEY_WRITE : Kind.KEY_READ, of, argument, site);
    }
    /** Logs the write of an update once its function has returned the next value, and not again if the function is called again. */
    void updates() {
        if (!wasWithin && Log.on) Log.write(variable(Events.WRITE));
        wasWithin = true;
    }
    /** Notes the meeting at which this call arrives, once the barrier has read its generation. */
    void arrives(Object barrier, Meetings next) {
        if (barrier != receiver) return;
        meeting = next;
        next.arrive(me, barrier, site);
    }

    private void beforeIterator() {
        of = Iterators.collection(receiver);
        if (of == null || Maps.hasKeys(of) || !Views.isOpaque(of) || Views.isUnmodifiable(receiver)) return;
        if (Calls.isQueue(of)) queue = Queues.of(of).take();
        else Events.write(me, Events.WRITE, of, site);
    }

    // ---- behind the call

    /** @param number what it gave, where that is a number; 1 stands for true */
    void after(Object result, long number) {
        boolean isTrue = number != 0;
        switch (kind) {
            case READ: case WRITE: case STATE_READ: case STATE_WRITE: Log.unlock(); return;
            case OPEN_ADD: case OPEN_LOOK: case OPEN_RESET: Log.unlock(); return;
            case SIGNALLED: Parts.write(me, receiver, Parts.Way.WAITS, site); return;
            case MEET:
                me.arriving = null;
                if (meeting != null) meeting.leave(me, receiver, site);
                return;
            case SIGNALLED_IF_TRUE:
                if (isTrue) Parts.write(me, receiver, Parts.Way.WAITS, site);
                return;
            case ARRIVE_AND_WAIT: Phases.passed(me, (Phaser) receiver, phase, site); return;
            case AWAIT_PHASE: Phases.passed(me, (Phaser) receiver, index, site); return;
            case LOOKED: Parts.write(me, receiver, Parts.Way.LOOKS, site); return;
            case SWAP: case EXCHANGE: case STATE_SWAP: swapped(isTrue); return;
            case OPEN_TRY: tried(isTrue); return;
            case READ_IF_TRUE:
                if (isTrue) write(Events.READ);
                return;
            case WRITE_IF_TRUE:
                if (isTrue) write(Events.WRITE);
                return;
            case COLLECTION_READ:
                Views.gave(of, result);
                Events.write(me, mayChange && isTrue ? Events.WRITE : Events.READ, of, site);
                return;
            case COLLECTION_GET:
                Events.write(me, result != null && Views.isInOrderOfAccess(of) ? Events.WRITE : Events.READ, of, site);
                return;
            case READ_AFTER: Log.write(variable(Events.READ)); return;
            case WRITE_AFTER: write(Events.WRITE); return;
            case LOCK: Locks.locked(me, receiver, site); return;
            case TRY_LOCK:
                if (isTrue) Locks.locked(me, receiver, site);
                return;
            case WAIT: Events.acquire(me, receiver, times, site); return;
            case AWAIT: Locks.takeBack(me, receiver, times, site); return;
            case ACQUIRE: Permits.of(me, receiver).acquire(me, receiver, permits(), site); return;
            case ACQUIRE_ALL: Permits.of(me, receiver).acquire(me, receiver, number, site); return;
            case ACQUIRE_IF_TRUE:
                if (isTrue) Permits.of(me, receiver).acquire(me, receiver, permits(), site);
                return;
            case SEND_MANY: Queues.of(of).wasPutMany(me, of, isTrue, site); return;
            case SEND: case SEND_FIRST: case HAND:
                if (isTrue) Queues.of(of).wasPut(me, of, argument, queue, site);
                else Queues.of(of).refused(me, of, argument, queue, site);
                return;
            case HAND_OVER: Queues.of(of).handedOver(me, of, result, queue, site); return;
            case RECEIVE: case RECEIVE_LAST: Queues.of(of).took(me, of, result, isLast(), queue, site); return;
            case DRAIN: case DRAIN_SOME: Queues.of(of).drained(me, of, number, kind == Kind.DRAIN, queue, site); return;
            case PEEK: case PEEK_LAST: Queues.of(of).peeked(me, of, result, isLast(), queue, site); return;
            case PULL: case PULL_LAST:
                Queues.of(of).pulled(me, of, isTrue ? argument : null, isLast(), queue, site);
                return;
            case PURGE: Queues.of(of).purged(me, of, true, queue, site); return;
            case SIFT:
                if (isTrue) Queues.of(of).purged(me, of, false, queue, site);
                else Queues.of(of).keptAll(me, of, queue, site);
                return;
            case ITERATOR_WRITE:
                if (queue != null) Queues.of(of).tookUnknown(me, of, queue, site);
                return;
            case LOOK: case SEEK: Queues.of(of).looked(me, of, isTrue == (kind == Kind.SEEK), queue, site); return;
            case COUNT: Queues.of(of).counted(me, of, queue, site); return;
            case KEY_WITHIN:
                if (!wasWithin) Maps.write(me, Kind.KEY_READ, of, argument, site);
                return;
            case KEY_READ:
                Maps.write(me, mayChange && (isTrue || result != null) ? Kind.KEY_WRITE : kind, of, argument, site);
                return;
            case WHOLE_READ:
                Views.gave(of, result);
                Maps.write(me, mayChange && (isTrue || result != null) ? Kind.WHOLE_WRITE : kind, of, argument, site);
                return;
            case UPDATE: updates(); return;
            default:
        }
    }

    private void swapped(boolean isTrue) {
        try {
            if (!isTrue) me.line.setOperation('r');
            Log.append(me.line);
        } finally {
            Log.unlock();
        }
    }

    /** Whether the receiver is a handle of a variable that has no object, so that what it gives as one is a copy. */
    boolean isOfPrimitive() { return receiver instanceof VarHandle && ((VarHandle) receiver).varType().isPrimitive(); }

    private void tried(boolean isTrue) {
        try {
            if (isTrue) Log.append(me.line);
        } finally {
            Log.unlock();
        }
    }

    void failed(Throwable thrown) {
        Log.unlock();
        if (queue != null) failedQueue(thrown);
        else if (thrown instanceof RuntimeException) failedRead(thrown);
        if (kind == Kind.MEET) me.arriving = null;
        if (kind == Kind.WAIT) Events.acquire(me, receiver, times, site);
        if (kind == Kind.AWAIT) Locks.takeBack(me, receiver, times, site);
    }

    /** Logs the read of a call that threw, if reads of its kind are logged after the call. A call without a key has read nothing. */
    private void failedRead(Throwable thrown) {
        if (thrown instanceof NullPointerException && argument == null && kind.ofKeys()) return;
        switch (kind) {
            case COLLECTION_READ: case COLLECTION_GET: case KEY_READ: case KEY_WITHIN: case WHOLE_READ: case LOOKED: case READ_AFTER:
                after(null, 0);
                return;
            case UPDATE:
                if (!wasWithin) Log.write(variable(Events.READ));
                return;
            default:
        }
    }

    private boolean isLast() { return kind == Kind.RECEIVE_LAST || kind == Kind.PEEK_LAST || kind == Kind.PULL_LAST; }

    private void failedQueue(Throwable thrown) {
        Queues queues = Queues.of(of);
        boolean isNone = thrown instanceof NoSuchElementException;
        switch (kind) {
            case SEND: case SEND_FIRST: case HAND: case HAND_OVER:
                if (thrown instanceof IllegalStateException) queues.refused(me, of, argument, queue, site);
                else queues.wasNotPut(argument, queue);
                return;
            case SEND_MANY: queues.wasPutMany(me, of, false, site); return;
            case RECEIVE: case RECEIVE_LAST:
                if (isNone) queues.took(me, of, null, isLast(), queue, site);
                else queues.ended();
                return;
            case PEEK: case PEEK_LAST:
                if (isNone) queues.peeked(me, of, null, isLast(), queue, site);
                return;
            case COUNT:
                if (thrown instanceof RuntimeException) queues.counted(me, of, queue, site);
                return;
            case LOOK: case SEEK: return;
            default: queues.ended();
        }
    }

    // ---- lines

    private void write(byte[] operation) { Events.write(me, operation, receiver, site); }

    private boolean isArray() {
        return receiver instanceof AtomicIntegerArray || receiver instanceof AtomicLongArray || receiver instanceof AtomicReferenceArray;
    }

    /** The receiver as a variable; where it stands for others, as an updater or a handle of a field, that of the argument. */
    private Line variable(byte[] operation) {
        Line line = me.line.begin().put(operation);
        Object field = Numbers.tied(receiver);
        if (Calls.isUnsafe(receiver)) Offsets.put(line, receiver, argument, index);
        else if (field instanceof FieldName && ((FieldName) field).isOf(argument)) ((FieldName) field).put(line, argument);
        else if (Handles.isHandle(receiver)) Handles.putElement(line, argument, index);
        else {
            Events.putObject(line, receiver);
            if (index >= 0 && isArray()) line.put('[').put(index).put(']');
        }
        Events.end(line, site);
        return line;
    }
}
