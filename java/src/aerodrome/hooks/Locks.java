package aerodrome.hooks;

import aerodrome.log.LoggedThread;
import aerodrome.names.Numbers;
import aerodrome.names.Text;
import java.lang.invoke.MethodHandle;
import java.lang.invoke.MethodHandles;
import java.lang.invoke.MethodType;
import java.lang.invoke.VarHandle;
import java.lang.reflect.Field;
import java.util.concurrent.locks.AbstractQueuedLongSynchronizer;
import java.util.concurrent.locks.AbstractQueuedSynchronizer.ConditionObject;
import java.util.concurrent.locks.Lock;
import java.util.concurrent.locks.ReentrantLock;
import java.util.concurrent.locks.ReentrantReadWriteLock.ReadLock;
import java.util.concurrent.locks.ReentrantReadWriteLock.WriteLock;
import java.util.concurrent.locks.StampedLock;

/** The locks of java.util.concurrent. A lock, its views and its conditions share a synchronizer, which is the lock by the log. */
public final class Locks {
    private static final byte[] READ_WRITE = Text.bytes("rw.");
    private static final String READ_WRITE_LOCK = "java.util.concurrent.locks.ReentrantReadWriteLock";
    private static VarHandle ofLock, ofReader, ofWriter, ofCondition, ofLongCondition, ofReadView, ofWriteView;
    private static Class<?> readView, writeView, sync;
    /** Whether the thread holds a read-write lock to write, and how often it does so to read. */
    private static MethodHandle isWriter, timesReader;

    private Locks() { }

    /** Needs java.util.concurrent.locks to be open to this module. */
    public static void start() throws ReflectiveOperationException {
        ofLock = handle(ReentrantLock.class, "sync");
        ofReader = handle(ReadLock.class, "sync");
        ofWriter = handle(WriteLock.class, "sync");
        ofCondition = handle(ConditionObject.class, "this$0");
        ofLongCondition = handle(AbstractQueuedLongSynchronizer.ConditionObject.class, "this$0");
        readView = Class.forName("java.util.concurrent.locks.StampedLock$ReadLockView");
        writeView = Class.forName("java.util.concurrent.locks.StampedLock$WriteLockView");
        ofReadView = handle(readView, "this$0");
        ofWriteView = handle(writeView, "this$0");
        sync = Class.forName(READ_WRITE_LOCK + "$Sync");
        MethodHandles.Lookup within = MethodHandles.privateLookupIn(sync, MethodHandles.lookup());
        isWriter = within.findVirtual(sync, "isHeldExclusively", MethodType.methodType(boolean.class))
                .asType(MethodType.methodType(boolean.class, Object.class));
        timesReader = within.findVirtual(sync, "getReadHoldCount", MethodType.methodType(int.class))
                .asType(MethodType.methodType(int.class, Object.class));
    }
    private static VarHandle handle(Class<?> of, String name) throws ReflectiveOperationException {
        Field field = of.getDeclaredField(name);
        return MethodHandles.privateLookupIn(of, MethodHandles.lookup()).unreflectVarHandle(field);
    }

    /** Behind a call that has the lock. A class that extends it may come here twice for one call: the lock's own count says so. */
    static void locked(LoggedThread me, Object lock, int site) {
        if (lock instanceof ReentrantLock) {
            Object of = ofLock.get(lock);
            int more = ((ReentrantLock) lock).getHoldCount() - me.held.count(Numbers.of(of));
            Events.acquire(me, of, more, site);
        } else other(me, lock, site);
    }

    static void unlocking(LoggedThread me, Object lock, int site) {
        if (lock instanceof ReentrantLock) {
            Object of = ofLock.get(lock);
            int count = ((ReentrantLock) lock).getHoldCount();
            if (count > 0 && count == me.held.count(Numbers.of(of))) Events.release(me, of, 1, site);
        } else if (isHeld(lock)) other(me, lock, site);
    }
    /** Whether the lock can be given back: otherwise the call throws. */
    private static boolean isHeld(Object lock) {
        if (lock instanceof ReadLock) return isReader(ofReader.get(lock));
        if (lock instanceof WriteLock) return isWriter(ofWriter.get(lock));
        if (readView.isInstance(lock)) return ((StampedLock) ofReadView.get(lock)).isReadLocked();
        return !writeView.isInstance(lock) || ((StampedLock) ofWriteView.get(lock)).isWriteLocked();
    }

    private static boolean isReader(Object synchronizer) {
        try {
            return (int) timesReader.invokeExact(synchronizer) > 0;
        } catch (Error full) {
            throw full;
        } catch (Throwable impossible) {
            throw new AssertionError(impossible);
        }
    }
    /** Returns true also for a synchronizer of a class that isn't known here, because a writer may hold it. */
    private static boolean isWriter(Object synchronizer) {
        try {
            return !sync.isInstance(synchronizer) || (boolean) isWriter.invokeExact(synchronizer);
        } catch (Error full) {
            throw full;
        } catch (Throwable impossible) {
            throw new AssertionError(impossible);
        }
    }

    /** Readers may overlap, so a read-write lock is no lock by the log; nor is one that isn't known. */
    private static void other(LoggedThread me, Object lock, int site) {
        if (lock instanceof ReadLock) Events.write(me, Events.READ, READ_WRITE, ofReader.get(lock), site);
        else if (lock instanceof WriteLock) Events.write(me, Events.WRITE, READ_WRITE, ofWriter.get(lock), site);
        else if (readView.isInstance(lock)) Events.write(me, Events.READ, ofReadView.get(lock), site);
        else if (writeView.isInstance(lock)) Events.write(me, Events.WRITE, ofWriteView.get(lock), site);
        else if (lock instanceof Lock && lock.getClass().getClassLoader() == null) Events.write(me, Events.WRITE, lock, site);
    }

    /** A condition's lock while it is waited on. Gives how often the lock was held. A wait without the lock throws. */
    static int giveBack(LoggedThread me, Object condition, int site) {
        Object of = synchronizer(condition);
        if (of == null) return 0;
        if (isReadWrite(of) && isWriter(of)) Events.write(me, Events.WRITE, READ_WRITE, of, site);
        return Events.release(me, of, Integer.MAX_VALUE, site);
    }
    static void takeBack(LoggedThread me, Object condition, int times, int site) {
        Object of = synchronizer(condition);
        if (of == null) return;
        if (isReadWrite(of) && isWriter(of)) Events.write(me, Events.WRITE, READ_WRITE, of, site);
        Events.acquire(me, of, times, site);
    }
    /** Returns the synchronizer of a condition of the JDK, or null. That of a read-write lock counts in longs in later JDKs. */
    private static Object synchronizer(Object condition) {
        if (condition instanceof ConditionObject) return ofCondition.get(condition);
        return condition instanceof AbstractQueuedLongSynchronizer.ConditionObject ? ofLongCondition.get(condition) : null;
    }
    private static boolean isReadWrite(Object synchronizer) {
        return synchronizer.getClass().getName().startsWith(READ_WRITE_LOCK);
    }
}
