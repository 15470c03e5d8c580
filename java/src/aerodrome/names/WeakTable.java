package aerodrome.names;

import java.lang.ref.ReferenceQueue;
import java.lang.ref.WeakReference;

/** A hash table of objects by identity that doesn't keep them alive. Looking one up takes no lock. */
final class WeakTable {
    abstract static class Reference extends WeakReference<Object> {
        final int hash;
        Numbers.Entry next;

        Reference(Object object, int hash, WeakTable of) {
            super(object, of.gone);
            this.hash = hash;
        }
    }

    private final ReferenceQueue<Object> gone = new ReferenceQueue<>();
    /** The lower bits of a hash chose this table among others. */
    private final int bits;
    private volatile Numbers.Entry[] chains = new Numbers.Entry[64];
    private int count;

    WeakTable(int bits) { this.bits = bits; }

    /** May miss an object that stands there, where the table changes meanwhile, and never finds a wrong one. */
    Numbers.Entry find(Object object, int hash) {
        Numbers.Entry[] chains = this.chains;
        for (Numbers.Entry one = chains[hash >>> bits & chains.length - 1]; one != null; one = one.next)
            if (one.hash == hash && one.get() == object) return one;
        return null;
    }

    synchronized Numbers.Entry findOrAdd(Object object, int hash) {
        for (Object old; (old = gone.poll()) != null; ) remove((Numbers.Entry) old);
        Numbers.Entry found = find(object, hash);
        if (found != null) return found;
        if (count > chains.length) grow();
        int place = hash >>> bits & chains.length - 1;
        Numbers.Entry made = new Numbers.Entry(object, hash, this);
        made.next = chains[place];
        chains[place] = made;
        count++;
        return made;
    }

    private void remove(Numbers.Entry old) {
        int place = old.hash >>> bits & chains.length - 1;
        Numbers.Entry before = null;
        for (Numbers.Entry one = chains[place]; one != null; before = one, one = one.next) {
            if (one != old) continue;
            if (before == null) chains[place] = one.next;
            else before.next = one.next;
            count--;
            return;
        }
    }

    private void grow() {
        Numbers.Entry[] from = chains, to = new Numbers.Entry[2 * from.length];
        for (Numbers.Entry first : from)
            for (Numbers.Entry one = first, next; one != null; one = next) {
                next = one.next;
                int place = one.hash >>> bits & to.length - 1;
                one.next = to[place];
                to[place] = one;
            }
        chains = to;
    }
}
