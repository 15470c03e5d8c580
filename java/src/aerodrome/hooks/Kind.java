package aerodrome.hooks;

/** How a call is logged. The file `table` says of which kind each method is. */
public enum Kind {
    NOTHING(Group.NONE),

    READ(Group.VARIABLE), WRITE(Group.VARIABLE),
    /** A write where the call gives true, else a read. */
    SWAP(Group.VARIABLE),
    /** The same where the call gives what it was to find. */
    EXCHANGE(Group.VARIABLE),

    OPEN_READ(Group.OPEN), OPEN_WRITE(Group.OPEN), OPEN_SWAP(Group.OPEN),
    /** Additions, whose order doesn't matter, looks at all of them, and what does both; Parts.java. */
    OPEN_ADD(Group.OPEN), OPEN_LOOK(Group.OPEN), OPEN_RESET(Group.OPEN),
    /** A read if the call gives true, or a number that isn't 0. */
    OPEN_TRY(Group.OPEN),

    STATE_READ(Group.STATE), STATE_WRITE(Group.STATE), STATE_SWAP(Group.STATE),

    WRITE_BEFORE(Group.ORDER), READ_AFTER(Group.ORDER), WRITE_AFTER(Group.ORDER),
    /** A write within the call, once its function has given the next value; Updates.java. */
    UPDATE(Group.ORDER),
    /** Behind the call if it gives true, or a number that isn't 0. */
    READ_IF_TRUE(Group.ORDER), WRITE_IF_TRUE(Group.ORDER),
    /** Before the call if any thread has the lock so. */
    READ_IF_HELD(Group.ORDER), WRITE_IF_HELD(Group.ORDER),
    /**
     * A read or a write before the call, by what its stamp says of the lock, if it is valid; a read behind it where the stamp stands
     * for none.
     */
    STAMPED(Group.ORDER),
    /** The threads that signal don't depend on each other: an addition before the call. Behind the call all of these are read. */
    SIGNAL(Group.ORDER), SIGNALLED(Group.ORDER),
    /** Of a latch: an addition if that has anything to count still; and a wait that may give up, which gives false then. */
    COUNT_DOWN(Group.ORDER), SIGNALLED_IF_TRUE(Group.ORDER),
    /** Of a phaser, by phase: arrivals, waits for the end of a phase, and both. */
    ARRIVE(Group.ORDER), AWAIT_PHASE(Group.ORDER), ARRIVE_AND_WAIT(Group.ORDER),
    /** An arrival at a barrier before the call, and a read of the arrivals of its meeting after it. */
    MEET(Group.ORDER),
    /** A look at all additions, behind the call, and what adds and looks, before it: of what calls a function of the program. */
    LOOKED(Group.ORDER), RESETTING(Group.ORDER),
    LOCK(Group.ORDER), TRY_LOCK(Group.ORDER), UNLOCK(Group.ORDER),
    /** A monitor or a condition's lock is given back, and is had again behind the call. */
    WAIT(Group.ORDER), AWAIT(Group.ORDER),
    /** Permits of a semaphore. */
    ACQUIRE(Group.ORDER), ACQUIRE_IF_TRUE(Group.ORDER), ACQUIRE_ALL(Group.ORDER), RELEASE(Group.ORDER),
    /** The argument is put into a queue; the result is taken out of it, or goes to a list; or it stays there. */
    SEND(Group.ORDER), RECEIVE(Group.ORDER), DRAIN(Group.ORDER), PEEK(Group.ORDER),
    /** A `drainTo` with a maximum. */
    DRAIN_SOME(Group.ORDER),
    /** The same at the other end of a queue than usual. */
    SEND_FIRST(Group.ORDER), RECEIVE_LAST(Group.ORDER), PEEK_LAST(Group.ORDER),
    /** It is put only if somebody waits for it; or it is given for another object. */
    HAND(Group.ORDER), HAND_OVER(Group.ORDER),
    /** What is put is in a collection. */
    SEND_MANY(Group.ORDER),
    /** A thread, the argument, may go on. One that was parked reads itself. */
    UNPARK(Group.ORDER),

    KEY_READ(Group.KEYS), KEY_WRITE(Group.KEYS),
    /** A write of the key if it isn't there, or if it is there with what is expected, else a read. */
    KEY_IF_ABSENT(Group.KEYS), KEY_IF_PRESENT(Group.KEYS),
    /** A write by a function that is given to the map. */
    KEY_WITHIN(Group.KEYS),
    WHOLE_READ(Group.KEYS), WHOLE_WRITE(Group.KEYS),
    /** A write of the whole if there is something to take out, else a read. */
    WHOLE_TAKE(Group.KEYS),

    /** Says whether the queue is empty, whether it has the argument, or what or how much is in it. */
    LOOK(Group.QUEUE), SEEK(Group.QUEUE), COUNT(Group.QUEUE),
    /** Takes the argument out, wherever it stands first or last, or all, or some of all. */
    PULL(Group.QUEUE), PULL_LAST(Group.QUEUE), PURGE(Group.QUEUE), SIFT(Group.QUEUE),

    COLLECTION_READ(Group.COLLECTION), COLLECTION_WRITE(Group.COLLECTION),
    /** Writes, which may be reads of a collection for several threads: where it adds what isn't there, or removes what is. */
    COLLECTION_ADD(Group.COLLECTION), COLLECTION_ADD_NEW(Group.COLLECTION), COLLECTION_REMOVE(Group.COLLECTION),
    /** A read of a key, which is a write if it moves the key: a map in the order of accesses does so. */
    COLLECTION_GET(Group.COLLECTION),
    /** A read by equals or hashCode, unless the class has those of Object. */
    COLLECTION_COMPARE(Group.COLLECTION),
    /** By an iterator. */
    ITERATOR_WRITE(Group.COLLECTION);

    private enum Group {
        NONE,
        /** One variable, read or written under the log's lock. */
        VARIABLE,
        /** One variable, by methods that a class of the program may override: then the call isn't made under the lock. */
        OPEN,
        /** The state of a synchronizer that the program extends, as one variable. */
        STATE,
        /** Gives order to threads: a release is logged before the call, an acquire behind it. */
        ORDER,
        /** A map for several threads, by key. */
        KEYS,
        /** A queue for several threads, as a whole. */
        QUEUE,
        /** A collection for one thread, as a whole. */
        COLLECTION;

        boolean isContents() { return this == KEYS || this == QUEUE || this == COLLECTION; }
    }

    private static final Kind[] ALL = values();
    private final Group group;

    Kind(Group group) { this.group = group; }

    /**
     * What instrumented code has of a method: its kind, and behind it those of queues and of maps for several threads, if any. Each has
     * eight bits, which are 0 of NOTHING.
     */
    public static int code(Kind... kinds) {
        int code = kinds[0].number();
        for (int one = 1; one < kinds.length; one++) code |= kinds[one].number() << (kinds[one].ofKeys() ? 16 : 8);
        return code;
    }
    private int number() { return this == NOTHING ? 0 : ordinal() + 1; }
    private static Kind numbered(int number) { return number == 0 ? NOTHING : ALL[number - 1]; }

    public static boolean isExchange(int code) { return kind(code) == EXCHANGE; }
    public static boolean isStamped(int code) { return kind(code) == STAMPED; }
    /** Returns whether the JDK's methods of this kind are final. */
    public static boolean isOfVariable(int code) { return kind(code).group == Group.VARIABLE; }
    /** Returns whether a call has no events if a class of the program has the method. Locks count how often they are held instead. */
    public static boolean isOfMethod(int code) {
        Kind kind = kind(code);
        return !(kind.ofState() || kind == WAIT || kind == LOCK || kind == TRY_LOCK || kind == UNLOCK);
    }
    public static boolean isOfCollection(int code) { return kind(code).isCollection(); }
    /** Returns whether the call changes what it finds. */
    static boolean isChange(int code) {
        switch (kind(code)) {
            case COLLECTION_READ: case COLLECTION_GET: case COLLECTION_COMPARE: return false;
            case KEY_READ: case WHOLE_READ: case PEEK: case PEEK_LAST: case LOOK: case SEEK: case COUNT: return false;
            default: return true;
        }
    }
    static Kind kind(int code) { return numbered(code & 255); }
    static Kind ofQueue(int code) { return kind(code).group == Group.QUEUE ? kind(code) : numbered(code >>> 8 & 255); }
    static Kind ofMap(int code) { return kind(code).ofKeys() ? kind(code) : numbered(code >>> 16); }
    /** Whether what stands for the call is given the call, too: so Within is. */
    public static boolean isWithin(int code) {
        for (Kind one : new Kind[] {kind(code), ofMap(code)})
            if (one == KEY_IF_ABSENT || one == KEY_IF_PRESENT || one == KEY_WITHIN) return true;
        return false;
    }
    /** Whether a function of the call is given the call, too: so Updates has it. */
    public static boolean isUpdate(int code) { return kind(code) == UPDATE; }

    /** Whether it is an access, which isn't logged within an initializer of a class. */
    boolean isAccess() { return group != Group.NONE && group != Group.ORDER; }
    public boolean isCollection() { return group == Group.COLLECTION && this != ITERATOR_WRITE; }
    /** Returns whether the call is one of the collection or map behind the receiver. */
    boolean mayBeOfView() { return isContents() && this != ITERATOR_WRITE; }
    /** Whether the options may leave it out. */
    public boolean isContents() { return group.isContents(); }

    /** Returns the kind of the same call at the other end of a queue. */
    Kind turned() {
        switch (this) {
            case SEND: return SEND_FIRST;
            case SEND_FIRST: return SEND;
            case RECEIVE: return RECEIVE_LAST;
            case RECEIVE_LAST: return RECEIVE;
            case PEEK: return PEEK_LAST;
            case PEEK_LAST: return PEEK;
            case PULL: return PULL_LAST;
            case PULL_LAST: return PULL;
            default: return this;
        }
    }

    boolean isOpen() { return group == Group.OPEN; }
    /** How a call is logged that isn't made under the lock. */
    Kind apart() {
        switch (this) {
            case OPEN_ADD: return SIGNAL;
            case OPEN_LOOK: return LOOKED;
            case OPEN_RESET: return RESETTING;
            case OPEN_TRY: return READ_IF_TRUE;
            case READ: case OPEN_READ: return READ_AFTER;
            default: return WRITE_BEFORE;
        }
    }
    Kind closed() { return this == OPEN_READ ? READ : this == OPEN_WRITE ? WRITE : this == OPEN_SWAP ? SWAP : this; }

    boolean ofState() { return group == Group.STATE; }
    boolean ofKeys() { return group == Group.KEYS; }
}
