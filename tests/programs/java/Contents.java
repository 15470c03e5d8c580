import java.io.ByteArrayInputStream;
import java.io.ByteArrayOutputStream;
import java.io.PrintStream;
import java.io.StringReader;
import java.io.StringWriter;
import java.util.ArrayDeque;
import java.util.ArrayList;
import java.util.Arrays;
import java.util.BitSet;
import java.util.Collection;
import java.util.Collections;
import java.util.Deque;
import java.util.Dictionary;
import java.util.EnumSet;
import java.util.HashMap;
import java.util.HashSet;
import java.util.Hashtable;
import java.util.Iterator;
import java.util.LinkedHashMap;
import java.util.List;
import java.util.Map;
import java.util.NavigableSet;
import java.util.Properties;
import java.util.Queue;
import java.util.Set;
import java.util.SortedSet;
import java.util.Stack;
import java.util.TreeSet;
import java.util.Vector;
import java.util.concurrent.ConcurrentHashMap;
import java.util.concurrent.ConcurrentSkipListMap;
import java.util.concurrent.ConcurrentSkipListSet;
import java.util.concurrent.CopyOnWriteArrayList;
import java.util.concurrent.LinkedBlockingDeque;
import java.util.concurrent.LinkedBlockingQueue;

/** Looks at whole collections, and calls of views: behind `//:` stand the events of each line, as in Rules.java. */
public class Contents {
    enum Color { RED }
    static final List<Object> AB = Arrays.asList("a", "b");

    static void bits() {
        BitSet it = new BitSet();
        it.set(1); //: w(BitSet@)
        it.previousSetBit(9); //: r(BitSet@)
        it.previousClearBit(9); //: r(BitSet@)
        it.intersects(it); //: r(BitSet@)
        it.toByteArray(); //: r(BitSet@)
        it.toLongArray(); //: r(BitSet@)
        it.stream(); //: r(BitSet@)
        it.size(); //: r(BitSet@)
        it.equals(it); //: r(BitSet@)
        it.hashCode(); //: r(BitSet@)
        it.toString(); //: r(BitSet@)
        it.clone(); //: r(BitSet@)
    }

    static void wholes() {
        ArrayList<Object> list = new ArrayList<>();
        list.equals(AB); //: r(ArrayList@)
        list.hashCode(); //: r(ArrayList@)
        list.toString(); //: r(ArrayList@)
        list.clone(); //: r(ArrayList@)
        list.ensureCapacity(9);
        list.trimToSize();
        List<Object> byList = list;
        byList.equals(AB); //: r(ArrayList@)
        byList.hashCode(); //: r(ArrayList@)
        Collection<Object> deque = new ArrayDeque<>();
        deque.equals(AB);
        deque.hashCode();
        Iterable<Object> each = list;
        for (Object one : each) one.hashCode(); //: r(ArrayList@)
        each.forEach(one -> { }); //: r(ArrayList@)
        each.spliterator(); //: r(ArrayList@)
        Iterable<Object> queue = new LinkedBlockingQueue<>();
        queue.iterator(); //: w(LinkedBlockingQueue@.none#) w(LinkedBlockingQueue@.head#)
        Map<Object, Object> map = new HashMap<>();
        map.equals(map); //: r(HashMap@)
        map.hashCode(); //: r(HashMap@)
        new HashMap<Object, Object>().toString(); //: r(HashMap@)
        new HashMap<Object, Object>().clone(); //: r(HashMap@)
        Set<Object> set = new CopyOnWriteArrayList<>(AB).isEmpty() ? null : new HashSet<>(); //: r(CopyOnWriteArrayList@)
        set.equals(set); //: r(HashSet@)
        EnumSet<Color> colors = EnumSet.noneOf(Color.class);
        colors.add(Color.RED); //: w(RegularEnumSet@)
        colors.contains(Color.RED); //: r(RegularEnumSet@)
        colors.clone(); //: r(RegularEnumSet@)
        Dictionary<Object, Object> table = new Hashtable<>();
        table.put("a", 1); //: w(Hashtable@)
        table.get("a"); //: r(Hashtable@)
        table.isEmpty(); //: r(Hashtable@)
        table.size(); //: r(Hashtable@)
        table.keys(); //: r(Hashtable@)
        table.elements(); //: r(Hashtable@)
        table.remove("a"); //: w(Hashtable@)
    }

    static void inOrderOfAccess() {
        Map<Object, Object> it = new LinkedHashMap<>(9, 0.75f, true), plain = new LinkedHashMap<>();
        it.put("a", 1); //: w(LinkedHashMap@)
        it.get("a"); //: w(LinkedHashMap@)
        it.get("b"); //: r(LinkedHashMap@)
        it.getOrDefault("a", 2); //: w(LinkedHashMap@)
        it.containsKey("a"); //: r(LinkedHashMap@)
        Collections.synchronizedMap(it).get("a"); //: w(LinkedHashMap@)
        plain.put("a", 1); //: w(LinkedHashMap@)
        plain.get("a"); //: r(LinkedHashMap@)
    }

    static void stacks() {
        Stack<Object> it = new Stack<>();
        it.empty(); //: r(Stack@)
        it.search("a"); //: r(Stack@)
        it.equals(AB); //: r(Stack@)
        it.hashCode(); //: r(Stack@)
        it.toString(); //: r(Stack@)
        it.clone(); //: r(Stack@)
        Vector<Object> vector = it;
        vector.capacity();
        vector.ensureCapacity(9);
        vector.trimToSize();
    }

    static void properties() throws Exception {
        Properties it = new Properties();
        it.load(new StringReader("a=b")); //: w(Properties@)
        it.propertyNames(); //: r(Properties@)
        it.stringPropertyNames(); //: r(Properties@)
        it.list(new PrintStream(new ByteArrayOutputStream())); //: r(Properties@)
        it.store(new StringWriter(), null); //: r(Properties@)
        ByteArrayOutputStream xml = new ByteArrayOutputStream();
        it.storeToXML(xml, null); //: r(Properties@)
        it.loadFromXML(new ByteArrayInputStream(xml.toByteArray())); //: w(Properties@)
        it.keySet().remove("a"); //: r(Properties@) w(Properties@)
        it.values().remove("a"); //: r(Properties@) w(Properties@)
        it.entrySet().clear(); //: r(Properties@) w(Properties@)
        it.equals(it); //: r(Properties@)
    }

    static void mapsForSeveral() {
        ConcurrentHashMap<Object, Object> it = new ConcurrentHashMap<>();
        it.forEachKey(9, key -> { }); //: r(ConcurrentHashMap@.clear) w(ConcurrentHashMap@.look#)
        it.forEachValue(9, value -> { }); //: r(ConcurrentHashMap@.clear) w(ConcurrentHashMap@.look#)
        it.forEachEntry(9, entry -> { }); //: r(ConcurrentHashMap@.clear) w(ConcurrentHashMap@.look#)
        it.forEach(9, (key, value) -> { }); //: r(ConcurrentHashMap@.clear) w(ConcurrentHashMap@.look#)
        it.reduceKeysToInt(9, key -> 1, 0, Integer::sum); //: r(ConcurrentHashMap@.clear) w(ConcurrentHashMap@.look#)
        it.equals(it); //: r(ConcurrentHashMap@.clear) w(ConcurrentHashMap@.look#)
        it.hashCode(); //: r(ConcurrentHashMap@.clear) w(ConcurrentHashMap@.look#)
        it.toString(); //: r(ConcurrentHashMap@.clear) w(ConcurrentHashMap@.look#)
        Map<Object, Object> map = it;
        map.equals(map); //: r(ConcurrentHashMap@.clear) w(ConcurrentHashMap@.look#)
        new ConcurrentSkipListMap<Object, Object>().clone(); //: r(ConcurrentSkipListMap@.clear) w(ConcurrentSkipListMap@.look#)
        Set<Object> keys = ConcurrentHashMap.newKeySet();
        keys.hashCode(); //: r(ConcurrentHashMap@.clear) w(ConcurrentHashMap@.look#)
        Collections.synchronizedMap(map).get("a"); //: r(ConcurrentHashMap@.clear) r(ConcurrentHashMap@.key#)
        new LinkedBlockingQueue<Object>().toString(); //: w(LinkedBlockingQueue@.none#) w(LinkedBlockingQueue@.head#)
        Collection<Object> queue = new LinkedBlockingQueue<>();
        queue.equals(AB);
    }

    // ---- views

    static void sortedSets() {
        TreeSet<Object> it = new TreeSet<>(AB);
        SortedSet<Object> head = it.headSet("b"); //: r(TreeSet@)
        head.add("0"); //: w(TreeSet@)
        head.contains("a"); //: r(TreeSet@)
        NavigableSet<Object> turned = it.descendingSet(); //: r(TreeSet@)
        turned.remove("a"); //: w(TreeSet@)
        turned.tailSet("a").isEmpty(); //: r(TreeSet@) r(TreeSet@)
        Iterator<Object> each = head.iterator(); //: r(TreeSet@)
        each.next();
        each.remove(); //: w(TreeSet@)
        Collections.synchronizedSortedSet(it).subSet("a", "b").add("aa"); //: r(TreeSet@) w(TreeSet@)
        ConcurrentSkipListSet<Object> sorted = new ConcurrentSkipListSet<>();
        NavigableSet<Object> back = sorted.descendingSet(); //: r(ConcurrentSkipListSet@.clear) w(ConcurrentSkipListSet@.look#)
        back.clear(); //: w(ConcurrentSkipListSet@.clear)
        new ConcurrentSkipListSet<Object>(AB).headSet("b").contains("a"); //: r(ConcurrentSkipListSet@.clear) w(ConcurrentSkipListSet@.look#) r(ConcurrentSkipListSet@.clear) r(ConcurrentSkipListSet@.key#)
    }
    /** The two are one set. */
    static void sameSet() {
        TreeSet<Object> it = new TreeSet<>(AB);
        Set<Object> head = it.headSet("b"); //: r(TreeSet@)
        it.add("c"); //: w(TreeSet@)
        head.add("0"); //: w(TreeSet@)
    }

    static void queuesBehind() {
        LinkedBlockingQueue<Object> it = new LinkedBlockingQueue<>();
        Collection<Object> wrapped = Collections.synchronizedCollection(it);
        wrapped.add("a"); //: w(LinkedBlockingQueue@.item#)
        it.poll(); //: r(LinkedBlockingQueue@.item#)
        wrapped.isEmpty(); //: w(LinkedBlockingQueue@.none#)
        wrapped.addAll(AB);
        Queue<Object> checked = Collections.checkedQueue(new LinkedBlockingQueue<>(), Object.class);
        checked.offer("a"); //: w(LinkedBlockingQueue@.item#)
        checked.poll(); //: r(LinkedBlockingQueue@.item#)
        LinkedBlockingDeque<Object> deque = new LinkedBlockingDeque<>();
        Queue<Object> stack = Collections.asLifoQueue(deque);
        stack.add("a"); //: w(LinkedBlockingDeque@.item#)
        stack.peek(); //: r(LinkedBlockingDeque@.item#) w(LinkedBlockingDeque@.head#) w(LinkedBlockingDeque@.first#)
        stack.remove(); //: r(LinkedBlockingDeque@.item#) w(LinkedBlockingDeque@.head#)
        Deque<Object> plain = new ArrayDeque<>();
        Collections.asLifoQueue(plain).add("a"); //: w(ArrayDeque@)
        Set<Object> keys = Collections.newSetFromMap(new ConcurrentHashMap<>());
        keys.add("a"); //: r(ConcurrentHashMap@.clear) w(ConcurrentHashMap@.key#) w(ConcurrentHashMap@.all#)
        Map<Object, Object> checkedMap = Collections.checkedMap(new HashMap<>(), Object.class, Object.class);
        checkedMap.entrySet().isEmpty(); //: r(HashMap@) r(HashMap@)
    }

    public static void main(String[] words) throws Exception {
        bits();
        wholes();
        inOrderOfAccess();
        stacks();
        properties();
        mapsForSeveral();
        sortedSets();
        sameSet();
        queuesBehind();
    }
}
