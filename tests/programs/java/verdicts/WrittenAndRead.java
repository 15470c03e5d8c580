import java.io.ByteArrayInputStream;
import java.io.ByteArrayOutputStream;
import java.io.IOException;
import java.io.ObjectInputStream;
import java.io.ObjectOutputStream;
import java.io.Serializable;

// S: objects are serialized by two threads, by their own methods and by the system's
public class WrittenAndRead {
    static class Part implements Serializable {
        private static final long serialVersionUID = 1;
        int number = 1;
        transient int left = 2;
        private void writeObject(ObjectOutputStream to) throws IOException {
            to.defaultWriteObject();
            to.writeInt(left);
        }
        private void readObject(ObjectInputStream from) throws IOException, ClassNotFoundException {
            from.defaultReadObject();
            left = from.readInt();
        }
        private Object readResolve() { return this; }
    }
    static Part copy(Part of) throws IOException, ClassNotFoundException {
        ByteArrayOutputStream bytes = new ByteArrayOutputStream();
        try (ObjectOutputStream to = new ObjectOutputStream(bytes)) {
            to.writeObject(of);
        }
        return (Part) new ObjectInputStream(new ByteArrayInputStream(bytes.toByteArray())).readObject();
    }
    public static void main(String[] words) throws Exception {
        Part shared = new Part();
        Meet.run(2, me -> {
            for (int one = 0; one < 5; one++) copy(shared).number++;
        });
        System.out.println("ok");
    }
}
