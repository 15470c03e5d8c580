public class CloneBase implements Cloneable {
    public CloneBase copy() {
        try {
            return (CloneBase) super.clone();
        } catch (CloneNotSupportedException e) {
            throw new Error(e);
        }
    }
}
