package aerodrome.names;

import aerodrome.log.Line;

/** A field by the name that its accesses have. What stands for a field, as an updater or a handle, is tied to one. */
public final class FieldName {
    private final byte[] text;
    private final boolean isStatic;

    public FieldName(Class<?> of, String field, boolean isStatic) {
        String name = of.getName().replace('.', '/');
        text = Text.bytes(isStatic ? Fields.shown(of, field) : Fields.shown(of.getClassLoader(), name, field));
        this.isStatic = isStatic;
    }

    /** Whether there is such a field: a static one, or that of an object. */
    public boolean isOf(Object object) { return isStatic || object != null; }

    /** Puts the field of the object. */
    public void put(Line line, Object object) {
        line.put(text);
        if (!isStatic) line.put('@').put(Numbers.of(object));
    }
}
