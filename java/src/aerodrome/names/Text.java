package aerodrome.names;

import java.nio.charset.StandardCharsets;

/** Text as a trace may have it. */
public final class Text {
    private Text() { }

    public static byte[] bytes(String text) { return text.getBytes(StandardCharsets.UTF_8); }

    /** The name without what ends a name in a trace, and with at most so many bytes. */
    public static String clean(String name, int most) {
        StringBuilder text = new StringBuilder();
        for (int one = 0; one < name.length(); one++) {
            char letter = name.charAt(one);
            text.append(letter < 32 || letter == 127 || "|()".indexOf(letter) >= 0 ? '_' : letter);
        }
        if (bytes(text.toString()).length <= most) return text.toString();
        String tail = "~" + Integer.toHexString(name.hashCode());
        int length = Math.min(text.length(), most - tail.length());
        while (bytes(text.substring(0, length)).length > most - tail.length()) length--;
        return text.substring(0, length) + tail;
    }

    /** The name of a class, as a/b/C, without its package. */
    public static String withoutPackage(String name) { return name.substring(name.lastIndexOf('/') + 1); }
}
