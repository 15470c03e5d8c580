/** Several programs one after the other: `Several WORD CLASS..` calls the main of each with the word. */
public class Several {
    public static void main(String[] words) throws Exception {
        for (int one = 1; one < words.length; one++) {
            System.out.print(words[one] + " ");
            Class.forName(words[one]).getMethod("main", String[].class).invoke(null, (Object) new String[] {words[0]});
        }
    }
}
