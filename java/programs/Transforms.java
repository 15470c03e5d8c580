import java.io.StringReader;
import java.io.StringWriter;
import javax.xml.transform.Templates;
import javax.xml.transform.TransformerFactory;
import javax.xml.transform.stream.StreamResult;
import javax.xml.transform.stream.StreamSource;

/** One stylesheet of Xalan's, by which threads transform: Transforms THREADS ROUNDS. Says how many rows were made. */
public class Transforms {
    private static final String STYLESHEET = "<xsl:stylesheet version='1.0' xmlns:xsl='http://www.w3.org/1999/XSL/Transform'>"
            + "<xsl:key name='by' match='row' use='@id'/><xsl:template match='/'><out><xsl:for-each select='//row'>"
            + "<xsl:sort select='@id' data-type='number' order='descending'/><r n='{position()}'>"
            + "<xsl:value-of select=\"concat(name, ' ', format-number(@id * 2, '0.0'))\"/><xsl:apply-templates/></r></xsl:for-each>"
            + "<xsl:value-of select=\"key('by', '3')/name\"/></out></xsl:template>"
            + "<xsl:template match='name'><b><xsl:value-of select='.'/></b></xsl:template></xsl:stylesheet>";

    public static void main(String[] words) throws Exception {
        int rounds = Integer.parseInt(words[1]);
        StringBuilder rows = new StringBuilder("<t>");
        for (int one = 0; one < 10; one++) rows.append("<row id='" + one + "'><name>n" + one + "</name></row>");
        String document = rows.append("</t>").toString();
        TransformerFactory factory = TransformerFactory.newInstance("org.apache.xalan.processor.TransformerFactoryImpl", null);
        Templates templates = factory.newTemplates(new StreamSource(new StringReader(STYLESHEET)));
        int[] made = new int[Integer.parseInt(words[0])];
        Threads.run(made.length, me -> {
            for (int round = 0; round < rounds; round++) {
                StringWriter text = new StringWriter();
                templates.newTransformer().transform(new StreamSource(new StringReader(document)), new StreamResult(text));
                made[me] += text.toString().split("<r n=").length - 1;
            }
        });
        int sum = 0;
        for (int one : made) sum += one;
        System.out.println("rows " + sum);
    }
}
