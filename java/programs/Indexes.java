import org.apache.lucene.analysis.standard.StandardAnalyzer;
import org.apache.lucene.document.Document;
import org.apache.lucene.document.Field;
import org.apache.lucene.document.StringField;
import org.apache.lucene.document.TextField;
import org.apache.lucene.index.DirectoryReader;
import org.apache.lucene.index.IndexWriter;
import org.apache.lucene.index.IndexWriterConfig;
import org.apache.lucene.index.Term;
import org.apache.lucene.search.IndexSearcher;
import org.apache.lucene.search.TermQuery;
import org.apache.lucene.store.ByteBuffersDirectory;

/** Threads that index documents by Lucene, search, and delete: Indexes THREADS DOCUMENTS. Says how many documents there are. */
public class Indexes {
    public static void main(String[] words) throws Exception {
        int documents = Integer.parseInt(words[1]);
        ByteBuffersDirectory directory = new ByteBuffersDirectory();
        IndexWriter writer = new IndexWriter(directory, new IndexWriterConfig(new StandardAnalyzer()));
        Threads.run(Integer.parseInt(words[0]), me -> {
            for (int number = 0; number < documents; number++) {
                Document document = new Document();
                document.add(new StringField("id", me + "-" + number, Field.Store.YES));
                document.add(new TextField("body", "hello world number " + number + " of thread " + me, Field.Store.NO));
                writer.addDocument(document);
                if (number % 5 == 4) search(writer);
                if (number % 10 == 9) writer.deleteDocuments(new Term("id", me + "-" + (number - 5)));
            }
        });
        writer.close();
        try (DirectoryReader reader = DirectoryReader.open(directory)) {
            System.out.println("documents " + reader.numDocs());
        }
    }

    private static void search(IndexWriter writer) throws Exception {
        try (DirectoryReader reader = DirectoryReader.open(writer)) {
            new IndexSearcher(reader).count(new TermQuery(new Term("body", "thread")));
        }
    }
}
