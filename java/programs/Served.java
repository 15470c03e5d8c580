import java.io.IOException;
import java.net.HttpURLConnection;
import java.net.URL;
import javax.servlet.http.HttpServlet;
import javax.servlet.http.HttpServletRequest;
import javax.servlet.http.HttpServletResponse;
import org.eclipse.jetty.server.Server;
import org.eclipse.jetty.server.ServerConnector;
import org.eclipse.jetty.servlet.ServletContextHandler;
import org.eclipse.jetty.servlet.ServletHolder;

/** Threads that ask a server of Jetty's within the program: Served THREADS ROUNDS. Says how many answers came right. */
public class Served {
    static class Twice extends HttpServlet {
        @Override protected void doGet(HttpServletRequest request, HttpServletResponse response) throws IOException {
            response.getWriter().print("twice " + 2 * Integer.parseInt(request.getParameter("number")));
        }
    }

    public static void main(String[] words) throws Exception {
        int rounds = Integer.parseInt(words[1]);
        int[] right = new int[Integer.parseInt(words[0])];
        Server server = new Server(0);
        ServletContextHandler context = new ServletContextHandler();
        context.addServlet(new ServletHolder(new Twice()), "/*");
        server.setHandler(context);
        server.start();
        int port = ((ServerConnector) server.getConnectors()[0]).getLocalPort();
        Threads.run(right.length, me -> right[me] = ask(port, rounds));
        server.stop();
        int sum = 0;
        for (int one : right) sum += one;
        System.out.println("right " + sum);
    }

    private static int ask(int port, int rounds) throws IOException {
        int right = 0;
        for (int round = 1; round <= rounds; round++) {
            URL url = new URL("http://127.0.0.1:" + port + "/?number=" + round);
            String answer = new String(((HttpURLConnection) url.openConnection()).getInputStream().readAllBytes());
            if (answer.equals("twice " + 2 * round)) right++;
        }
        return right;
    }
}
