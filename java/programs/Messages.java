import javax.jms.Connection;
import javax.jms.JMSException;
import javax.jms.MessageConsumer;
import javax.jms.MessageProducer;
import javax.jms.Queue;
import javax.jms.Session;
import javax.jms.TextMessage;
import org.apache.activemq.ActiveMQConnectionFactory;
import org.apache.activemq.broker.BrokerService;

/** Threads that send and receive by a broker of ActiveMQ's within the program: Messages THREADS ROUNDS. Says how many came right. */
public class Messages {
    public static void main(String[] words) throws Exception {
        int rounds = Integer.parseInt(words[1]);
        int[] right = new int[Integer.parseInt(words[0])];
        BrokerService broker = new BrokerService();
        broker.setPersistent(false);
        broker.setUseJmx(false);
        broker.start();
        ActiveMQConnectionFactory factory = new ActiveMQConnectionFactory("vm://localhost?create=false");
        Threads.run(right.length, me -> right[me] = exchange(factory, "queue" + me / 2, me % 2 == 0, rounds));
        broker.stop();
        broker.waitUntilStopped();
        int sum = 0;
        for (int one : right) sum += one;
        System.out.println("right " + sum);
    }

    /** Of two threads with a queue, one sends and the other one receives. */
    private static int exchange(ActiveMQConnectionFactory factory, String name, boolean sends, int rounds) throws JMSException {
        Connection connection = factory.createConnection();
        connection.start();
        Session session = connection.createSession(false, Session.AUTO_ACKNOWLEDGE);
        Queue queue = session.createQueue(name);
        int right = 0;
        if (sends) {
            MessageProducer producer = session.createProducer(queue);
            for (int round = 0; round < rounds; round++) producer.send(session.createTextMessage("message " + round));
            right = rounds;
        } else {
            MessageConsumer consumer = session.createConsumer(queue);
            for (int round = 0; round < rounds; round++) {
                TextMessage message = (TextMessage) consumer.receive();
                if (message.getText().equals("message " + round)) right++;
            }
        }
        connection.close();
        return right;
    }
}
