import java.io.IOException;
import java.io.Writer;
import java.nio.charset.StandardCharsets;
import java.nio.file.Files;
import java.nio.file.Path;
import java.nio.file.StandardOpenOption;
import java.util.Random;
import java.util.concurrent.BlockingQueue;
import java.util.concurrent.LinkedBlockingQueue;

/**
 * An election on a ring of threads, recorded. Recorder is the first half: copy it.
 *
 * <p>{@code java Ring.java 4 7 DIR} runs 4 nodes with draws from seed 7; each link is a queue. Node I writes
 * DIR/I.log, as {@code ira} reads it, and who leads DIR/leaders.
 */
public class Ring {

    /** The log of one node. One thread calls it, each time after the step that the record tells of. */
    static class Recorder {
        private final Writer file;
        private int records;
        private final int place;
        private final Path leaders;

        Recorder(Path folder, int nodes, int place, boolean initiator) throws IOException {
            file = Files.newBufferedWriter(folder.resolve(place + ".log"), StandardCharsets.US_ASCII);
            this.place = place;
            leaders = folder.resolve("leaders");
            String start = initiator ? "initiator" : "passive";
            file.write("irlog 1\nnodes " + nodes + "\nplace " + place + "\nstart " + start + "\n");
        }

        void drew(int id) throws IOException {
            record("draw " + id);
        }

        /** The word is "send" once the message is on the link, "recv" once it is taken off. */
        void passed(String word, Message m) throws IOException {
            record(word + " " + m.round + " " + m.id + " " + m.hop + (m.dirty ? " dirty" : " clean"));
        }

        private void record(String line) throws IOException {
            file.write(line + "\n");
            file.flush(); // A node that is killed leaves all it did, without the end line.
            records++;
        }

        /** Once the node takes itself for the leader: its place comes into a file for all nodes, which begins empty. */
        void leads() throws IOException {
            Files.writeString(leaders, place + "\n", StandardOpenOption.CREATE, StandardOpenOption.APPEND);
        }

        /** Writes the end line, without which the log counts as cut off: not for a node that threw. */
        void close() throws IOException {
            file.write("end " + records + "\n");
            file.close();
        }
    }

    record Message(int round, int id, int hop, boolean dirty) {}

    /** What an ended node tells the next one. It is no message of the algorithm, so nobody records it. */
    static final Message STOP = new Message(0, 0, 0, false);

    /** The round and ID of a passive node, which has none. */
    static final Message PASSIVE = new Message(0, 0, 0, false);

    record Node(int nodes, Random draws, BlockingQueue<Message> source, BlockingQueue<Message> target, Recorder log) {

        void run(boolean initiator) throws IOException, InterruptedException {
            Message own = initiator ? choose(1) : PASSIVE;
            for (Message m = source.take(); m != STOP; m = source.take()) {
                log.passed("recv", m);
                boolean equal = m.round == own.round && m.id == own.id;
                if (equal && m.hop == nodes && !m.dirty) {
                    log.leads();
                    break;
                } else if (equal && m.hop == nodes) {
                    own = choose(own.round + 1);
                } else if (equal) {
                    send(new Message(m.round, m.id, m.hop + 1, true));
                } else if (m.round > own.round || m.round == own.round && m.id > own.id) {
                    own = PASSIVE;
                    send(new Message(m.round, m.id, m.hop + 1, m.dirty));
                }
            }
            target.put(STOP);
            log.close();
        }

        Message choose(int round) throws IOException, InterruptedException {
            Message own = new Message(round, draws.nextInt(nodes) + 1, 1, false);
            log.drew(own.id);
            send(own);
            return own;
        }

        void send(Message m) throws IOException, InterruptedException {
            target.put(m);
            log.passed("send", m);
        }
    }

    public static void main(String[] words) throws IOException {
        int nodes = Integer.parseInt(words[0]);
        long seed = Long.parseLong(words[1]);
        Files.writeString(Path.of(words[2], "leaders"), "");
        // Link I leads from node I to node I+1, the last one to node 0.
        var links = new java.util.ArrayList<BlockingQueue<Message>>();
        for (int i = 0; i < nodes; i++) {
            links.add(new LinkedBlockingQueue<>());
        }
        for (int i = 0; i < nodes; i++) {
            var log = new Recorder(Path.of(words[2]), nodes, i, true);
            var draws = new Random(seed * 1000 + i);
            var node = new Node(nodes, draws, links.get((i + nodes - 1) % nodes), links.get(i), log);
            new Thread(() -> {
                try {
                    node.run(true);
                } catch (IOException | InterruptedException stopped) {
                    stopped.printStackTrace();
                    System.exit(1);
                }
            }).start();
        }
    }
}
