/* An election on a ring of processes, recorded. The first half is the recorder: copy it.
 *
 *     cc -o ring ring.c && ./ring 4 7 DIR
 *
 * runs 4 nodes with draws from seed 7; each link is a pipe. Node I writes DIR/I.log, as `ira` reads it, and who leads
 * DIR/leaders.
 */
#include <stdbool.h>
#include <stdio.h>
#include <stdlib.h>
#include <sys/wait.h>
#include <unistd.h>

/* ---- the recorder: one for each node, called by one thread, each time after the step that the record tells of */

struct recorder {
    FILE *file;
    unsigned records, place;
    const char *folder;
};

/* DIR/leaders: "wb" makes it empty before the ring starts */
static FILE *leaders_open(const char *folder, const char *mode)
{
    char name[4096];
    snprintf(name, sizeof name, "%s/leaders", folder);
    return fopen(name, mode);
}

static bool recorder_open(struct recorder *log, const char *folder, unsigned nodes, unsigned place, bool initiator)
{
    char name[4096];
    snprintf(name, sizeof name, "%s/%u.log", folder, place);
    *log = (struct recorder){fopen(name, "wb"), 0, place, folder};
    if (log->file == NULL) return false;
    setvbuf(log->file, NULL, _IOLBF, BUFSIZ); /* each line is handed to the system at once */
    fprintf(log->file, "irlog 1\nnodes %u\nplace %u\nstart %s\n", nodes, place, initiator ? "initiator" : "passive");
    return true;
}

struct message { unsigned round, id, hop; bool dirty; };

static void recorder_drew(struct recorder *log, unsigned id)
{
    log->records++;
    fprintf(log->file, "draw %u\n", id);
}

/* `word` is "send" once the message is on the link, "recv" once it is taken off. */
static void recorder_passed(struct recorder *log, const char *word, struct message m)
{
    fprintf(log->file, "%s %u %u %u %s\n", word, m.round, m.id, m.hop, m.dirty ? "dirty" : "clean");
    log->records++;
}

/* Once the node takes itself for the leader: its place comes into the file for all nodes. */
static bool recorder_leads(struct recorder *log)
{
    FILE *leaders = leaders_open(log->folder, "ab");
    if (leaders == NULL) return false;
    bool written = fprintf(leaders, "%u\n", log->place) > 0;
    return fclose(leaders) == 0 && written;
}

/* Writes the end line, without which the log counts as cut off. False where a line couldn't be written. */
static bool recorder_close(struct recorder *log)
{
    fprintf(log->file, "end %u\n", log->records);
    bool failed = ferror(log->file);
    return fclose(log->file) == 0 && !failed;
}

/* ---- the ring */

struct node {
    unsigned nodes;
    int source, target; /* the links that it reads and writes */
    struct recorder log;
};

/* What an ended node tells the next one has round 0. It is no message of the algorithm, so nobody records it. */
static void put(struct node *node, struct message m)
{
    if (write(node->target, &m, sizeof m) == sizeof m && m.round != 0)
        recorder_passed(&node->log, "send", m);
}

static struct message choose(struct node *node, unsigned round)
{
    struct message own = {round, rand() % node->nodes + 1, 1, false};
    recorder_drew(&node->log, own.id);
    put(node, own);
    return own;
}

static bool run_node(struct node *node, bool initiator)
{
    bool recorded = true;
    struct message own = {0}, m; /* the round and ID of an active node; a passive one has round 0 */
    if (initiator) own = choose(node, 1);
    while (read(node->source, &m, sizeof m) == sizeof m && m.round != 0) {
        recorder_passed(&node->log, "recv", m);
        if (own.round == 0 || m.round > own.round || (m.round == own.round && m.id > own.id)) {
            own.round = 0;
            put(node, (struct message){m.round, m.id, m.hop + 1, m.dirty});
        } else if (m.round < own.round || m.id < own.id) {
            continue;
        } else if (m.hop < node->nodes) {
            put(node, (struct message){m.round, m.id, m.hop + 1, true});
        } else if (m.dirty) {
            own = choose(node, own.round + 1);
        } else {
            recorded = recorder_leads(&node->log);
            break;
        }
    }
    put(node, (struct message){0});
    return recorder_close(&node->log) && recorded;
}

int main(int count, char **words)
{
    unsigned nodes = count == 4 ? strtoul(words[1], NULL, 10) : 0;
    if (nodes < 2 || nodes > 64)
        return fprintf(stderr, "ring NODES SEED DIR, 2 to 64 nodes\n"), 2;
    FILE *leaders = leaders_open(words[3], "wb");
    if (leaders == NULL || fclose(leaders) != 0) return 1;
    int links[64][2]; /* link I leads from node I to node I+1, the last one to node 0 */
    for (unsigned i = 0; i < nodes; i++)
        if (pipe(links[i]) != 0) return 1;
    for (unsigned i = 0; i < nodes; i++) {
        if (fork() != 0) continue;
        struct node node = {nodes, links[(i + nodes - 1) % nodes][0], links[i][1], {NULL}};
        srand(strtoul(words[2], NULL, 10) * 64 + i);
        return recorder_open(&node.log, words[3], nodes, i, true) && run_node(&node, true) ? 0 : 1;
    }
    int failed = 0;
    for (int status; wait(&status) > 0;)
        failed |= status != 0;
    return failed;
}
