// An election on a ring of tasks in Node, recorded. Recorder is the first half: copy it.
//
//     node ring.mjs 4 7 DIR
//
// runs 4 nodes with draws from seed 7; each link is a queue. Node I writes DIR/I.log, as `ira` reads it, and who leads
// DIR/leaders.
import { appendFileSync, closeSync, openSync, writeFileSync, writeSync } from "node:fs";

/** Writes the log of one node, each line after the step that it tells of. */
export class Recorder {
  #file;
  #records = -1; // The head is no record.
  #place;
  #leaders;

  constructor(folder, nodes, place, initiator) {
    this.#place = place;
    this.#leaders = `${folder}/leaders`;
    this.#file = openSync(`${folder}/${place}.log`, "w");
    this.#record(`irlog 1\nnodes ${nodes}\nplace ${place}\nstart ${initiator ? "initiator" : "passive"}`);
  }

  drew(id) {
    this.#record(`draw ${id}`);
  }

  /** Takes the word "send" once the message is on the link, "recv" once it is taken off. */
  passed(word, { round, id, hop, dirty }) {
    this.#record(`${word} ${round} ${id} ${hop} ${dirty ? "dirty" : "clean"}`);
  }

  /** Once the node takes itself for the leader: its place comes into a file for all nodes, which begins empty. */
  leads() {
    appendFileSync(this.#leaders, `${this.#place}\n`);
  }

  /** Writes the end line, without which the log counts as cut off. */
  close() {
    this.#record(`end ${this.#records}`);
    closeSync(this.#file);
  }

  // Hands the text to the system at once, so a node that is killed leaves all it did.
  #record(text) {
    writeSync(this.#file, text + "\n");
    this.#records += 1;
  }
}

/** What one node puts in and the next one takes out, in order. What `take` gives comes when it is there. */
class Link {
  #waiting = [];
  #wanted;

  put(message) {
    if (this.#wanted) {
      this.#wanted(message);
      this.#wanted = undefined;
    } else {
      this.#waiting.push(message);
    }
  }

  async take() {
    return this.#waiting.length ? this.#waiting.shift() : new Promise((give) => (this.#wanted = give));
  }
}

/** The election of one node. `null` on a link says that its writer has ended. */
async function run(nodes, initiator, draw, source, target, log) {
  const send = (message) => {
    target.put(message);
    log.passed("send", message);
  };
  const choose = (round) => {
    const own = { round, id: draw(), hop: 1, dirty: false };
    log.drew(own.id);
    send(own);
    return own;
  };
  let own = initiator ? choose(1) : null; // The round and ID of an active node; a passive one has none.
  for (let m; (m = await source.take()) !== null; ) {
    log.passed("recv", m);
    const order = own === null ? 1 : m.round - own.round || m.id - own.id;
    if (order > 0) {
      own = null;
      send({ ...m, hop: m.hop + 1 });
    } else if (order === 0 && m.hop < nodes) {
      send({ ...m, hop: m.hop + 1, dirty: true });
    } else if (order === 0 && m.dirty) {
      own = choose(own.round + 1);
    } else if (order === 0) {
      log.leads();
      break;
    }
  }
  target.put(null);
  log.close();
}

/** Numbers from 1 to `nodes`, the same ones for the same seed (xorshift, Marsaglia 2003). */
function drawsOf(seed, nodes) {
  let state = Math.imul(seed, 0x9e3779b1) | 1;
  return () => {
    state ^= state << 13;
    state ^= state >>> 17;
    state ^= state << 5;
    return ((state >>> 0) % nodes) + 1;
  };
}

const [nodes, seed, folder] = [Number(process.argv[2]), Number(process.argv[3]), process.argv[4]];
writeFileSync(`${folder}/leaders`, "");
const links = Array.from({ length: nodes }, () => new Link()); // Link I leads from node I to node I+1.
await Promise.all(
  links.map((link, place) => {
    const log = new Recorder(folder, nodes, place, true);
    const draw = drawsOf(seed * 1000 + place + 1, nodes);
    return run(nodes, true, draw, links[(place + nodes - 1) % nodes], link, log);
  }),
);
