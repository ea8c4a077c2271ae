"""An election on a ring of threads, recorded.

    python3 ring.py --nodes 4 --seed 7 --out DIR

Each node is a thread, each link a queue. Node I writes DIR/I.log, who leads DIR/leaders. The logs are the same for the same words.
With `--terms T` there are T elections: each leader but the last one yields, and its reset begins the next term.
"""

import argparse
import os
import queue
import random
import threading
from typing import NamedTuple

from recorder import Recorder


class Message(NamedTuple):
    round: int
    id: int
    hop: int
    dirty: bool


class Reset(NamedTuple):
    hop: int


# What an ended node tells the next one. It is no message of the algorithm, so nobody records it.
STOP = None


class Node:
    def __init__(self, nodes, initiator, terms, draws, source, target, log):
        self.nodes = nodes
        self.initiator = initiator
        self.terms = terms
        self.draws = draws
        self.source = source
        self.target = target
        self.log = log

    def run(self):
        # The round and ID of an active node; a passive one has none, nor one that yielded.
        own = self.choose(1) if self.initiator else None
        term = 1
        while (message := self.receive()) is not STOP:
            if isinstance(message, Reset):
                if message.hop < self.nodes:
                    self.send(Reset(message.hop + 1))
                term += 1
                own = self.choose(1)
                continue
            pair = (message.round, message.id)
            if own is None or pair > own:
                own = None
                self.send(message._replace(hop=message.hop + 1))
            elif pair < own:
                pass
            elif message.hop < self.nodes:
                self.send(message._replace(hop=message.hop + 1, dirty=True))
            elif message.dirty:
                own = self.choose(message.round + 1)
            elif term == self.terms:
                self.log.leads()
                break
            else:
                own = None
                self.log.yielded()
                self.send(Reset(hop=1))
        self.target.put(STOP)

    def choose(self, round):
        id = self.draws.randint(1, self.nodes)
        self.log.drew(id)
        self.send(Message(round, id, hop=1, dirty=False))
        return (round, id)

    def send(self, message):
        self.target.put(message)
        if isinstance(message, Reset):
            self.log.sent_reset(message.hop)
        else:
            self.log.sent(*message)

    def receive(self):
        message = self.source.get()
        if isinstance(message, Reset):
            self.log.received_reset(message.hop)
        elif message is not STOP:
            self.log.received(*message)
        return message


def run_node(place, words, links):
    initiator = place < words.initiators
    version = 1 if words.terms == 1 and words.nodes <= 64 else 2
    draws = random.Random(f"{words.seed} {place}")
    with Recorder(words.out, words.nodes, place, initiator, version) as log:
        Node(words.nodes, initiator, words.terms, draws, links[place - 1], links[place], log).run()


def main():
    parser = argparse.ArgumentParser(description="Runs elections and records them.")
    parser.add_argument("--nodes", type=int, required=True, help="2 to 255")
    parser.add_argument("--seed", type=int, required=True, help="what the draws come from")
    parser.add_argument("--out", required=True, help="a folder that exists")
    parser.add_argument("--initiators", type=int, help="nodes 0 to INITIATORS-1 begin; all if not given")
    parser.add_argument("--terms", type=int, default=1, help="how many elections; 1 if not given")
    words = parser.parse_args()
    if words.initiators is None:
        words.initiators = words.nodes
    if not 2 <= words.nodes <= 255 or words.initiators < 1 or words.terms < 1:
        parser.error("a ring has 2 to 255 nodes, an initiator, and a term")

    open(os.path.join(words.out, "leaders"), "w").close()
    # Link I leads from node I to node I+1, the last one to node 0.
    links = [queue.SimpleQueue() for _ in range(words.nodes)]
    threads = [
        threading.Thread(target=run_node, args=(place, words, links))
        for place in range(words.nodes)
    ]
    for thread in threads:
        thread.start()
    for thread in threads:
        thread.join()


if __name__ == "__main__":
    main()
