"""An election on a ring of asyncio tasks that speak TCP, recorded by recorder.py.

    python3 ring_asyncio.py 4 7 DIR

runs 4 nodes with draws from seed 7; each link is a connection, with a line a message. Node I writes DIR/I.log, and
who leads DIR/leaders.
"""

import asyncio
import os
import random
import sys

from recorder import Recorder


class Node:
    def __init__(self, nodes, draws, log, source, target):
        self.nodes = nodes
        self.draws = draws
        self.log = log
        self.source = source
        self.target = target

    async def run(self):
        own = await self.choose(1)  # The round and ID of an active node; a passive one has none.
        while line := await self.source.readline():
            round, id, hop, dirty = (int(word) for word in line.split())
            self.log.received(round, id, hop, dirty)
            if own is None or (round, id) > own:
                own = None
                await self.send(round, id, hop + 1, dirty)
            elif (round, id) < own:
                pass
            elif hop < self.nodes:
                await self.send(round, id, hop + 1, 1)
            elif dirty:
                own = await self.choose(round + 1)
            else:
                self.log.leads()
                break
        self.target.close()  # The next node reads that the stream has ended.
        self.log.close()

    async def choose(self, round):
        id = self.draws.randint(1, self.nodes)
        self.log.drew(id)
        await self.send(round, id, 1, 0)
        return (round, id)

    async def send(self, round, id, hop, dirty):
        self.target.write(f"{round} {id} {hop} {dirty}\n".encode())
        self.log.sent(round, id, hop, dirty)
        await self.target.drain()


async def link():
    """A connection: what the next node reads, and what this one writes."""
    source = asyncio.Future()
    server = await asyncio.start_server(lambda reader, _: source.set_result(reader), "127.0.0.1", 0)
    _, target = await asyncio.open_connection(*server.sockets[0].getsockname())
    return await source, target


async def main(nodes, seed, folder):
    open(os.path.join(folder, "leaders"), "w").close()
    links = [await link() for _ in range(nodes)]  # Link I leads from node I to node I+1.
    ring = []
    for place in range(nodes):
        draws = random.Random(f"{seed} {place}")
        log = Recorder(folder, nodes, place, True)
        ring.append(Node(nodes, draws, log, links[place - 1][0], links[place][1]))
    await asyncio.gather(*(node.run() for node in ring))


asyncio.run(main(int(sys.argv[1]), int(sys.argv[2]), sys.argv[3]))
