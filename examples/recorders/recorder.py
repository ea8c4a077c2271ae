"""Writes the log of one node of an Itai-Rodeh ring, as `ira` reads it. Copy this file.

Each node has a recorder of its own, and calls it from one thread, each time after the step that the record
tells of: `drew` once the ID is drawn, `sent` once the message is on the link, `received` once it is taken off.
Where leaders may yield, the log is one of version 2, and has `yielded` and the two calls of resets besides.
`leads`, once the node takes itself for the leader, is no record: where it hasn't yielded until its log is closed, its
place comes into the file `leaders`, which is for all nodes, and which who starts the ring makes empty.
"""

import os


class Recorder:
    """The log of the node at `place`, in the file `place.log` of a folder that exists."""

    def __init__(self, folder, nodes, place, initiator, version=1):
        # No carriage returns, no byte order mark; and each line is handed to the system at once.
        self.file = open(
            os.path.join(folder, f"{place}.log"), "w", encoding="ascii", newline="\n", buffering=1
        )
        self.records = 0
        self.place = place
        self.leaders = os.path.join(folder, "leaders")
        self.is_leader = False
        self.file.write(f"irlog {version}\n")
        self.file.write(f"nodes {nodes}\n")
        self.file.write(f"place {place}\n")
        self.file.write("start initiator\n" if initiator else "start passive\n")

    def drew(self, id):
        self.record(f"draw {id}")

    def sent(self, round, id, hop, dirty):
        self.record(f"send {round} {id} {hop} {bit(dirty)}")

    def received(self, round, id, hop, dirty):
        self.record(f"recv {round} {id} {hop} {bit(dirty)}")

    def leads(self):
        self.is_leader = True

    def yielded(self):
        self.is_leader = False
        self.record("yield")

    def sent_reset(self, hop):
        self.record(f"send reset {hop}")

    def received_reset(self, hop):
        self.record(f"recv reset {hop}")

    def record(self, line):
        self.file.write(line + "\n")
        self.records += 1

    def close(self):
        """Writes the end line, without which the log counts as cut off."""
        self.file.write(f"end {self.records}\n")
        self.file.close()
        if self.is_leader:
            with open(self.leaders, "a", encoding="ascii", newline="\n") as leaders:
                leaders.write(f"{self.place}\n")

    def __enter__(self):
        return self

    def __exit__(self, thrown, *_):
        if thrown:
            self.file.close()  # Not at its end: no end line says that it is.
        else:
            self.close()


def bit(dirty):
    return "dirty" if dirty else "clean"
