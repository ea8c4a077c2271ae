"""Reads the plain pages of `ira show` and `ira explain` back, and holds what they say of files, lines, messages, counts,
states and leaders against the logs, whose matching and states are computed here anew.

    python3 checks/plain_pages.py PROGRAM      PROGRAM shows and explains the examples, and elections that it records
"""
import os
import re
import subprocess
import sys
import tempfile

from pictures import HERE, Ring, damaged, load, logs_in, read, redrawn, step, words

# At most so many rounds, nodes of a round and messages of a link are named.
ROUNDS, NODES, LOADS = 20, 8, 6


class Reader:
    def __init__(self, program):
        self.program, self.lines = program, 0

    def page(self, *options, stdin=None):
        """The status, the answer, and the lines after it."""
        done = subprocess.run([self.program, *options], check=False, capture_output=True, text=True, stdin=stdin)
        assert done.stderr == '' and done.stdout.endswith('\n'), (options, done.stderr)
        answer, *lines = done.stdout[:-1].split('\n')
        self.lines += len(lines) + 1
        return done.returncode, answer, lines


def record(name, line):
    """The text of a line of a file, counted from 1."""
    with open(name) as file:
        return file.read().split('\n')[line - 1]


def blocks_of(lines):
    """The lines between empty ones."""
    blocks = [[]]
    for line in lines:
        if line:
            blocks[-1].append(line)
        else:
            blocks.append([])
    return [block for block in blocks if block]


def cells(line):
    """The cells of a row: two spaces or more part them."""
    return re.split(r'  +', line.strip())


# ---- show ---------------------------------------------------------------------------------------
def draws_of(ring, at):
    """For each term and round the nodes that drew in it, each with its ID."""
    drawn = {}
    for i, (events, states) in enumerate(zip(ring.events, ring.states)):
        for p in range(at[i]):
            if events[p][0] == 'draw':
                drawn.setdefault((states[p].term, states[p].round), {})[i] = int(events[p][1])
    return drawn


def check_rounds(block, ring, at):
    drawn = draws_of(ring, at)
    rows = [cells(line) for line in block[1:] if not line.startswith('  and ')]
    assert rows == [row for row in (round_row(drawn, key, cells(block[0])) for key in sorted(drawn)[:ROUNDS])], (block, drawn)
    left = len(drawn) - len(rows)
    assert ([f'  and {left} more'] if left else []) == block[1 + len(rows):], block


def places(named):
    return ', '.join(map(str, named[:NODES])) + (f' and {len(named) - NODES} more' if len(named) > NODES else '')


def round_row(drawn, key, head):
    (term, number), ids = key, drawn[key]
    greatest = max(ids.values())
    row = [str(number), str(len(ids)), str(greatest), places([i for i in sorted(ids) if ids[i] == greatest])]
    return [str(term), *row] if 'term' in head else row


def check_nodes(block, ring, names, cut, at):
    head = cells(block[0])
    assert head == ['node', 'start', 'events', *(['of'] if cut else []), 'draws', 'sent', 'received', 'dropped', 'state']
    assert len(block) == ring.n + 1
    for i, line in enumerate(block[1:]):
        row = dict(zip(head, cells(line)))
        events, states = ring.events[i], ring.states[i]
        kinds = [event[0] for event in events[:at[i]]]
        dropped = sum(kinds[p] == 'recv' and states[p] == states[p + 1] for p in range(at[i]))
        start = 'initiator' if read(names[i])[0] else 'passive'
        assert row == {
            'node': str(i), 'start': start, 'events': str(at[i]), **({'of': str(len(events))} if cut else {}),
            'draws': str(kinds.count('draw')), 'sent': str(kinds.count('send')), 'received': str(kinds.count('recv')),
            'dropped': str(dropped), 'state': words(states[at[i]])}, row


def ways_of(ring, at):
    """What is on its way on each link, the next to be received first."""
    for i in range(ring.n):
        received = sum(p <= at[(i + 1) % ring.n] for p in ring.got[i])
        yield i, [' '.join(load(ring.events[i][p - 1])) for p in ring.sent[i][received:] if p <= at[i]]


def check_ways(block, ring, at):
    wanted = []
    for i, loads in ways_of(ring, at):
        if loads:
            more = f' and {len(loads) - LOADS} more' if len(loads) > LOADS else ''
            wanted.append(f"  link {i}, node {i} to {(i + 1) % ring.n}: {', '.join(loads[:LOADS])}{more}")
    assert [line for line in block if line.startswith('  link ')] == wanted, (block, wanted)
    assert (block == ['  No message is on its way.']) == (not wanted), block


def next_of(ring, at):
    """What comes next at each node, by the steps alone: its draw, what it owes, or the receipt of what is first on the link."""
    first = {(i + 1) % ring.n: loads[0] for i, loads in ways_of(ring, at) if loads}
    for i, states in enumerate(ring.states):
        state = states[at[i]]
        if step(state, ('draw', '1'), ring.n):
            yield i, 'draws'
        elif state.owed and step(state, ('send', *state.owed), ring.n):
            yield i, 'sends ' + ' '.join(state.owed)
        elif i in first and step(state, ('recv', *first[i].split(' ')), ring.n):
            yield i, 'receives ' + first[i]


def contenders_of(ring, names, at):
    """Who begins to choose in the latest term and was outdrawn in no round of it; nobody where none drew there, or its
    leader yields, or they are all nodes."""
    drawn, now = draws_of(ring, at), [states[at[i]] for i, states in enumerate(ring.states)]
    term = max((term for term, _ in drawn), default=None)
    if term is None or any(state.term > term or state.phase == 'yielding' for state in now):
        return []
    out = {i for (t, _), ids in drawn.items() if t == term for i in ids if ids[i] < max(ids.values())}
    able = [i for i, name in enumerate(names) if i not in out and (term > 1 or read(name)[0])]
    return able if len(able) < ring.n else []


def check_election(block, ring, names, at):
    """That the election is over just where a node leads, and else who can still lead, and what comes next; where a node is
    an initiator that is something just where none leads."""
    due = [f'  node {i} {what}' for i, what in next_of(ring, at)]
    leads = any(states[at[i]].phase == 'leader' for i, states in enumerate(ring.states))
    started = any(read(name)[0] for name in names)
    assert started == (leads or bool(due)) and not (leads and due), (due, at)
    if leads:
        wanted = ['  The election is over.']
    elif due:
        able = contenders_of(ring, names, at)
        only = f" By the draws none but node{'s' * (len(able) > 1)} {places(able)} can lead in this term." if able else ''
        wanted = [f"  The election isn't over.{only} What comes next:", *due]
    else:
        wanted = ["  The election isn't over, and nothing comes next: no node is an initiator."]
    assert block == wanted, (block, wanted)


def check_summary(line, ring):
    leaders = [(i, s[-1]) for i, s in enumerate(ring.states) if s[-1].phase == 'leader']
    who = f'Node {leaders[0][0]} leads in {words(leaders[0][1])[10:]}.' if leaders else 'Nobody leads yet.'
    kinds = [event[0] for events in ring.events for event in events]
    resets = any(event[1] == 'reset' for events in ring.events for event in events if len(event) > 1)
    sent, received = kinds.count('send'), kinds.count('recv')
    what = f'{sent} messages and resets' if resets else f"{sent} message{'' if sent == 1 else 's'}"
    number = len(kinds)
    wanted = f"{who} {ring.n} nodes, {number} event{'' if number == 1 else 's'}; {what} sent, {received} received, " \
             f'{sent - received} on the way.'
    assert line == wanted, (line, wanted)


def check_show(reader, ring, names, cut):
    options = ['--at', ','.join(map(str, cut))] if cut else []
    status, answer, lines = reader.page('show', *options, *names)
    at = cut or [len(events) for events in ring.events]
    assert (status, answer) == (0, 'yes')
    heading, *blocks = blocks_of(lines)
    if cut:
        assert heading == [f"At the cut {' '.join(map(str, cut))}:"]
    else:
        check_summary(*heading, ring)
    if draws_of(ring, at):
        check_rounds(blocks.pop(0), ring, at)
    nodes, ways, election = blocks
    check_nodes(nodes, ring, names, cut, at)
    check_ways(ways, ring, at)
    check_election(election, ring, names, at)


def change_of(before, after):
    """What an event that isn't a sending changes."""
    if before == after:
        return 'dropped'
    if (before.term, before.phase) == (after.term, after.phase) and before.round == after.round and before.id == after.id:
        return 'owes ' + ' '.join(after.owed)
    return words(after)


def check_events(reader, ring, names, cut):
    """An order of all events: each once, by column and then by place, receipts after their sendings, the cut's first."""
    options = ['--at', ','.join(map(str, cut))] if cut else []
    _, _, lines = reader.page('show', '--events', *options, *names)
    _, rows = blocks_of(lines)
    at = cut or [len(events) for events in ring.events]
    made, step_of, here = [0] * ring.n, {}, []
    for row in rows:
        if row.startswith('  -- here:'):
            here.append(list(made))
            continue
        number, node, event, what = re.fullmatch(r' +(\d+)  node +(\d+)  event +(\d+)  (.*)', row).groups()
        i, p = int(node), int(event)
        made[i] += 1
        step_of[i, p] = int(number)
        assert len(step_of) == int(number) and p == made[i], row
        happened, before, after = ring.events[i][p - 1], ring.states[i][p - 1], ring.states[i][p]
        due = ' '.join(happened)
        if happened[0] == 'recv':
            due += f'  of step {step_of[ring.sending(i, p)]}'
        if happened[0] != 'send':
            due += '  ' + change_of(before, after)
        assert re.sub('   +', '  ', what).rstrip() == due, (row, due)
    assert made == [len(events) for events in ring.events] and here == ([at] if cut else []), names
    column = Ring(names, cut).column
    assert list(step_of) == sorted(step_of, key=lambda event: (column[event], event)), names


def check_moments(reader, ring, names):
    check_show(reader, ring, names, None)
    check_events(reader, ring, names, None)
    for i in range(0, ring.n, 1 + ring.n // 4):
        for p in range(1, len(ring.events[i]) + 1, 1 + len(ring.events[i]) // 4):
            check_show(reader, ring, names, ring.past(i, p))
    check_events(reader, ring, names, ring.past(0, 1))


# ---- explain ------------------------------------------------------------------------------------
# The headings of other nodes' events without a step that were seen.
seen = set()
PLACE = re.compile(r'(.+?):(\d+)')


def side(text):
    """A side of a link's row: a file, a line, and what it has there; nothing where there is none."""
    if text == '-':
        return None
    name, line, message = re.fullmatch(r'(.+?):(\d+): (.*)', text).groups()
    assert record(name, int(line)).split(' ', 1)[1] == message, text
    return name, int(line) - 4, message


def check_link(lines, ring, names, answer):
    """The rows round a link's fault: the k-th sending beside the k-th receipt, up to the fault all the same."""
    link, k = map(int, re.match(r'no: link (\d+): receipt (\d+) ', answer).groups())
    assert ring.mismatch() == (link, k - 1)
    reader = (link + 1) % ring.n
    rows = {}
    for line in lines:
        row = re.fullmatch(r'([> ]) +(\d+)  (.*)', line)
        if row and (f'{names[link]}:' in line or f'{names[reader]}:' in line or '  -' in line):
            mark, number, rest = row.groups()
            sent, received, *verdict = cells(rest)
            rows[int(number)] = side(sent), side(received), verdict
            assert (mark == '>') == (int(number) == k), line
    assert k in rows and sorted(rows) == list(range(min(rows), max(rows) + 1)), rows
    for number, (sent, received, verdict) in rows.items():
        for found, place, events in ((sent, link, ring.sent[link]), (received, reader, ring.got[link])):
            event = events[number - 1] if number <= len(events) else None
            assert (found is None) == (event is None), (number, found)
            if found:
                assert found == (names[place], event, ' '.join(load(ring.events[place][event - 1]))), found
        if sent and received:
            assert verdict == ['same' if sent[2] == received[2] else 'differs'], (number, verdict)


def check_circle(lines, ring, names):
    """Each node's first event that can't come, and the sending that it waits for, with the one that it comes after."""
    rows = [re.fullmatch(r'  node +(\d+)  (.+?):(\d+): (.*?)  +is sent by node (\d+)  (.+?):(\d+), after its line (\d+)', line)
            for line in lines]
    rows = [row.groups() for row in rows if row]
    assert [int(row[0]) for row in rows] == list(range(ring.n)), lines
    for node, name, line, text, writer, sender, sending, after in rows:
        i, p = int(node), ring.stuck[int(node)] + 1
        assert (name, int(line)) == (names[i], p + 4) and record(name, p + 4) == text
        j, q = ring.sending(i, p)
        assert (int(writer), sender, int(sending), int(after)) == (j, names[j], q + 4, ring.stuck[j] + 5), line
    (ordered,) = [line for line in lines if 'events can be put in order' in line]
    of = sum(map(len, ring.events))
    assert f' {sum(ring.stuck)} of {of} events can be put in order' in ordered


def check_node(lines, ring, names, answer):
    """The states up to the event without a step, and the first such events of other logs."""
    i, p = map(int, re.match(r'no: node (\d+): event (\d+): ', answer).groups())
    assert len(ring.states[i]) == p and all(len(ring.states[j]) > len(ring.events[j]) for j in range(i))
    last = 0
    for line in lines:
        row = re.fullmatch(r'([> ]) (.+?):(\d+): (.*)', line)
        if row and row[2] == names[i] and not line.startswith('    '):
            mark, name, number, rest = row.groups()
            text = record(name, int(number))
            event = int(number) - 4
            if '  ' not in rest and mark != '>':
                continue
            assert rest.startswith(text), line
            beside = rest[len(text):].strip()
            assert (mark == '>') == (event == p), line
            assert beside.startswith('no step') if event == p else beside == words(ring.states[i][event]), line
            last = max(last, event)
    assert last == p, lines
    past, faulty, happened = ring.past(i, p), set(), None
    for line in lines:
        if line.startswith(('  Begin elsewhere', '  In other logs')):
            happened = line.startswith('  Begin')
        other = re.fullmatch(r'    (\S+):(\d+): (.*), event (\d+) of node (\d+): .*', line)
        if other:
            name, number, text, event, node = other.groups()
            j, q = int(node), int(event)
            assert (name, int(number)) == (names[j], q + 4) and record(name, q + 4) == text, line
            assert len(ring.states[j]) == q and (past[j] >= q) == happened, line
            faulty.add(j)
    least = {j for j, states in enumerate(ring.states) if len(states) <= len(ring.events[j])} - {i}
    assert faulty <= least and (not faulty) == (not least), (faulty, least)
    seen.update(line.split(':')[0].strip() for line in lines if line.startswith(('  Begin elsewhere', '  In other logs')))


def check_explained(reader, names):
    status, answer, lines = reader.page('explain', *names)
    assert (status, answer) == reader.page('logs', *names)[:2]
    assert lines[0] == '', answer
    if answer == 'yes':
        ring = Ring(names)
        summary, election = blocks_of(lines)
        check_summary(' '.join(line.strip() for line in summary), ring)
        check_election(election, ring, names, [len(events) for events in ring.events])
    elif answer.startswith('no: link'):
        check_link(lines, Ring(names), names, answer)
    elif answer == 'no: circle':
        check_circle(lines, Ring(names), names)
    elif answer.startswith('no: node'):
        check_node(lines, Ring(names), names, answer)
    return answer


def main():
    reader = Reader(sys.argv[1])
    examples, folders = os.path.join(HERE, '..', 'examples'), []
    for name in sorted(os.listdir(examples)):
        folder = os.path.join(examples, name)
        if os.path.isdir(folder) and logs_in(folder):
            folders.append(folder)
    with tempfile.TemporaryDirectory() as temp:
        for nodes, seed, terms in ((2, 17, 2), (3, 7, 1), (4, 5, 2), (8, 2, 1), (64, 5, 1), (255, 3, 1)):
            folder = os.path.join(temp, f'{nodes}.{seed}')
            os.mkdir(folder)
            reader.page('run', '--nodes', str(nodes), '--seed', str(seed), '--terms', str(terms), '--out', folder)
            folders.append(folder)
        for folder in folders:
            names = logs_in(folder)
            if check_explained(reader, names) == 'yes':
                check_moments(reader, Ring(names), names)
            if len(names) > 1:
                check_explained(reader, [names[1], names[0], *names[2:]])
            if len(names) in (2, 3) and folder.startswith(temp):
                for ended in ended_logs(names, temp):
                    assert check_explained(reader, ended) == 'yes', folder
            if len(names) in (3, 4) and folder.startswith(temp):
                damaged(names, lambda: check_explained(reader, names))
                redrawn(names, lambda: check_explained(reader, names))
    assert len(seen) == 2, seen
    print(f'{reader.lines} lines of plain pages say what the logs do')


def ended_logs(names, temp):
    """The logs of a ring that ends after each event of an order of all: of a run, its election over or not."""
    ring = Ring(names)
    order = sorted(ring.column, key=lambda event: (ring.column[event], event))
    ended = [os.path.join(temp, f'{i}.ended') for i in range(ring.n)]
    at = [0] * ring.n
    for i, p in [(None, 0), *order]:
        if p:
            at[i] = p
        for name, copy, events in zip(names, ended, at):
            with open(name) as log, open(copy, 'w') as file:
                lines = log.read().split('\n')
                file.write('\n'.join([*lines[:4 + events], f'end {events}', '']))
        yield ended


if __name__ == '__main__':
    main()
