"""Plants slips of recorders and of links in recorded elections, one at a time, and holds the hints of `ira explain`
against what was planted: each is right, says no more than the logs do, says perhaps, or is false. None may be false: the
nodes, events and messages that a hint names are looked up in the logs. Of each kind so many are right as the table says.

    python3 checks/hints.py PROGRAM [--each]     --each prints each case with its hints
"""
import collections
import itertools
import json
import os
import re
import subprocess
import sys
import tempfile

from pictures import HERE, State, load, logs_in, read, step

# Nodes, initiators, seed and terms of the elections.
ELECTIONS = ((2, 2, 4, 1), (3, 3, 2, 1), (4, 3, 12, 1), (5, 3, 5, 1), (3, 2, 6, 2), (5, 5, 9, 1))
CONSTANT = {'round 1': (1, '1'), 'ID 1': (2, '1'), 'hop 1': (3, '1'),
            'bit clean': (4, 'clean'), 'bit dirty': (4, 'dirty')}
EXCHANGED = {'round and ID': (1, 2), 'ID and hop': (2, 3), 'round and hop': (1, 3)}
# How many of each kind are right at least.
LEAST = {
    'slip: round 1': 36, 'slip: ID 1': 63, 'slip: hop 1': 60, 'slip: bit clean': 46, 'slip: bit dirty': 62,
    'slip: round and ID': 66, 'slip: ID and hop': 64, 'slip: round and hop': 60, 'slip: bit contrary': 62,
    'slip: hop raised': 59, 'slip: hop lowered': 59, 'copy of a neighbour': 40, 'receipts exchanged': 113,
    'sendings exchanged': 113, 'read backwards': 18, 'sending twice': 77, 'receipt twice': 77, 'sending missing': 77,
    'receipt missing': 69, 'receipt and its sending missing': 49, 'no receipts': 19, 'no resets': 1,
    'too many records': 6, 'log of another run': 20, 'two runs': 5, 'UTF-16': 18, 'NUL bytes': 12, 'place from 1': 6,
    'hop of a reset': 3, 'sent past a node': 33, 'head counted': 12, 'names exchanged': 33, 'log left out': 3,
    'each record twice': 22, 'log in a buffer': 12,
}
FIELD = {1: 'round', 2: 'ID', 3: 'hop', 4: 'bit'}


def changed(event, rule):
    """The record as a recorder with this slip writes it."""
    if len(event) != 5:
        return event
    event = list(event)
    if rule in CONSTANT:
        at, value = CONSTANT[rule]
        event[at] = value
    elif rule in EXCHANGED:
        a, b = EXCHANGED[rule]
        event[a], event[b] = event[b], event[a]
    elif rule == 'bit contrary':
        event[4] = 'clean' if event[4] == 'dirty' else 'dirty'
    else:
        event[3] = str(max(1, int(event[3]) + (1 if rule == 'hop raised' else -1)))
    return tuple(event)


def loads(events, kind):
    return [' '.join(load(event)) for event in events if event[0] == kind]


def states(initiator, events, n):
    """The states as far as events have steps."""
    found = [State('choosing' if initiator else 'passive', 1 if initiator else None, None, None, 1)]
    for event in events:
        if (after := step(found[-1], event, n)) is None:
            break
        found.append(after)
    return found


class Case:
    """Logs with what was planted: its kind, the node, and words of the hint that names it."""

    def __init__(self, kind, logs, node, right):
        self.kind, self.logs, self.node, self.right = kind, logs, node, right

    def sides(self, link):
        return loads(self.logs[link][1], 'send'), loads(self.logs[(link + 1) % len(self.logs)][1], 'recv')


def slips(logs, copies):
    """The recorder of one node slips by a rule in what it sent, received, or both; or its log is a neighbour's."""
    for node, (initiator, events) in enumerate(logs):
        for rule, kinds in itertools.product([*CONSTANT, *EXCHANGED, 'bit contrary', 'hop raised', 'hop lowered'],
                                             (('send',), ('recv',), ('send', 'recv'))):
            fields = EXCHANGED.get(rule) or (CONSTANT[rule][0] if rule in CONSTANT else 4 if rule[:3] == 'bit' else 3,)
            right = r'\b' + ' and '.join(FIELD[at] for at in fields) + (' are exchanged' if len(fields) > 1 else r'\b')
            wrong = [changed(event, rule) if event[0] in kinds else event for event in events]
            yield Case('slip: ' + rule, [*logs[:node], (initiator, wrong), *logs[node + 1:]], node, right)
        for other in ((node - 1) % len(logs), (node + 1) % len(logs)) if copies else ():
            yield Case('copy of a neighbour', [*logs[:node], logs[other], *logs[node + 1:]], node, 'same records')


def orders(logs):
    """Two receipts, or two sendings, in each other's place, and links read backwards."""
    for (node, (initiator, events)), kind in itertools.product(enumerate(logs), ('recv', 'send')):
        places = [at for at, event in enumerate(events) if event[0] == kind]
        pairs = list(itertools.combinations(places, 2))
        for turned in [*pairs, places] if kind == 'recv' and len(places) > 2 else pairs:
            wrong = list(events)
            for at, other in zip(turned, reversed(turned)):
                wrong[at] = events[other]
            name = ('receipts' if kind == 'recv' else 'sendings') + ' exchanged'
            name = 'read backwards' if turned == places else name
            right = 'changed their order|another order'
            yield Case(name, [*logs[:node], (initiator, wrong), *logs[node + 1:]], node, right)


# What is missing or twice, and words of the hint that names it.
UNSENT = r'sendings? of node \d+ (is|are) not recorded|its sending is not recorded|sending.* never made|never sent'
RECORDS = {
    'sending twice': 'sent twice', 'receipt twice': 'came twice|recorded twice', 'sending missing': UNSENT,
    'receipt missing': 'receipts? (is|are) not recorded|a receipt too|never received',
    'receipt and its sending missing': 'both|(is|are) not recorded',
    'each record twice': 'each record stands twice',
    'sent past a node': 'to the wrong node', 'no receipts': 'no receipt', 'no resets': 'no reset', 'too many records': 'at most 100,000 records',
}


def records(logs):
    """Records missing, written twice, or too many."""
    def planted(kind, node, events):
        return Case(kind, [*logs[:node], (logs[node][0], events), *logs[node + 1:]], node, RECORDS[kind])

    for node, (_, events) in enumerate(logs):
        for at, event in enumerate(events):
            name = {'send': 'sending', 'recv': 'receipt'}.get(event[0])
            if name:
                yield planted(f'{name} twice', node, [*events[:at], event, *events[at:]])
                yield planted(f'{name} missing', node, events[:at] + events[at + 1:])
            if name == 'receipt' and [e[0] for e in events[at + 1:at + 2]] == ['send']:
                yield planted('receipt and its sending missing', node, events[:at] + events[at + 2:])
                number, after = sum(e[0] == 'send' for e in events[:at]), (node + 1) % len(logs)
                initiator, past = logs[after]
                for place in [k for k, e in enumerate(past) if e[0] == 'recv'][number:number + 1]:
                    case = planted('sent past a node', node, events[:at] + events[at + 2:])
                    case.logs[after] = initiator, [*past[:place], event, *past[place + 1:]]
                    yield case
        yield planted('each record twice', node, [event for event in events for _ in (0, 1)])
        yield planted('no receipts', node, [event for event in events if event[0] != 'recv'])
    yield planted('too many records', 0, [*logs[0][1], *[('draw', '1')] * 100_001])
    rest = [(start, [e for e in events if e[0] != 'yield' and e[1] != 'reset']) for start, events in logs]
    yield Case('no resets', rest, None, RECORDS['no resets'])


def runs(logs, others):
    """Logs of this election and of another one of as many nodes, or all but one."""
    for node in range(len(logs)):
        mixed = [*logs[:node], others[node], *logs[node + 1:]]
        yield Case('log of another run', mixed, node, 'of another run|of two runs')
        if len(logs) > 2:
            yield Case('log left out', [*logs[:node], *logs[node + 1:]], None, 'is missing')
    for node in range(2, len(logs) - 1):
        yield Case('two runs', [*logs[:node], *others[node:]], None, 'of two runs')


def texts(logs):
    """A log's text that isn't one: its bytes, its head, or its end; files with each other's names; and resets that nobody
    owes, or with another hop."""
    text = log_text(logs[0], 0, len(logs), 1)
    for kind, wrong, right in (
            ('UTF-16', [text.decode().encode(code) for code in ('utf-16', 'utf-16-le', 'utf-16-be')], 'UTF-16'),
            ('NUL bytes', [b'\0' * len(text), b'\0'], 'NUL bytes'),
            ('log in a buffer', [b'', text[:20]], 'before it had written'),
            ('bytes of no text', [b'a\0b', b'\0a\n', b'\0\0i\0'], NEVER),
            ('head counted', [re.sub(rb'end \d+', b'end %d' % (len(logs[0][1]) + more), text.replace(b'irlog 1', b'irlog 2'))
                              for more in (4, 5)], 'head is counted'),
            ('place from 1', [text.replace(b'place 0', b'place %d' % len(logs))], 'count from 0')):
        for changed in wrong:
            yield Case(kind, [changed, *logs[1:]], 0, right)
    for i, j in itertools.combinations(range(len(logs)), 2):
        files = [log_text(log, place, len(logs), 2) for place, log in enumerate(logs)]
        files[i], files[j] = files[j], files[i]
        yield Case('names exchanged', files, None, "each other's places")
    for node, (initiator, events) in enumerate(logs):
        for at, event in enumerate(events):
            if event[:2] == ('send', 'reset'):
                wrong = [*events[:at], ('send', 'reset', str(int(event[2]) + 1)), *events[at + 1:]]
                yield Case('hop of a reset', [*logs[:node], (initiator, wrong), *logs[node + 1:]], node, 'hop')
                alone = [(True, [event] if place == node else []) for place in range(len(logs))]
                yield Case('reset of a choosing node', alone, node, NEVER)


NEVER = '(?!)'
LOAD = r'((?:\d+ ){3}(?:clean|dirty)|reset \d+)'


def facts(case, link):
    """How hints name nodes, events and messages, and whether it is so; of a link, where the answer names one."""
    n, links = len(case.logs), range(len(case.logs)) if link is None else [link]
    sent, got = ([loads(log[1] if isinstance(log, tuple) else [], kind) for log in case.logs] for kind in ('send', 'recv'))
    of = lambda node: case.logs[node][1]
    beside = lambda i, p, q: (p, q) == ((i - 1) % n, (i + 1) % n)
    some = lambda fits: any(fits(sent[i], got[(i + 1) % n], i) for i in links)
    # (passed on by a node that's active with the same pair it's dirty)
    raised = lambda a, b: b in (owed := ' '.join(step(State('passive', None, None, None, 1), ('recv', *a.split()), n).owed),
                                owed.replace('clean', 'dirty'))
    return (
        (r'\bnodes? (\d+)', lambda i: i < n),
        (r'receipts (\d+) and (\d+) are sendings (\d+) and (\d+): ', lambda a, b, c, d: some(
            lambda s, r, i: r[a - 1:a] == s[c - 1:c] and r[b - 1:b] == s[d - 1:d])),
        (r'receipts (\d+) to (\d+) are the sendings', lambda a, b: some(
            lambda s, r, i: sorted(r[a - 1:b]) == sorted(s[a - 1:b]) and r[a - 1] != s[a - 1] and r[b - 1] != s[b - 1])),
        (r'from receipt (\d+) on each is the sending before its own: message (\d+) .* node (\d+) is', lambda k, m, node: m == k - 1
            and some(lambda s, r, i: i == node and r[k - 1:] == s[k - 2:][:len(r) - k + 1] and r[:k - 1] == s[:k - 1])),
        (r'from receipt (\d+) on each is the sending after its own: sending (\d+)', lambda k, m: m == k and some(
            lambda s, r, i: r[k - 1:] == s[k:][:len(r) - k + 1] and r[:k - 1] == s[:k - 1])),
        (r'without receipt (\d+) all others .* node (\d+) is', lambda k, node: some(
            lambda s, r, i: i == node and (r[:k - 1] + r[k:])[:len(s)] == s[:len(r) - 1])),
        (r'sendings (\d+) and (\d+) are the same', lambda a, b: some(lambda s, r, i: s[a - 1] == s[b - 1] and a != b)),
        (r'in the log of node (\d+) each record', lambda i: of(i)[::2] == of(i)[1::2]),
        (r'the logs? of nodes (\d+) and (\d+) have the same records', lambda a, b: a != b and of(a) == of(b)),
        (r'the log of node (\d+) (?:differs from|is that of a node).* node (\d+) sent .* node (\d+) received', beside),
        (r'differs from what node (\d+) sent and .*: perhaps node (\d+) records', lambda p, i: p == (i - 1) % n),
        (rf'node (\d+) records neither that it received {LOAD}, which node (\d+) sent, nor that it passed it on as {LOAD}',
            lambda i, a, p, b: p == (i - 1) % n and a in sent[p] and b in got[(i + 1) % n] and raised(a, b)),
        (rf'by its log node (\d+) never sent {LOAD}', lambda i, a: a not in sent[i]),
        (rf'by its log node (\d+) never sent {LOAD}, nor received {LOAD}, which', lambda i, a, b: b in sent[i - 1] and raised(b, a)),
        (rf'the node never received {LOAD}, which', lambda a: any(s.count(a) > got[(i + 1) % n].count(a) for i, s in enumerate(sent))),
        (r'the log of node (\d+) ends \(\S*?(\d+)\.log:(\d+)\) where', lambda i, name, line: i == name and line == len(of(i)) + 5),
        (rf'node (\d+) was then active in round (\d+) with ID (\d+), so it drops {LOAD}', lambda i, *pair_load: any(
            (state.round, state.id) == pair_load[:2] for state in states(*case.logs[i], n)) and pair_load[2] in sent[i - 1]),
    )


def names_it_well(case, link, hint):
    """Whether each node, event and message is so as it is named."""
    return all(is_so(*(int(word) if word.isdigit() else word for word in said.groups()))
               for form, is_so in facts(case, link) for said in re.finditer(form, hint))


def verdict(case, answer, hints):
    if not hints:
        return 'none'
    found, link = [], re.match(r'no: link (\d+)', answer)
    for hint in hints:
        is_so = names_it_well(case, link and int(link[1]), hint)
        blamed = re.findall(r'(?:^|: |perhaps )node (\d+) records', hint)
        if not is_so:
            found.append('false')
        elif re.search(case.right, hint) and all(int(node) == case.node for node in blamed):
            found.append('right')
        elif 'perhaps' in hint:
            found.append('perhaps')
        elif re.match(r'by its log node|receipts \d+ and', hint):
            found.append('fact')
        else:
            found.append('false')
    return next(kind for kind in ('false', 'right', 'perhaps', 'fact') if kind in found)


def log_text(log, place, nodes, version):
    initiator, events = log
    head = f"irlog {version}\nnodes {nodes}\nplace {place}\nstart {'initiator' if initiator else 'passive'}\n"
    return (head + ''.join(' '.join(event) + '\n' for event in events) + f'end {len(events)}\n').encode()


def write(folder, logs, version):
    for place, log in enumerate(logs):
        with open(os.path.join(folder, f'{place}.log'), 'wb') as file:
            file.write(log if isinstance(log, bytes) else log_text(log, place, len(logs), version))


def election(temp, nodes, initiators, seed, terms):
    """The logs of an election that the recorder of the examples recorded."""
    recorded = os.path.join(temp, f'{nodes}.{seed}')
    os.mkdir(recorded)
    ring = os.path.join(HERE, '..', 'examples', 'recorders', 'ring.py')
    options = {'--nodes': nodes, '--initiators': initiators, '--seed': seed, '--terms': terms, '--out': recorded}
    subprocess.run([sys.executable, '-B', ring, *(str(word) for pair in options.items() for word in pair)], check=True)
    return [read(name) for name in logs_in(recorded)]


def main():
    program, table = os.path.realpath(sys.argv[1]), collections.defaultdict(collections.Counter)
    with tempfile.TemporaryDirectory() as temp:
        for nodes, initiators, seed, terms in ELECTIONS:
            logs, others = (election(temp, nodes, initiators, number, terms) for number in (seed, seed + 100))
            for case in itertools.chain(slips(logs, nodes > 2), orders(logs), records(logs), runs(logs, others), texts(logs)):
                if case.logs == logs:
                    continue
                write(temp, case.logs, 2 if terms > 1 else 1)
                names = [os.path.join(temp, f'{place}.log') for place in range(len(case.logs))]
                words = [program, 'explain', '--json', *names]
                told = json.loads(subprocess.run(words, check=False, capture_output=True).stdout)
                if told['answer'] == 'yes':
                    continue
                found = verdict(case, told['answer'], told['hints'])
                table[case.kind][found] += 1
                if '--each' in sys.argv:
                    print(found, case.kind, f'{nodes}.{seed}', case.node, told['answer'], *told['hints'], sep=' | ')
    for kind, row in table.items():
        print(f'{kind:32}' + ''.join(f'{row[name]:5} {name}' for name in ('right', 'fact', 'perhaps', 'none', 'false')))
    few = [kind for kind, least in LEAST.items() if table[kind]['right'] < least]
    for kind in few:
        print(f"hints: of '{kind}' fewer are right than {LEAST[kind]}")
    false = sum(row['false'] for row in table.values())
    planted = sum(sum(row.values()) for row in table.values())
    print(f"hints: {planted} planted, {sum(row['right'] for row in table.values())} right, {false} false")
    return bool(false or few)


if __name__ == '__main__':
    sys.exit(main())
