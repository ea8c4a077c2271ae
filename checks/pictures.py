"""Reads pictures of `ira draw` back with an XML parser: marks, arrows, stubs, bands, debts, the lap, the line of a
moment, what is ringed, and all words are computed from coordinates, and held against the matching and the states of
the logs, which are computed here anew.

    python3 checks/pictures.py PROGRAM      PROGRAM draws the examples, and elections that it records
"""
import os
import re
import shutil
import subprocess
import sys
import tempfile
import xml.etree.ElementTree as xml
from collections import namedtuple

S = '{http://www.w3.org/2000/svg}'
HERE = os.path.dirname(os.path.abspath(__file__))
CLASS = {'choosing': 'c', 'active': 'a', 'passive': 'p', 'leader': 'w', 'yielding': 'v'}
State = namedtuple('State', 'phase round id owed term')


# ---- logs ---------------------------------------------------------------------------------------
def read(name):
    with open(name) as f:
        lines = f.read().split('\n')
    return lines[3] == 'start initiator', [tuple(line.split(' ')) for line in lines[4:-2]]


def load(event):
    """What is sent or received: three numbers and a bit, or a reset's hop."""
    return event[1:]


def step(s, event, n):
    """The state after the event, or None where it has none."""
    kind, rest = event[0], event[1:]
    if s.phase == 'leader':
        return State('yielding', None, None, ('reset', '1'), s.term) if kind == 'yield' else None
    if s.owed:
        return s._replace(owed=None) if kind == 'send' and rest == s.owed else None
    if kind == 'draw':
        if s.phase != 'choosing' or not 1 <= int(rest[0]) <= n:
            return None
        return State('active', s.round, int(rest[0]), (str(s.round), rest[0], '1', 'clean'), s.term)
    if kind != 'recv' or s.phase == 'choosing':
        return None
    if rest[0] == 'reset':
        hop = int(rest[1])
        if s.phase == 'passive' and hop < n:
            return State('choosing', 1, None, ('reset', str(hop + 1)), s.term + 1)
        return State('choosing', 1, None, None, s.term + 1) if s.phase == 'yielding' and hop == n else None
    if s.phase == 'yielding':
        return None
    pair, hop, dirty = (int(rest[0]), int(rest[1])), int(rest[2]), rest[3] == 'dirty'
    own = (s.round, s.id) if s.phase == 'active' else (0, 0)
    if pair > own:
        return State('passive', None, None, rest[:2] + (str(hop + 1), rest[3]), s.term)
    if pair < own:
        return s
    if hop < n:
        return s._replace(owed=rest[:2] + (str(hop + 1), 'dirty'))
    if hop > n:
        return None
    return s._replace(phase='choosing', round=s.round + 1, id=None) if dirty else s._replace(phase='leader')


def fault(s, event, n):
    """Why an event has no step after the state, in the words of answers; the limits on numbers aside."""
    kind, rest = event[0], event[1:]
    if s.phase == 'leader':
        return 'ended'
    if kind == 'send':
        return 'not owed'
    if s.owed:
        return 'owes'
    if kind == 'yield':
        return 'not leader'
    if kind == 'draw':
        return 'draw range' if s.phase == 'choosing' else 'not choosing'
    if s.phase == 'choosing':
        return 'must draw'
    if rest[0] == 'reset':
        return 'wrong reset'
    return 'not a reset' if s.phase == 'yielding' else 'hop past'


class Ring:
    def __init__(self, names, cut=None):
        logs = [read(name) for name in names]
        self.n = n = len(logs)
        self.events = [events for _, events in logs]
        self.sent = [[k for k, e in enumerate(es, 1) if e[0] == 'send'] for es in self.events]
        self.got = [[k for k, e in enumerate(self.events[(i + 1) % n], 1) if e[0] == 'recv'] for i in range(n)]
        self.states = []
        for initiator, events in logs:
            states = [State('choosing' if initiator else 'passive', 1 if initiator else None, None, None, 1)]
            for event in events:
                after = step(states[-1], event, n)
                if after is None:
                    break
                states.append(after)
            self.states.append(states)
        self.column, self.line, self.stuck = {}, None, [0] * n
        if cut:
            self.place(lambda i: cut[i], 0)
            self.line = self.last() + 1
        self.place(lambda i: len(self.events[i]), self.line or 0)
        base = self.last()
        for i in range(n):
            for p in range(self.stuck[i] + 1, len(self.events[i]) + 1):
                self.column[i, p] = base + p - self.stuck[i]

    def last(self):
        return max(self.column.values(), default=0)

    def sending(self, j, p):
        """The sending of a receipt, as far as there is one of its number."""
        i = (j - 1) % self.n
        k = self.got[i].index(p)
        return (i, self.sent[i][k]) if k < len(self.sent[i]) else None

    def place(self, end, base):
        """Columns for events as far as they have what they wait for; stuck says how many of each node have one."""
        going = True
        while going:
            going = False
            for i in range(self.n):
                while self.stuck[i] < end(i):
                    p = self.stuck[i] + 1
                    before = max(self.column.get((i, p - 1), 0), base)
                    if self.events[i][p - 1][0] == 'recv':
                        s = self.sending(i, p)
                        if s is not None:
                            if s not in self.column:
                                break
                            before = max(before, self.column[s])
                    self.column[i, p] = before + 1
                    self.stuck[i], going = p, True

    def mismatch(self):
        for i in range(self.n):
            for k, q in enumerate(self.got[i]):
                if k >= len(self.sent[i]):
                    return i, k
                if load(self.events[i][self.sent[i][k] - 1]) != load(self.events[(i + 1) % self.n][q - 1]):
                    return i, k
        return None

    def laps(self):
        """The sendings of the laps by which nodes lead: back from the receipt, once round the ring, each received as sent."""
        laps = set()
        for i, states in enumerate(self.states):
            for p in range(1, len(states)):
                if states[p].phase == 'leader':
                    j, q, lap = i, p, []
                    for _ in range(self.n):
                        s = self.sending(j, q) if q and self.events[j][q - 1][0] == 'recv' else None
                        if s is None or load(self.events[s[0]][s[1] - 1]) != load(self.events[j][q - 1]):
                            break
                        lap.append(s)
                        j, q = s[0], s[1] - 1
                    if len(lap) == self.n:
                        laps.update(lap)
        return laps

    def past(self, i, p):
        """How many events of each node happened before event p of node i or are it."""
        cut, work = [0] * self.n, [(i, p)]
        while work:
            j, q = work.pop()
            for r in range(cut[j] + 1, q + 1):
                if self.events[j][r - 1][0] == 'recv' and self.sending(j, r):
                    work.append(self.sending(j, r))
            cut[j] = max(cut[j], q)
        return cut

    def fault(self, i):
        """The first event of a node without a step, and why."""
        p = len(self.states[i])
        return p, fault(self.states[i][-1], self.events[i][p - 1], self.n)

    def answer(self):
        """What stands against the logs, in words; and the events that it speaks of, each with what is said of it: both sides of
        a link's fault, stuck receipts, or one without a step, and those to begin with."""
        if self.mismatch():
            i, k = self.mismatch()
            found = f"receipt {k + 1} {'differs' if k < len(self.sent[i]) else 'has no sending'}"
            sides = {(i, self.sent[i][k]): f'sending {k + 1}'} if k < len(self.sent[i]) else {}
            return f'no: link {i}: {found}', {((i + 1) % self.n, self.got[i][k]): found} | sides
        if any(s < len(es) for s, es in zip(self.stuck, self.events)):
            return 'no: circle', {(i, s + 1): 'waits' for i, s in enumerate(self.stuck)}
        stops = {i: len(s) for i, s in enumerate(self.states) if len(s) <= len(self.events[i])}
        if not stops:
            return None, {}
        i = min(stops)
        past = self.past(i, stops[i])
        earlier = {j: p for j, p in stops.items() if j != i and past[j] >= p}
        begin = {(j, p): f'begin here: {self.fault(j)[1]}' for j, p in earlier.items()
                 if not any(k != j and self.past(j, p)[k] >= q for k, q in stops.items())}
        return f'no: node {i}: event {stops[i]}: {self.fault(i)[1]}', {(i, stops[i]): self.fault(i)[1]} | begin


# ---- pictures -----------------------------------------------------------------------------------
class Drawn:
    """What a picture shows, read from its coordinates alone."""

    def __init__(self, text, n):
        self.root = root = xml.fromstring(text)
        assert text.isascii() and all(c == '\n' or c.isprintable() for c in text)
        names = [t for t in root.iter(S + 'text') if (t.get('class') or '').split()[:1] == ['n']]
        self.rows = [int(t.get('y')) - 4 for t in names]
        assert [t.text for t in names] == [f'node {i % n}' for i in range(n + (n > 2))]
        self.ticks = {int(t.get('x')): int(t.text) for t in root.iter(S + 'text') if t.get('class') == 'q' and ':' not in t.text}
        self.marks, self.titles = {}, {}
        for g in self.groups('e'):
            for p in g:
                x, y, length = re.fullmatch(r'M(\d+) (\d+)h(8|\.1)', p.get('d')).groups()
                title = p.find(S + 'title').text
                i, k, record, after = re.fullmatch(r'node (\d+) event (\d+): (.*)\n(.*)', title).groups()
                assert self.rows.index(int(y)) == int(i) and p.get('data-at') == f'{i}.{k}'
                # a draw is a line as long as it is wide, with its middle at its column
                is_square = length == '8'
                assert (p.get('class') == 'd') == is_square
                self.marks[int(i), int(k)] = int(x) + 4 * is_square
                self.titles[int(i), int(k)] = record, after, is_square

    def groups(self, name):
        return [g for g in self.root.iter(S + 'g') if (g.get('class') or '').split()[:1] == [name]]

    def arrows(self):
        """The lines between lanes: class, marker, the events that they name, and ends."""
        for name in 'mzb':
            for g in self.groups(name):
                marker = (g.get('marker-end') or '')[5:-1]
                for p in g:
                    ends = tuple(map(int, re.fullmatch(r'M(\d+) (\d+)L(\d+) (\d+)', p.get('d')).groups()))
                    yield g.get('class'), marker, (p.get('data-from'), p.get('data-to')), ends

    def spans(self, name):
        """From where to where each lane has a band of a class."""
        spans = {}
        for p in self.root.iter(S + 'path'):
            if p.get('class') == name and not p.get('marker-end'):
                for a, y, z in re.findall(r'M(\d+) (\d+)H(\d+)', p.get('d')):
                    if int(y) in self.rows:
                        spans.setdefault(self.rows.index(int(y)), []).append((int(a), int(z)))
        return spans


def words(state):
    """A state as the tooltip shows it."""
    turn = f'round {state.round}' + (f' of term {state.term}' if state.term > 1 else '')
    shown = {'choosing': f'choosing in {turn}', 'active': f'active in {turn} with ID {state.id}',
             'leader': f'leader in {turn} with ID {state.id}'}.get(
        state.phase, state.phase + (f' in term {state.term}' if state.term > 1 else ''))
    return shown + (', owes ' + ' '.join(state.owed) if state.owed else '')


def check(text, ring, cut=None, first=None, last=None, which=None, case=None, told=None):
    """Holds a picture against a ring's logs, at a cut, or at one that is the first of a case: its number, and what it asks
    of nodes; or against what is left of logs, which have this answer. Gives how many marks it has."""
    drawn, n = Drawn(text, ring.n), ring.n
    end = ring.last()
    a = min(first or 0, end)
    z = max(min(end if last is None else last, end), a)
    inside = lambda c: a <= c <= z
    # Marks are exactly the events of the columns asked for, each where its column is.
    assert set(drawn.marks) == {e for e, c in ring.column.items() if inside(c)}
    place = {}
    for e, x in drawn.marks.items():
        assert place.setdefault(ring.column[e], x) == x, e
    xs = [place[c] for c in sorted(place)]
    assert xs == sorted(set(xs))
    for x, c in drawn.ticks.items():
        assert place.get(c, x) == x
    for (i, p), (record, after, is_square) in drawn.titles.items():
        states = ring.states[i]
        assert record == ' '.join(ring.events[i][p - 1]) and is_square == (ring.events[i][p - 1][0] == 'draw')
        assert after == (words(states[p]) if p < len(states) else 'no step' if p == len(states) else 'no state')
    # Arrows are exactly the matching, in the lanes of their link; stubs exactly the sendings without a receipt.
    whole, partial, stubs, strays, laps, bad = {}, 0, {}, {}, ring.laps(), ring.mismatch() is not None
    for i in range(n):
        j = (i + 1) % n
        row = i + 1 if n > 2 else j
        for k in range(max(len(ring.sent[i]), len(ring.got[i]))):
            s = ring.sent[i][k] if k < len(ring.sent[i]) else None
            g = ring.got[i][k] if k < len(ring.got[i]) else None
            if g is None:
                if inside(ring.column[i, s]):
                    stubs[drawn.rows[i], drawn.marks[i, s]] = f'{i}.{s}', None
                continue
            if s is None:
                if inside(ring.column[j, g]):
                    strays[drawn.rows[row], drawn.marks[j, g]] = None, f'{j}.{g}'
                continue
            ca, cz = ring.column[i, s], ring.column[j, g]
            if not (inside(ca) and inside(cz)):
                partial += min(ca, cz) <= z and a <= max(ca, cz)
                continue
            sent, got = load(ring.events[i][s - 1]), load(ring.events[j][g - 1])
            states = ring.states[j]
            dropped = g < len(states) and states[g] == states[g - 1]
            kind = ('b y', 'B') if sent != got else ('b', 'B') if cz <= ca else ('z', 'Z') if (i, s) in laps and not dropped else (
                'm x' if sent[0] == 'reset' else 'm y' if sent[3] == 'dirty' else 'm', 'X' if dropped else 'A')
            whole[drawn.rows[i], drawn.marks[i, s], drawn.rows[row], drawn.marks[j, g]] = *kind, (f'{i}.{s}', f'{j}.{g}')
    seen, others, arrows = {}, 0, []
    places = {(y, x) for (i, _), x in drawn.marks.items() for y in [drawn.rows[i]]}
    places |= {(drawn.rows[n], x) for (i, _), x in drawn.marks.items() if i == 0 and n > 2}
    inner = {tuple(map(int, re.findall(r'\d+', p.get('d')))): (g.get('marker-end') or '')[5:-1] for g in drawn.groups('i') for p in g}
    for name, marker, named, (x, y, x2, y2) in drawn.arrows():
        if name == 'm x':
            marker = inner.pop((x, y, x2, y2))
        arrows.append((name, marker, named[0], (x, y, x2, y2)))
        if marker == 'F':
            assert stubs.pop((y, x)) == named
        elif (y, x) in places and (y2, x2) in places and (y, x, y2, x2) in whole:
            seen[y, x, y2, x2] = name, marker, named
        elif (y2, x2) in strays:
            assert strays.pop((y2, x2)) == named and name == 'b y'
        else:
            others += 1
    assert seen == whole, set(seen.items()) ^ set(whole.items())
    assert not stubs and not strays and not inner and others == partial
    # What is ringed.
    ringed = {(int(c.get('cy')), int(c.get('cx'))) for c in drawn.root.iter(S + 'circle') if c.get('class') == 'b r'}
    answer, named = (told, {}) if told else ring.answer()
    assert ringed == {(drawn.rows[i], drawn.marks[i, p]) for i, p in named if (i, p) in drawn.marks}
    # Bands are the phases, and debts the debts, from event to event. Leading that begins where the first ring is, or right
    # of it, isn't drawn as other leading is.
    bands = {name: drawn.spans(name) for name in [*'acpwvuo', 'dl']}
    edge = max(z2 for spans in bands.values() for s in spans.values() for _, z2 in s)
    left = min(a2 for spans in bands.values() for s in spans.values() for a2, _ in s)
    doubted = min((x for _, x in ringed), default=edge)
    for i in range(n):
        order = sorted(p for j, p in drawn.marks if j == i)
        before = order[0] - 1 if order else sum(1 for j, p in ring.column if j == i and ring.column[j, p] < a)
        bounds = [(left, before)] + [(drawn.marks[i, p], p) for p in order]
        want, owed = [], []
        for (x, p), (x2, _) in zip(bounds, bounds[1:] + [(edge, None)]):
            if x == x2:
                continue
            states = ring.states[i]
            name = CLASS[states[p].phase] if p < len(states) else 'u'
            if want and want[-1][0] == name:
                want[-1] = (name, want[-1][1], x2)
            else:
                want.append((name, x, x2))
            if p < len(states) and states[p].owed:
                owed.append((x, x2))
        want = [('dl' if name == 'w' and x >= doubted else name, x, x2) for name, x, x2 in want]
        have = sorted(((name, x, x2) for name in bands if name != 'o' for x, x2 in bands[name].get(i, [])), key=lambda s: s[1])
        assert have == want, (i, have, want)
        assert sorted(bands['o'].get(i, [])) == owed, i
    # The line of a moment has exactly the events of the cut on its left, and a ring on it for each node that is asked.
    lines = [p for p in drawn.root.iter(S + 'path') if p.get('class') == 'h']
    rings = [(int(c.get('cx')), int(c.get('cy'))) for c in drawn.root.iter(S + 'circle') if c.get('class') == 'h bg']
    above = [t.text for t in drawn.root.iter(S + 'text') if t.get('class') == 'ht']
    if cut and (inside(ring.line) or ring.line > end == z):
        x = int(re.fullmatch(r'M(\d+) \d+V\d+', lines[0].get('d'))[1])
        for (i, p), at in drawn.marks.items():
            assert at != x and (at < x) == (p <= cut[i])
        assert drawn.root.findall(f'.//{S}rect[@class="bg f"]') == [] or inside(ring.line)
        assert len(lines) == 1 and rings == [(x, drawn.rows[i]) for i, _ in case or ()]
        asked = f'case {which} is met here: ' + ', '.join(f'node {i} {clause}' for i, clause in case) if case else 'here'
        assert above == [asked if len(asked) <= 100 else asked[:98] + '..'], (above, asked)
    else:
        assert not lines and not rings and not above
    # All that is left of logs is pale.
    if not cut:
        pale = [tuple(int(r.get(name)) for name in ('x', 'y', 'width', 'height')) for r in drawn.root.findall(f'.//{S}rect[@class="bg f"]')]
        width = int(drawn.root.get('width'))
        assert len(pale) == bool(told) and all(x <= min(place.values(), default=x) and x + w == width for x, _, w, _ in pale)
        assert all(y < min(drawn.rows) - 12 and y + h > max(drawn.rows) + 12 for _, y, _, h in pale)
    check_words(drawn, ring, (a, z), whole, arrows, answer, {at: why for at, why in named.items() if at in drawn.marks},
                bool(named), told)
    return len(drawn.marks)


def turn(state):
    """A round and an ID as labels have them."""
    return (f'{state.term}/' if state.term > 1 else '') + f'{state.round}:{state.id}'


def many(k, what):
    return f"{k} {what}{'' if k == 1 else 's'}"


def headline(ring):
    """Who leads in the end."""
    leaders = [f"node {i} {words(s[-1]).replace('leader', 'leads')}" for i, s in enumerate(ring.states) if s[-1].phase == 'leader']
    return '; '.join(leaders) or 'nobody leads yet'


def counts(ring, window):
    """How much there is, and how much of it is shown."""
    said = f'{many(ring.n, "node")}, {many(sum(map(len, ring.events)), "event")}'
    return said + ('' if window == (0, ring.last()) else f', columns {window[0]} to {window[1]} of {ring.last()}')


def described(ring):
    """A line on each node, for those who don't see a picture."""
    lines = [f'node {i}: {many(len(ring.events[i]), "event")}, {words(ring.states[i][-1])}' for i in range(min(ring.n, 64))]
    return [line + (', then event {} has no step: {}'.format(*ring.fault(i)) if len(ring.states[i]) <= len(ring.events[i]) else '')
            for i, line in enumerate(lines)]


def last_words(ring, i):
    """What stands right of a lane: the last state of its node."""
    s = ring.states[i][-1]
    shown = f'leads {turn(s)}' if s.phase == 'leader' else f'active {turn(s)}' if s.phase == 'active' else s.phase
    shown += ', owes ' + ' '.join(s.owed) if s.owed else ''
    return 'no step' if len(ring.states[i]) <= len(ring.events[i]) else '' if shown == 'passive' else shown


def check_words(drawn, ring, window, whole, arrows, answer, ringed, is_refused, told):
    """Holds the words of a picture: its heading, what it says of itself, labels of lanes and arrows, remarks, the legend."""
    n, end = ring.n, ring.last()
    texts = {}
    for t in drawn.root.iter(S + 'text'):
        texts.setdefault(t.get('class'), {}).setdefault((int(t.get('x')), int(t.get('y'))), []).append(t.text)
    assert all(len(words) == 1 for places in texts.values() for words in places.values())
    texts = {name: {at: words[0] for at, words in places.items()} for name, places in texts.items()}
    # The heading is the answer, or who leads.
    heading = answer or headline(ring)
    assert texts['t bt' if is_refused or told else 't'] == {(16, 28): heading} and drawn.root.find(S + 'title').text == heading
    # What is shown, and how it's read; and a line on each node for those who don't see it.
    said = counts(ring, window)
    said += ('. What is left, as far as it fits together: all of it is pale.' if told else
             '. Each event stands right of all that happened before it; this is no clock.' if not is_refused else
             '. What the answer speaks of stands at other columns.' if not ringed else
             '. Thick broken arrows join what is not the same message; the ringed receipt is the first such.' if 'link' in answer else
             '. Each ringed receipt waits for a sending that comes after the ringed receipt of its sender.' if 'circle' in answer else
             '. The ringed event has no step; after it the states are unknown.')
    assert texts['s'][16, 48] == said
    assert drawn.root.find(S + 'desc').text.split('\n') == [said, *described(ring)] + ['..'] * (n > 64)
    # Words at rings: what is said of each.
    remarks = sorted(words for name in ('bt', 'bt k', 'bt n') for words in texts.get(name, {}).values())
    wrong = {ends: places for ends, (kind, _, places) in whole.items() if kind == 'b y'}
    both = [' '.join(load(ring.events[i][p - 1])) for places in wrong.values()
            for i, p in (map(int, place.split('.')) for place in places)]
    for why in ringed.values():
        remarks.remove(why)
    assert len(remarks) == 2 * min(len(wrong), 2) and all(both.count(words) >= remarks.count(words) for words in remarks)
    for (y, x, y2, x2), places in wrong.items():
        # what was sent stands nearer to where the arrow begins, what was received to where it ends
        at = {(round(x3 + d), round(y3)): place for (x3, y3), place in zip(
            ((x + (x2 - x) / 4, y + (y2 - y) / 4), (x2 + (x - x2) / 4, y2 + (y - y2) / 4)), places) for d in (-6, 6)}
        for name in ('bt', 'bt n'):
            for (tx, ty), text in texts.get(name, {}).items():
                for (px, py), place in at.items():
                    if (px - tx) ** 2 + (py - ty) ** 2 <= 2 and text not in ringed.values():
                        i, p = map(int, place.split('.'))
                        assert text == ' '.join(load(ring.events[i][p - 1])), (text, place)
    # Arrows carry what was sent, without its bit, where they have words.
    labels = {(t.get('x'), t.get('y')): t.text for g in drawn.groups('l') for t in g if t.tag == S + 'text'}
    has_labels = bool(labels)
    for (y, x, y2, x2), (kind, _, (sent, _)) in whole.items():
        at = str(x + (x2 - x) // 4), str((y + (y2 - y) // 4 if y <= y2 else y - (y - y2) // 4) + 4)
        if kind != 'b y' and labels:
            i, p = map(int, sent.split('.'))
            assert labels.pop(at) == ' '.join(load(ring.events[i][p - 1])[:3]), sent
    for name, marker, sent, (x, y, x2, y2) in arrows:
        if marker == 'F' and has_labels:
            i, p = map(int, sent.split('.'))
            assert labels.pop((str(x2 + 24), str(y + 34 if y < y2 else y - 34))) == ' '.join(load(ring.events[i][p - 1])[:3]), sent
    assert not labels, (labels, answer)
    # Above lanes the round and ID of who is active, where that begins or the picture does; right of them the last state.
    pairs = []
    for i in range(n):
        order = sorted((x, p) for (j, p), x in drawn.marks.items() if j == i)
        active = [turn(s) if s.phase == 'active' else None for s in ring.states[i]] + [None] * len(ring.events[i])
        before = order[0][1] - 1 if order else sum(1 for j, p in ring.column if j == i and ring.column[j, p] < window[0])
        pairs += [active[before]] * bool(active[before] and not (order and ring.column[i, order[0][1]] == window[0]
                                                                  and active[order[0][1]] != active[before]))
        pairs += [active[p] for _, p in order if active[p] and active[p] != active[p - 1]]
    assert sorted(texts.get('k', {}).values()) == sorted(pairs)
    ends = {(x, y): text for name in (None, 's') for (x, y), text in texts.get(name, {}).items() if y - 4 in drawn.rows[:n]}
    is_wide = any(text.startswith('node ') for text in ends.values())
    for i in range(n):
        shown = last_words(ring, i) if window[1] == end else ''
        shown = ': '.join([f'node {i}'] * is_wide + [shown] * bool(shown))
        assert [text for (_, y), text in ends.items() if y - 4 == drawn.rows[i]] == [shown] * bool(shown), (i, shown, ends)
    # The legend has each kind of line and mark that the picture has, with a sample, and no other.
    has_terms = any(s.term > 1 or s.phase == 'yielding' for states in ring.states for s in states)
    active = 'active, as term/round:ID' if has_terms else 'active, as round:ID'
    legend = {'event': 'j', 'draw': 'j d', 'choosing': 'c', active: 'a', 'passive': 'p', 'leader': 'w', 'leader by its own log alone': 'dl',
              'yielding': 'v', 'owes a message': 'o', 'message': 'm', 'dirty': 'm y', 'reset': 'm x', 'dropped': 'm', 'not received': 'm',
              'the lap that elected the leader': 'z', 'no state': 'u', 'node 0 once more': 'p'}
    tips = {'message': 'A', 'dropped': 'X', 'not received': 'F', 'dirty': 'A', 'reset': 'A', 'the lap that elected the leader': 'Z'}
    strokes = {(name, marker) for name, marker, _, _ in arrows}
    used = {text for text, name in legend.items() if name in (*'acpwvuo', 'dl') and drawn.spans(name)}
    used |= {text for text, kind in (('event', False), ('draw', True)) if any(title[2] == kind for title in drawn.titles.values())}
    used |= {'message'} if ('m', 'A') in strokes else set()
    used |= {text for text in ('dirty', 'reset', 'the lap that elected the leader') if legend[text] in {name for name, _ in strokes}}
    used |= {text for text in ('dropped', 'not received') if tips[text] in {marker for _, marker in strokes}}
    used = used - {'node 0 once more'} | ({'node 0 once more'} if n > 2 else set())
    samples, foot = {}, max(drawn.rows)
    for p in drawn.root.iter(S + 'path'):
        at = re.fullmatch(r'M(\d+) (\d+)(?:H\d+|h.*)', p.get('d'))
        if at and int(at[2]) > foot + 40:
            samples.setdefault((int(at[1]), int(at[2])), []).append((p.get('class'), (p.get('marker-end') or '')[5:-1]))
    entries = {text: at for at, text in texts['s'].items() if at[1] > foot + 40}
    assert set(entries) == used, set(entries) ^ used
    for text, (x, y) in entries.items():
        found = [sample for (sx, sy), those in samples.items() if sy == y - 4 and -40 < sx - x < 0 for sample in those]
        assert (legend[text], tips.get(text, '')) in found, (text, found)
        assert len(found) == (2 if text in ('node 0 once more', 'reset') else 1), (text, found)


# ---- what is drawn ------------------------------------------------------------------------------
def logs_in(folder):
    names = [name for name in os.listdir(folder) if re.fullmatch(r'\d+\.log', name)]
    return [os.path.join(folder, name) for name in sorted(names, key=lambda name: int(name[:-4]))]


def damaged(names, check):
    """Runs a check where each log in turn has a record that is missing, one twice, two in another order, another bit, or ends
    early."""
    for name in names:
        with open(name) as log:
            kept = log.read()
        lines = kept.split('\n')
        records = lines[4:-2]
        for p in range(0, len(records), 3):
            for changed in (
                    [*records[:p], *records[p + 1:]],
                    [*records[:p], records[p], *records[p:]],
                    [*records[:p], *records[p:p + 2][::-1], *records[p + 2:]],
                    [*records[:p], records[p].replace('clean', 'dirty'), *records[p + 1:]],
                    [*records[:p + 1]]):
                with open(name, 'w') as log:
                    log.write('\n'.join([*lines[:4], *changed, f'end {len(changed)}', '']))
                check()
        with open(name, 'w') as log:
            log.write(kept)


def redrawn(names, check):
    """Runs a check where two logs at a time have another ID in a draw, the first or the last one: all links match still, and both
    nodes have an event without a step."""
    def rewritten(place, which):
        with open(names[place]) as log:
            kept = log.read()
        lines = kept.split('\n')
        draws = [number for number, line in enumerate(lines) if line.startswith('draw ')]
        if draws:
            lines[draws[which]] = f"draw {int(lines[draws[which]][5:]) % len(names) + 1}"
        with open(names[place], 'w') as log:
            log.write('\n'.join(lines))
        return kept

    for one in range(len(names)):
        for other in range(one):
            for ways in ((0, 0), (0, -1), (-1, 0)):
                kept = [rewritten(place, which) for place, which in zip((one, other), ways)]
                check()
                for place, text in zip((one, other), kept):
                    with open(names[place], 'w') as log:
                        log.write(text)


def main():
    program, pictures = sys.argv[1], 0
    with tempfile.TemporaryDirectory() as temp:
        out, question = os.path.join(temp, 'picture.svg'), os.path.join(temp, 'question')
        cut_folder, mended = os.path.join(temp, 'cut'), os.path.join(temp, 'mended')
        os.mkdir(mended)

        def look(names, cut=None, first=None, last=None, which=None, cases=None):
            options = ['--at', ','.join(map(str, cut))] if cut and not cases else []
            if cases:
                with open(question, 'w') as f:
                    f.write(f'irask 1\nnodes {len(names)}\n')
                    f.writelines('case\n' + ''.join(f'{i}: {clause}\n' for i, clause in case) for case in cases)
                    f.write('end\n')
                options += ['--question', question]
            options += ['--from', str(first)] if first is not None else []
            options += ['--to', str(last)] if last is not None else []
            subprocess.run([program, 'draw', *options, '--out', out, *names], check=False, stdout=subprocess.DEVNULL)
            with open(out) as f:
                text = f.read()
            os.remove(out)
            return check(text, Ring(names, cut), cut, first, last, which, cases and cut and cases[which])

        folders = [os.path.join(HERE, '..', 'examples', name) for name in (
            'two_node_election', 'lone_initiator', 'tie_then_win', 'second_term', 'recorded_ring', 'receipts_exchanged',
            'lost_record', 'circle_of_two')]
        for nodes, seed, terms in ((2, 17, 2), (3, 7, 1), (4, 5, 2), (8, 2, 1), (16, 9, 1), (64, 5, 1), (255, 3, 1)):
            folder = os.path.join(temp, f'{nodes}.{seed}')
            os.mkdir(folder)
            subprocess.run([program, 'run', '--nodes', str(nodes), '--seed', str(seed), '--terms', str(terms), '--out',
                            folder], check=True, stdout=subprocess.DEVNULL)
            folders.append(folder)
        for folder in folders:
            names = logs_in(folder)
            marks, drawn = look(names), 1
            ring = Ring(names)
            end = ring.last()
            look(names, first=end // 3, last=2 * end // 3)
            good = ring.mismatch() is None and all(len(s) > len(es) for s, es in zip(ring.states, ring.events))
            if good and all(s == len(es) for s, es in zip(ring.stuck, ring.events)):
                for i in range(0, ring.n, 1 + ring.n // 5):
                    for p in range(1, len(ring.events[i]) + 1, 1 + marks // 40):
                        look(names, cut=ring.past(i, p))
                        drawn += 1
                # The end of the logs is a moment as any other; and so is the first of a case, which comes after one that
                # no moment meets. Where no case is met there is no line.
                look(names, cut=[len(events) for events in ring.events])
                drawn += 2
                never = [(i, 'round > 100000') for i in range(2)]
                look(names, cases=[never])
                for i, states in enumerate(ring.states):
                    if states[-1].phase == 'leader':
                        p = next(p for p, s in enumerate(states) if s.phase == 'leader')
                        look(names, cut=ring.past(i, p), which=1, cases=[never, [(i, 'leader')]])
                        drawn += 1
            # Of logs that are cut, or end within a head, the picture is of what `mend` keeps of them.
            for place in range(0, ring.n, 1 + ring.n // 3) if good and ring.n < 20 else ():
                with open(names[place]) as log:
                    kept = log.read()
                for many in (len(kept) - 3, len(kept) // 2, *((20, 0) if place else ())):
                    shutil.rmtree(cut_folder, ignore_errors=True)
                    shutil.copytree(folder, cut_folder)
                    with open(os.path.join(cut_folder, f'{place}.log'), 'w') as log:
                        log.write(kept[:many])
                    for name in logs_in(mended):
                        os.remove(name)
                    subprocess.run([program, 'mend', '--out', mended, '--dir', cut_folder], check=True, stdout=subprocess.DEVNULL)
                    rest = Ring(logs_in(mended))
                    for options in ([], ['--from', '2', '--to', '5'])[:2 - any(e[0] == 'yield' for es in rest.events for e in es)]:
                        ran = subprocess.run([program, 'draw', *options, '--out', out, '--dir', cut_folder], check=False,
                                             stdout=subprocess.PIPE, text=True)
                        assert ran.returncode == 1 and ran.stdout in (f'no: log {place}: cut\n', f'no: log {place}: head\n')
                        with open(out) as f:
                            text = f.read()
                        os.remove(out)
                        check(text, rest, None, *map(int, options[1::2]), told=ran.stdout[:-1])
                        drawn += 1
            if ring.n in (3, 4) and folder.startswith(temp):
                def again():
                    again.number += 1
                    look(names)

                again.number = 0
                damaged(names, again)
                redrawn(names, again)
                drawn += again.number
            pictures += drawn + 1
            print(f'{os.path.basename(os.path.normpath(folder))}: {marks} marks, {drawn} moments')
    print(f'{pictures} pictures show what their logs say')


if __name__ == '__main__':
    main()
