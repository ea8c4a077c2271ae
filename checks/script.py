"""Holds the script of the pages of `ira draw --out NAME.html` without a browser: takes it out of the sources, reads it as a
linter does, and runs it in Node over pages that the program makes. What is drawn and said there of events, pasts, moments
and messages is held against the logs, which are read and stepped here anew.

    python3 checks/script.py PROGRAM      PROGRAM makes the pages; node is on the PATH
"""
import base64
import hashlib
import json
import os
import re
import subprocess
import sys
import tempfile

from page import DRAWN_TOO_HIGH, EXAMPLES, RAISED, READS, Check, events, recorded, searches, state, turn_of
from pictures import HERE, Ring, counts, headline, last_words, load, logs_in, turn

SOURCE = os.path.join(HERE, '..', 'crates', 'ira_view_html', 'src', 'script.rt')
COLOURS = {'choosing': '--choosing', 'active': '--active', 'passive': '--passive', 'leader': '--leader', 'yielding': '--yielding'}
KEYS = {'\ue012': 'ArrowLeft', '\ue013': 'ArrowUp', '\ue014': 'ArrowRight', '\ue015': 'ArrowDown', '\ue00c': 'Escape',
        '\ue010': 'End', '\ue011': 'Home'}
HEIGHTS = (4, 84), (8, 56), (16, 44), (32, 34), (256, 26)
SCENE = '''
wholeWidth();
show(null, null);
ctx = new Context;
readColours();
drawScene();
const {strokes, fills, words} = ctx;
ctx = new Context;
drawAxes();
return {strokes, fills, words, axes: ctx.words, wide: view.wide, left: view.x, high: view.high, top: view.y, pitch};'''
# how each kind of line is drawn: its colour, thickness and dashes; and the end of an arrow
LINES = {'passive': ('passive', 4), 'active': ('active', 12), 'choosing': ('choosing', 12), 'yielding': ('yielding', 12),
         'leader': ('leader', 18), 'leader by its own log alone': ('mute', 18), 'no state': ('mute', 1, '2 3'),
         'owes a message': ('ink', 3), 'message': ('message', 1.2), 'dirty': ('message', 1.2, '5 3'), 'reset': ('message', 4),
         'dropped': ('message', 1.2), 'not received': ('message', 1.2), 'the lap that elected the leader': ('leader', 2.5),
         'not the same message': ('bad', 2, '5 3'), 'no later than it was sent': ('bad', 2)}
TIPS = {'dropped': 'cross', 'not received': 'ring', **dict.fromkeys((
    'message', 'dirty', 'reset', 'the lap that elected the leader', 'not the same message', 'no later than it was sent'), 'head')}
LEGEND = '''
return [...$('legend').children].map(entry => [entry.textContent, entry.children[0].children.map(it => it.attributes)]);'''
PRINT = '''
const was = JSON.stringify([view, wide, high]);
onbeforeprint();
const [title, svg] = $('print').children, marks = svg.children.filter(it => /fill:var\\(--ink\\)$/.test(it.attributes.style) && it.attributes.d);
return [title.textContent, was == JSON.stringify([view, wide, high]), marks.map(it => it.attributes.d).join(''), pitch];'''


class Node:
    """What a browser does of a page, but for its looks: it runs the script."""

    def __init__(self):
        self.node = subprocess.Popen(['node', os.path.join(HERE, 'script.mjs')], stdin=subprocess.PIPE, stdout=subprocess.PIPE, text=True)

    def call(self, **words):
        self.node.stdin.write(json.dumps(words) + '\n')
        self.node.stdin.flush()
        said = json.loads(self.node.stdout.readline())
        assert 'fault' not in said, said['fault']
        return said['is']

    def open(self, page, link=''):
        self.call(open=page, link=link)

    def run(self, script, *arguments):
        return self.call(run=script, **{'with': arguments})

    def type(self, *keys):
        for key in keys:
            self.run("canvas.onkeydown({key: arguments[0], preventDefault() {}})", KEYS.get(key, key))

    def faults(self):
        return []

    def close(self):
        self.node.stdin.close()
        self.node.wait()


def lint():
    """The script as it stands in the sources: strict, in short lines, no name twice or for nothing, no digit for a name."""
    with open(SOURCE) as source:
        text = source.read()
    script = re.search(r'SCRIPT: &str = r#"(.*)"#;\n$', text, re.S)[1]
    assert script.startswith("'use strict';\n") and script.isascii() and '</' not in script
    for number, line in enumerate(script.split('\n'), 1):
        assert len(line) <= 120 and line == line.rstrip() and '\t' not in line, f'script.rt: line {number} of the script'
    names = re.findall(r'^(?:function|class|const|let) (\w+)', script, re.M)
    assert len(names) == len(set(names)), 'a name is declared twice'
    for name in names:
        assert len(re.findall(rf'(?<![\w$]){re.escape(name)}(?![\w$])', script)) > 1, f'script.rt: nothing uses {name}'
    for bad in (r'\bvar ', r'\beval\b', r'innerHTML', r'\bdebugger\b', r'console\.', r'https?:(?!//www\.w3\.org/2000/svg)', r'fetch\('):
        assert not re.search(bad, script), f'script.rt: {bad}'
    subprocess.run(['node', '--check', '-'], input=script, text=True, check=True)
    return script


def near(a, b, most=.01):
    return all(abs(x - y) < most for x, y in zip(a, b, strict=True))


def holds_all(seen, wanted, what, most=.01):
    """Each of what is seen is one of what is wanted, and the other way round."""
    left = list(wanted)
    for one in seen:
        found = next((w for w in left if w[0] == one[0] and near(w[1], one[1], most)), None)
        assert found, f'{what}: {one} is none of {left[:9]}'
        left.remove(found)
    assert not left, f'{what}: {left[:9]} are missing'


def holds_scene(scene, ring, a, z):
    """Holds what is drawn of the columns a to z: marks, arrows between two of them, bands and debts."""
    n, height = ring.n, next(height for most, height in HEIGHTS if ring.n <= most)
    at = lambda c: 64 + (c - a - scene['left']) * scene['wide']
    scale = max(.3, min(1.5, scene['high'], scene['wide'] / scene['pitch'] * 1.5))
    lane = lambda row: 24 + (row * height + 34 - scene['top']) * scene['high']
    rows = lambda i: [i] if i or n == 2 else [0, n]
    inside = {e: c for e, c in ring.column.items() if a <= c <= z}
    marks = [(mark, box or circle) for fill in scene['fills'] if fill['colour'] == '--ink'
             for mark, box, circle in [(True, [x + w / 2, y + h / 2], None) for x, y, w, h in fill['boxes']]
             + [(False, None, [x, y]) for x, y, _ in fill['circles']]]
    tiny = not any(fill['circles'] for fill in scene['fills'] if fill['colour'] == '--ink')
    wanted = [(tiny or ring.events[i][p - 1][0] == 'draw', [at(c), lane(row)]) for (i, p), c in inside.items() for row in rows(i)]
    holds_all(marks, wanted, 'marks')
    # arrows, by colour and dashes
    laps, wanted = ring.laps(), []
    for i in range(n):
        j = (i + 1) % n
        for s, g in zip(ring.sent[i], ring.got[i]):
            if (i, s) not in inside or (j, g) not in inside:
                continue
            sent, got, states = load(ring.events[i][s - 1]), load(ring.events[j][g - 1]), ring.states[j]
            dropped = g < len(states) and states[g] == states[g - 1]
            style = ('--bad', True) if sent != got else ('--bad', False) if inside[j, g] <= inside[i, s] else ('--leader', False) \
                if (i, s) in laps and not dropped else ('--message', sent[0] != 'reset' and sent[3] == 'dirty')
            wanted.append((style, [at(inside[i, s]), lane(i), at(inside[j, g]), lane(i + 1 if n > 2 else j)]))
    level = {round(lane(row), 2) for row in range(n + 1)}
    whole = [((stroke['colour'], bool(stroke['dash'])), ends) for stroke in scene['strokes'] for ends in stroke['lines']
             if round(ends[1], 2) in level and round(ends[3], 2) in level and abs(ends[1] - ends[3]) > 1 and stroke['colour'] != '--back'
             and at(a) - .01 <= min(ends[0], ends[2]) and max(ends[0], ends[2]) <= at(z) + .01]
    if scene['wide'] * scene['high'] < 24:
        whole = [(style[:1] + (False,), ends) for style, ends in whole]
        wanted = [(style[:1] + (False,), ends) for style, ends in wanted]
    holds_all(whole, wanted, 'arrows')
    # a cross is two lines, and a head one that goes on
    tips = [stroke['lines'] for stroke in scene['strokes'] if stroke['width'] == 1.3 and not any(c[2] == 3 for c in stroke['circles'])]
    crosses = sum(one[2:] != two[:2] for lines in tips for one, two in zip(lines[::2], lines[1::2]))
    dropped = sum((j, g) in inside and g < len(ring.states[j]) and ring.states[j][g] == ring.states[j][g - 1]
                  for i in range(n) for j in [(i + 1) % n] for g in ring.got[i][:len(ring.sent[i])])
    assert not tips or crosses == dropped, (crosses, dropped)
    # rings, and why
    ringed = [c for stroke in scene['strokes'] for c in stroke['circles'] if stroke['colour'] == '--bad' and c[2] == 8]
    named = {event: why for event, why in ring.answer()[1].items() if event in inside}
    holds_all([(None, [x, y]) for x, y, _ in ringed], [(None, [at(inside[i, p]), lane(i)]) for i, p in named], 'rings')
    said = sorted(w['words'] for w in scene['words'] if w['colour'] == '--bad' and not re.match(r'\d|reset', w['words']))
    assert said == sorted(named.values()), said
    # bands and debts, from event to event
    doubted, wanted = min((x for x, _, _ in ringed), default=1e9), []
    flat = [(stroke['colour'], ends) for stroke in scene['strokes'] for ends in stroke['lines'] if ends[1] == ends[3]]
    edge = max(ends[2] for _, ends in flat)
    for i in range(n):
        order = sorted(p for j, p in inside if j == i)
        before = order[0] - 1 if order else sum(1 for (j, p), c in ring.column.items() if j == i and c < a)
        bounds = [(at(a), before)] + [(at(inside[i, p]), p) for p in order]
        spans = []
        for (x, p), (x2, _) in zip(bounds, bounds[1:] + [(edge, None)]):
            states = ring.states[i]
            if x == x2:
                continue
            colour = COLOURS[states[p].phase] if p < len(states) else '--mute'
            if spans and spans[-1][0] == colour:
                spans[-1] = (colour, spans[-1][1], x2)
            else:
                spans.append((colour, x, x2))
            if p < len(states) and states[p].owed:
                wanted += [('--ink', [x, lane(row), x2, lane(row)]) for row in rows(i)]
        wanted += [('--mute' if colour == '--leader' and x >= doubted - .01 else colour, [x, lane(row), x2, lane(row)])
                   for colour, x, x2 in spans for row in rows(i)]
    holds_all(flat, wanted, 'bands')
    holds_words(scene, ring, (a, z), at, lane)


def holds_words(scene, ring, window, at, lane):
    """Holds the words of columns: IDs of who is active, last states, what arrows carry, both sides of what differs; and the axes."""
    (a, z), n = window, ring.n
    rows = [lane(row) for row in range(n + (n > 2))]
    nearest = lambda y: min(range(len(rows)), key=lambda row: abs(rows[row] - y))
    words = lambda *colours, align: [w for w in scene['words'] if w['colour'] in colours and w['align'] == align]
    is_near = scene['wide'] >= .6 * scene['pitch'] and scene['high'] > .55
    # round and ID, where a node becomes active or the columns begin
    wanted = []
    for i in range(n):
        order = sorted(p for (j, p), c in ring.column.items() if j == i and a <= c <= z)
        active = [turn(s) if s.phase == 'active' else None for s in ring.states[i]] + [None] * len(ring.events[i])
        before = order[0] - 1 if order else sum(1 for (j, p), c in ring.column.items() if j == i and c < a)
        if active[before] and not (order and ring.column[i, order[0]] == a and active[order[0]] != active[before]):
            wanted.append(((active[before], i), [at(a)]))
        wanted += [((active[p], i), [at(ring.column[i, p])]) for p in order if active[p] and active[p] != active[p - 1]]
    pairs = [w for w in words('--ink', align='center') if re.fullmatch(r'(\d+/)?\d+:\d+', w['words'])]
    holds_all([((w['words'], nearest(w['y'] - 4 * (n == 2))), [w['x']]) for w in pairs], wanted if is_near else [], 'IDs')
    # the last state of each node, right of its lane
    ends = [(words, [lane(i) + 4]) for i in range(n) for words in [last_words(ring, i)] if words]
    found = [(w['words'], [w['y']]) for w in words('--ink', '--mute', align='left') if w['words'] not in {p['words'] for p in pairs}]
    holds_all(found, ends if is_near and z == ring.last() else [], 'last states')
    # what arrows carry: of two that differ both sides, else without its bit beside its middle
    arrows = {(i, k): (ring.column[i, s], ring.column[(i + 1) % n, g]) for i in range(n)
              for k, (s, g) in enumerate(zip(ring.sent[i], ring.got[i]))}
    sides = lambda i, k: (load(ring.events[i][ring.sent[i][k] - 1]), load(ring.events[(i + 1) % n][ring.got[i][k] - 1]))
    line = lambda i, k: (at(arrows[i, k][0]), lane(i), at(arrows[i, k][1]), lane(i + 1 if n > 2 else (i + 1) % n))
    if (a, z) == (0, ring.last()):
        wanted = []
        for (i, k), aside in zip([it for it in sorted(arrows) if sides(*it)[0] != sides(*it)[1]], (-6, 6)):
            x, y, x2, y2 = line(i, k)
            wanted += [(' '.join(side), [x + t * (x2 - x) + aside, y + t * (y2 - y)]) for side, t in zip(sides(i, k), (.25, .75))]
        found = [w for w in scene['words'] if w['colour'] == '--bad' and re.match(r'\d|reset', w['words'])]
        holds_all([(w['words'], [w['x'], w['y']]) for w in found], wanted if is_near else [], 'what differs')
    loads = [w for w in words('--ink', align='center') if re.fullmatch(r'\d+ \d+ \d+|reset \d+', w['words'])]
    for w in loads:
        assert any(' '.join(sides(i, k)[0][:3]) == w['words'] and x <= max(x1, x2) + 60 and x >= min(x1, x2) - 60
                   and abs(abs(w['x'] - x) - 3.2 * len(w['words']) - 14) < .01
                   for i, k in arrows for x1, y1, x2, y2 in [line(i, k)] if y1 != y2
                   for x in [x1 + (w['y'] - 4 - y1) / (y2 - y1) * (x2 - x1)]), w
    assert n > 4 or scene['wide'] < 40 or loads or not arrows, 'no arrow has words'
    # the axes
    nodes = [w for w in scene['axes'] if w['align'] == 'right' and w['words'] != 'column']
    assert nodes and all(w['words'] == f"node {nearest(w['y'] - 4) % n}" and abs(w['y'] - 4 - rows[nearest(w['y'] - 4)]) < .01 for w in nodes)
    columns = [w for w in scene['axes'] if w['align'] == 'center']
    assert columns and all(a <= w['words'] <= z and abs(at(w['words']) - w['x']) < .01 for w in columns), columns
    unreceived = sum(a <= ring.column[i, s] <= z for i in range(n) for s in ring.sent[i][len(ring.got[i]):])
    assert unreceived * is_near == sum(c[2] == 3 for stroke in scene['strokes'] for c in stroke['circles']), 'not received'


class Script(Check):
    """What the check of pages in a browser asks, of the script alone."""

    def scene(self, names, a=None, z=None):
        """What is drawn of the columns a to z is what the logs say."""
        ring = Ring(names)
        end = ring.last()
        a, z = min(a or 0, end), end if z is None else min(z, end)
        self.draw(names, '--from', str(a), '--to', str(z))
        self.browser.open(self.page)
        if ring.answer()[0] is None and headline(ring) != 'nobody leads yet' and z == end:
            # the page opens where a node leads, with all that came before where there is room
            leads, wide, left = self.browser.run("return [X(order.findLast(e => e.phase == 'leader').p), wide, X(0)]")
            assert 64 <= leads <= wide - 60 and (left >= 64 or z - a > 20), (leads, wide, left)
        holds_scene(self.browser.run(SCENE), ring, a, z)
        self.read += 1
        if ring.answer()[0] is None and (a, z) != (0, end):
            # what is said of a part
            assert counts(ring, (a, z)) in self.look()['why']
            inside = [e for e, c in ring.column.items() if a <= c <= z]
            for i, p in inside[::1 + len(inside) // 8]:
                self.browser.run('select(eventAt(arguments[0], arguments[1]))', i, p)
                past = sum(q <= ring.past(i, p)[j] for j, q in inside) - 1
                assert self.look()['about']['past'] == f'{events(past)} of the picture', (i, p)

    def said(self, names):
        """What there is beside the picture of a ring: the legend, tooltips, clicks, print, what is pale, and how the page opens."""
        ring, run = Ring(names), self.browser.run
        self.draw(names)
        self.browser.open(self.page)
        good, event = ring.answer()[0] is None, lambda i, p: f'node {i} event {p}'
        # the legend: each entry is drawn as what it stands for
        legend = dict(run(LEGEND))
        assert ring.n > 2 or 'message' in legend or 'not the same message' in legend or not good, legend
        for name, (first, *more) in legend.items():
            if name in ('event', 'draw'):
                assert first['style'].endswith('fill:var(--ink)') and ('A' in first['d']) == (name == 'event'), (name, first)
                continue
            colour, thick, dash = (*LINES[name.split(',')[0]], 'none')[:3]
            assert first['style'].endswith(f'stroke:var(--{colour});stroke-width:{thick};stroke-dasharray:{dash}'), (name, first)
            tip = more and more[-1]['d']
            found = tip and ('ring' if 'A' in tip else 'head' if 'z' in tip else 'cross')
            assert (found or None) == TIPS.get(name), (name, more)
        # print: the whole picture, and the view as it was
        title, is_same, marks, pitch = run(PRINT)
        assert title == (ring.answer()[0] or headline(ring)) and is_same, (title, is_same)
        height = next(height for most, height in HEIGHTS if ring.n <= most)
        place = lambda e, row: [64 + (ring.column[e] + 1) * pitch, 24 + row * height + 34]
        wanted = [(ring.events[i][p - 1][0] == 'draw', place((i, p), row)) for i, p in ring.column
                  for row in ([i] if i or ring.n == 2 else [0, ring.n])]
        boxes = [(True, [float(x) + float(r) / 2, float(y) + float(r) / 2]) for x, y, r in
                 re.findall(r'M(\S+) (\S+?)h(\S+?)v\3h-\3z', marks)]
        circles = [(False, [float(x) - float(r), float(y)]) for x, y, r in
                   re.findall(r'M(\S+) (\S+?)A(\S+) \3 0 1 1 \S+ \2A\3 \3 0 1 1 \1 \2', marks)]
        holds_all(boxes + circles, wanted, 'marks in print', .11)
        # tooltips, and what a click takes
        run('wholeWidth(); view.y = 0; show(null, null)')
        for i, p in ring.column:
            tip = run('const e = eventAt(arguments[0], arguments[1]); canvas.onpointermove({pointerId: 9, offsetX: X(e.p), '
                      'offsetY: Y(laneY[e.node])}); return canvas.title', i, p)
            assert tip == f"{event(i, p)}: {' '.join(ring.events[i][p - 1])}\n{state(ring, i, p)}", tip
        if not good:
            return
        places = {e: run('const e = eventAt(...arguments); return [X(e.p), Y(laneY[e.node]), Y(foot)]', *e) for e in ring.column}
        lines = {(i, s): [*places[i, s][:2], places[j, g][0], places[j, g][1 + (j == 0 and ring.n > 2)]] for i in range(ring.n)
                 for j in [(i + 1) % ring.n] for s, g in zip(ring.sent[i], ring.got[i])}
        far = lambda x, y, x1, y1, x2, y2: abs((x2 - x1) * (y1 - y) - (x1 - x) * (y2 - y1)) / ((x2 - x1) ** 2 + (y2 - y1) ** 2) ** .5
        taken = 0
        for (i, s), (x1, y1, x2, y2) in lines.items():
            x, y = (x1 + x2) / 2, (y1 + y2) / 2
            if all(far(x, y, *other) > 6 for e, other in lines.items() if e != (i, s)):
                assert run('return nameOf(near(...arguments))', x, y) == event(i, s)
                taken += 1
        assert taken or ring.n > 8, 'no arrow is clicked on'
        # what comes after a moment is pale, and what is neither past nor future of an event
        i, p = sorted(ring.column, key=lambda e: (ring.column[e], e))[len(ring.column) // 2]
        cut = ring.past(i, p)
        areas = run('setMoment(arguments[0]); ctx = new Context; readColours(); drawCut(); return ctx.areas', cut)
        assert len(areas) == ring.n + (ring.n > 2) and all(area['alpha'] == .65 for area in areas), areas
        for (j, q), (x, y, _) in places.items():
            area = areas[j]
            assert area['y'] < y < area['y'] + area['h'] and (area['x'] < x < area['x'] + area['w']) == (q > cut[j]), (j, q, area)
        fills = run('select(eventAt(...arguments)); wholeWidth(); view.y = 0; ctx = new Context; readColours(); drawScene(); return ctx.fills', i, p)
        pale = [[x, y] for fill in fills if fill['colour'] == '--ink' and fill['alpha'] == .15
                for x, y in [[x, y] for x, y, _ in fill['circles']] + [[x + w / 2, y + h / 2] for x, y, w, h in fill['boxes']]]
        apart = [(j, q) for j, q in ring.column if q > cut[j] and ring.past(j, q)[i] < p]
        wanted = [[places[e][0], y] for e in apart for y in places[e][1:2 + (e[0] == 0 and ring.n > 2)]]
        holds_all([(None, it) for it in pale], [(None, it) for it in wanted], 'pale')
        # a round alone
        turns = {e: 'term {} round {}'.format(*turn_of(ring, *e)) for e in ring.column}
        for words in sorted({turn for turn in turns.values() if not turn.endswith(' 0')}):
            shown = run("$('alone').value = arguments[0]; $('alone').onchange(); return order.filter(isShown).map(nameOf)", words)
            wanted = [event(*e) for e, turn in turns.items() if turn == words]
            assert sorted(shown) == sorted(wanted), (words, set(shown) ^ set(wanted))
        for text, wanted in searches(ring, names) if ring.n == 2 else ():
            assert sorted(run('return found(arguments[0]).map(nameOf)', text)) == sorted(wanted), text
        self.read += 1

    def messages(self, names):
        """The way of each message: its sendings, round the ring, as far as what is received is what was sent and is passed on;
        and what is said of it."""
        ring = Ring(names)
        self.draw(names)
        self.browser.open(self.page)
        for (i, p) in ring.column:
            if ring.events[i][p - 1][0] != 'send':
                continue
            way = self.browser.run('return wayOf(eventAt(arguments[0], arguments[1])).map(e => [e.node, e.at])', i, p)
            wanted = way_of(ring, i, p)
            assert way == [list(e) for e in wanted], (i, p, way, wanted)
            said = self.browser.run("select(eventAt(...arguments)); showPanel(); return $('message').textContent", i, p)
            record, (j, q) = lambda i, p: ' '.join(ring.events[i][p - 1]), wanted[-1]
            links = sum(ring.events[j][q - 1][0] == 'send' for j, q in wanted)
            end = ('nobody receives it so' if ring.events[j][q - 1][0] == 'send' else f'dropped by node {j}'
                   if state(ring, j, q) == state(ring, j, q - 1) else f'it ends at node {j}: {state(ring, j, q)}')
            steps = ''.join(f'node {j} event {q}: {record(j, q)}' for j, q in wanted)
            assert said == f"message {record(j, q).split(' ', 1)[1]}{links} of {ring.n} links; {end}its way{steps}", (said, end)
        self.read += 1


def way_of(ring, i, p):
    """A message from where it begins, with the draw or the yield before it, to where it ends."""
    event = lambda i, p: ring.events[i][p - 1]
    back, forth = [(i, p)], []
    while True:
        j, q = back[0]
        if event(j, q)[0] == 'recv':
            s = ring.sending(j, q)
            if not s or load(event(*s)) != load(event(j, q)):
                break
            back.insert(0, s)
        elif event(j, q)[0] == 'send' and q > 1 and (event(j, q - 1)[0] in ('draw', 'yield') or passes_on(event(j, q - 1), event(j, q))):
            back.insert(0, (j, q - 1))
        else:
            break
    j, q = i, p
    while True:
        if event(j, q)[0] == 'send':
            k, links = ring.sent[j].index(q), ring.got[j]
            if k >= len(links) or load(event((j + 1) % ring.n, links[k])) != load(event(j, q)):
                break
            j, q = (j + 1) % ring.n, links[k]
        elif q < len(ring.events[j]) and passes_on(event(j, q), event(j, q + 1)):
            q += 1
        else:
            break
        forth.append((j, q))
    return back + forth


def passes_on(receipt, sending):
    if receipt[0] != 'recv' or sending[0] != 'send' or len(receipt) != len(sending):
        return False
    a, b = load(receipt), load(sending)
    hop = 2 if len(a) > 2 else 1
    return a[:hop] == b[:hop] and int(b[hop]) == int(a[hop]) + 1


def main():
    program = os.path.abspath(sys.argv[1])
    script = lint()
    browser = Node()
    try:
        with tempfile.TemporaryDirectory() as temp:
            check = Script(program, browser, temp)
            _, text = check.draw(EXAMPLES['tie_then_win'])
            assert f'<script>\n{script}</script>' in text, 'the program has another script'
            digest = base64.b64encode(hashlib.sha256(f'\n{script}'.encode()).digest()).decode()
            assert f"script-src 'sha256-{digest}'" in text, f'frame.rt: the policy of a page allows its script by {digest}'
            raised, drawn, early = (recorded(os.path.join(temp, name), records) for name, records in (
                ('raised', RAISED), ('drawn', DRAWN_TOO_HIGH), ('early', ('draw 2, send 1 2 1 clean, recv 1 1 1 clean',
                                                                          'draw 1, send 1 1 1 clean'))))
            check.messages(early)
            for name in ('two_node_election', 'tie_then_win', 'second_term', 'recorded_ring'):
                check.events(EXAMPLES[name], 99)
                check.messages(EXAMPLES[name])
            for nodes, seed, terms in ((2, 7, 1), (8, 2, 1), (64, 5, 1), (3, 5, 9)):
                folder = os.path.join(temp, f'recorded{nodes}')
                os.mkdir(folder)
                subprocess.run([program, 'run', '--nodes', str(nodes), '--seed', str(seed), '--terms', str(terms), '--out', folder],
                               check=True, stdout=subprocess.DEVNULL)
                if terms == 1:
                    check.events(logs_in(folder), 20)
                if nodes < 9:
                    check.said(logs_in(folder))
                for a, z in ((None, None), (5, 11), (3, 3), (12, 99)):
                    check.scene(logs_in(folder), a, z)
            for names in (*EXAMPLES.values(), raised, drawn, early):
                check.scene(names)
                check.said(names)
            check.all_refused(raised, drawn)
            check.all_asked()
            print(f'{check.read} readings of pages in Node are what their logs say')
    finally:
        browser.close()


if __name__ == '__main__':
    main()
