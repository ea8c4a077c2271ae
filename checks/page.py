"""Opens pages of `ira draw --out NAME.html` in a headless Chromium, driven over loopback by its driver: selects events,
reads what the page says of them, and holds states, what is owed, pasts and futures, moments, who leads and what is on
its way against the logs, which are read and stepped here anew. Turns the wheel, drags, clicks and types as a user does, with the
pointer and by the keyboard alone; reads roles and labels, and what would be printed. Says how many frames a second a large
ring moves with, and the processor time of one.

    python3 checks/page.py PROGRAM      PROGRAM makes the pages; chromium and chromedriver are on the PATH
"""
import contextlib
import glob
import json
import os
import re
import subprocess
import sys
import tempfile
import time
import urllib.request

from pictures import HERE, Ring, counts, described, headline, load, logs_in, words

LARGEST = 44 * 1024
EXAMPLES = {name: logs_in(os.path.join(HERE, '..', 'examples', name)) for name in (
    'two_node_election', 'tie_then_win', 'second_term', 'recorded_ring', 'receipts_exchanged', 'lost_record', 'circle_of_two')}
# a hop raised twice by node 2, which node 0 finds out
RAISED = ('draw 4, send 1 4 1 clean, recv 1 3 1 clean, recv 1 4 5 clean',
          'draw 1, send 1 1 1 clean, recv 1 4 1 clean, send 1 4 2 clean',
          'draw 2, send 1 2 1 clean, recv 1 1 1 clean, recv 1 4 2 clean, send 1 4 4 clean',
          'draw 3, send 1 3 1 clean, recv 1 2 1 clean, recv 1 4 4 clean, send 1 4 5 clean')
# two events without a step before that of node 0, none of the two before the other
DRAWN_TOO_HIGH = ('draw 4, send 1 4 1 clean, recv 1 9 1 clean, recv 1 4 5 clean', *RAISED[1:3],
                  'draw 9, send 1 9 1 clean, recv 1 2 1 clean, recv 1 4 4 clean, send 1 4 5 clean')
READS = '''
const read = list => Object.fromEntries([...list.querySelectorAll('dt')].map(term => [term.textContent, term.nextSibling.textContent]));
const cells = table => [...table.rows].slice(1).map(row => [...row.cells].map(cell => cell.textContent));
const part = id => document.getElementById(id);
showPanel();
const [about, moment] = [part('event').querySelector('dl'), part('moment').querySelector('dl')];
return {
  heading: part('heading').textContent, why: part('why').textContent, title: part('event').textContent.match(/node \\d+ event \\d+/)?.[0],
  about: about && read(about), moment: moment && read(moment), states: moment && cells(part('moment').querySelector('table')),
  way: [...part('moment').querySelectorAll('li')].map(item => item.textContent), asked: part('moment').querySelector('h2')?.textContent,
  count: part('count').value, described: part('d').textContent, link: location.hash, focus: document.activeElement.id, elements: document.querySelectorAll('body *').length,
};'''
CORNER = "const {x, y} = document.getElementById('view').getBoundingClientRect(); return [x, y]"
FRAMES = '''
const [move, done] = arguments, moves = new Function('k', move), times = [];
requestAnimationFrame(function tick(now) {
  times.push(now);
  if (times.length > 60) return done(1000 * (times.length - 1) / (times.at(-1) - times[0]));
  moves(times.length);
  requestAnimationFrame(tick);
});'''


class Browser:
    """A session of the WebDriver protocol."""

    def __init__(self):
        self.driver = subprocess.Popen(['chromedriver', '--port=0'], stdout=subprocess.PIPE, stderr=subprocess.DEVNULL, text=True)
        for line in self.driver.stdout:
            port = re.search(r'successfully on port (\d+)', line)
            if port:
                break
        self.at = f'http://127.0.0.1:{port[1]}/session'
        self.opener = urllib.request.build_opener(urllib.request.ProxyHandler({}))
        options = {'args': ['--headless=new', '--no-sandbox', '--disable-gpu', '--window-size=1400,860']}
        wanted = {'browserName': 'chrome', 'goog:chromeOptions': options, 'goog:loggingPrefs': {'browser': 'ALL'}}
        self.at += '/' + self.call('POST', '', {'capabilities': {'alwaysMatch': wanted}})['sessionId']
        self.call('POST', '/timeouts', {'script': 120_000})

    def call(self, method, path, body=None):
        request = urllib.request.Request(self.at + path, method=method, headers={'Content-Type': 'application/json'},
                                         data=None if body is None else json.dumps(body).encode())
        with self.opener.open(request, timeout=180) as answer:
            return json.load(answer)['value']

    def open(self, page, link=''):
        self.call('POST', '/url', {'url': 'about:blank'})
        self.call('POST', '/url', {'url': 'file://' + urllib.request.quote(page) + link})

    def run(self, script, *arguments):
        return self.call('POST', '/execute/sync', {'script': script, 'args': list(arguments)})

    def frames(self, move):
        """Frames a second, and those that the busiest thread would have time for on a machine of its own."""
        before = self.times()
        rate = self.call('POST', '/execute/async', {'script': FRAMES, 'args': [move]})
        busiest = max(time - before.get(thread, 0) for thread, time in self.times().items())
        return rate, 60 / busiest if busiest else 1000

    def times(self):
        """Seconds of processor time of each thread of the browser."""
        parents, times = {}, {}
        for stat in glob.glob('/proc/[0-9]*/stat'):
            with contextlib.suppress(OSError), open(stat) as words:
                parents[stat.split('/')[2]] = words.read().rpartition(') ')[2].split()[1]
        for process in parents:
            above = process
            while above in parents and above != str(self.driver.pid):
                above = parents[above]
            for stat in glob.glob(f'/proc/{process}/task/*/stat') if above == str(self.driver.pid) else []:
                with contextlib.suppress(OSError), open(stat) as words:
                    times[stat] = sum(map(int, words.read().rpartition(') ')[2].split()[11:13])) / os.sysconf('SC_CLK_TCK')
        return times

    def devtools(self, command, **values):
        self.call('POST', '/goog/cdp/execute', {'cmd': command, 'params': values})

    def act(self, kind, *actions):
        self.call('POST', '/actions', {'actions': [{'type': kind, 'id': kind, 'actions': list(actions)}]})

    def drag(self, x, y, dx, dy):
        """Presses the pointer at a point of the picture and moves it so far: a click where that is nowhere."""
        left, top = self.run(CORNER)
        steps = [{'type': 'pointerMove', 'duration': 30, 'x': round(left + x + k * dx / 4), 'y': round(top + y + k * dy / 4)}
                 for k in (range(5) if dx or dy else [0])]
        self.act('pointer', steps[0], {'type': 'pointerDown', 'button': 0}, *steps[1:], {'type': 'pointerUp', 'button': 0})

    def turn(self, x, y, dx, dy):
        """Turns the wheel at a point of the picture."""
        left, top = self.run(CORNER)
        self.act('wheel', {'type': 'scroll', 'x': round(left + x), 'y': round(top + y), 'deltaX': dx, 'deltaY': dy})
        time.sleep(.2)

    def type(self, *keys):
        """Types keys into the picture."""
        self.run("document.getElementById('view').focus()")
        self.stroke(*keys)

    def stroke(self, *keys):
        """Types keys where the focus is."""
        strokes = [{'type': kind, 'value': key} for key in keys for kind in ('keyDown', 'keyUp')]
        self.act('key', *strokes)

    def faults(self):
        return [entry for entry in self.call('POST', '/se/log', {'type': 'browser'}) if entry['level'] == 'SEVERE']

    def close(self):
        self.call('DELETE', '')
        self.driver.terminate()
        self.driver.wait()


KEYS = {'left': '\ue012', 'up': '\ue013', 'right': '\ue014', 'down': '\ue015', 'escape': '\ue00c', 'tab': '\ue004', 'enter': '\ue007', 'end': '\ue010', 'home': '\ue011'}


# ---- what a page is to say ------------------------------------------------------------------------
def state(ring, i, p):
    states = ring.states[i]
    return words(states[p]) if p < len(states) else 'no step' if p == len(states) else 'no state'


def future(ring, i, p):
    """How many events happened after event p of node i."""
    return sum(1 for (j, q) in ring.column if (j, q) != (i, p) and ring.past(j, q)[i] >= p)


def on_the_way(ring, cut):
    way = []
    for i in range(ring.n):
        j = (i + 1) % ring.n
        sent = [load(ring.events[i][s - 1]) for s in ring.sent[i] if s <= cut[i]]
        left = sent[sum(1 for g in ring.got[i] if g <= cut[j]):]
        if left:
            way.append(f'from node {i} to node {j}: ' + ', '.join(' '.join(one) for one in left))
    return way


def holds_moment(seen, ring, cut):
    assert seen['count'] == f'{sum(cut)} of {sum(map(len, ring.events))} events', seen['count']
    assert seen['moment']['cut'] == ','.join(map(str, cut)), (seen['moment'], cut)
    states = [state(ring, i, p) for i, p in enumerate(cut)]
    assert seen['states'] == [[str(i), str(p), states[i]] for i, p in enumerate(cut)], (seen['states'], states)
    assert seen['moment']['leads'] == (', '.join(f'node {i}' for i, s in enumerate(states) if s.startswith('leader')) or 'nobody')
    assert seen['way'] == on_the_way(ring, cut), (seen['way'], on_the_way(ring, cut))


def holds_event(seen, ring, names, i, p):
    """Holds what is said of an event."""
    about, record = seen['about'], ' '.join(ring.events[i][p - 1])
    assert seen['title'] == f'node {i} event {p}' and seen['link'] == f'#node{i}.{p}'
    assert about['record'] == record and about['column'] == str(ring.column[i, p])
    assert about['after'] == state(ring, i, p)
    assert about['before'] == state(ring, i, p - 1) and about['in'] == f'{names[i]}:{p + 4}', about
    assert about['owes'] == (about['after'].split(', owes ')[1] if ', owes ' in about['after'] else 'nothing')
    for key, kind in (('from', 'recv'), ('to', 'send')):
        other = ring.events[i][p - 1][0] == kind and beside(ring, i, p)
        assert about.get(key) == (f'node {other[0]} event {other[1]}' if other else None), (about, other)
    past = ring.past(i, p)
    assert about['past'] == events(sum(past) - 1), (about, past)
    if ring.mismatch() is None:
        assert about['future'] == events(future(ring, i, p)), about
    holds_moment(seen, ring, past)


def turn_of(ring, i, p):
    """The term and the round of an event: those of the node after it, and of a message its own round."""
    record, after = ring.events[i][p - 1], ring.states[i][p]
    return after.term, int(record[1]) if len(record) > 3 else after.round or 0


def searches(ring, names):
    """What is searched for in a good ring, and the events that it finds."""
    every = [(i, p, ' '.join(e)) for i, es in enumerate(ring.events) for p, e in enumerate(es, 1)]
    for text, wanted in (
            ('1.2', lambda i, p, e: (i, p) == (1, 2)), ('node 0 event 3', lambda i, p, e: (i, p) == (0, 3)),
            (f'{names[1]}:6', lambda i, p, e: (i, p) == (1, 2)), ('0.log:7', lambda i, p, e: (i, p) == (0, 3)),
            ('round 2', lambda i, p, e: turn_of(ring, i, p)[1] == 2), ('2 clean', lambda i, p, e: '2 clean' in e),
            ('ID 1', lambda i, p, e: re.search(r'^draw 1$|^\w+ \d+ 1 ', e)),
            ('9.9', lambda i, p, e: False), ('round 77', lambda i, p, e: False)):
        yield text, [f'node {i} event {p}' for i, p, e in every if wanted(i, p, e)]


def last_states(ring, i, p):
    """The five events of a node up to one, as a table's words."""
    said = f'node {i}recordafter it'
    for q in range(max(1, p - 4), p + 1):
        states = ring.states[i]
        owed = states[q - 1].owed if q == len(states) else None
        said += f"{q}{' '.join(ring.events[i][q - 1])}" + (f'no step: send {" ".join(owed)} is due' if owed else state(ring, i, q))
    return said


def events(number):
    return f'{number} event{"s" * (number != 1)}'


def beside(ring, i, p):
    """The other end of an event's message."""
    if ring.events[i][p - 1][0] == 'recv':
        return ring.sending(i, p)
    if ring.events[i][p - 1][0] == 'send':
        j, k = (i + 1) % ring.n, ring.sent[i].index(p)
        return (j, ring.got[i][k]) if k < len(ring.got[i]) else None
    return None


def recorded(folder, records):
    """Logs of initiators in a new folder."""
    os.mkdir(folder)
    for place, events in enumerate(records):
        events = events.split(', ')
        with open(os.path.join(folder, f'{place}.log'), 'w') as log:
            log.write('\n'.join(['irlog 1', f'nodes {len(records)}', f'place {place}', 'start initiator', *events, f'end {len(events)}', '']))
    return logs_in(folder)


# ---- what is looked at ----------------------------------------------------------------------------
class Check:
    def __init__(self, program, browser, temp):
        self.program, self.browser, self.page = program, browser, os.path.join(temp, 'page.html')
        self.read = 0

    def draw(self, names, *options):
        told = subprocess.run([self.program, 'draw', *options, '--out', self.page, *names], check=False, capture_output=True, text=True)
        with open(self.page, encoding='ascii') as page:
            text = page.read()
        assert all(c == '\n' or c.isprintable() for c in text)
        return told.stdout.rstrip('\n'), text

    def look(self):
        self.read += 1
        return self.browser.run(READS)

    def events(self, names, number):
        """A ring of good logs: some of its events, by links and by keys."""
        ring = Ring(names)
        answer, _ = self.draw(names)
        assert answer == 'yes'
        self.browser.open(self.page)
        seen, told = self.look(), f'{headline(ring)}. {counts(ring, (0, ring.last()))}'
        assert seen['about'] is None and seen['heading'] == headline(ring), seen
        assert seen['described'].split('\n') == [f'{told}. Each event stands right of all that happened before it.', *described(ring)]
        order = sorted(ring.column, key=lambda e: (ring.column[e], e))
        for i, p in order[::max(1, len(order) // number)]:
            self.browser.run(f"location.hash = '#node{i}.{p}'; onhashchange();")
            holds_event(self.look(), ring, names, i, p)
            other = beside(ring, i, p)
            if other:
                self.browser.type(KEYS['down'] if ring.events[i][p - 1][0] == 'send' else KEYS['up'])
                holds_event(self.look(), ring, names, *other)
                i, p = other
            if p > 1:
                self.browser.type(KEYS['left'])
                holds_event(self.look(), ring, names, i, p - 1)
        # a moment, by steps through the order and along the columns
        self.browser.type(KEYS['escape'], ']', ']', ']')
        cut = [int(p) for p in self.look()['moment']['cut'].split(',')]
        assert sum(cut) == 3
        holds_moment(self.look(), ring, cut)
        self.browser.type('[')
        cut = [int(p) for p in self.look()['moment']['cut'].split(',')]
        assert sum(cut) == 2
        # each link that has a message at the first moment when it can
        heads = [[e[0] for e in es] for es in ring.events]
        cut = [next((p for p, kind in enumerate(kinds) if kind == 'recv'), len(kinds)) for kinds in heads]
        self.browser.run('setMoment(arguments[0])', cut)
        holds_moment(self.look(), ring, cut)
        column = ring.last() // 2
        cut = [sum(1 for (j, _), c in ring.column.items() if j == i and c <= column) for i in range(ring.n)]
        self.browser.run('wholeWidth(); momentAt(X(stands[arguments[0]]) + .4 * view.wide)', column)
        holds_moment(self.look(), ring, cut)
        assert not (faults := self.browser.faults()), faults

    def refused(self, names, named, told):
        """Refused logs: the page opens at the event that the answer names, with these words."""
        ring = Ring(names)
        answer, _ = self.draw(names)
        self.browser.open(self.page)
        seen = self.look()
        assert seen['heading'] == answer and answer.startswith('no: ')
        holds_event(seen, ring, names, *named)
        if 'link' not in answer:
            told = [*told, last_states(ring, *named)]
        for part in told:
            assert part in seen['why'], (part, seen['why'])
        assert seen['why'].startswith(answer) and not re.search(r':\d+ event\b', seen['why']), seen['why']
        assert not (faults := self.browser.faults()), faults

    def all_refused(self, raised, drawn):
        self.refused(EXAMPLES['receipts_exchanged'], (0, 3), ['the link changed their order',
                                                               '11 1 1 clean1 2 2 cleandiffers21 2 2 clean1 1 1 cleandiffers'])
        self.refused(EXAMPLES['lost_record'], (0, 4), ['owes exactly this message: its sending is not recorded',
                                                         '11 1 1 clean1 1 1 clean2-1 2 2 clean'])
        self.refused(EXAMPLES['circle_of_two'], (0, 1), ['0 of 4 events can be put in order', 'Besides, node 1 has no step',
                                                         'two threads write one log', 'recv 1 1 2 clean'])
        self.refused(raised, (2, 5), ['Rule 3: what a node owes', 'Begin elsewhere', 'recv 1 4 5 clean', 'send 1 4 4 clean', 'not owed',
                                      'hop past', 'send 1 4 3 clean is due', 'active in round 1 with ID 4'])
        self.refused(drawn, (2, 5), ['Rule 3: what a node owes', 'Begin elsewhere', 'send 1 4 4 clean', 'not owed', 'draw 9', 'draw range',
                                     'send 1 4 3 clean is due', 'send 1 9 2 clean is due'])

        self.left()

    def left(self):
        """Logs that are cut: the page is of what `mend` keeps of them, and says so."""
        names, mended = logs_in(os.path.join(HERE, '..', 'examples', 'killed_ring')), tempfile.mkdtemp(dir=os.path.dirname(self.page))
        subprocess.run([self.program, 'mend', '--out', mended, *names], check=True, stdout=subprocess.DEVNULL)
        ring = Ring(logs_in(mended))
        answer, _ = self.draw(names)
        self.browser.open(self.page)
        seen = self.look()
        said = f'{counts(ring, (0, ring.last()))}. What is left, as far as it fits together: all of it is pale'
        assert seen['heading'] == answer == 'no: log 1: cut' and seen['why'].startswith(answer + said), seen
        assert seen['described'].split('\n') == [f'{answer}. {said}. Each event stands right of all that happened before it.',
                                                 *described(ring)]
        assert not (faults := self.browser.faults()), faults

    def all_asked(self):
        question = os.path.join(HERE, '..', 'examples', 'two_node_election', 'active_beside_passive.ask')
        self.asked(EXAMPLES['two_node_election'], question, [2, 3], 'case 0 is met here: node 0 active, node 1 passive')

    def asked(self, names, question, cut, told):
        """A question: the page opens at the first moment that meets a case of it."""
        self.draw(names, '--question', question)
        self.browser.open(self.page)
        seen = self.look()
        holds_moment(seen, Ring(names), cut)
        assert seen['asked'] == told, seen['asked']
        self.browser.type('[')
        assert self.look()['asked'] == 'The moment'

    def seen_view(self):
        return self.browser.run('return {...view, right: total(), width: wide, height: high}')

    def moved(self, names):
        """Wheel, drags, clicks, and the keys that move."""
        ring, browser = Ring(names), self.browser
        self.draw(names)
        browser.open(self.page)
        inside = 'return [view.x + (arguments[0] - MARGIN) / view.wide, view.y + (arguments[1] - AXIS) / view.high]'
        old, point = self.seen_view(), browser.run(inside, 500, 200)
        browser.turn(500, 200, 0, -300)
        new, now = self.seen_view(), browser.run(inside, 500, 200)
        assert new['wide'] > 1.3 * old['wide'] and abs(now[0] - point[0]) < .05, (old, new, point, now)
        browser.drag(500, 200, -160, 0)
        left = self.seen_view()
        assert abs(left['x'] - new['x'] - 160 / new['wide']) < .05 and self.look()['about'] is None, (new, left)
        browser.turn(500, 200, 120, 0)
        assert self.seen_view()['x'] > left['x']
        browser.type('w')
        whole = self.seen_view()
        assert whole['x'] == -1 and (whole['right'] + 1) * whole['wide'] < whole['width']
        browser.type('0')
        assert browser.run('return HIGH * view.high <= room() + 1')
        for key, member, sign in (('+', 'wide', 1), ('l', 'x', 1), ('h', 'x', -1), ('-', 'wide', -1)):
            old = self.seen_view()
            browser.type(key)
            assert sign * (self.seen_view()[member] - old[member]) > 0, (key, old, self.seen_view())
        wide = self.seen_view()['right']
        browser.type('f')
        assert browser.run("return $('fold').checked") and self.seen_view()['right'] < wide
        browser.type('f')
        assert self.seen_view()['right'] == wide
        for key, sign in (('j', 1), ('k', -1)):
            browser.run('zoom(9)')
            browser.type('j')
            old = self.seen_view()
            browser.type(key)
            assert sign * (self.seen_view()['y'] - old['y']) > 0, (key, old, self.seen_view())
        # a click selects an event, and one on an arrow its sending; a drag along the columns takes a moment along
        browser.type('0')
        i, p = max(ring.column, key=ring.column.get)
        browser.run('reveal(stands[arguments[0]], laneY[arguments[1]])', ring.column[i, p], i)
        x, y = browser.run('return [X(eventAt(arguments[0], arguments[1]).p), Y(laneY[arguments[0]])]', i, p)
        browser.drag(x, y, 0, 0)
        assert self.look()['title'] == f'node {i} event {p}'
        x, y = browser.run('const e = order.find(e => e.to); reveal(e.p, laneY[e.node]); '
                           'return [(X(e.p) + X(e.to.p)) / 2, (Y(laneY[e.node]) + Y(laneY[e.node + 1])) / 2]')
        browser.drag(x, y, 0, 0)
        assert self.look()['title'] == browser.run('return nameOf(order.find(e => e.to))')
        browser.type(KEYS['escape'], 'w')
        browser.drag(100, 8, 260, 0)
        column = browser.run('return stands.findIndex(p => X(p) > 360) - 1')
        holds_moment(self.look(), ring, [sum(1 for (j, _), c in ring.column.items() if j == i and c <= column) for i in range(ring.n)])
        assert not (faults := browser.faults()), faults

    def searched(self, names):
        """Searches, each with what it finds; play; a part alone; the keys of all that."""
        browser, ring = self.browser, Ring(names)
        self.draw(names)
        browser.open(self.page)
        every = [(i, p) for i, es in enumerate(ring.events) for p in range(1, len(es) + 1)]
        for text, wanted in searches(ring, names):
            browser.type('/')
            browser.run("document.activeElement.value = ''")
            browser.stroke(*text)
            hits = browser.run("return [...document.querySelectorAll('#hits li')].map(item => item.textContent.split(':')[0])")
            assert sorted(hits) == (sorted(wanted) or ['nothing']), (text, hits)
            browser.stroke(KEYS['enter' if hits != ['nothing'] else 'escape'])
            seen = self.look()
            assert seen['focus'] == 'view' and (hits == ['nothing'] or seen['title'] == hits[0]), (text, seen)
        # from the first event to the last, along the order
        browser.type(KEYS['escape'], '.')
        titles = [self.look()['title']]
        for _ in every[1:]:
            browser.stroke('.')
            titles.append(self.look()['title'])
        assert sorted(titles) == sorted(f'node {i} event {p}' for i, p in every)
        browser.type(KEYS['home'])
        assert self.look()['title'].endswith('event 1')
        browser.type(KEYS['end'])
        i = int(self.look()['title'].split(' ')[1])
        assert self.look()['title'] == f'node {i} event {len(ring.events[i])}'
        # play, and pause
        browser.type(KEYS['escape'], ' ')
        time.sleep(1.5)
        browser.stroke(' ')
        cut = [int(k) for k in self.look()['moment']['cut'].split(',')]
        time.sleep(.6)
        assert 0 < sum(cut) <= len(every) and self.look()['moment']['cut'] == ','.join(map(str, cut))
        holds_moment(self.look(), ring, cut)
        # a round alone, and passive stretches folded
        wide = self.seen_view()['right']
        browser.run("$('alone').value = 'term 1 round 2'; $('alone').onchange()")
        assert self.seen_view()['right'] < wide
        browser.run("$('alone').selectedIndex = 0; $('alone').onchange()")
        assert self.seen_view()['right'] == wide
        browser.type('?')
        assert browser.run("return $('help').open")
        browser.stroke(KEYS['escape'])
        assert not browser.run("return $('help').open") and not browser.faults()

    def reached(self, names):
        """What the keyboard reaches, and the role and the name that each has for who doesn't see it; and the page in print."""
        browser = self.browser
        self.draw(names)
        browser.open(self.page, '#node1.2')
        self.look()
        reached = {}
        for _ in range(60):
            browser.stroke(KEYS['tab'])
            element, key = browser.run("const e = document.activeElement; return [e, e == document.body ? '' : e.id || e.dataset.key || e.textContent]")
            at = '/element/' + next(iter(element.values()))
            if at in reached or not key:
                break
            role, name = browser.call('GET', at + '/computedrole'), browser.call('GET', at + '/computedlabel')
            assert role not in ('', 'generic', 'none') and name.strip(), (key, role, name)
            reached[at] = key
        assert {'alone', 'fold', 'search', '-', '+', 'w', '0', '?', 'view', 'play', '[', ']', 'steps', 'Escape'} <= set(reached.values()), reached
        seen = 'return ["page", "print"].map(id => document.getElementById(id).getBoundingClientRect().height > 99)'
        assert browser.run(seen) == [True, False]
        browser.devtools('Emulation.setEmulatedMedia', media='print')
        browser.run('onbeforeprint()')
        assert browser.run(seen) == [False, True]
        assert browser.run("return $('print').querySelectorAll('path').length > 9")
        browser.devtools('Emulation.setEmulatedMedia', media='')
        assert not (faults := browser.faults()), faults

    def hostile(self, temp, example):
        """Names that would end a script or begin a tag, or aren't ASCII: the page has the elements that any has, and tells them."""
        wanted = None
        for name in ('plain', 'a</script><script>document.title=0</script>', '"\'&amp;<!--', 'h\u00f6he \u2028\u4e2d', 'line\nfeed\t'):
            folder = os.path.join(temp, *name.split('/'))
            os.makedirs(folder)
            names = []
            for log in logs_in(example):
                names.append(os.path.join(folder, os.path.basename(log)))
                with open(log) as old, open(names[-1], 'w') as new:
                    new.write(old.read())
            _, text = self.draw(names)
            assert text.count('<script') == text.count('</script') == 2
            self.browser.open(self.page, '#node1.2')
            seen = self.look()
            wanted = wanted or seen['elements']
            assert seen['elements'] == wanted and seen['about']['in'] == f'{names[1]}:6', seen['about']
            assert not (faults := self.browser.faults()), faults

    def moves(self, temp):
        """The frames a second with which a ring of 64 nodes and 20,000 events moves, against those of an empty page."""
        folder = os.path.join(temp, 'large')
        os.mkdir(folder)
        said = subprocess.run([self.program, 'run', '--nodes', '64', '--seed', '5', '--terms', '21', '--out', folder], check=True,
                              capture_output=True, text=True).stdout
        events = sum(int(line.split()[-2]) for line in said.splitlines())
        assert 19_000 < events <= 20_000, events
        _, text = self.draw(logs_in(folder))
        written = re.search('<style>.*?</style>', text, re.S)[0] + text[text.rindex('<script>'):]
        assert len(written) <= LARGEST, len(written)
        self.browser.open('/dev/null')
        free, _ = self.browser.frames('')
        self.browser.open(self.page)
        rates = {}
        for name, begin, move in (('along', 'allLanes()', 'pan(-25, 0)'), ('zoom', 'wholeWidth()', 'zoom(k < 30 ? 1.1 : 1 / 1.1)'),
                                  ('whole', 'wholeWidth(); zoom(1.3)', 'pan(k % 40 < 20 ? -3 : 3, 0)')):
            self.browser.run(begin)
            time.sleep(1)
            rates[name] = [max(of) for of in zip(*(self.browser.frames(move) for _ in range(3)))]
        print(f'{events} events of 64 nodes move with', ', '.join(f'{name} {rate:.0f} ({most:.0f})' for name, (rate, most) in rates.items()),
              f'frames a second (so many without other work); an empty page has {free:.0f}')
        assert min(most for _, most in rates.values()) >= 30, 'too slow'
        assert not (faults := self.browser.faults()), faults


def main():
    program = sys.argv[1]
    browser = Browser()
    try:
        with tempfile.TemporaryDirectory() as temp:
            check = Check(program, browser, temp)
            for name in ('two_node_election', 'tie_then_win', 'second_term', 'recorded_ring'):
                check.events(EXAMPLES[name], 8)
            folder = os.path.join(temp, 'recorded')
            os.mkdir(folder)
            subprocess.run([program, 'run', '--nodes', '8', '--seed', '2', '--out', folder], check=True, stdout=subprocess.DEVNULL)
            check.events(logs_in(folder), 20)
            check.moved(logs_in(folder))
            check.searched(EXAMPLES['tie_then_win'])
            check.reached(EXAMPLES['tie_then_win'])
            check.all_refused(recorded(os.path.join(temp, 'raised'), RAISED), recorded(os.path.join(temp, 'drawn'), DRAWN_TOO_HIGH))
            check.all_asked()
            check.hostile(temp, os.path.join(HERE, '..', 'examples', 'two_node_election'))
            check.moves(temp)
            print(f'{check.read} readings of pages are what their logs say')
    finally:
        browser.close()


if __name__ == '__main__':
    main()
