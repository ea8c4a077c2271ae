"""Reads what `ira ... --json` prints with a JSON parser, and holds it against the plain answers and pages, against the lines of
the files, and against the matching and the states of the logs, which are computed here anew.

    python3 checks/json_lines.py PROGRAM      PROGRAM judges and shows the examples, and elections that it records
"""
import json
import os
import subprocess
import sys
import tempfile

from pictures import HERE, Ring, logs_in, read, redrawn
from plain_pages import ended_logs, next_of


class Reader:
    def __init__(self, program):
        self.program, self.lines = program, 0

    def run(self, *words):
        done = subprocess.run([self.program, *words], check=False, capture_output=True, text=True)
        assert done.stderr == '', (words, done.stderr)
        return done.returncode, done.stdout

    def json(self, *words):
        """The status, and the values of the lines, each of which is the compact text of its value in the order of its keys."""
        status, text = self.run(*words)
        assert text.endswith('\n'), words
        values = []
        for line in text[:-1].split('\n'):
            value = json.loads(line)
            assert line == json.dumps(value, separators=(',', ':'), sort_keys=True, ensure_ascii=False), line
            values.append(value)
        self.lines += len(values)
        assert values[0]['type'] == 'answer' and values[0]['version'] == 1 and values[0]['status'] == status, words
        return status, values


def load(value):
    """A message's words, as a record has them."""
    if 'reset' in value:
        return 'reset', str(value['reset'])
    return str(value['round']), str(value['id']), str(value['hop']), 'dirty' if value['dirty'] else 'clean'


def assert_state(value, state):
    owed = load(value['owes']) if 'owes' in value else None
    found = value['phase'], value.get('id'), owed, value.get('term', 1)
    assert found == (state.phase, state.id, state.owed, state.term), (value, state)
    assert value.get('round') == state.round or state.phase == 'passive', (value, state)


def shown(line):
    """What a page shows of a line, of which it shows 80 characters at most."""
    marks = {9: '\\t', 13: '\\r'}
    each = [marks.get(c) or (chr(c) if 32 <= c <= 126 else f'\\x{c:02x}') for c in line]
    if sum(map(len, each)) <= 80:
        return ''.join(each)
    text = ''
    for c in each:
        if len(text + c) > 78:
            break
        text += c
    return text + '..'


class Files:
    """The lines of files, counted from 1; after the last one they are empty."""

    def __init__(self):
        self.read = {}

    def line(self, name, number):
        if name not in self.read:
            with open(name, 'rb') as file:
                self.read[name] = file.read().split(b'\n')
        lines = self.read[name]
        return lines[number - 1] if number <= len(lines) else b''


def check_record(files, names, value):
    """An event's record is in the file of its node, four lines further on than its number says."""
    assert value['file'] == names[value['node']] and value['line'] == value['event'] + 4, value
    assert files.line(value['file'], value['line']) == value['record'].encode(), value


def check_line(files, page, value):
    if 'line' not in value:
        assert set(value) == {'role', 'file'} and value['file'] in page, value
        return
    line = files.line(value['file'], value['line'])
    assert value['text'] == shown(line), value
    place = f"{value['file']}:{value['line']}"
    assert ('byte' in value) == ('due' in value or 'note' in value), value
    if 'byte' in value:
        assert 1 <= value['byte'] <= len(line) + 1 and f"> {place}: {value['text']}".rstrip() in page, value
        said = value['note'] if 'note' in value else value['due'] + ' is due here'
        assert f'^ {said}\n' in page, value
    else:
        assert place in page, value


def check_head(files, names, value):
    name = value['file']
    assert name == names[value['log']], value
    for number, word in enumerate(('version', 'nodes', 'place'), 1):
        assert files.line(name, number) == f"{'irlog' if number == 1 else word} {value[word]}".encode(), value


def check_front(names, page, value):
    if 'pos' in value:
        state = Ring(names).states[value['node']][value['pos']]
        assert_state(value, state)
    assert ('pos' in value) == (value['left'] > 0) and f"node {value['node']} " in page, value


def check_evidence(names, page, answer):
    """Each object speaks of what is in the files, and is that of the reason."""
    files, roles = Files(), {}
    for value in answer.get('evidence', []):
        role = value['role']
        roles.setdefault(role, []).append(value)
        if role in ('sent', 'received', 'event', 'other'):
            check_record(files, names, value)
        elif role == 'line':
            check_line(files, page, value)
        elif role == 'head':
            check_head(files, names, value)
        elif role == 'front':
            check_front(names, page, value)
        else:
            line = files.line(value['file'], value['line']).decode()
            step = 'drop {node} {pos} by {other} {other_pos}' if role == 'step' else 'spent {node}'
            assert line == step.format(**value), value
    reason = answer['reason']
    of_reason = {None: set(), 'log': {'line'}, 'heads': {'head'}, 'link': {'sent', 'received', 'other'},
                 'circle': {'sent', 'received'}, 'node': {'event', 'other'}, 'question': {'line'},
                 'certificate': {'line'}, 'sections': set(), 'case': {'step', 'spent', 'front'}}
    assert set(roles) <= of_reason[reason] and (not of_reason[reason] or roles), answer
    if reason == 'heads':
        assert [value['log'] for value in roles['head']] == list(range(len(names)))
    elif reason == 'link':
        ring, (received,), k = Ring(names), roles['received'], answer['receipt']
        assert (answer['link'] + 1) % ring.n == received['node']
        assert ring.got[answer['link']][k - 1] == received['event']
        sent = [value['event'] for value in roles.get('sent', [])]
        assert sent == ring.sent[answer['link']][k - 1:k] and ring.mismatch() is not None
        stops = {i: len(states) for i, states in enumerate(ring.states) if len(states) <= len(ring.events[i])}
        before = [i for i, p in ((answer['link'], sent[0] if sent else 0), (received['node'], received['event']))
                  if stops.get(i, p) < p]
        told = [(v['node'], v['event'], v['happened_before']) for v in roles.get('other', [])]
        assert told == [(i, stops[i], i in before) for i in (before or sorted(stops))[:1]], answer
    elif reason == 'circle':
        ring = Ring(names)
        assert [(v['node'], v['event']) for v in roles['received']] == [(i, p + 1) for i, p in enumerate(ring.stuck)]
        for received, sent in zip(roles['received'], roles['sent']):
            assert ring.sending(received['node'], received['event']) == (sent['node'], sent['event'])
    elif reason == 'node':
        check_node(names, roles, answer)


def check_node(names, roles, answer):
    """The states up to the event that is named, and the first event without a step of each other node."""
    (named,) = roles['event']
    assert (named['node'], named['event']) == (answer.get('node', named['node']), answer['event'])
    if len(names) == 1:
        return
    ring = Ring(names)
    faulty = {i: len(states) for i, states in enumerate(ring.states) if len(states) <= len(ring.events[i])}
    assert faulty.pop(named['node']) == named['event']
    assert_state(answer['state_before'], ring.states[named['node']][-1])
    past = ring.past(named['node'], named['event'])
    others = {v['node']: (v['event'], v['happened_before']) for v in roles.get('other', [])}
    assert others == {i: (p, past[i] >= p) for i, p in faulty.items()}, answer


def check_explained(reader, options, names):
    """The answer with what it rests on; hints are on the page. Gives the lines."""
    _, page = reader.run('explain', *options, *names)
    _, values = reader.json('explain', '--json', *options, *names)
    answer = values[0]
    words = ' '.join(page.split())
    assert all('hint: ' + ' '.join(hint.split()) in words for hint in answer['hints']), answer
    assert len(answer['hints']) == page.count('\n  hint: '), answer
    if answer['reason'] in ('log', 'heads'):
        assert 'nodes' not in answer and 'events' not in answer
    else:
        events = Ring(names).events
        assert answer['nodes'] == len(names) and answer['events'] == sum(map(len, events))
    check_evidence(names, page, answer)
    return values


def check_asks(question, page, cases):
    """What the cases that are explained ask is in the question."""
    files = Files()
    for value in cases:
        asks = value.pop('asks', None)
        assert (asks is not None) == (f"\n  case {value['case']} (" in page), value
        for ask in asks or []:
            assert files.line(question, ask['line']) == f"{ask['node']}: {ask['clause']}".encode(), ask


def due(value):
    """A node and what comes next there, as a page says it."""
    return value['node'], ' '.join([value['next'] + 's', *(load(value) if value['next'] != 'draw' else [])])


def check_election(answer, ring):
    """Whether the election is over when the logs end, and else what comes next."""
    assert answer['over'] == any(states[-1].phase == 'leader' for states in ring.states), answer
    assert ('next' in answer) != answer['over'], answer
    at = [len(events) for events in ring.events]
    assert [due(value) for value in answer.get('next', [])] == list(next_of(ring, at)), answer


def rounds_of(ring, at):
    """What was drawn in each round of each term up to a moment: how often, the greatest ID, and by whom that."""
    rounds = {}
    for i, states in enumerate(ring.states):
        for event, state in zip(ring.events[i][:at[i]], states[1:]):
            if event[0] == 'draw':
                rounds.setdefault((state.term, state.round), []).append((state.id, i))
    return [(*key, len(drawn), max(drawn)[0], sorted(i for id, i in drawn if id == max(drawn)[0]))
            for key, drawn in sorted(rounds.items())]


def check_moment(reader, ring, names, cut, words):
    """What is shown at a moment; without a cut, when the logs end."""
    at = cut or [len(events) for events in ring.events]
    words = [*words, '--at', ','.join(map(str, cut))] if cut else words
    status, (answer, *rest) = reader.json('show', '--json', *words, *names)
    leaders = [i for i, states in enumerate(ring.states) if states[-1].phase == 'leader']
    assert status == 0 and answer['answer'] == 'yes' and answer['nodes'] == ring.n
    assert answer['leaders'] == leaders and answer['events'] == sum(map(len, ring.events))
    assert answer['over'] == bool(leaders) and answer.get('cut') == cut
    nodes = [value for value in rest if value['type'] == 'node']
    assert [value['node'] for value in nodes] == list(range(ring.n))
    for i, value in enumerate(nodes):
        events = ring.events[i][:at[i]]
        kinds = [event[0] for event in events]
        assert value['file'] == names[i] and value['events'] == at[i] and value['of'] == len(ring.events[i])
        dropped = sum(event[0] == 'recv' and state == after
                      for event, state, after in zip(events, ring.states[i], ring.states[i][1:]))
        found = value['draws'], value['sent'], value['received'], value['dropped']
        assert found == (kinds.count('draw'), kinds.count('send'), kinds.count('recv'), dropped), value
        assert value['start'] == ('initiator' if read(names[i])[0] else 'passive'), value
        assert_state(value, ring.states[i][at[i]])
    ways = {value['link']: value['on_the_way'] for value in rest if value['type'] == 'link'}
    for i in range(ring.n):
        sent = [k for k in ring.sent[i] if k <= at[i]]
        got = sum(k <= at[(i + 1) % ring.n] for k in ring.got[i])
        way = [(m['event'], load(m)) for m in ways.get(i, [])]
        assert way == [(k, ring.events[i][k - 1][1:]) for k in sent[got:]], (i, way)
    assert [due(value) for value in rest if value['type'] == 'next'] == list(next_of(ring, at)), rest
    assert [(v.get('term', 1), v['round'], v['drew'], v['greatest'], v['drawn_by'])
            for v in rest if v['type'] == 'round'] == rounds_of(ring, at), rest


def check_events(reader, ring, names, cut):
    words = ['--at', ','.join(map(str, cut))] if cut else []
    _, (answer, *steps) = reader.json('show', '--json', '--events', *words, *names)
    at = cut or [len(events) for events in ring.events]
    assert answer.get('cut') == cut and len(steps) == answer['events']
    made, step_of, placed = [0] * ring.n, {}, Ring(names, cut)
    for number, value in enumerate(steps, 1):
        i, k = value['node'], value['event']
        made[i] += 1
        event = ring.events[i][k - 1]
        assert value['step'] == number and k == made[i] and value['record'] == ' '.join(event), value
        assert value['in_cut'] == (k <= at[i]) and value['line'] == k + 4
        # The column is that of a picture at the same moment.
        assert value['column'] == placed.column[i, k], value
        assert_state(value, ring.states[i][k])
        step_of[i, k] = number
        if event[0] == 'recv':
            assert value['of_step'] == step_of[ring.sending(i, k)], value
        assert value['in_cut'] == (number <= sum(at))
    assert list(step_of) == sorted(step_of, key=lambda event: (placed.column[event], event)), names


def check_leaders(reader, ring, names):
    leaders = [i for i, states in enumerate(ring.states) if states[-1].phase == 'leader']
    for named in ([0], list(range(ring.n)), leaders):
        if named:
            status, (answer, *_) = reader.json('show', '--json', '--leads', ','.join(map(str, named)), *names)
            assert answer['named'] == named and answer['leaders'] == leaders
            assert status == (0 if named == leaders else 1)
    status, (answer, *_) = reader.json('show', '--json', '--leads', 'any', *names)
    assert 'named' not in answer and status == (0 if leaders else 1)


def check_question(reader, question, certificate, names):
    options = ['--question', question, *names]
    plain_status, plain = reader.run('decide', *options)
    status, (answer, *cases) = reader.json('decide', '--json', *options)
    assert status == plain_status
    if not cases:
        assert plain == answer['answer'] + '\n'
    else:
        assert answer['answer'] == ('present' if status else 'absent') and answer['nodes'] == len(names)
        lines = []
        for k, value in enumerate(cases):
            assert value['type'] == 'case' and value['case'] == k, value
            if value['found'] == 'absent':
                lines.append(f"case {k}: absent, {value['steps']} steps, node {value['spent']} spent\n")
            else:
                lines.append(f"case {k}: present at {' '.join(map(str, value['cut']))}\n")
        assert plain == ''.join(lines), plain
    explained, *asked = check_explained(reader, ['--question', question], names)
    assert explained['answer'] == answer['answer'] and explained['status'] == status and 'over' not in explained
    check_asks(question, reader.run('explain', *options)[1], asked)
    assert asked == cases
    if certificate:
        plain_status, plain = reader.run('check', '--cert', certificate, *options)
        status, (answer,) = reader.json('check', '--json', '--cert', certificate, *options)
        (explained,) = check_explained(reader, ['--question', question, '--cert', certificate], names)
        assert plain_status == status
        assert plain == answer['answer'] + '\n' and {**explained, **answer} == explained


def check_logs(reader, names, folder):
    plain_status, plain = reader.run('logs', *names)
    status, (answer,) = reader.json('logs', '--json', *names)
    assert status == plain_status and plain == answer['answer'] + '\n'
    (explained,) = check_explained(reader, [], names)
    assert {**explained, **answer} == explained
    assert ('fault' in explained) == (status != 0) == ('over' not in explained)
    for place in range(len(names)):
        with open(names[place]) as log:
            done = subprocess.run([reader.program, 'explain', '--json'], check=False, stdin=log, capture_output=True, text=True)
        alone = json.loads(done.stdout)
        assert done.stderr == '' and alone['status'] == done.returncode and 'nodes' not in alone
        reader.lines += 1
    asked_status, asked = reader.run('logs', '--over', *names)
    over_status, (over,) = reader.json('logs', '--over', '--json', *names)
    assert asked_status == over_status == (0 if explained.get('over') else 1), names
    assert asked.startswith(plain) and (asked == plain) == (over_status == status), names
    assert over.get('over') == explained.get('over') and {**over, **answer, 'status': over_status} == over, names
    if status == 0:
        ring = Ring(names)
        check_election(explained, ring)
        check_moment(reader, ring, names, None, [])
        check_events(reader, ring, names, None)
        check_leaders(reader, ring, names)
        for i in range(0, ring.n, 1 + ring.n // 4):
            for p in range(1, len(ring.events[i]) + 1, 1 + len(ring.events[i]) // 4):
                check_moment(reader, ring, names, ring.past(i, p), [])
        if ring.events[0]:
            check_events(reader, ring, names, ring.past(0, 1))
    if folder and len(names) <= 16:
        question, certificate = os.path.join(folder, 'pairs.ask'), os.path.join(folder, 'pairs.cert')
        with open(question, 'w') as out:
            out.write(reader.run('pairs', str(len(names)))[1])
        reader.run('decide', '--question', question, '--out', certificate, *names)
        check_question(reader, question, certificate if os.path.exists(certificate) else None, names)


def check_broken(reader, names):
    """Logs that are broken in one place each, and given in another order."""
    def rewritten(place, change):
        with open(names[place]) as log:
            lines = log.read().split('\n')
        return change(lines)

    def changed(place, change):
        kept = rewritten(place, lambda lines: lines)
        with open(names[place], 'w') as log:
            log.write('\n'.join(change(list(kept))))
        check_logs(reader, names, None)
        with open(names[place], 'w') as log:
            log.write('\n'.join(kept))

    def without(lines, number):
        return [*lines[:number - 1], *lines[number:-2], f'end {len(lines) - 7}', '']

    def at(lines, word, new):
        for number, line in enumerate(lines):
            if line.startswith(word):
                lines[number] = new(line)
                return lines
        return lines

    check_logs(reader, [names[1], names[0], *names[2:]], None)
    check_logs(reader, names[:-1], None)
    redrawn(names, lambda: check_logs(reader, names, None))
    for place in range(len(names)):
        changed(place, lambda lines: at(lines, 'irlog', lambda _: 'irlog 2'))
        changed(place, lambda lines: at(lines, 'start', lambda _: 'start passive'))
        changed(place, lambda lines: at(lines, 'send', lambda line: line.title()))
        changed(place, lambda lines: at(lines, 'send', lambda line: line + '\t'))
        changed(place, lambda lines: at(lines, 'recv', lambda line: line.replace(' ', ' 1', 1)))
        changed(place, lambda lines: at(lines, 'draw', lambda _: 'draw 0'))
        changed(place, lambda lines: at(lines, 'draw', lambda _: 'draw 64'))
        changed(place, lambda lines: lines[:-2] + [''])
        changed(place, lambda lines: without(lines, 5))
        changed(place, lambda lines: without(lines, 7))
        changed(place, lambda lines: without(lines, len(lines) - 2))
        changed(place, lambda lines: [*lines[:4], lines[5], lines[4], *lines[6:]])
        changed(place, lambda lines: [*lines[:4], *lines[6:8], *lines[4:6], *lines[8:]])


def main():
    reader = Reader(sys.argv[1])
    examples = os.path.join(HERE, '..', 'examples')
    for name in sorted(os.listdir(examples)):
        folder = os.path.join(examples, name)
        if os.path.isdir(folder) and logs_in(folder):
            check_logs(reader, logs_in(folder), None)
            for ask in sorted(os.listdir(folder)):
                if ask.endswith('.ask'):
                    question = os.path.join(folder, ask)
                    certificate = question[:-len('ask')] + 'cert'
                    check_question(reader, question, certificate if os.path.exists(certificate) else None, logs_in(folder))
    with tempfile.TemporaryDirectory() as temp:
        for nodes, seed, terms in ((2, 17, 2), (3, 7, 1), (4, 5, 2), (8, 2, 1), (64, 5, 1), (255, 3, 1)):
            folder = os.path.join(temp, f'{nodes}.{seed}')
            os.mkdir(folder)
            reader.run('run', '--nodes', str(nodes), '--seed', str(seed), '--terms', str(terms), '--out', folder)
            check_logs(reader, logs_in(folder), folder)
            if nodes in (3, 4):
                check_broken(reader, logs_in(folder))
            if nodes in (2, 3):
                for ended in ended_logs(logs_in(folder), temp):
                    check_logs(reader, ended, None)
    print(f'{reader.lines} lines of JSON say what the plain answers and the logs do')


if __name__ == '__main__':
    main()
