"""Opens bin/ira.html in a headless Chromium, driven over loopback by its driver, and holds what it answers against what
the program prints and writes of the same files, byte for byte: each row of examples/README.md and all commands of each
folder, in words and as JSON, hostile names and texts, logs of a large ring. Loads files as a user does, saves, writes
questions, presses each control, moves in the page to move in; looks at what is said of a browser without 64-bit memory and of a damaged page;
and that nothing is fetched.

    python3 checks/web.py PROGRAM [PAGE]   PAGE is bin/ira.html if not given; chromium and chromedriver are on the PATH
"""
import base64
import http.server
import io
import json
import os
import shlex
import subprocess
import sys
import tarfile
import tempfile
import threading
import time

from cli import sentences
from page import KEYS, READS, Browser, holds_event
from pictures import HERE, Ring

EXAMPLES = os.path.realpath(os.path.join(HERE, '..', 'examples'))
LOG, LOGS, EXPLAIN_LOG, EXPLAIN, EXPLAIN_QUESTION, EXPLAIN_CERT, SHOW, EVENTS, DRAW, DECIDE, CHECK, PAIRS, UPGRADE, \
    MEND, RUN, PAGE, AS_JSON, LEADERS, OVERVIEW, ASK = range(20)
ANY = 2 ** 64 - 1
WITH_JSON = {LOGS, EXPLAIN_LOG, EXPLAIN, EXPLAIN_QUESTION, EXPLAIN_CERT, SHOW, EVENTS, DECIDE, CHECK, LEADERS}
ALL = (0, 2 ** 64 - 1)
TOLD = '''
const piece = it => ['h2', '.command', 'pre'].map(part => it.querySelector(part)?.textContent);
const pieces = [...document.querySelectorAll('section section, .json')].map(piece);
return [$('answer').textContent, $('fault').textContent, pieces];'''
ASKS = '''
const [values, files, count, done] = arguments, bytes = text => Uint8Array.from(atob(text), c => c.charCodeAt(0));
const written = bytes => btoa(Array.from(bytes, byte => String.fromCharCode(byte)).join(''));
send({values: values.map(BigInt), files: files.map(([name, text]) => ({name, text: bytes(text)})), count})
  .then(({status, replies}) => done([status, (replies || []).map(parts => parts.map(written))]),
    why => done([why.message]));'''


FETCHES = '''
globalThis.refused = [];
addEventListener('securitypolicyviolation', ({blockedURI}) => refused.push(blockedURI));
fetch(arguments[0]).catch(() => 0);
new Image().src = arguments[0];
navigator.sendBeacon(arguments[0]);'''


def text_of(name):
    with open(name, 'rb') as file:
        return file.read()


def in_order(names):
    return sorted(names, key=lambda name: (len(name), name))


class Check:
    def __init__(self, program, page, browser, temp):
        self.program, self.page, self.browser, self.temp = program, page, browser, temp
        self.answers, self.folders, self.saved = 0, 0, os.path.join(temp, 'saved')
        browser.devtools('Page.setDownloadBehavior', behavior='allow', downloadPath=self.saved)

    def wait(self, script, seconds=60):
        for _ in range(seconds * 10):
            found = self.browser.run(script)
            if found:
                return found
            time.sleep(.1)
        raise AssertionError(f'not within {seconds} s: {script}')

    def open(self, link='', page=None):
        self.browser.open(page or self.page, link)

    def ready(self):
        self.wait('return worker && !asked.size')

    def ask_all(self, values, files, count):
        """A status, and the parts of so many replies."""
        files = [(name, base64.b64encode(text).decode()) for name, text in files]
        arguments = [[str(value) for value in values], files, count]
        status, *replies = self.browser.call('POST', '/execute/async', {'script': ASKS, 'args': arguments})
        assert replies, status
        return status, [[base64.b64decode(part) for part in parts] for parts in replies[0]]

    def ask(self, command, values, files):
        status, replies = self.ask_all([command, *values], files, 1)
        return status, replies[0] if replies else []

    def run(self, words, files, wrote=None, stdin=None):
        """What the program prints of files in a folder of its own, and writes as one file, or as logs in a folder."""
        self.folders += 1
        folder = os.path.join(self.temp, f'run{self.folders}')
        os.makedirs(os.path.join(folder, 'out'))
        for name, text in files:
            with open(os.path.join(folder, name), 'wb') as file:
                file.write(text)
        told = subprocess.run([self.program, *words], cwd=folder, input=stdin or b'', capture_output=True, check=False)
        made = [os.path.join(folder, wrote)] if wrote else [os.path.join(folder, 'out', f'{i}.log') for i in range(255)]
        return told.returncode, [told.stdout, told.stderr] + [text_of(name) for name in made if os.path.exists(name)]

    def same(self, what, command, values, files, words, wrote=None, stdin=None):
        """Holds an answer of the module against what the program prints and writes, in words and as JSON."""
        found, wanted = self.ask(command, values, files), self.run(words, files, wrote, stdin)
        assert found == wanted, (what, words, found, wanted)
        found = self.ask(AS_JSON, [command, *values], files)
        wanted = self.run([words[0], '--json', *words[1:]], files, wrote, stdin) if command in WITH_JSON else (4, [])
        assert found == wanted, (what, words, 'as JSON', found, wanted)
        self.answers += 1 + (command in WITH_JSON)

    def draws(self, what, files, names, words, values):
        """Pictures, and pages to move in."""
        for command, out in ((DRAW, 'out/ring.svg'), (PAGE, 'out/ring.html')):
            self.same(what, command, values, files, ['draw', *words, '--out', out, *names], out)

    def overview(self, what, values, logs, given, moment):
        """Holds the replies of one call against what the program prints and writes, command by command."""
        names, of = [name for name, _ in logs], ['--question', 'q.ask']
        commands = [(['logs'],), (['explain'],), (['decide', *of, '--out', 'out/q.cert'], 'out/q.cert'),
                    (['explain', *of],), (['check', *of, '--cert', 'q.cert'],),
                    (['explain', *of, '--cert', 'q.cert'],)][:2 + 2 * len(given)]
        commands += [(['draw', *moment, '--out', 'out/ring.svg'], 'out/ring.svg'), (['show', *moment],)]
        files = [*given, *logs]
        wanted = [self.run([*words, *names], files, *wrote) for words, *wrote in commands]
        values = [OVERVIEW, len(given), *ALL, *values]
        found = self.ask_all(values, files, len(commands))
        assert found == (wanted[0][0], [parts for _, parts in wanted]), (what, values, found, wanted)
        assert self.ask(AS_JSON, values, files) == self.ask(OVERVIEW, [3, *values[2:]], files) == (4, []), what
        self.answers += len(commands)

    def all_commands(self, what, logs):
        """All that can be asked of logs alone."""
        names = [name for name, _ in logs]

        def ask(command, values, *words):
            self.same(what, command, values, logs, [*words, *names])

        ask(LOGS, [], 'logs')
        ask(EXPLAIN, [], 'explain')
        for command, words in ((SHOW, ['show']), (EVENTS, ['show', '--events'])):
            ask(command, [], *words)
            for cut in ([0] * len(logs), [1] * len(logs), [9] * len(logs)):
                ask(command, [1, *cut], *words, '--at', ','.join(map(str, cut)))
            for leads, values in (('any', [ANY]), ('/dev/null', [0]), ('0', [1, 0]), (f'{len(logs)}', [1, len(logs)])):
                ask(LEADERS, [*values, command], *words, '--leads', leads)
        self.draws(what, logs, names, [], ALL)
        self.draws(what, logs, names, ['--from', '2', '--to', '4'], (2, 4))
        self.draws(what, logs, names, ['--at', ','.join('1' * len(logs))], [*ALL, 1] + [1] * len(logs))
        self.overview(what, [], logs, [], [])
        self.overview(what, [1] * (1 + len(logs)), logs, [], ['--at', ','.join('1' * len(logs))])
        ask(UPGRADE, [], 'upgrade', '--out', 'out')
        for start in ('passive', 'initiator'):
            ask(MEND, [int(start == 'initiator')], 'mend', '--start', start, '--out', 'out')
        for name, text in logs:
            self.same((what, name), LOG, [], [(name, text)], [], stdin=text)
            self.same((what, name), EXPLAIN_LOG, [], [('-', text)], ['explain'], stdin=text)

    def asked(self, what, logs, question, cert=None):
        """All that can be asked of logs with a question."""
        names, files, of = [name for name, _ in logs], [('q.ask', question), *logs], ['--question', 'q.ask']

        def ask(command, values, *words, wrote=None):
            self.same(what, command, values, files, [*words, *names], wrote)

        ask(DECIDE, [], 'decide', *of, '--out', 'out/q.cert', wrote='out/q.cert')
        assert self.ask(AS_JSON, [DECIDE, 1], files) == (4, []), what
        ask(EXPLAIN_QUESTION, [], 'explain', *of)
        ask(EXPLAIN_QUESTION, [0], 'explain', *of, '--case', '0')
        ask(SHOW, [2], 'show', *of)
        ask(EVENTS, [2, 0], 'show', '--events', *of, '--case', '0')
        self.draws(what, files, names, of, [*ALL, 2])
        self.overview(what, [2], logs, files[:1], of)
        if cert is not None:
            files.insert(1, ('q.cert', cert))
            self.overview(what, [], logs, files[:2], [])
            ask(CHECK, [], 'check', *of, '--cert', 'q.cert')
            ask(EXPLAIN_CERT, [], 'explain', *of, '--cert', 'q.cert')

    def examples(self):
        for folder in sorted(os.listdir(EXAMPLES)):
            at = os.path.join(EXAMPLES, folder)
            if not os.path.isdir(at) or not any(name.endswith('.log') for name in os.listdir(at)):
                continue
            texts = {name: text_of(os.path.join(at, name)) for name in os.listdir(at)}
            logs = [(name, texts[name]) for name in in_order(texts) if name.endswith('.log')]
            self.all_commands(folder, logs)
            for name in in_order(texts):
                if name.endswith('.ask'):
                    self.asked((folder, name), logs, texts[name], texts.get(name.replace('.ask', '.cert')))
        for nodes in (2, 3, 64, 255, 0, 1, 256):
            self.same('pairs', PAIRS, [nodes], [], ['pairs', str(nodes)])
        for sentence in sentences():
            status, (out, *err) = self.ask(ASK, [3], [('SENTENCE', sentence.encode())])
            found, wanted = (status, [out, b''.join(err)]), self.run(['ask', '--nodes', '3', '--', sentence], [])
            assert found == wanted, (sentence, found, wanted)
            self.answers += 1
        names = ('--nodes', '--initiators', '--seed', '--draws', '--cap', '--terms')
        for values in ((2, 2, 17, 64, 10000, 2), (5, 1, 3, 64, 10000, 1), (8, 8, 2, 0, 9, 1), (3, 0, 1, 64, 99, 1)):
            words = [str(word) for pair in zip(names, values) for word in pair]
            self.same('run', RUN, values, [], ['run', '--alone', '--out', 'out', *words])

    def hostile(self):
        """Names and texts that would be tags, or aren't what they should be."""
        good = [text_of(os.path.join(EXAMPLES, 'receipts_exchanged', f'{i}.log')) for i in range(2)]
        elements = None
        names = ('plain', '<img src=x onerror=document.title=0>', '"\'&amp;<!--', 'h\u00f6he \u2028\u4e2d',
                 'line\nfeed\t', '-')
        for i, name in enumerate(names):
            names = [f'{name}{k}.log' for k in range(2)]
            logs = list(zip(names, good))
            self.same(name, EXPLAIN, [], logs, ['explain', '--', *names])
            self.load(logs, f'hostile{i}')
            told = self.browser.run("return [document.title, document.querySelectorAll('body *').length, "
                                    "$('logs').textContent]")
            elements = elements or told[1]
            assert told[:2] == ['ira', elements] and all(name in told[2] for name in names), told
        for text in (b'', b'\0', b'\xff' * 99, b'irlog 1\nnodes 2\n' + b'<b>' * 9 + b'\n', b'irlog 1\n' * 9,
                     b'x' * 200_000, b'\r\n', good[0][:-1], good[0] + b'\0'):
            self.all_commands(text[:40], [('0.log', text), ('1.log', good[1])])
            self.asked(text[:40], [('0.log', good[0]), ('1.log', good[1])], text, text)

    def load(self, logs, folder):
        """Chooses files as a user does."""
        at = os.path.join(self.temp, folder)
        os.makedirs(at, exist_ok=True)
        for name, text in logs:
            with open(os.path.join(at, name), 'wb') as file:
                file.write(text)
        if any('\n' in name for name, _ in logs):
            # the driver takes names on lines
            texts = [(name, base64.b64encode(text).decode()) for name, text in logs]
            self.browser.run('const bytes = text => Uint8Array.from(atob(text), c => c.charCodeAt(0)); '
                             'take(arguments[0].map(([name, text]) => ({name, text: bytes(text)})), true)', texts)
        else:
            names = '\n'.join(os.path.join(at, name) for name, _ in logs)
            element = self.browser.run("return $('files')")
            self.browser.call('POST', f'/element/{next(iter(element.values()))}/value', {'text': names})
        self.wait(f"return logs.length == {len(logs)}")
        self.ready()

    def told(self):
        return self.browser.run(TOLD)

    def shows(self, wanted):
        """Waits until a piece of the page has these words."""
        self.wait(f"return $('answers').textContent.includes({json.dumps(wanted)})")
        self.ready()

    def set(self, control, value):
        self.browser.run('const it = $(arguments[0]); it.value = arguments[1]; it.onchange()', control, value)

    def click(self, text):
        """Clicks the button or the link with this text."""
        self.browser.run("[...document.querySelectorAll('#answers :is(button, a)')]"
                         ".find(it => it.textContent == arguments[0]).click()", text)

    def save(self, name):
        """The bytes of a file that is saved."""
        at = os.path.join(self.saved, name)
        self.click(name)
        for _ in range(100):
            if os.path.exists(at):
                break
            time.sleep(.1)
        text = text_of(at)
        os.remove(at)
        return text

    def saves(self, name, wanted):
        """Saves a file, with these bytes."""
        assert self.save(name) == wanted, name

    def frame(self, which):
        """Goes into a frame of the page, or back."""
        element = which and self.browser.run('return document.querySelector(arguments[0])', which)
        self.browser.call('POST', '/frame', {'id': element})
        if which:
            self.wait("return document.readyState == 'complete' && !!document.getElementById('view')")

    def moved(self, logs, folder):
        """The page to move in is made when it's asked for, is saved, and moves, in the page and in a tab of its own."""
        browser, names = self.browser, [name for name, _ in logs]
        assert not browser.run("return !!document.querySelector('iframe')")
        self.click('Move in it')
        self.wait("return !!document.querySelector('iframe')")
        _, (_, _, page) = self.run(['draw', '--out', 'out/ring.html', *names], logs, 'out/ring.html')
        self.saves('ring.html', page)
        ring = Ring([os.path.join(folder, name) for name in names])
        this = browser.call('GET', '/window')
        self.frame('iframe')
        self.moves(ring, names)
        self.frame(None)
        self.click('open it in a tab of its own')
        tab = next(tab for tab in browser.call('GET', '/window/handles') if tab != this)
        browser.call('POST', '/window', {'handle': tab})
        self.wait("return document.readyState == 'complete' && !!document.getElementById('view')")
        self.moves(ring, names)
        browser.call('DELETE', '/window')
        browser.call('POST', '/window', {'handle': this})

    def moves(self, ring, names):
        browser = self.browser
        wide = browser.run('return view.wide')
        browser.type('+', '.')
        assert browser.run('return view.wide') > wide
        holds_event(browser.run(READS), ring, names, 0, 1)
        browser.stroke(KEYS['right'])
        holds_event(browser.run(READS), ring, names, 0, 2)
        browser.stroke(KEYS['down'])
        holds_event(browser.run(READS), ring, names, 1, 3)

    def used(self):
        """What the page shows of files, an example, texts pasted, questions, moments, and what it saves."""
        browser, folder = self.browser, os.path.join(EXAMPLES, 'two_node_election')
        logs = [(f'{i}.log', text_of(os.path.join(folder, f'{i}.log'))) for i in range(2)]
        self.open()
        self.wait("return $('answer').textContent == 'yes' && !!document.querySelector('.picture')")
        self.shows('Node 0 leads in round 2 with ID 3')
        assert browser.run("return $('opened').offsetHeight > 0 && $('examples').value == 'recorded_ring'")
        self.load(logs, 'used')
        assert browser.run("return $('opened').hidden")
        browser.run("for (const lines of document.querySelectorAll('.json')) lines.open = true")
        self.wait("return [...document.querySelectorAll('.json')].every(lines => lines.querySelector('a'))")
        answer, fault, pieces = self.told()
        as_json = [line for _, line, _ in pieces if '--json' in line]
        assert (answer, fault, len(as_json)) == ('yes', '', 4), (answer, fault, as_json)
        self.answers_are(logs, '$ ira explain 0.log 1.log')
        self.saves('show_events.jsonl', self.run(['show', '--events', '--json', '0.log', '1.log'], logs)[1][0])
        self.moved(logs, folder)
        for dropped, wanted in ((['lost_record'], 'no: link 1: receipt 2 has no sending'),
                                (['lost_record/1.log'], 'yes, by itself'),
                                (['circle_of_two/1.log', 'circle_of_two/0.log'], 'no: circle')):
            self.drop([os.path.join(EXAMPLES, name) for name in dropped], wanted)
        for example, wanted in (('killed_ring', 'no: log 1: cut'), ('circle_of_two', 'no: circle'),
                                ('one_bad_log', 'no: node 0: event 1: draw range, by itself'),
                                ('receipts_exchanged', 'no: link 1: receipt 1 differs')):
            self.open(f'#{example}')
            self.wait(f"return $('answer').textContent == {wanted!r}")
            self.ready()
        self.click('Move in it')
        self.wait("return !!document.querySelector('iframe')")
        self.frame('iframe')
        seen = browser.run(READS)
        assert (seen['heading'], seen['title']) == (wanted, 'node 0 event 3'), seen
        self.frame(None)
        browser.run("$('pasted').value = arguments[0]; $('paste').click()", ''.join(text.decode() for _, text in logs))
        self.wait("return logs.length == 2 && $('answer').textContent == 'yes'")
        self.ready()
        drawn = browser.run("return document.querySelector('.picture').shadowRoot.querySelectorAll('[data-at]').length")
        assert drawn == 8, drawn
        words = ['draw', '--out', 'out/ring.svg', '0.log', '1.log']
        self.saves('ring.svg', self.run(words, logs, 'out/ring.svg')[1][2])
        browser.run('const take_both = arguments[0].flatMap(([name, text]) => ["a/", "b\\n/"].map(folder => '
                    '({name: folder + name, text: encoder.encode(text)}))); take(take_both.slice(0, -1), false)',
                    [(name, text.decode()) for name, text in logs])
        self.shows('a/: yes\nb\\x0a/: no: heads: number')
        self.load(logs, 'used')
        self.set('kind', 'pairs')
        self.shows('absent: no moment met its one case')
        words = ['decide', '--ask', 'any leader, other leader', '--out', 'out/q.cert', '0.log', '1.log']
        self.saves('question.cert', self.run(words, logs, 'out/q.cert')[1][2])
        self.set('kind', 'leads')
        self.shows('present: case 0, at 4 4; node 0 leader')
        self.answers_are(logs, "$ ira decide --ask 'any leader' --out question.cert 0.log 1.log",
                         "$ ira explain --ask 'any leader' 0.log 1.log")
        self.set('question', 'any leading')
        self.shows("$ ira ask --nodes 2 'any leading'")
        _, (_, err) = self.run(['ask', '--nodes', '2', 'any leading'], [])
        assert err.decode().rstrip('\n') in self.browser.run("return $('answers').textContent"), err
        self.set('question', text_of(os.path.join(folder, 'active_beside_passive.ask')).decode())
        self.shows('case 0: present at 2 3')
        self.set('moment', 'first')
        self.shows('The first moment of case 0')
        self.set('moment', 'at')
        self.set('at', '1,1')
        self.shows('--at 1,1')
        self.set('at', '1,x')
        self.wait("return $('fault').textContent.includes('numbers')")
        self.set('moment', 'end')
        self.set('leads', '1')
        self.shows("node 0 leads, and isn't named")
        self.set('leads', '')
        self.set('examples', 'killed_ring')
        self.wait("return $('answer').textContent == 'no: log 1: cut'")
        self.ready()
        browser.run("$('mend').click()")
        self.wait("return !!document.querySelector('a[download=\"1.log\"]')")
        self.click('Go on with these')
        self.wait("return $('answer').textContent == 'yes, not over'")
        self.ready()
        assert not (faults := browser.faults()), faults

    def drop(self, files, wanted):
        """Drops files and folders, of which the headline says this."""
        for kind in ('dragEnter', 'dragOver', 'drop'):
            self.browser.devtools('Input.dispatchDragEvent', type=kind, x=150, y=200,
                                  data={'items': [], 'files': files, 'dragOperationsMask': 1})
        self.wait(f"return $('answer').textContent == {wanted!r}")
        self.ready()

    def led(self):
        """Folders with a file of leaders: of one whose election isn't over, or where others lead, the headline says so."""
        browser, elected = self.browser, os.path.join(EXAMPLES, 'two_node_election')
        for name, leaders, wanted, field, kind in (('good', '0\n', 'yes', '0', 'yes'),
                                                   ('two', '0\n1\n', 'yes, other leaders', '0,1', 'unmet'),
                                                   ('nobody', '', 'yes, other leaders', 'none', 'unmet'),
                                                   ('far', '2\n', 'yes, other leaders', '2', 'unmet'),
                                                   ('hung', '', 'yes, not over', 'none', 'unmet'),
                                                   ('both', '1\n', 'yes, not over', '1', 'unmet')):
            folder = os.path.join(self.temp, 'led', name)
            os.makedirs(folder)
            texts = {f'{i}.log': text_of(os.path.join(elected, f'{i}.log')).decode() for i in range(2)}
            if name in ('hung', 'both'):
                texts = {at: text.replace(line, '').replace('end 4', 'end 3') for (at, text), line in
                         zip(sorted(texts.items()), ('recv 1 2 2 clean\n', 'send 1 2 2 clean\n'))}
            for at, text in [*texts.items(), ('leaders', leaders)]:
                with open(os.path.join(folder, at), 'w') as file:
                    file.write(text)
            self.open()
            self.ready()
            self.drop([folder], wanted)
            seen = browser.run("return [$('leads').value, $('answer').className, logs.length, $('judged').textContent]")
            assert seen == [field, kind, 2, f'$ ira logs --dir {name}'], (name, seen)
        self.drop([elected], 'yes')
        assert browser.run("return $('leads').value + $('fault').textContent") == ''
        self.drop([os.path.join(folder, at) for at in ('0.log', '1.log', 'leaders')], 'yes, not over')
        assert browser.run("return $('leads').value") == '1'

    def names(self):
        return self.browser.run("return [...$('logs').querySelectorAll('li span')].map(it => it.textContent)")

    def press(self, i, title):
        """Presses a button of a log in the list."""
        self.browser.run("[...$('logs').children[arguments[0]].querySelectorAll('button')]"
                         ".find(it => it.title == arguments[1]).click()", i, title)
        self.ready()

    def taken(self, *files):
        """Takes files as they are dropped."""
        texts = [(name, base64.b64encode(text).decode()) for name, text in files]
        self.browser.run('const bytes = text => Uint8Array.from(atob(text), c => c.charCodeAt(0)); '
                         'take(arguments[0].map(([name, text]) => ({name, text: bytes(text)})), false)', texts)
        self.ready()

    def answers_are(self, files, *wanted):
        """All that is told is what the program prints of these files by the lines that stand there, and these are among them."""
        self.ready()
        lines = []
        for title, line, text in self.told()[2]:
            if line and 'draw' not in line:
                _, (out, _, *_) = self.run(shlex.split(line)[2:], files)
                assert text == out.decode().rstrip('\n'), (title, line, text, out)
                lines.append(line)
        assert set(wanted) <= set(lines), (wanted, lines)

    def written(self, line, files):
        """What was made by a command is what the program makes: its line, all logs in an archive, and one alone. Goes on with
        these."""
        self.shows(f'$ ira {line}')
        words = line.split()
        words[words.index('--out') + 1] = 'out'
        _, (_, _, *wanted) = self.run(words, files)
        assert wanted, line
        with tarfile.open(fileobj=io.BytesIO(self.save('logs.tar'))) as archive:
            found = [(it.name, archive.extractfile(it).read()) for it in archive]
        assert found == [(f'{i}.log', text) for i, text in enumerate(wanted)], line
        self.saves(f'{len(wanted) - 1}.log', wanted[-1])
        self.click('Go on with these')
        self.wait(f"return logs.length == {len(wanted)}")
        names = [f'{i}.log' for i in range(len(wanted))]
        assert self.names() == names
        self.answers_are(list(zip(names, wanted)), '$ ira explain ' + ' '.join(names))

    def pressed(self):
        """What each control does to what is given, and to what is asked of it."""
        browser, at = self.browser, lambda *names: text_of(os.path.join(EXAMPLES, *names))
        ring = [(f'{i}.log', at('recorded_ring', f'{i}.log')) for i in range(4)]
        pair = [(f'{i}.log', at('two_node_election', f'{i}.log')) for i in range(2)]
        ask, cert = at('two_node_election', 'two_leaders.ask'), at('two_node_election', 'two_leaders.cert')
        self.open()
        self.ready()
        self.taken(*ring)
        self.press(2, 'one place earlier')
        assert self.names() == ['0.log', '2.log', '1.log', '3.log']
        self.answers_are(ring, '$ ira explain 0.log 2.log 1.log 3.log')
        self.press(2, 'leave out')
        assert self.names() == ['0.log', '2.log', '3.log']
        self.answers_are(ring, '$ ira explain 0.log 2.log 3.log')
        self.taken(*(('b/' + name, text) for name, text in ring), *(('a/' + name, text) for name, text in pair))
        for i, folder, count in ((1, 'b', 4), (0, 'a', 2)):
            browser.run("$('ring').selectedIndex = arguments[0]; $('ring').onchange()", i)
            self.ready()
            assert self.names() == [f'{folder}/{k}.log' for k in range(count)]
        of, names = '--question pasted.ask', '0.log 1.log'
        browser.run("$('pasted').value = arguments[0]; $('paste').click()",
                    b''.join([pair[0][1], cert, pair[1][1], ask]).decode())
        files = [('pasted.ask', ask), ('pasted.cert', cert), *pair]
        self.answers_are(files, f'$ ira check {of} --cert pasted.cert {names}', f'$ ira explain {of} {names}')
        browser.run("$('uncertified').click()")
        self.ready()
        assert browser.run("return $('certified').hidden")
        for certs, wanted in ((['b.cert'], None), (['b.cert', 'q.cert'], 'q.cert')):
            self.taken(*pair, ('q.ask', ask), *((name, cert) for name in certs))
            assert browser.run("return $('certified').hidden ? null : $('cert').textContent") == wanted
        self.taken(*pair)
        for shown in ({'from': '2', 'to': '3'}, {'from': '', 'to': '2'}, {'from': '3', 'to': ''}, {'from': '', 'to': ''}):
            for control, value in shown.items():
                self.set(control, value)
            self.ready()
            words = [word for control, value in shown.items() if value for word in (f'--{control}', value)]
            words = ['draw', *words, '--out', 'ring.svg', '0.log', '1.log']
            assert '$ ira ' + ' '.join(words) in [line for _, line, _ in self.told()[2]]
            self.saves('ring.svg', self.run(words, pair, 'ring.svg')[1][2])
        lost = [pair[0], ('1.log', b'')]
        for start in ('passive', 'initiator'):
            self.taken(*lost)
            browser.run("$('start').value = arguments[0]; $('mend').click()", start)
            self.written(f'mend --start {start} --out mended 0.log 1.log', lost)
        self.taken(*ring)
        browser.run("$('upgrade').click()")
        self.written('upgrade --out upgraded 0.log 1.log 2.log 3.log', ring)
        for given, words in (({'nodes': 12, 'initiators': 5, 'seed': 3, 'terms': 2}, '12 --initiators 5 --seed 3 --terms 2'),
                             ({'nodes': 3, 'initiators': '', 'seed': 7, 'terms': 1}, '3 --initiators 3 --seed 7 --terms 1')):
            browser.run("for (const [name, value] of Object.entries(arguments[0])) $('record').elements[name].value = value; "
                        "$('record').requestSubmit()", given)
            self.written(f'run --alone --nodes {words} --out ring', [])
        assert not (faults := browser.faults()), faults

    def large(self):
        """A large ring, and a page that lends too little at first."""
        folder = os.path.join(self.temp, 'large')
        os.makedirs(folder)
        words = ['run', '--alone', '--nodes', '128', '--seed', '5', '--terms', '3', '--out', folder]
        subprocess.run([self.program, *words], check=True, stdout=subprocess.DEVNULL)
        logs = [(f'{i}.log', text_of(os.path.join(folder, f'{i}.log'))) for i in range(128)]
        little = os.path.join(self.temp, 'little.html')
        with open(little, 'w') as file:
            file.write(text_of(self.page).decode().replace('FIRST = 2 ** 26', 'FIRST = 2 ** 16'))
        for page in (self.page, little):
            self.open(page=page)
            self.ready()
            for command, words in ((LOGS, ['logs']), (SHOW, ['show']), (EVENTS, ['show', '--events'])):
                self.same('large', command, [], logs, [*words, *(name for name, _ in logs)])

    def refused(self):
        """A browser without 64-bit memory, and a damaged page: a line says so, and nothing else happens."""
        browser, page = self.browser, text_of(self.page).decode()
        begins = page.index('id="module"')
        at = page.index('\n', page.index('\n', begins) + 1) + 20
        damaged = os.path.join(self.temp, 'damaged.html')
        lacking = page.replace('WebAssembly.validate(SMALLEST)', 'WebAssembly.validate(SMALLEST.slice(1))')
        for text, wanted in ((page[:at] + ('A' if page[at] != 'A' else 'B') + page[at + 1:], 'damaged'),
                             (page[:at] + '!' + page[at + 1:], 'damaged'), (page[:at] + page[at + 400:], 'damaged'),
                             (lacking, 'Memory64')):
            with open(damaged, 'w') as file:
                file.write(text)
            self.open('#two_node_election', damaged)
            told = self.wait("return $('fault').textContent")
            assert wanted in told and self.told()[0] == 'No logs yet.', told

    def silent(self):
        """Nothing is fetched, and the policy of the page allows nothing."""
        met = []

        class Server(http.server.BaseHTTPRequestHandler):
            def do_GET(self):
                met.append(self.path)
                self.send_response(200)
                self.end_headers()

            def log_message(self, *_):
                pass

        server = http.server.HTTPServer(('127.0.0.1', 0), Server)
        threading.Thread(target=server.serve_forever, daemon=True).start()
        self.open('#two_node_election')
        self.wait("return $('answer').textContent == 'yes'")
        self.ready()
        self.click('Move in it')
        self.wait("return !!document.querySelector('iframe')")
        fetched = self.browser.run("return performance.getEntriesByType('resource').map(it => it.name)")
        assert all(name.startswith('blob:') for name in fetched), fetched
        at = f'http://127.0.0.1:{server.server_port}/'
        for frame in (None, 'iframe'):
            self.frame(frame)
            self.browser.run(FETCHES, at)
            time.sleep(1)
            refused = self.browser.run('return refused')
            assert not met and len(refused) >= 3 and set(refused) == {at}, (met, refused)
        self.frame(None)
        self.browser.faults()
        server.shutdown()


def main():
    program = os.path.abspath(sys.argv[1])
    page = os.path.abspath(sys.argv[2] if len(sys.argv) > 2 else os.path.join(HERE, '..', 'bin', 'ira.html'))
    browser = Browser()
    try:
        with tempfile.TemporaryDirectory() as temp:
            check = Check(program, page, browser, temp)
            check.refused()
            check.silent()
            check.open()
            check.ready()
            check.examples()
            check.hostile()
            check.large()
            check.used()
            check.led()
            check.pressed()
            print(f'{check.answers} answers of the page are those of the program')
    finally:
        browser.close()


if __name__ == '__main__':
    main()
