"""Asks the auditor as a library, from Python, C and Node, and holds what it answers against what the program prints and
writes of the same files, byte for byte: all that checks/web.py asks of the examples, hostile names and texts, and logs
with bytes changed at random; each function of Python and Node by its name; and the command line in Node (checks/cli.py).
From Python it asks in processes that forked after a call, in threads, within calls, and where memory is wanting. Then says
how many audits of two-node logs a second each of them makes.

    python3 checks/library.py PROGRAM [FOLDER]   FOLDER is bin if not given, and has libira.a, libira.so and ira.html
"""
import importlib.util
import json
import os
import random
import re
import resource
import shlex
import shutil
import signal
import struct
import subprocess
import sys
import tempfile
import threading
import time

import cli
import web
from pictures import HERE

LIBRARY = os.path.realpath(os.path.join(HERE, '..', 'library'))
AUDITS, SEED, TIMED, BESIDE = 1000, 92, 20_000, 300
WORD = struct.Struct('<Q')


class Driver:
    """Makes each request that it is given so many times, and writes what came of it and how long it took."""

    def __init__(self, words, **options):
        self.process = subprocess.Popen(words, stdin=subprocess.PIPE, stdout=subprocess.PIPE, **options)

    def ask(self, values, files, times=1):
        pieces = [piece for name, text in files for piece in (name.encode(), text)]
        numbers = [times, len(values), *values, len(pieces), *map(len, pieces)]
        self.process.stdin.write(b''.join(map(WORD.pack, numbers)) + b''.join(pieces))
        self.process.stdin.flush()
        elapsed, status, count, *sizes = self.words(3)
        parts = [self.process.stdout.read(size) for size in self.words(count)]
        return (status, parts), elapsed / 1e9

    def call(self, name, given, options):
        """What comes of a function."""
        words = json.dumps({'name': name, 'given': given, 'options': options}, default=bytes.decode).encode()
        return json.loads(self.ask([], [('call', words)], 0)[0][1][0])

    def words(self, count):
        return [number for number, in WORD.iter_unpack(self.process.stdout.read(8 * count))]

    def close(self):
        self.process.stdin.close()
        assert self.process.wait() == 0, 'a driver failed'


class InProcess:
    """The module of Python."""

    def __init__(self, folder):
        os.environ['IRA_LIBRARY'] = os.path.join(folder, 'libira.so')
        spec = importlib.util.spec_from_file_location('ira', os.path.join(LIBRARY, 'ira.py'))
        self.ira = importlib.util.module_from_spec(spec)
        spec.loader.exec_module(self.ira)

    def ask(self, values, files, times=1):
        began = time.perf_counter()
        for _ in range(times):
            try:
                answer = self.ira.serve(values, files)
            except ValueError:
                answer = self.ira.NO_REQUEST, []
        return answer, time.perf_counter() - began

    def call(self, name, given, options):
        try:
            reply, refused = getattr(self.ira, name)(*given, **options), ''
        except self.ira.Refused as why:
            reply, refused = why.reply, str(why)
        except AssertionError as why:
            return str(why)
        if reply is None or isinstance(reply, bytes):
            return reply and reply.decode()
        return [refused, *reply[:4], [text.decode('latin1') for text in reply.files], reply.page]

    def close(self):
        pass


class Check(web.Check):
    """Asks each of the doors where checks/web.py asks its page."""

    def __init__(self, program, doors, temp):
        self.program, self.doors, self.temp, self.answers, self.folders = program, doors, temp, 0, 0
        self.calls = 0

    def ask(self, command, values, files):
        found = {name: door.ask([command, *values], files)[0] for name, door in self.doors.items()}
        first, *rest = found.values()
        assert all(answer == first for answer in rest), (command, values, files, found)
        return first

    def overview(self, *_):
        """A library asks one command at a time."""

    def hostile(self):
        """Names and texts that aren't what they should be."""
        good = [web.text_of(os.path.join(web.EXAMPLES, 'receipts_exchanged', f'{i}.log')) for i in range(2)]
        for name in ('"\'&<!--', 'h\u00f6he \u2028\u4e2d', 'line\nfeed\t', '-'):
            names = [f'{name}{k}.log' for k in range(2)]
            self.same(name, web.EXPLAIN, [], list(zip(names, good)), ['explain', '--', *names])
        for text in (b'', b'\0', b'\xff' * 99, b'irlog 1\n' * 9, b'x' * 200_000, b'\r\n', good[0][:-1],
                     good[0] + b'\0'):
            self.all_commands(text[:40], [('0.log', text), ('1.log', good[1])])
            self.asked(text[:40], [('0.log', good[0]), ('1.log', good[1])], text, text)

    def named(self, name, given, options, words, files, wrote=None, stdin=None):
        """Holds what a function gives by its name against what the program prints and writes."""
        as_json = name not in ('draw', 'pairs', 'ask', 'upgrade', 'mend', 'run')
        status, (out, err, *written) = self.run(words[:1] + ['--json'] * as_json + words[1:], files, wrote, stdin)
        lines = [json.loads(line) for line in out.splitlines()] if as_json else []
        page = self.run(words, files, wrote, stdin)[1][0].decode() if name in ('log', 'explain') else ''
        if options.get('leads') is not None:
            # (the module has no more on who leads)
            page = re.sub(r'\n  A node leads once .*?\n\n', '\n', page, flags=re.S)
        wanted = [err.decode().rstrip('\n') if status == 2 else '', status, out.decode(), lines[0] if lines else None,
                  lines[1:], [text.decode('latin1') for text in written], page if status < 2 else '']
        if name in ('pairs', 'ask') and status == 0:
            wanted = wanted[2]
        for door in ('Python', 'Node'):
            found = self.doors[door].call(name, given, options) if door in self.doors else wanted
            assert found == wanted, (door, name, options, words, found, wanted)
        self.calls += 1

    def elections(self):
        """What test-suites ask of a folder: `audit` and the assertion, by Python and Node, hold what the program says."""
        folder = os.path.join(self.temp, 'elections')
        os.makedirs(folder)
        for name in ('two_node_election', 'second_term', 'lost_record', 'killed_ring', 'recorded_ring', 'no_logs'):
            at = os.path.join(folder, name)
            if name == 'no_logs':
                os.makedirs(at)
                with open(os.path.join(at, '0.log'), 'wb') as file:
                    file.write(b'irlog 1\nnodes 9')
            else:
                shutil.copytree(os.path.join(web.EXAMPLES, name), at)
            with open(os.path.join(at, 'named'), 'w', encoding='ascii') as file:
                file.write('0\n')
            for leads in (None, [0], [1], [], 'any', 'named'):
                for over in (False, True):
                    named = leads if leads is None or isinstance(leads, str) else ','.join(map(str, leads)) or '/dev/null'
                    asked = [] if named is None else [f'--leads={named}']
                    words = ['explain', *asked, *['--over'] * over, '--dir', at]
                    told = subprocess.run([self.program, *words], capture_output=True, check=False)
                    page = re.sub(r'\n  A node leads once .*?\n\n', '\n', told.stdout.decode(), flags=re.S)
                    for door in ('Python', 'Node'):
                        if door not in self.doors:
                            continue
                        options = {'over': over} if leads is None else {'over': over, 'leads': leads}
                        reply = self.doors[door].call('audit', [at], options)
                        assert (reply[1], reply[-1]) == (told.returncode, page), (door, at, options, reply, told)
                        if 'leads' in options:
                            options['leaders'] = options.pop('leads')
                        name_of_it = {'Python': 'assert_election', 'Node': 'assertElection'}[door]
                        said = self.doors[door].call(name_of_it, [at], options)
                        assert said == (f'{at}: {page}' if told.returncode else None), (door, at, options, said)
                        self.calls += 2

    def functions(self):
        """Each function that users call, with each of what it may be given, and without: then it does what the program
        does where an option isn't given."""
        texts = [web.text_of(os.path.join(web.EXAMPLES, 'two_node_election', f'{i}.log')) for i in range(2)]
        never, certificate = (web.text_of(os.path.join(web.EXAMPLES, 'two_node_election', f'two_leaders.{kind}'))
                              for kind in ('ask', 'cert'))
        question = b'irask 1\nnodes 2\ncase\n0: leader\n1: active\ncase\n0: active\n1: passive\nend\n'

        def of(name, words, *more, wrote=None, texts=texts, asks=question, **options):
            names, words = options.get('names', [f'{i}.log' for i in range(len(texts))]), shlex.split(words)
            files = [('question.ask', asks), ('question.cert', certificate), *zip(names, texts)]
            self.named(name, [texts, *more], options, [*words, *names], files, wrote)

        by = {'question': question}
        for names in ({}, {'names': ['b.log', 'a.log']}):
            of('logs', 'logs', **names)
            of('explain', 'explain', **names)
            for words, asked in (('--over', {'over': True}), ('--leads any', {'leads': 'any'}), ('--leads 1', {'leads': [1]}),
                                 ('--over --leads 0', {'over': True, 'leads': [0]}), ('--leads 7', {'leads': [7]})):
                for folder in (texts, [texts[0], texts[1][:-6] + b'end 0\n'], [text[:45] + b'end 0\n' for text in texts]):
                    of('logs', f'logs {words}', texts=folder, **asked, **names)
                    of('explain', f'explain {words}', texts=folder, **asked, **names)
            of('explain', 'explain --question question.ask', **by, **names)
            of('explain', 'explain --question question.ask --case 0', **by, case=0, **names)
            both = '--question question.ask --cert question.cert'
            of('explain', f'explain {both}', asks=never, question=never, certificate=certificate, **names)
            of('check', f'check {both}', never, certificate, asks=never, **names)
            of('decide', 'decide --question question.ask --out out/a.cert', never, wrote='out/a.cert', asks=never, **names)
            of('upgrade', 'upgrade --out out', **names)
            of('mend', 'mend --out out', **names)
            of('show', 'show', **names)
            of('draw', 'draw --out out/a.svg', wrote='out/a.svg', **names)
        moments = (('', {}), ('--at 1,2', {'at': [1, 2]}), ('--question question.ask', by), ('--at 9,9', {'at': [9, 9]}),
                   ('--question question.ask --case 0', {**by, 'case': 0}))
        for words, moment in moments:
            for leads, asked in (('', {}), ('--leads any', {'leads': 'any'}), ('--leads /dev/null', {'leads': []}),
                                 ('--leads 0', {'leads': [0]}), ('--leads 1', {'leads': [1]}),
                                 ('--leads 1,0', {'leads': [1, 0]})):
                of('show', f'show {words} {leads}', **moment, **asked)
                of('show', f'show --events {words} {leads}', events=True, **moment, **asked)
            of('draw', f'draw {words} --out out/a.html', wrote='out/a.html', page=True, **moment)
            of('draw', f'draw {words} --from 2 --to 3 --out out/a.svg', wrote='out/a.svg', columns=[2, 3], **moment)
        for sentence in ('any leader, other active', 'any leader, other leader', 'node 1 active', 'any leading', 'leader'):
            words = f'--ask "{sentence}"'
            of('decide', f'decide {words} --out out/a.cert', None, wrote='out/a.cert', ask=sentence)
            of('decide', f'decide {words}', None, texts=texts[:1], ask=sentence)
            of('explain', f'explain {words} --case 0', ask=sentence, case=0)
            of('explain', f'explain {words} --cert question.cert', ask=sentence, certificate=certificate)
            of('show', f'show {words}', ask=sentence)
            of('draw', f'draw {words} --out out/a.svg', wrote='out/a.svg', ask=sentence)
        for text in (texts[0], texts[0][:-2], b''):
            self.named('log', [text], {'name': '-'}, ['explain'], [], stdin=text)
            of('mend', 'mend --out out', texts=[text, b''])
            of('mend', 'mend --start passive --out out', texts=[text, b''], initiators=False)
        for nodes in (3, 0):
            self.named('pairs', [nodes], {}, ['pairs', str(nodes)], [])
            self.named('ask', [nodes, 'any leader'], {}, ['ask', '--nodes', str(nodes), 'any leader'], [])
        for sentence in cli.sentences():
            self.named('ask', [3, sentence], {}, ['ask', '--nodes', '3', '--', sentence], [])
        for options in ({}, {'initiators': 2}, {'draws': 1}, {'cap': 9}, {'terms': 2}):
            words = [word for name, value in options.items() for word in (f'--{name}', str(value))]
            self.named('run', [3, 5], options, 'run --alone --nodes 3 --seed 5 --out out'.split() + words, [])

    def large(self):
        """All that a moment of 255 places can be given at once."""
        _, (_, _, *texts) = self.run('run --alone --nodes 255 --seed 3 --out out'.split(), [])
        at, leads, names = [1] * 255, list(range(255)), [f'{i}.log' for i in range(255)]
        words = ['show', '--events', '--at', ','.join(map(str, at)), '--leads', ','.join(map(str, leads)), *names]
        options = {'at': at, 'leads': leads, 'events': True}
        self.named('show', [texts], options, words, list(zip(names, texts)))

    def beside(self):
        """In Python: processes that forked after a call, threads, a call within a call, and want of memory."""
        ira, rings = self.doors['Python'].ira, []
        for folder in ('two_node_election', 'receipts_exchanged', 'circle_of_two', 'lost_record'):
            texts = [web.text_of(os.path.join(web.EXAMPLES, folder, f'{i}.log')) for i in range(2)]
            files = [(f'{i}.log', text) for i, text in enumerate(texts)]
            rings.append((texts, self.run(['explain', '--json', '0.log', '1.log'], files)[1][0].decode()))
        wrong = []

        def tries(ring, times=BESIDE):
            wrong.append(ring)
            if all(ira.explain(ring[0]).text == ring[1] for _ in range(times)):
                wrong.remove(ring)

        def without_memory():
            with open('/proc/self/statm', encoding='ascii') as pages:
                most = int(pages.read().split()[0]) * resource.getpagesize() + 2 ** 25
            for _ in range(2):
                wrong.append(most)
                resource.setrlimit(resource.RLIMIT_AS, (most, resource.RLIM_INFINITY))
                try:
                    ira.explain(rings[0][0])
                except MemoryError:
                    wrong.remove(most)
                resource.setrlimit(resource.RLIMIT_AS, (resource.RLIM_INFINITY, resource.RLIM_INFINITY))
            tries(rings[0], 9)

        def in_threads(*works):
            threads = [threading.Thread(target=work, args=given) for work, *given in works]
            for thread in threads:
                thread.start()
            for thread in threads:
                thread.join()

        def forked(*work):
            child = os.fork()
            if not child:
                try:
                    # (a thread of its own has no memory from an earlier call)
                    in_threads(work) if work == (without_memory,) else work[0](*work[1:])
                finally:
                    os._exit(bool(wrong))
            return child

        children = [*(forked(tries, ring) for ring in rings), forked(without_memory)]
        ended = [os.waitpid(child, 0)[1] for child in children]
        assert not any(ended), f'processes that forked after a call ended with {ended}'
        in_threads(*((tries, ring) for ring in rings))
        assert not wrong, 'threads'
        met = []
        signal.signal(signal.SIGALRM, lambda *_: met.append(tries(rings[1], 1)))
        signal.setitimer(signal.ITIMER_REAL, .001, .001)
        while len(met) < BESIDE:
            tries(rings[0], 1)
        signal.setitimer(signal.ITIMER_REAL, 0)
        assert not wrong, 'calls within calls'

    def audits(self):
        """Logs of two nodes, with bytes changed, taken out and put in."""
        random.seed(SEED)
        rings = [[web.text_of(os.path.join(web.EXAMPLES, folder, f'{i}.log')) for i in range(2)]
                 for folder in ('two_node_election', 'second_term')]
        for _ in range(AUDITS):
            texts = random.choice(rings)
            logs = [(f'{i}.log', changed(text) if random.random() < .6 else text) for i, text in enumerate(texts)]
            command, word = random.choice([(web.LOGS, 'logs'), (web.EXPLAIN, 'explain')])
            self.same('changed', command, [], logs, [word, '0.log', '1.log'])


def numbers():
    """The numbers of requests and results are those of ira.h, wherever they stand."""
    header = web.text_of(os.path.join(LIBRARY, 'ira.h')).decode()
    tables = [re.findall(r'^    IRA_(\w+)', table, re.M)
              for table in re.findall(r'enum ira_\w+ {\n(.*?)};', header, re.S)]
    for name, count in (('library/ira.py', 2), ('library/ira.mjs', 2), ('web/page.js', 1), ('checks/web.py', 1)):
        text = web.text_of(os.path.join(HERE, '..', name)).decode()
        for table in tables[:count]:
            wanted = r',\s+(?:\\\n\s+)?'.join(re.sub('^JSON$', r'\\w*JSON\\w*', word) for word in table)
            assert re.search(rf'(?:^|\[){wanted}\]? = ', text, re.M), (name, table)


def changed(text):
    for _ in range(random.randrange(1, 3)):
        at = random.randrange(len(text))
        put = random.choice([b'', bytes([random.choice(b'0123456789 \ncdn')])])
        text = text[:at] + put + text[at + random.randrange(2):]
    return text


def doors_of(folder, temp):
    """Those that are there, and why the others aren't."""
    doors, lacking = {}, []
    if os.path.exists(os.path.join(folder, 'libira.so')):
        doors['Python'] = InProcess(folder)
    else:
        lacking.append('Python (no libira.so: make lib)')
    compiler = shutil.which('cc')
    if compiler and os.path.exists(os.path.join(folder, 'libira.a')):
        driver = os.path.join(temp, 'driver')
        files = [os.path.join(HERE, 'library.c'), os.path.join(folder, 'libira.a')]
        words = ['-O2', '-Wall', '-Wextra', '-Werror', '-I', LIBRARY, '-o', driver]
        subprocess.run([compiler, *words, *files], check=True)
        doors['C'] = Driver([driver])
    else:
        lacking.append(f'C ({"no libira.a: make lib" if compiler else "no cc"})')
    node, modules = shutil.which('node'), [os.path.join(folder, name) for name in ('ira.wasm', 'ira.html')]
    module = next(filter(os.path.exists, modules), None)
    if node and module:
        has_memory64 = subprocess.run([node, '-e', MEMORY64], check=False, stderr=subprocess.DEVNULL).returncode == 0
        flags = [] if has_memory64 else ['--experimental-wasm-memory64']
        environment = {**os.environ, 'IRA_MODULE': module}
        doors['Node'] = Driver([node, *flags, os.path.join(HERE, 'library.mjs')], env=environment)
    else:
        lacking.append(f'Node ({"no ira.html: make web" if node else "no node"})')
    return doors, lacking


MEMORY64 = 'new WebAssembly.Module(Uint8Array.of(0, 97, 115, 109, 1, 0, 0, 0, 5, 3, 1, 4, 1))'


def main(program, folder=os.path.join(HERE, '..', 'bin')):
    numbers()
    with tempfile.TemporaryDirectory() as temp:
        doors, lacking = doors_of(os.path.realpath(folder), temp)
        for door in lacking:
            print(f'skipped: library from {door}')
        if not doors:
            return
        check = Check(os.path.realpath(program), doors, temp)
        check.examples()
        check.hostile()
        check.audits()
        check.functions()
        check.large()
        check.elections()
        if 'Python' in doors:
            check.beside()
        typed = cli.check(check.program, doors['Node'], temp) if 'Node' in doors else 'no command line in Node'
        files = [(f'{i}.log', web.text_of(os.path.join(web.EXAMPLES, 'two_node_election', f'{i}.log')))
                 for i in range(2)]
        rates = ', '.join(f'{name} {TIMED / door.ask([web.LOGS], files, TIMED)[1]:,.0f}'
                          for name, door in doors.items())
        for door in doors.values():
            door.close()
        print(f'library: {check.answers} answers from each of {", ".join(doors)}; {check.calls} calls by name; '
              f'{typed}; audits of two-node logs a second: {rates}')


if __name__ == '__main__':
    main(*sys.argv[1:])
