"""Holds the command line in Node against the program: each call that checks/examples.sh makes, and words that are refused, is
made again by both, in copies of the folder as it was. Streams, statuses and the files that are there after are the same, byte
for byte; of words that the module can't answer, or that are refused, the status and the first line."""
import os
import shutil
import subprocess

HERE = os.path.dirname(os.path.realpath(__file__))
KEEPS = '''#!/bin/sh
# Runs the program, and keeps what was there before, and with what words it was called.
call=$(mktemp -d "$CALLS/XXXXXXXX") && cp -a . "$call/files" && printf '%s\\0' "$PWD" "$@" > "$call/words"
case $*: in
: | explain: | 'explain --json:') cat > "$call/input"; exec "$PROGRAM" "$@" < "$call/input" ;;
esac
exec "$PROGRAM" "$@"
'''
# To these words the module has no answer, and says so.
LACKS = ('guide', 'version', '--version', '-V', 'help', '--help', '-h')
MORE = [['logs', '--dri', 'd'], ['logs', '--json=1', 'd'], ['show', '--at', '1,x', 'd'], ['pairs'], ['pairs', '3', '4'], ['pairs', ''],
        ['run', '--nodes', '3'], ['mend', '--out=d', '--start', 'x', 'd'], ['ask', 'any leader'], ['ask', '--nodes', '300', 'any leader'],
        ['check', '--question=q', '--cert=c', '--depth', '5', 'd'], ['run', '--alone', '--nodes=3', '--seed', '-1', '--out', 'd']]
PARTS = ['leader', '(active and round > 1)', 'not leader', 'id', '', 'leader, ', 'owes', 'active or leader', 'dräw', 'yielding']


def lacks(words, found):
    """Whether the module can't answer words as the program does."""
    without_threads = 'run' in words[:1] and '--alone' not in words
    without_reasons = 'explain' in words[:1] and found.startswith('ira: the module has no explain --leads')
    return without_threads or without_reasons or any(word in LACKS for word in words)


def sentences():
    for any_of in PARTS:
        yield f'any {any_of}'
        yield f'all {any_of}'
        for other in PARTS:
            yield f'any {any_of}, other {other}'
            yield f'any {any_of}, each other {other}, all leader'
    for on in ('1 leader', '0 (not leader)', '3 leader', '9' * 5000 + ' leader', '01 leader', '1', ' leader', '1 leader, all true'):
        yield f'node {on}'
    yield from ('', 'any', 'leader', 'any leader,other leader', 'all leader, any leader', 'any leader, all active, other leader',
                'any ' + '(' * 31 + 'leader' + ' and active)' * 31 + ', all leader', 'any leader, other leader, each other active',
                'any ' + 'leader or ' * 7000)


def tree(folder):
    """The files of a folder, and what they are."""
    found = {}
    for at, folders, names in os.walk(folder):
        for name in folders + names:
            path = os.path.join(at, name)
            if os.path.islink(path) or not os.path.isfile(path):
                found[os.path.relpath(path, folder)] = 'no file'
            else:
                with open(path, 'rb') as file:
                    found[os.path.relpath(path, folder)] = file.read()
    return found


class Calls:
    """Makes each call twice, in folders that begin alike, and counts what was the same."""

    def __init__(self, program, node, temp):
        self.program, self.node, self.temp = program, node, os.path.join(temp, 'calls')
        self.same, self.refused, self.lacking = 0, 0, 0

    def hold(self, words, files, text):
        rooms = [os.path.join(self.temp, name) for name in ('one', 'two')]
        for room in rooms:
            shutil.rmtree(room, ignore_errors=True)
            shutil.copytree(files, room, symlinks=True)
        told = subprocess.run([self.program, *words], cwd=rooms[0], input=text, capture_output=True, check=False, timeout=60)
        wanted = [told.returncode, told.stdout.decode('latin1'), told.stderr.decode('latin1')]
        found = self.node.call('main', [rooms[1], words, text.decode('latin1')], {})
        if lacks(words, found[2]):
            assert found[0] == 2 and found[1] == '' and found[2], (words, found)
            self.lacking += 1
            return
        if wanted[2].startswith('error: '):
            found[2], wanted[2] = found[2].split('\n')[0], wanted[2].split('\n')[0]
            self.refused += 1
        assert found == wanted, (words, found, wanted)
        assert tree(rooms[1]) == tree(rooms[0]), (words, 'files')
        self.same += 1

    def examples(self):
        """Each call of checks/examples.sh."""
        kept = os.path.join(self.temp, 'kept')
        os.makedirs(kept)
        keeps = os.path.join(self.temp, 'ira')
        with open(keeps, 'w', encoding='ascii') as file:
            file.write(KEEPS)
        os.chmod(keeps, 0o755)
        ran = subprocess.run(['sh', os.path.join(HERE, 'examples.sh'), keeps], stdout=subprocess.PIPE, check=False,
                             env={**os.environ, 'CALLS': kept, 'PROGRAM': self.program})
        assert ran.returncode == 0, ran.stdout.decode()
        for call in sorted(os.listdir(kept)):
            at = os.path.join(kept, call)
            text = b''
            if os.path.exists(os.path.join(at, 'input')):
                with open(os.path.join(at, 'input'), 'rb') as file:
                    text = file.read()
            with open(os.path.join(at, 'words'), 'rb') as file:
                folder, *words = file.read().decode('utf-8', 'replace').split('\0')[:-1]
            self.hold([word.replace(f'{folder}/', '') for word in words], os.path.join(at, 'files'), text)

    def more(self):
        """Other words that are refused, and sentences."""
        empty = os.path.join(self.temp, 'empty')
        os.makedirs(empty)
        for words in MORE:
            self.hold(words, empty, b'')
        for sentence in sentences():
            self.hold(['ask', '--nodes', '2', sentence], empty, b'')


def check(program, node, temp):
    calls = Calls(program, node, temp)
    calls.examples()
    calls.more()
    assert calls.same > 400 and calls.lacking < 120, (calls.same, calls.lacking)
    return f'{calls.same} calls of the command line in Node, {calls.refused} of them refused; {calls.lacking} that the module lacks'
