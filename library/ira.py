"""The auditor of Itai-Rodeh leader elections, called in process: what `ira` answers, without a process for each answer.

    import ira
    ira.assert_election('runs/1', leaders=[2])  # the folder with 0.log, 1.log and so on
    reply = ira.logs([first, second])           # the texts of the logs, bytes, in the order of the ring's places
    assert reply.status == ira.YES, reply.values

It needs libira.so beside it, in ../bin, in ../release, or where IRA_LIBRARY says, and no other module. Threads may call
side by side.
"""
import ctypes
import json
import mmap
import os
import threading
from array import array
from typing import NamedTuple, Optional

_HERE = os.path.dirname(os.path.abspath(__file__))
_PLACES = [os.path.join(_HERE, name) for name in ('libira.so', '../bin/libira.so', '../release/libira.so')]
_LIBRARY = os.environ.get('IRA_LIBRARY') or next(filter(os.path.exists, _PLACES), _PLACES[0])
try:
    _serve = ctypes.CDLL(_LIBRARY).ira_serve
except OSError as _why:
    raise OSError(f'{_why}. It is for Linux on x86-64, and IRA_LIBRARY may say where it lies: `make packages` packs '
                  'that of release/ with this module, `make lib` makes one with the Rattle kit') from None
_serve.restype = ctypes.c_uint32
_serve.argtypes = [ctypes.c_void_p, ctypes.c_size_t] * 6

# The numbers of ira.h.
LOG, LOGS, EXPLAIN_LOG, EXPLAIN, EXPLAIN_QUESTION, EXPLAIN_CERT, SHOW, EVENTS, DRAW, DECIDE, CHECK, PAIRS, UPGRADE, \
    MEND, RUN, PAGE, JSON, LEADERS, OVERVIEW, ASK = range(20)
YES, NO, REFUSED, OUT_OF_MEMORY, NO_REQUEST, NO_ROOM = range(6)

ANY = 2 ** 64 - 1
ALL = (0, 2 ** 64 - 1)
_FIRST, _MOST, _PARTS = 1 << 26, 1 << 36, 258


class Reply(NamedTuple):
    """What comes of a request."""
    status: int              # as the program's: YES, NO
    text: str                # what the program prints on standard output
    values: Optional[dict]   # its first line, where that is one of JSON
    more: list               # the lines of JSON after it: of cases, nodes, links or events
    files: list              # the files that it writes, bytes: a certificate, a picture, logs
    page: str = ''           # of `log`, `explain` and `audit` what a person reads: why the answer is so


class Refused(ValueError):
    """What the program refuses with status 2: what it says, and the reply with what it prints all the same."""

    def __init__(self, line, reply):
        super().__init__(line)
        self.reply = reply


class _Room:
    """Memory for requests, which a process that forks doesn't share. Pages that no request touches cost nothing."""

    def __init__(self, size):
        try:
            self.lent, self.out = (mmap.mmap(-1, size, mmap.MAP_PRIVATE | mmap.MAP_ANONYMOUS) for _ in range(2))
        except OSError as why:
            raise MemoryError('the system gives no memory for the request') from why
        self.at = [ctypes.addressof(ctypes.c_char.from_buffer(it)) for it in (self.lent, self.out)]
        self.sizes = array('Q', bytes(8 * _PARTS))


_kept = threading.local()


def serve(values, files=()):
    """The status and the parts of one request, as bytes: standard output, standard error, each file that is written.
    `values` are those of ira_serve, `files` pairs of a name and a text."""
    pieces = [piece for name, text in files for piece in (name.encode(), text)]
    joined = b''.join(pieces)
    # (an empty array has no address)
    numbers, lengths = array('Q', values), array('Q', [*map(len, pieces), 0])
    size = _FIRST
    while size < len(joined):
        size *= 2
    # a call within this one, as of a signal, finds no room kept, and makes its own
    first = _kept.__dict__.pop('room', None) or _Room(_FIRST)
    try:
        while size <= _MOST:
            room = first if size == _FIRST else _Room(size)
            lent, out = room.at
            status = _serve(lent, size, numbers.buffer_info()[0], len(values), joined, len(joined),
                            lengths.buffer_info()[0], len(pieces), out, size, room.sizes.buffer_info()[0], _PARTS)
            if status == NO_REQUEST:
                raise ValueError('no such request, or other files than it needs')
            if status not in (OUT_OF_MEMORY, NO_ROOM):
                parts, at = [], 0
                for length in room.sizes[1:room.sizes[0] + 1]:
                    parts.append(room.out[at:at + length])
                    at += length
                return status, parts
            size *= 2
    finally:
        _kept.room = first
    raise MemoryError('the request takes too much memory')


def _asked(values, files=()):
    status, (out, err, *written) = serve(values, files)
    lines = [json.loads(line) for line in out.splitlines()] if values[0] == JSON else []
    reply = Reply(status, out.decode(), lines[0] if lines else None, lines[1:], [] if status == REFUSED else written)
    if status == REFUSED:
        # (what is written then is the page of a sentence)
        raise Refused(b''.join([err, *written]).decode().rstrip('\n'), reply)
    return reply


def _ring(texts, names):
    return list(zip(names, texts)) if names else [(f'{place}.log', text) for place, text in enumerate(texts)]


def _named(kind, text):
    return [(f'question.{kind}', text)]


def _question(texts, question, sentence, is_due=False):
    """The file of a question: of this text, or the one that a sentence stands for; none where neither is given."""
    if not is_due <= (question is not None) + (sentence is not None) <= 1:
        raise TypeError('a question is given either by its text or by `ask`, a sentence')
    if sentence is not None:
        return [('--ask', ask(len(texts), sentence) if 2 <= len(texts) <= 255 else b'')]
    return [] if question is None else _named('ask', question)


def _paged(reply, values, files, said=''):
    """The reply with the page of the same request without JSON, and lines after its first one."""
    first, line, rest = serve(values, files)[1][0].decode().partition('\n')
    return reply._replace(page=first + line + said + rest)


def log(text, name='0.log'):
    """Why the text of one log alone is as it is."""
    return _paged(_asked([JSON, EXPLAIN_LOG], [(name, text)]), [EXPLAIN_LOG], [(name, text)])


def _led(leads):
    """The values that ask who leads."""
    return [] if leads is None else [LEADERS, ANY] if leads == 'any' else [LEADERS, len(leads), *leads]


def logs(texts, names=None, over=False, leads=None):
    """The answer for the logs of a ring, in the order of its places. With `over` or `leads` the status is NO after a
    yes too, where the election isn't over when the logs end, or others lead than are to, as `show` says."""
    ring = _ring(texts, names)
    if not over and leads is None:
        return _asked([JSON, LOGS], ring)
    status, _, values, *_ = _asked([JSON, *_led(leads), SHOW], ring)
    if over and values.get('over') is False:
        status = values['status'] = NO
    return Reply(status, json.dumps(values, separators=(',', ':')) + '\n', values, [], [])


def explain(texts, question=None, certificate=None, case=None, names=None, over=False, leads=None, ask=None):
    """The answer for the logs of a ring, and why it is so, with `over` and `leads` as for `logs`; with a question, or
    `ask`, a sentence that stands for one, what is found for its cases, and why, of the case of a number or of the first
    ones; with a certificate too, the answer for all three, and why."""
    asked = _question(texts, question, ask, certificate is not None)
    files, values = _ring(texts, names), [EXPLAIN]
    if certificate is not None:
        files, values = asked + _named('cert', certificate) + files, [EXPLAIN_CERT]
    elif asked:
        files, values = asked + files, [EXPLAIN_QUESTION, *([] if case is None else [case])]
    elif over or leads is not None:
        reply = logs(texts, names, over, leads)
        if reply.values['answer'] == 'yes':
            shown = serve([*_led(leads), SHOW], files)[1][0].decode().partition('\n\n')[0]
            return _paged(reply, values, files, ''.join(f'{line}\n' for line in shown.split('\n')[1:]))
    return _paged(_asked([JSON, *values], files), values, files)


def read_logs(folder):
    """The texts and the names of the logs in a folder: 0.log, 1.log and so on, as many as the first one's head says."""
    names, texts = [], []
    while not texts or len(texts) < _nodes(texts[0]):
        names.append(os.path.join(folder, f'{len(names)}.log'))
        with open(names[-1], 'rb') as file:
            texts.append(file.read())
    return texts, names


def _nodes(text):
    """How many nodes the ring of a log has, 1 where its head isn't whole."""
    *head, left = text.split(b'\n', 4)
    is_head = len(head) == 4 and serve([LOG], [('0.log', b'\n'.join([*head, b'end 0', b'']))])[0] == YES
    return int(head[1].split()[1]) if is_head else 1


def audit(folder, over=False, leads=None):
    """What `explain` says of the logs in a folder. `leads` may be the name of a file in it too, with a place a line."""
    texts, names = read_logs(folder)
    if isinstance(leads, str) and leads != 'any':
        with open(os.path.join(folder, leads), encoding='ascii') as file:
            leads = [int(line) for line in file]
    return explain(texts, names=names, over=over, leads=leads)


def assert_election(folder, leaders=None, over=True):
    """Raises AssertionError, with the page that says why, unless the logs in a folder are a yes, their election is
    over, and those lead who are to: places, 'any', or the name of a file in the folder."""
    reply = audit(folder, over, leaders)
    if reply.status != YES:
        raise AssertionError(f'{folder}: {reply.page}')


def _moment(at, asked, case):
    """The values of a moment: where the logs end; when each node has made so many events; or the first that meets a
    case of a question, of the one of a number or of any."""
    return [2, *([] if case is None else [case])] if asked else [] if at is None else [1, *at]


def show(texts, at=None, question=None, case=None, events=False, leads=None, names=None, ask=None):
    """A ring at a moment, with an order of all events where these are wanted. With places in `leads` the status says
    whether these nodes lead when the logs end, and no other, so of an empty list whether nobody does; with 'any',
    whether some node does."""
    asked = _question(texts, question, ask)
    values = [JSON, *_led(leads), EVENTS if events else SHOW, *_moment(at, asked, case)]
    return _asked(values, asked + _ring(texts, names))


def draw(texts, at=None, question=None, case=None, columns=ALL, page=False, names=None, ask=None):
    """The answer's line, and a picture as the only file, or a page to move in it; without one where none is drawn."""
    asked = _question(texts, question, ask)
    return _asked([PAGE if page else DRAW, *columns, *_moment(at, asked, case)], asked + _ring(texts, names))


def decide(texts, question=None, names=None, ask=None):
    """What is found for each case of a question, or of that of a sentence; the only file is the certificate, where no
    case is met."""
    return _asked([JSON, DECIDE], _question(texts, question, ask, True) + _ring(texts, names))


def check(texts, question, certificate, names=None):
    """The answer for logs, a question and a certificate."""
    return _asked([JSON, CHECK], _named('ask', question) + _named('cert', certificate) + _ring(texts, names))


def pairs(nodes):
    """The question whether two nodes of a ring of so many ever lead at once, as bytes."""
    return _asked([PAIRS, nodes]).text.encode()


def ask(nodes, sentence):
    """The question whether a sentence on the nodes of a ring of so many ever holds, as bytes."""
    text = sentence.encode() if isinstance(sentence, str) else sentence
    return _asked([ASK, nodes], [('SENTENCE', text)]).text.encode()


def upgrade(texts, names=None):
    """The logs of a ring in version 2, as files."""
    return _asked([UPGRADE], _ring(texts, names))


def mend(texts, initiators=True, names=None):
    """Of what is left of the logs of a ring the longest beginnings such that all are consistent, as files; whether a
    node of whose log no whole head is left is taken for an initiator."""
    return _asked([MEND, int(initiators)], _ring(texts, names))


def run(nodes, seed, initiators=None, draws=64, cap=10_000, terms=1):
    """How each node ended in a run on one thread, and their logs as files."""
    return _asked([RUN, nodes, nodes if initiators is None else initiators, seed, draws, cap, terms])
