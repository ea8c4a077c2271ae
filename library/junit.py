"""python3 junit.py [OPTIONS] DIR... > report.xml: what `ira explain --each OPTIONS DIR...` answers, as JUnit's XML.

A folder is a test case, which fails where the answer is no or the election isn't as asked, and is an error where files can't be
read. Ends with ira's status. The program is what IRA names, else ../release/ira beside this file, else ira."""
import json, os, subprocess, sys
from xml.sax.saxutils import escape, quoteattr


def printable(text):
    """What XML may hold of a text."""
    return ''.join(c if c in '\t\n' or ' ' <= c <= '\ud7ff' or '\ue000' <= c <= '\ufffd' or c > '\uffff' else '?' for c in text)


def reason(lines):
    """Why, of the lines of JSON below a folder's: records that are evidence, hints, who leads."""
    for value in lines:
        for it in value.get('evidence', []):
            if 'record' in it:
                yield f"{it.get('file')}:{it.get('line')}: {it['record']}"
        yield from value.get('hints', [])
        for name in 'over', 'leaders', 'named':
            if name in value:
                yield f'{name}: {json.dumps(value[name])}'


def case(folder, lines):
    """The test case of a folder, and the element that it fails with, if it does."""
    name = f'    <testcase classname="ira" name={quoteattr(printable(folder["dir"]))}'
    if folder['status'] == 0:
        return f'{name}/>\n', None
    kind = 'failure' if folder['status'] == 1 else 'error'
    told = folder.get('answer') or f"{folder.get('fault')} {folder.get('file', '')}"
    if told.startswith('yes'):
        told = 'the election is not as asked'
    page = escape(printable('\n'.join(reason(lines))))
    return f'{name}>\n      <{kind} message={quoteattr(printable(told))}>{page}</{kind}>\n    </testcase>\n', kind


def main(words):
    released = os.path.join(os.path.dirname(os.path.abspath(__file__)), '..', 'release', 'ira')
    ira = os.environ.get('IRA') or (released if os.path.exists(released) else 'ira')
    ran = subprocess.run([ira, 'explain', '--each', '--json', *words], stdout=subprocess.PIPE)
    folders = []
    for line in ran.stdout.decode().splitlines():
        value = json.loads(line)
        if 'dir' in value:
            folders.append((value, []))
        elif folders:
            folders[-1][1].append(value)
    cases = [case(*it) for it in folders]
    count = {kind: sum(it[1] == kind for it in cases) for kind in ('failure', 'error')}
    sums = f'tests="{len(cases)}" failures="{count["failure"]}" errors="{count["error"]}"'
    xml = f'<?xml version="1.0" encoding="UTF-8"?>\n<testsuites {sums}>\n  <testsuite name="ira" {sums}>\n'
    sys.stdout.buffer.write((xml + ''.join(it[0] for it in cases) + '  </testsuite>\n</testsuites>\n').encode())
    return ran.returncode


if __name__ == '__main__':
    sys.exit(main(sys.argv[1:]))
