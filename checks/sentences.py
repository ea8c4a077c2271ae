"""Looks each sentence of the views up in what is expected of the program: each literal of their code, whole, with some
value wherever one stands in it, has to stand in an example, a page or a test. What no run can bring out is listed here.

    python3 checks/sentences.py
"""
import glob
import os
import re
import sys

from pictures import HERE

LITERAL = re.compile(r'"((?:[^"\\]|\\.)*)"', re.S)
# A literal shorter than this tells no sentence.
LEAST = 9
# There are more.
FEWEST = 300
# No command is given no file, and none prints a fault's own words.
NEVER = {'No file is given.', 'the sink failed'}


def words(text):
    """Without white space, so that a line that was broken is one."""
    return re.sub(r'\s+', '', text)


def main():
    top = os.path.join(HERE, '..')
    expected = ''
    for kind in ('examples/*.txt', 'docs/*.md', 'docs/*.svg', 'README.md', 'crates/test_*/src/*.rt'):
        for name in sorted(glob.glob(os.path.join(top, kind))):
            with open(name, encoding='utf-8') as file:
                expected += words(file.read().replace('&lt;', '<').replace('&gt;', '>').replace('&amp;', '&'))
    count, missing = 0, []
    for name in sorted(glob.glob(os.path.join(top, 'crates', 'ira_view_*', 'src', '*.rt'))):
        with open(name, encoding='utf-8') as file:
            code = re.sub(r'^\s*//.*', '', file.read(), flags=re.M)
        if name.endswith('style.rt') or 'ira_view_html' in name:
            continue
        for literal in LITERAL.findall(re.sub(r"b?'(\\.|[^'\\])'", '', code)):
            literal = re.sub(r'\\\n\s*', '', literal).replace('\\"', '"').replace('\\n', '\n').replace('\\\\', '\\')
            pieces = re.split(r'\{\w*\}', literal)
            if max(len(said.strip()) for said in pieces) < LEAST or literal in NEVER:
                continue
            count += 1
            if not re.search('.{1,60}?'.join(re.escape(words(said)) for said in pieces), expected):
                missing.append(f'{os.path.relpath(name, top)}: {literal!r}')
    for line in missing:
        print(line)
    print(f'{count} sentences, {len(missing)} of them in no expected output')
    return bool(missing) or count < FEWEST


if __name__ == '__main__':
    sys.exit(main())
