"""Tries the edits of crates/NAME/refused, each on a copy of its crate, over the libraries that `rt ci` left: in a function
that an edit names the prover must refuse a goal. refused.txt lists the edits that have to be there.

    python3 refused.py [CRATE..]

An edit has lines `file: src/..`, `old: ` and `new: ` (the old text stands once in that file), and `function: `, the path
below the crate as `rattle check` prints it. A goal that the prover's own search leaves open is wrong in meaning. An answer
written by hand may be refused for the form of the code alone: where nothing else is, a file NAME.same stands beside
NAME.edit, of the same lines, which means what the code does. It must be proved, or not meet the goal that the edit names in
a line `goal: `.
"""
import concurrent.futures
import glob
import os
import re
import resource
import shutil
import subprocess
import sys
import tempfile

HERE = os.path.dirname(os.path.abspath(__file__))
CRATES = os.path.join(os.path.dirname(HERE), 'crates')
KIT = os.path.dirname(os.path.dirname(os.path.realpath(shutil.which('rattle') or 'rattle')))
# What a proof file says of a step or a name that an edit took away.
LOST = re.compile(r'is not in scope|has no field|has no `|was not admitted')


def rows(path):
    """The lines of a file, each as what stands before a colon and after it."""
    with open(path, encoding='utf-8') as file:
        return [line.partition(':')[::2] for line in file.read().splitlines() if line[:1] not in ('', '#')]


def apply(edit, room):
    """Changes the files below a folder; returns the functions that are named, and the goals."""
    named = {'function': [], 'goal': []}
    for kind, text in rows(edit):
        text = text[1:]
        if kind == 'file':
            path = os.path.join(room, text)
        elif kind == 'old':
            old = text
        elif kind == 'new':
            with open(path, encoding='utf-8') as file:
                was = file.read()
            if was.count(old) != 1 or old == text:
                raise ValueError(f'this stands {was.count(old)} times in {os.path.relpath(path, room)}, or stays: {old}')
            with open(path, 'w', encoding='utf-8') as file:
                file.write(was.replace(old, text))
        elif kind in named:
            named[kind].append(text)
        else:
            raise ValueError(f'no line is {kind}')
    return named['function'], named['goal']


def check(crate, below, functions, folder):
    """What the prover says of the functions, and its status. What it proved is kept for the next check."""
    words = ['rattle', 'check', '--crate-name', crate, 'src/lib.rt', '--jobs', '1', '--links', f'{crate}=',
             '--antt-project', f'{KIT}/rattle/logic/antt-project.json', '--logic-built', f'{KIT}/logic_built',
             '-L', f'dependency={KIT}/rlibs', '--extern', f'std={KIT}/rlibs/std.rlib', '--incremental', '../kept']
    words += [word for at in glob.glob(f'{CRATES}/*/out/rlib') for word in ('-L', f'dependency={at}')]
    for it in below:
        at = f'{CRATES}/{it}/out/rlib' if os.path.isdir(f'{CRATES}/{it}') else f'{KIT}/rlibs'
        words += ['--extern', f'{it}={at}/{it}.rlib']
    words += [word for it in functions for word in ('--only', it)]
    ran = subprocess.run(words, cwd=folder, stdin=subprocess.DEVNULL, stdout=subprocess.PIPE, stderr=subprocess.STDOUT)
    return ran.stdout.decode(errors='replace'), ran.returncode


def refused(crate, below, edit, room):
    """The goals that are refused with an edit: those that were searched for, those that have an answer by hand; and those
    that it names."""
    shutil.rmtree(f'{room}/crate', ignore_errors=True)
    for part in glob.glob(f'{CRATES}/{crate}/[sp]*/'):
        shutil.copytree(part, f'{room}/crate/{os.path.basename(part[:-1])}')
    functions, goals = apply(edit, f'{room}/crate')
    said, status = check(crate, below, functions, f'{room}/crate')
    searched = re.findall(r'^note: \S+: it is not proved that .*\(`([^`]+)`\)', said, re.M)
    answers = re.findall(r'^\S*proofs/\S*: error: `([^`]+)`: (.*)', said, re.M)
    by_hand = list(dict.fromkeys(goal for goal, why in answers if not LOST.search(why)))
    lost = [it for it in functions if not re.search(f'^fn {crate}::{re.escape(it)}: ', said, re.M)]
    ended = re.search(r'^only=[1-9]\d* proved=\d+\n\Z', said, re.M) and functions and not lost
    if not ended or status != bool(searched + by_hand):
        error = re.findall(r'^(?!by-macro|statements).*(?:error|no verdict).*', said, re.M) or [f'no verdict on {lost or functions}']
        raise ValueError(f'status {status}: {error[0]}')
    return searched, by_hand, goals


def judge(crate, below, name, room):
    """What comes of an edit, and whether it's well."""
    searched, by_hand, goals = refused(crate, below, f'{CRATES}/{crate}/refused/{name}.edit', room)
    if not searched + by_hand:
        return 'NOT REFUSED', False
    said, same = f'refused at {", ".join(searched + by_hand)}', f'{CRATES}/{crate}/refused/{name}.same'
    if not set(goals) <= {*searched, *by_hand}:
        return f'{said}, and NOT at {", ".join(goals)}', False
    if not os.path.exists(same):
        return (said, True) if searched else (f'{said}, maybe for its form: there is NO {name}.same', False)
    met = [it for found in refused(crate, below, same, room)[:2] for it in found]
    is_apart = not met or bool(goals) and not set(goals) & set(met)
    return f'{said}; {name}.same {f"REFUSED at {met}" if not is_apart else f"only at {met}" if met else "proved"}', is_apart


def try_edit(crate, below, name, room):
    try:
        said, is_well = judge(crate, below, name, room)
    except (ValueError, OSError) as why:
        said, is_well = f'BAD EDIT: {why}', False
    print(f'{crate}/{name}: {said}', flush=True)
    return is_well


def try_crate(crate, below, names):
    """How many of a crate's edits are well."""
    with tempfile.TemporaryDirectory() as room:
        return sum(try_edit(crate, below, name, room) for name in names)


def main(wanted):
    listed = {crate: names.split() for crate, names in rows(f'{HERE}/refused.txt')}
    there = {(it.split('/')[-3], os.path.splitext(os.path.basename(it))[0]) for it in glob.glob(f'{CRATES}/*/refused/*')}
    astray = there ^ {(crate, name) for crate, names in listed.items() for name in names}
    for crate, name in sorted(astray):
        print(f'{crate}/{name}: {"NOT LISTED" if (crate, name) in there else "NOT THERE"}')
    uses = {name.split()[0]: below.split() for name, below in rows(f'{CRATES}/../crates.txt')}
    chosen = {crate: names for crate, names in listed.items() if not wanted or crate in wanted}
    with concurrent.futures.ThreadPoolExecutor(len(os.sched_getaffinity(0))) as pool:
        tasks = [pool.submit(try_crate, crate, uses[crate], names)
                 for crate, names in sorted(chosen.items(), key=lambda it: -len(it[1]))]
        well = sum(it.result() for it in tasks)
    used = resource.getrusage(resource.RUSAGE_CHILDREN)
    count = sum(map(len, chosen.values()))
    print(f'{count} edits, {well} refused as they must be; {used.ru_utime + used.ru_stime:.0f} s of processor time')
    return bool(astray) or well != count or not count


if __name__ == '__main__':
    sys.exit(main(sys.argv[1:]))
