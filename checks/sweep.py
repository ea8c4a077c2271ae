"""Refuses each growth of the program in turn: malloc and realloc, of all its threads and of the libraries in it; and
then each start of a thread. Then it interrupts each read and write of a file in turn, and lets the program have but one
file open at a time.

python3 checks/sweep.py [--short] IRA: IRA is a dynamically linked program, or the object file of one (IRA.o), which is
linked first. Each command line runs with its first growth refused, then with its second, and so on until no run meets a
refusal; with --short few command lines run, each with few of its growths refused, but each start of a thread. Each run must answer as with ample memory, or with status 3 and
`ira: out of memory`, or with status 2 and `ira: run refused 3`, which says that a thread couldn't be started. Where
it gives up it has printed nothing, or all (`decide` makes the certificate after its findings, `draw` the picture after its
line), or where it prints lines block by block, as `show --events` or `--each`, a first part of them; and each file that it wrote is a
first part of what it should be. An interrupted read or write is tried again, and a file that can't be opened
while others are is opened later, so these runs answer as with ample memory.

An object is linked as the kit does, over the C library of the machine, whose calls a preloaded library can stand
before. It needs glibc, and the clang of the Rattle kit."""

import os, resource, shutil, subprocess, sys, tempfile

HERE = os.path.dirname(os.path.abspath(__file__))
ELECTION = os.path.join(HERE, "..", "examples", "two_node_election")
KIT = os.path.dirname(subprocess.run(["rt", "doc"], capture_output=True, text=True).stdout.strip())
GAVE_UP = (3, b"ira: out of memory\n"), (2, b"ira: run refused 3\n")
# So many runs in turn that answer as with ample memory end a command line.
UNTOUCHED = 100

CHECK = ["check", "--question", "two_leaders.ask", "--cert", "two_leaders.cert"]
ABSENT = ["active_beside_leader.ask", "0.log", "1.log"]
RUN = ["run", "--nodes", "2", "--seed", "7", "--out", "d"]
EACH = ["logs", "--each", ".", ".", "d", "."]
LINES = [
    [],
    ["logs", "0.log", "1.log"],
    ["logs", "1.log", "0.log"],
    ["logs", "9.log"],
    ["logs", "--dir", "."],
    EACH,
    ["logs", "--each", "--json", ".", "d", "."],
    ["logs", "--each", "--leads", "any", ".", "d"],
    ["explain", "--each", ".", "d"],
    [*CHECK, "0.log", "1.log"],
    [*CHECK, "--depth", "4", "0.log", "1.log"],
    [*CHECK, "1.log", "0.log"],
    ["check", "--cert", "active_beside_leader.cert", "--depth", "4", "--question", *ABSENT],
    ["decide", "--question", *ABSENT],
    ["decide", "--out", "d/c", "--question", *ABSENT],
    ["decide", "--question", "active_beside_passive.ask", "0.log", "1.log"],
    ["decide", "--question", "two_leaders.ask", "1.log", "0.log"],
    ["decide", "--ask", "any active, other passive", "--dir", "."],
    ["pairs", "5"],
    ["pairs", "1"],
    ["ask", "--nodes", "3", "any leader, other choosing, each other active, all term = 1"],
    ["ask", "--nodes", "3", "any leader, choosing"],
    ["ask", "--dir", ".", "any leader"],
    ["upgrade", "--out", "d", "0.log", "1.log"],
    ["upgrade", "--out", "d", "--dir", "."],
    ["mend", "--out", "d", "0.log", "1.log"],
    ["mend", "--start", "initiator", "--out", "d", "--dir", "."],
    ["mend", "--lost", "1", "--out", "d", "0.log", "none"],
    ["explain"],
    ["explain", "1.log", "0.log"],
    ["explain", "--json", "1.log", "0.log"],
    ["explain", "--question", *ABSENT],
    ["explain", "--question", "active_beside_passive.ask", "0.log", "1.log"],
    ["explain", "--question", "two_leaders.ask", "--cert", "one_step_short.cert", "0.log", "1.log"],
    ["explain", "--leads", "1", "0.log", "1.log"],
    ["show", "--leads", "1", "0.log", "1.log"],
    ["show", "--leads", "any", "0.log", "1.log"],
    ["show", "--question", "active_beside_passive.ask", "0.log", "1.log"],
    ["show", "--events", "--at", "2,3", "0.log", "1.log"],
    ["show", "--json", "0.log", "1.log"],
    ["show", "--json", "--events", "--at", "2,3", "0.log", "1.log"],
    ["draw", "--out", "d/p", "0.log", "1.log"],
    ["draw", "--out", "d/p.html", "0.log", "1.log"],
    ["draw", "--out", "d/p.html", "1.log", "0.log"],
    ["draw", "--out", "d/p", "--question", "active_beside_passive.ask", "--from", "1", "--to", "4", "0.log", "1.log"],
    ["logs", "--json", "1.log", "0.log"],
    ["decide", "--json", "--question", *ABSENT],
    [*CHECK, "--json", "0.log", "1.log"],
    ["version"],
    RUN,
    [*RUN, "--alone"],
    [*RUN, "--terms", "2"],
    [*RUN, "--initiators", "1", "--draws", "0"],
    [*RUN, "--initiators", "0"],
    ["run", "--nodes", "256", "--seed", "7", "--out", "d"],
    ["run", "--nodes", "x", "--seed", "7", "--out", "d"],
    ["frob"],
    ["--help"],
]
# Those of --short, and which of their growths are refused: the first ones, some of which are the command line library's.
SHORT = [["logs", "0.log", "1.log"], EACH, [*CHECK, "0.log", "1.log"], RUN, ["frob"]]
FEW = 40


def contents(folder):
    """The files of a folder."""
    found = {}
    for name in sorted(os.listdir(folder)):
        with open(f"{folder}/{name}", "rb") as file:
            found[name] = file.read()
    return found


def served(ira, words, refused, number, shim, more={}, descriptors=1024):
    """What a run with the growth or the start of this number refused answers and writes; with 0 none is."""
    with tempfile.TemporaryDirectory() as room:
        shutil.copytree(ELECTION, room, dirs_exist_ok=True)
        os.mkdir(f"{room}/d")
        with open(f"{room}/0.log", "rb") as text:
            env = {"LD_PRELOAD": shim, refused: str(number), **more}
            how = {"stdin": text, "cwd": room, "capture_output": True, "timeout": 60}
            limit = lambda: resource.setrlimit(resource.RLIMIT_NOFILE, (descriptors, descriptors))
            ran = subprocess.run([ira, *words], env=env, preexec_fn=limit, **how)
        return (ran.returncode, ran.stdout, ran.stderr), contents(f"{room}/d")


def interrupted(ira, words, ample, shim):
    """How many reads and writes of files there are to interrupt, and of how many runs the answer was another then."""
    number = wrong = 0
    while True:
        with tempfile.TemporaryDirectory() as marks:
            mark = f"{marks}/met"
            found = served(ira, words, "INTERRUPT", number + 1, shim, {"MARK": mark})
            if not os.path.exists(mark):
                return number, wrong
        number += 1
        if found != ample:
            wrong += 1
            print(f"WRONG: ira {' '.join(words)}: INTERRUPT {number}: {found[0]}")


def starved(ira, words, ample, shim):
    """Whether the answer is another where one file can be open at a time, besides the standard streams."""
    found = served(ira, words, "REFUSE", 0, shim, {}, 4)
    if found != ample:
        print(f"WRONG: ira {' '.join(words)}: one file at a time: {found[0]}")
    return found != ample


def prints_in_blocks(words):
    return words[:1] == ["show"] and ("--events" in words or "--json" in words) or words[1:2] == ["--each"]


def has_given_up(words, found, ample):
    """Whether a run said that it gave up, and printed and wrote nothing else than with ample memory."""
    (status, out, err), files = found
    (_, ample_out, _), ample_files = ample
    return (
        (status, err) in GAVE_UP
        and (out in (b"", ample_out) or prints_in_blocks(words) and ample_out.startswith(out))
        and files.keys() <= ample_files.keys()
        and all(ample_files[name].startswith(text) for name, text in files.items())
    )


def swept(ira, words, refused, shim, most):
    """How many runs of a command line reported a refusal, and how many gave a wrong answer, of so many runs at most."""
    ample = served(ira, words, refused, 0, shim)
    number = reported = wrong = untouched = 0
    while untouched < UNTOUCHED and number < most:
        number += 1
        found = served(ira, words, refused, number, shim)
        if found == ample:
            untouched += 1
            continue
        untouched = 0
        if has_given_up(words, found, ample):
            reported += 1
        else:
            wrong += 1
            print(f"WRONG: ira {' '.join(words)}: {refused} {number}: {found[0]}")
    return reported, wrong


def linked(program, folder):
    """The program of an object, linked dynamically."""
    ira = f"{folder}/ira"
    link = [f"{KIT}/bin/rattle-link", "--target", "x86_64-unknown-linux-gnu", "--toolchain", f"{KIT}/toolchain"]
    libraries = [f"{KIT}/c/libos_c.a", f"{KIT}/c/liblibc_c.a"]
    subprocess.run([*link, "-o", ira, program, *libraries], check=True, stderr=subprocess.DEVNULL)
    return ira


def main(program, is_short):
    all_reported = all_moves = all_wrong = 0
    lines, most = (SHORT, FEW) if is_short else (LINES, float("inf"))
    with tempfile.TemporaryDirectory() as folder:
        ira = linked(program, folder) if program.endswith(".o") else program
        shim = f"{folder}/refuse_nth.so"
        clang = [f"{KIT}/toolchain/bin/clang", "-shared", "-fPIC", "-nostdlib", "-fuse-ld=lld"]
        subprocess.run([*clang, "-o", shim, f"{HERE}/refuse_nth.c"], check=True)
        for words in lines:
            growths, wrong = swept(ira, words, "REFUSE", shim, most)
            starts, also_wrong = swept(ira, words, "REFUSE_THREAD", shim, most)
            if is_short and not growths:
                wrong += 1
                print(f"WRONG: ira {' '.join(words)}: no growth is refused")
            ample = served(ira, words, "REFUSE", 0, shim)
            moves, other = interrupted(ira, words, ample, shim)
            all_reported += growths + starts
            all_moves += moves
            all_wrong += wrong + also_wrong + other + starved(ira, words, ample, shim)
            found = f"{growths} growths and {starts} starts reported, {moves} reads and writes interrupted"
            print(f"ira {' '.join(words)}: {found}", flush=True)
    print(f"sweep: {all_reported} refusals reported, {all_moves} reads and writes interrupted, {all_wrong} wrong answers")
    return min(all_wrong, 1)


sys.exit(main(os.path.abspath(sys.argv[-1]), "--short" in sys.argv))
