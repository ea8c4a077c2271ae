"""Sees that no name of a file or folder makes a line of its own, or reaches a terminal as it is.

python3 checks/odd_names.py IRA: each command that reads or writes names is run in two folders of the same texts, one under
a plain name and one under each of 18 odd ones. What is printed is printable ASCII, and is what the plain name gets with the
odd name, spelled by the rule of pages, in its place, but for the number of spaces; lines of JSON are as many, and have the
name itself when read back. A word that isn't Unicode is refused."""

import json, os, re, shutil, subprocess, sys, tempfile

HERE = os.path.dirname(os.path.abspath(__file__))
EXAMPLES = os.path.join(HERE, "..", "examples")
PLAIN = b"folder"
ODD = [
    b"x: yes\ny", b"no\n", b"\r", b"a\tb", b"\x1b[2J\x1b[1;31m", b"\x07\x08", b"\x7f", b" ", b"-", b"--dir", b"'\"\\", b"\\n",
    "\u0085\u009b31m".encode(), "\u202eyes".encode(), "\u2028\u2029".encode(), "\ufeffx".encode(), b"\xff\xfe", b"</script><b>&",
]
QUESTION = ["--question", "N/q.ask"]
# N stands for the folder of the name; what is written lies in N too.
LINES = [
    ["N"], ["logs", "N/0.log", "N/1.log"], ["logs", "--dir=N"], ["logs", "--each", "--", "N", "N"], ["logs", "--each", "--", "N/none"],
    ["explain", "--each", "--", "N", "N/none"], ["ask", "--dir=N", "any leader"], ["ask", "--dir=N/none", "any leader"],
    ["logs", "--dir=N/none"], ["logs", "N/0.log", "N/none"], ["explain", "N/0.log", "N/1.log"], ["explain", "--dir=N"],
    ["explain", "N/bad.log"], ["explain", "N/bad.log", "N/1.log"], ["explain", "N/0.log", "N/0.log"], ["explain", "--dir=N/none"],
    ["explain", *QUESTION, "--dir=N"], ["explain", *QUESTION, "--cert", "N/c.cert", "--dir=N"], ["explain", "--question", "N/bad.log", "--dir=N"],
    ["show", "--dir=N"], ["show", "--events", "N/0.log", "N/1.log"], ["show", "N/bad.log", "N/1.log"], ["show", *QUESTION, "--case", "0", "--dir=N"],
    ["decide", *QUESTION, "--dir=N"], ["decide", *QUESTION, "--out", "N/out.cert", "--dir=N"], ["decide", "--question", "N/none", "--dir=N"],
    ["check", *QUESTION, "--cert", "N/c.cert", "--dir=N"], ["check", *QUESTION, "--cert", "N/none", "--dir=N"],
    ["draw", "--out", "N/p.svg", "--dir=N"], ["draw", "--out", "N/p.html", "--dir=N"], ["draw", "--out", "N/none/p.svg", "--dir=N"],
    ["draw", "--out", "N/p.svg", "N/bad.log", "N/1.log"], ["upgrade", "--out=N", "--dir=N"], ["upgrade", "--out=N/none", "--dir=N"],
    ["mend", "--out=N/m", "N/bad.log", "N/1.log"], ["mend", "--out=N/none", "--dir=N"], ["run", "--alone", "--nodes", "2", "--seed", "1", "--out=N/m"],
    ["run", "--alone", "--nodes", "2", "--seed", "1", "--out=N/none"],
]
JSON = [it + ["--json"] for it in LINES if it[0] in ("explain", "show", "draw", "logs", "mend", "decide", "check")]


def shown(name):
    """A name as pages show it: printable ASCII as it is, tab and carriage return by letters, else byte by byte."""
    spelled = {9: "\\t", 13: "\\r"}
    return "".join(spelled.get(it) or (chr(it) if 32 <= it < 127 else f"\\x{it:02x}") for it in name)


def laid(room, name):
    folder = os.path.join(room, name)
    shutil.copytree(os.path.join(EXAMPLES, "two_node_election").encode(), folder)
    os.mkdir(os.path.join(folder, b"m"))
    with open(os.path.join(folder, b"0.log"), "rb") as log, open(os.path.join(folder, b"bad.log"), "wb") as bad:
        bad.write(log.read().replace(b"clean", b"dirty", 1))
    for to, suffix in ((b"q.ask", b".ask"), (b"c.cert", b".cert")):
        [first, *_] = sorted(it for it in os.listdir(folder) if it.endswith(suffix))
        shutil.copy(os.path.join(folder, first), os.path.join(folder, to))


def ran(ira, words, name):
    with tempfile.TemporaryDirectory() as room:
        laid(room.encode(), name)
        words = [word.encode().replace(b"N", name) if "N" in word else word.encode() for word in words]
        run = subprocess.run([ira.encode(), *words], cwd=room, stdin=subprocess.DEVNULL, capture_output=True)
        return run.returncode, run.stdout, run.stderr


def renamed(value, name):
    """A value of JSON with the plain name in place of the odd one."""
    if isinstance(value, dict):
        return {key: renamed(it, name) for key, it in value.items()}
    if isinstance(value, list):
        return [renamed(it, name) for it in value]
    return value.replace(name, PLAIN.decode()) if isinstance(value, str) else value


def fits(words, name):
    """Whether the name can be given so: a word that begins with a dash is an option."""
    return not name.startswith(b"-") or "--" in words or not any(it.startswith("N") for it in words)


def spaced(text):
    """The text with one space for many: carets and columns stand further to the right of a longer name."""
    return re.sub(" +", " ", text)


def wrong(given, wanted, name):
    """Why an answer with the odd name isn't that with the plain one."""
    if name == b"\xff\xfe":
        wanted = 2, b"", b"ira: a word is not UTF-8\n"
    is_json = given[1].startswith(b"{")
    if odd := [it for it in (b"" if is_json else given[1]) + given[2] if it != 10 and not 32 <= it < 127]:
        return f"bytes {odd}"
    as_shown = [spaced(it.decode().replace(PLAIN.decode(), shown(name))) for it in wanted[1:]]
    out = spaced(given[1].decode())
    if is_json:
        values = [renamed(json.loads(it), name.decode()) for it in given[1].splitlines()]
        if values == [json.loads(it) for it in wanted[1].splitlines()]:
            out = as_shown[0]
    return None if (given[0], out, spaced(given[2].decode())) == (wanted[0], *as_shown) else f"{given}, with a plain name {wanted}"


def main():
    ira, runs, failed = os.path.realpath(sys.argv[1]), 0, 0
    for words in LINES + JSON:
        wanted = ran(ira, words, PLAIN)
        for name in (it for it in ODD if fits(words, it)):
            runs += 1
            if why := wrong(ran(ira, words, name), wanted, name):
                failed += 1
                print(f"odd names: {' '.join(words)} with {name!r}: {why[:400]}")
    print(f"odd names: {runs} runs, {failed} wrong")
    return failed > 0


if __name__ == "__main__":
    sys.exit(main())
