"""Sees that no write that fails or is killed destroys what was there.

python3 checks/writes.py IRA: each command that writes files writes over older ones, where files may have so many bytes and
no more: the write fails, or the program is killed within it; where it has the rights to, also on a disk that is full. After a failure the
status is 2, each file is the old one, and no other file is there; after a kill each file is the old one, whatever lies
beside it. Links to files, a device and a pipe are written to as they are named. Who reads the answer may go away, and a
terminal is told that a log is read from it."""

import contextlib, os, pty, resource, shutil, signal, stat, subprocess, sys, tempfile

HERE = os.path.dirname(os.path.abspath(__file__))
ELECTION = os.path.join(HERE, "..", "examples", "two_node_election")
ABSENT = ["--question", "active_beside_leader.ask", "0.log", "1.log"]
LINES = [
    ["upgrade", "--out", ".", "--dir", "."],
    ["mend", "--out", "d", "0.log", "1.log"],
    ["run", "--alone", "--nodes", "2", "--seed", "7", "--out", "d"],
    ["run", "--alone", "--nodes", "40", "--seed", "7", "--out", "d"],
    ["decide", "--out", "d/c", *ABSENT],
    ["draw", "--out", "d/p.svg", "0.log", "1.log"],
    ["draw", "--out", "d/p.html", "0.log", "1.log"],
]


def contents(folder):
    found = {}
    for at, _, names in os.walk(folder):
        for name in names:
            with open(os.path.join(at, name), "rb") as file:
                found[os.path.relpath(os.path.join(at, name), folder)] = file.read()
    return found


def drafts(files):
    return [name for name in files if os.path.basename(name).startswith(".ira-")]


def laid(room):
    """Lays the logs of an election, and older files under each name that is written, in this folder."""
    os.makedirs(f"{room}/d")
    for name in os.listdir(ELECTION):
        shutil.copy(f"{ELECTION}/{name}", room)
    for name in ["c", "p.svg", "p.html", *(f"{place}.log" for place in range(40))]:
        with open(f"{room}/d/{name}", "w") as file:
            file.write(f"an older {name}\n" * 3)


def limited(size, is_killed):
    def set_limits():
        signal.signal(signal.SIGXFSZ, signal.SIG_DFL if is_killed else signal.SIG_IGN)
        resource.setrlimit(resource.RLIMIT_CORE, (0, 0))
        resource.setrlimit(resource.RLIMIT_FSIZE, (size, size))

    return set_limits


def ran(ira, words, room, before=None):
    return subprocess.run([ira, *words], cwd=room, stdin=subprocess.DEVNULL, capture_output=True, preexec_fn=before)


def failed(ira, words, size, is_killed):
    """Why a run with files of so many bytes is wrong, and whether it wrote all."""
    with tempfile.TemporaryDirectory() as room:
        laid(room)
        old = contents(room)
        run = ran(ira, words, room, limited(size, is_killed))
        new = contents(room)
        if run.returncode in (0, 1):
            return None, True
        if is_killed and run.returncode == -signal.SIGXFSZ:
            new = {name: text for name, text in new.items() if name not in drafts(new)}
        elif run.returncode != 2 or not run.stderr.startswith(b"ira: cannot write "):
            return f"status {run.returncode}, {run.stderr!r}", False
        return None if new == old else f"{sorted(set(new.items()) ^ set(old.items()))[:2]}", False


def full_disk(ira, words, room):
    """Why a run on a disk that is full is wrong."""
    laid(room)
    with open(f"{room}/filler", "wb", buffering=0) as file, contextlib.suppress(OSError):
        while file.write(b"x" * 4096):
            pass
    old = contents(room)
    run = ran(ira, words, room)
    if run.returncode != 2 or contents(room) != old:
        return f"status {run.returncode}, {run.stderr!r}"


def as_named(ira):
    """Links, devices and pipes."""
    with tempfile.TemporaryDirectory() as room:
        laid(room)
        os.symlink("p.svg", f"{room}/d/link")
        ran(ira, ["draw", "--out", "d/link", "0.log", "1.log"], room)
        with open(f"{room}/d/p.svg") as file:
            if not os.path.islink(f"{room}/d/link") or not file.read().startswith("<svg "):
                return "a link to a file"
        os.chmod(f"{room}/d/p.svg", 0o640)
        ran(ira, ["draw", "--out", "d/p.svg", "0.log", "1.log"], room)
        if stat.S_IMODE(os.stat(f"{room}/d/p.svg").st_mode) != 0o640:
            return "who may read a file"
        run = ran(ira, ["draw", "--out", "/dev/stdout", "0.log", "1.log"], room)
        if not run.stdout.startswith(b"yes\n<svg "):
            return "/dev/stdout"
        os.mkfifo(f"{room}/pipe")
        reader = subprocess.Popen(["cat", "pipe"], cwd=room, stdout=subprocess.PIPE)
        ran(ira, ["draw", "--out", "pipe", "0.log", "1.log"], room)
        if not reader.communicate(timeout=60)[0].startswith(b"<svg "):
            return "a pipe"
        left = [*drafts(os.listdir(room)), *drafts(os.listdir(f"{room}/d"))]
        return f"left over: {left}" if left else None


def of_others(ira):
    """Files of another user, one that nobody may write, and a folder that is full of what killed runs left."""
    with tempfile.TemporaryDirectory() as room:
        laid(room)
        words, picture = ["draw", "--out", "d/p.svg", "0.log", "1.log"], f"{room}/d/p.svg"
        for number in range(1100):
            open(f"{room}/d/.ira-{number}", "w").close()
        if run := ran(ira, words, room).returncode:
            return f"a folder with 1,100 drafts: status {run}"
        if len(drafts(os.listdir(f"{room}/d"))) != 1100:
            return "drafts that killed runs left are written over"
        if os.getuid():
            print("skipped: files of other users (not root)")
            return None
        os.chown(picture, 65534, 65534)
        ran(ira, words, room)
        if (os.stat(picture).st_uid, os.stat(picture).st_gid) != (65534, 65534):
            return "the owner of a file that root writes over"
        os.chmod(picture, 0o444)
        for folder in room, f"{room}/d":
            os.chmod(folder, 0o777)
        with open(picture, "rb") as file:
            old = file.read()
        copied = shutil.copy(ira, f"{room}/ira")
        os.chmod(copied, 0o755)
        run = ran(copied, words, room, lambda: os.setuid(65534))
        with open(picture, "rb") as file:
            if run.returncode != 2 or file.read() != old:
                return f"a file that may not be written: status {run.returncode}, {run.stderr!r}"


def streams(ira):
    """A reader that went away, and a terminal."""
    with tempfile.TemporaryDirectory() as room:
        laid(room)
        for names, status in (["0.log", "1.log"], 0), (["1.log", "0.log"], 1):
            for words in ["logs", *names], ["explain", *names], ["show", "--events", *names]:
                reader, out = os.pipe()
                os.close(reader)
                run = subprocess.run([ira, *words], cwd=room, stdin=subprocess.DEVNULL, stdout=out, stderr=subprocess.PIPE)
                os.close(out)
                if (run.returncode, run.stderr) != (status, b""):
                    return f"{words} without a reader: status {run.returncode}, {run.stderr!r}"
        ours, terminal = pty.openpty()
        with open(f"{room}/0.log", "rb") as log:
            os.write(ours, log.read() + b"\x04")
        for words, told in ([], 1), (["logs", "0.log", "1.log"], 0):
            run = subprocess.run([ira, *words], cwd=room, stdin=terminal, capture_output=True, timeout=60)
            if run.returncode or run.stdout != b"yes\n" or run.stderr.count(b"\n") != told:
                return f"{words} on a terminal: status {run.returncode}, {run.stdout!r}, {run.stderr!r}"
    return None


def main(ira):
    ira = os.path.realpath(ira)
    runs, wrong = 0, []
    for words in LINES:
        for is_killed in (False, True):
            sizes = [0, 1, 7, 16, 60, 200, 1000, 4096, 8192, 20000, 10**6]
            for size in sizes:
                why, is_whole = failed(ira, words, size, is_killed)
                runs += 1
                if why:
                    wrong.append(f"{' '.join(words)}, {size} bytes{', killed' if is_killed else ''}: {why}")
            if not is_whole:
                wrong.append(f"{' '.join(words)}: fails also with room enough")
    with tempfile.TemporaryDirectory() as room:
        for words in LINES:
            mount = ["mount", "-t", "tmpfs", "-o", "size=400k", "tmpfs", room]
            if subprocess.run(mount, capture_output=True).returncode:
                print("skipped: writes to a full disk (no right to mount one)")
                break
            try:
                why = full_disk(ira, words, room)
            finally:
                subprocess.run(["umount", room], check=True)
            runs += 1
            if why:
                wrong.append(f"{' '.join(words)}, disk full: {why}")
    for of_one in as_named, of_others, streams:
        runs += 1
        if why := of_one(ira):
            wrong.append(why)
    print(*wrong, f"writes: {runs} runs, {len(wrong)} wrong", sep="\n")
    return bool(wrong)


if __name__ == "__main__":
    sys.exit(main(sys.argv[1]))
