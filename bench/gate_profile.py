#!/usr/bin/env python3
"""Times the parts of the gate: each crate's proof, tests and edits, and each function by itself.

    python3 bench/gate_profile.py FOLDER [--jobs N] [--only proofs|tests|edits] [CRATE ..]
    python3 bench/gate_profile.py FOLDER --show [N]

The first form has the prover check the crates (all, if none is named) lowest first, N at a time (4), then the crates of
tests with their tests, then the edits. It writes what the commands print, each line behind the seconds since its
command began, to files in FOLDER, and last the seconds of a processor that the command took. What earlier runs kept is
not proved again: a whole profile wants a new machine. The second form reads the files, and prints a table of crates, in
seconds of a processor, and the N dearest lines (40), by the clock. A crate is checked by one job, so the time between
two lines is that of the function that the second one names; it is longer where other work goes on. The first edit of a
crate has the proof of the crate from which edits begin in its time. Crates of which a command failed are named."""
import os, pathlib, re, shutil, subprocess, sys, tempfile, threading, time

top = pathlib.Path(__file__).resolve().parent.parent
CHECKED = re.compile(r"checked (\S+), \d+ of \d+")
EDIT = re.compile(r"rt: must-fail (\S+\.edit):")
END = re.compile(r"end: status (\S+), (\S+) seconds")
KINDS = {"proofs": ["rt", "check", "--jobs", "1"], "tests": ["rt", "check", "--test", "--jobs", "1"], "edits": ["rt", "must-fail"]}


def known_crates():
    """The crates of crates.txt with those that each names, and the set of the crates of tests."""
    found, tests = {}, set()
    behind = False
    for line in (top / "crates.txt").read_text().splitlines():
        behind = behind or line.startswith("# ---- tests")
        words = line.split("#")[0].replace(":", " : ").split()
        if words:
            found[words[0]] = [word for word in words[words.index(":") + 1 :] if (top / "crates" / word).is_dir()]
            if behind and any("#[test]" in path.read_text() for path in (top / "crates" / words[0] / "src").rglob("*.rt")):
                tests.add(words[0])
    return found, tests


def lines_of(crate):
    return sum(len(path.read_text().splitlines()) for path in (top / "crates" / crate).rglob("*.[ra][tn]*") if "out" not in path.parts)


def chains(known):
    """For each crate the lines of the longest chain of crates that begins with it and goes up."""
    found = {}
    for crate in reversed(list(known)):
        above = [found[other] for other in found if crate in known[other]]
        found[crate] = lines_of(crate) + max(above, default=0)
    return found


def run(kind, crate, folder, copy):
    """Runs the command of the kind for a crate in a copy of the sources, and writes each line with its seconds."""
    began = time.monotonic()
    words = KINDS[kind] + ([crate] if kind == "edits" else [])
    where = copy if kind == "edits" else copy / "crates" / crate
    with open(folder / f"{kind}.{crate}", "w") as out:
        started = subprocess.Popen(words, cwd=where, stdout=subprocess.PIPE, stderr=subprocess.STDOUT, text=True)
        for line in started.stdout:
            out.write(f"{time.monotonic() - began:.2f} {line}")
            out.flush()
        _, status, used = os.wait4(started.pid, 0)
        started.returncode = os.waitstatus_to_exitcode(status)
        out.write(f"{time.monotonic() - began:.2f} end: status {started.returncode}, "
                  f"{used.ru_utime + used.ru_stime:.2f} seconds of a processor\n")


def run_all(kind, crates, known, folder, copies):
    """Runs the crates, one in each copy at a time, a proof only behind those of the crates below; the longest chain
    first. Commands in one copy wait for each other, those in two take over what the other proved."""
    order = chains(known)
    waiting = sorted(crates, key=lambda crate: -order[crate])
    busy, free, lock = set(), list(copies), threading.Condition()

    def work(crate, copy):
        run(kind, crate, folder, copy)
        with lock:
            busy.discard(crate)
            free.append(copy)
            lock.notify_all()

    while waiting or busy:
        with lock:
            held = busy | set(waiting)
            ready = [crate for crate in waiting if kind != "proofs" or not held & set(known[crate])]
            if ready and free:
                waiting.remove(ready[0])
                busy.add(ready[0])
                threading.Thread(target=work, args=(ready[0], free.pop())).start()
            else:
                lock.wait()


def copy_sources(folder):
    """A copy of all sources in a folder."""
    shutil.copytree(top / "crates", folder / "crates", ignore=shutil.ignore_patterns("out"))
    for name in ("crates.txt", "HANDLES"):
        shutil.copy(top / name, folder)
    return folder


def steps(path):
    """Each step that a file tells of with its seconds, the seconds of a processor that all took, and the status."""
    found, last, whole, status = [], 0.0, 0.0, "none"
    for line in path.read_text().splitlines():
        at, said = line.split(" ", 1)
        named, end = CHECKED.match(said) or EDIT.match(said), END.match(said)
        if named:
            found.append((float(at) - last, named[1]))
            last = float(at)
        elif end:
            status, whole = end[1], float(end[2])
    return found, whole, status


def show(folder, most):
    known, _ = known_crates()
    total, dearest = {}, []
    for path in sorted(folder.iterdir()):
        kind, _, crate = path.name.partition(".")
        if kind in KINDS and crate in known:
            found, whole, status = steps(path)
            if status != "0":
                print(f"{kind} of {crate}: status {status}")
            total[kind, crate] = whole
            dearest += [(seconds, kind, name) for seconds, name in found]
    for kind in KINDS:
        print(f"{kind}: {sum(seconds for (of, _), seconds in total.items() if of == kind) / 60:.0f} minutes of a core")
    for crate in sorted(known, key=lambda crate: -sum(total.get((kind, crate), 0) for kind in KINDS)):
        print(f"{crate:16}", *(f"{kind} {total.get((kind, crate), 0):5.0f}" for kind in KINDS))
    for seconds, kind, name in sorted(dearest, reverse=True)[:most]:
        print(f"{seconds:6.1f} {kind} {name}")


def main():
    words = sys.argv[1:]
    if not words or words[0].startswith("-"):
        sys.exit(__doc__)
    folder = pathlib.Path(words.pop(0))
    if words[:1] == ["--show"]:
        return show(folder, int(words[1]) if len(words) > 1 else 40)
    jobs, only = 4, None
    while words and words[0] in ("--jobs", "--only"):
        if words.pop(0) == "--jobs":
            jobs = int(words.pop(0))
        else:
            only = words.pop(0)
    folder.mkdir(parents=True, exist_ok=True)
    known, tests = known_crates()
    chosen = words or list(known)
    have_edits = [crate for crate in chosen if list((top / "crates" / crate / "must-fail").glob("*.edit"))]
    of = {"proofs": chosen, "tests": [crate for crate in chosen if crate in tests], "edits": have_edits}
    with tempfile.TemporaryDirectory() as room:
        copies = [copy_sources(pathlib.Path(room) / str(job)) for job in range(jobs)]
        for kind in KINDS:
            if only in (None, kind):
                run_all(kind, of[kind], known, folder, copies)
    show(folder, 40)


main()
