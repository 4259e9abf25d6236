#!/usr/bin/env python3
"""Plants wrong lines, one edit at a time, and tells what shows that they are wrong.

    tools/planted.py [-j JOBS] [CRATE | CRATE/NAME ..]

Tries the edits tools/planted/CRATE/NAME.edit of the crates or edits that are named, or all of them. Each of JOBS workers (1
where none are told) has a copy of the repository's tracked files, in which it makes an edit, runs `rt check` in the crate's
folder, and puts the files back. First it sees that the crate passes without an edit, and stops where it does not. One line
tells what came of an edit, and how long that took:

    refused   CRATE/NAME  src/curves.rt:120         a contract refuses it, first at this place
    refused   CRATE/NAME  proofs/Lib.antt:12        only a proof no longer fits, which says less of the contract
    told      CRATE/NAME  by the output of probe    every contract lets it pass, and what probe prints does not
    SURVIVED  CRATE/NAME                            nothing tells it from the right code
    bad       CRATE/NAME  why                       it does not fit the code, or does not compile, and shows nothing

The last line counts them. The status is 0 only if none survived and none is bad.

An edit is a file of these lines, and others are not read:

    file: src/curves.rt                   below the folder of the crate
    old: text that stands exactly once in that file, on one line
    new: the text that takes its place, on one line
    told-by: probe

Further pairs of old and new, each with its file or in the same one, apply to what those before made. With the last line,
an edit that `rt check` accepts is handed to the crate of that name: a program is built and run as the gate runs it, and has
to print what is stored; where there are tests they have to pass, and so has `examples/CRATE/run`; and for `board` the example
in C is built and run. An edit of a program is handed to that program without such a line.
"""

import argparse
import collections
import contextlib
import dataclasses
import pathlib
import queue
import re
import shutil
import signal
import subprocess
import sys
import tempfile
import threading
import time

TOP = pathlib.Path(__file__).resolve().parent.parent
PLANTED = TOP / "tools" / "planted"
NOT_PROVED = re.compile(r"^logic=not-proved", re.MULTILINE)
# (a line that goes on with `note`, `warning` or `help` behind its place refuses nothing)
PLACE = re.compile(
    r"^(?:note: )?(?:\./)?((?:src|specs|proofs)/[^\s:]+:\d+):\d+: (?!note\b|warning\b|help\b)",
    re.MULTILINE,
)
ERROR = re.compile(r"^.*: error\b.*$", re.MULTILINE)
PROVER_LIMIT = 3
LONGEST_RUN = 300


class Unfit(Exception):
    """An edit that shows nothing, with the reason."""


class Refused(Exception):
    """An edit that a proof of another crate than its own refuses, with the place."""


class Unsound(Exception):
    """What does not pass without any edit, so that no edit can be judged by it."""


@dataclasses.dataclass(frozen=True)
class Edit:
    crate: str
    name: str
    changes: tuple
    told_by: str

    @property
    def label(self):
        return f"{self.crate}/{self.name}"


@dataclasses.dataclass(frozen=True)
class Verdict:
    word: str
    reason: str = ""


@dataclasses.dataclass(frozen=True)
class Ran:
    status: int
    said: str

    def place(self):
        """The first place that the checker names."""
        found = PLACE.search(self.said)
        return found[1] if found else "at no place that is told"


def read_edit(path):
    """The edit in a file, whatever the file says."""
    changes, file, old, told_by = [], "", None, ""
    for line in path.read_text(encoding="utf-8").splitlines():
        key, _, text = line.partition(":")
        text = text.removeprefix(" ")
        if key == "file":
            file = text.strip()
        elif key == "told-by":
            told_by = text.strip()
        elif key == "old":
            old = text
        elif key == "new":
            changes.append((file, old or "", text))
            old = None
    return Edit(path.parent.name, path.stem, tuple(changes), told_by)


def chosen(words):
    """The edits of the crates and edits that are named, or all, crate by crate."""
    paths = []
    for word in words or sorted(it.name for it in PLANTED.iterdir()):
        crate, _, name = word.removesuffix(".edit").partition("/")
        found = sorted((PLANTED / crate).glob(f"{name or '*'}.edit"))
        if not found:
            sys.exit(f"planted: there is no edit {word} under tools/planted")
        paths += found
    return [read_edit(it) for it in dict.fromkeys(paths)]


def run(words, folder):
    """What a command says, on both outputs, and its status."""
    how = {"stdin": subprocess.DEVNULL, "stdout": subprocess.PIPE, "stderr": subprocess.STDOUT}
    ran = subprocess.run(words, cwd=folder, **how)
    return Ran(ran.returncode, ran.stdout.decode(errors="replace"))


def edited(text, file, old, new):
    """The text with its one `old` in place of which `new` stands."""
    found = text.count(old) if old else 0
    if found != 1:
        raise Unfit(f"the old text stands in {file} {found} times")
    return text.replace(old, new)


class Crate:
    """A crate that tells by what it prints for its stored input, by its tests, and by an example of its use."""

    def __init__(self, folder):
        self.folder = folder
        self.name = folder.name
        self.program = folder / "out" / self.name
        self.example = folder.parent.parent / "examples" / self.name / "run"

    def stored(self, name):
        path = self.folder / name
        return path.read_bytes() if path.exists() else b""

    def is_program(self):
        return (self.folder / "src" / "main.rt").exists()

    def has_tests(self):
        return any("#[test]" in it.read_text(encoding="utf-8") for it in self.folder.glob("src/**/*.rt"))

    def ran(self, word):
        """Runs a command of rt, and stops where a proof of this crate or one below refuses the edit."""
        ran = run(["rt", word], self.folder)
        if NOT_PROVED.search(ran.said):
            raise Refused(f"{ran.place()}, as {self.name} is proved")
        return ran

    def build(self):
        self.program.unlink(missing_ok=True)
        # rt builds a program by running it; with none of its arguments and input that is of no use here
        self.ran("run")
        if not self.program.exists():
            raise Unfit(f"{self.name} is not built with it")

    def prints_as_stored(self):
        """Whether the program prints what is stored. It is run in a fresh copy of its data, as the gate does."""
        words = [self.program, *self.stored("args").decode().splitlines()]
        with tempfile.TemporaryDirectory() as room:
            data = pathlib.Path(room) / "data"
            if (self.folder / "data").is_dir():
                shutil.copytree(self.folder / "data", data)
            else:
                data.mkdir()
            how = {"input": self.stored("stdin"), "stdout": subprocess.PIPE, "stderr": subprocess.DEVNULL}
            try:
                ran = subprocess.run(words, cwd=data, timeout=LONGEST_RUN, **how)
            except subprocess.TimeoutExpired:
                return False
        return ran.returncode == int(self.stored("status") or 0) and ran.stdout == self.stored("stdout")

    def tells(self):
        """What tells that something is wrong, or nothing."""
        if self.is_program():
            self.build()
            if not self.prints_as_stored():
                return f"by the output of {self.name}"
        if self.has_tests():
            tried = self.ran("test")
            if tried.status != 0:
                return f"by a test of {self.name}"
        if self.is_program() and self.example.exists() and run([self.example], self.folder).status != 0:
            return f"by the example of {self.name}"
        if not (self.is_program() or self.has_tests()):
            self.ran("check")
        return None


class CExample:
    """The example in C, which tells by what it prints."""

    def __init__(self, top):
        self.top = top

    def tells(self):
        ran = run([self.top / "examples" / "c" / "run"], self.top)
        if "was not built" in ran.said:
            raise Unfit("the static library is not built with it")
        return None if ran.status == 0 else "by the example in C"


class Copy:
    """A worker's copy of the repository, and what was seen to pass in it without an edit."""

    def __init__(self, top):
        self.top = pathlib.Path(top)
        self.sound = set()
        listed = subprocess.run(["git", "ls-files", "-z"], cwd=TOP, check=True, stdout=subprocess.PIPE).stdout
        for name in filter(None, listed.decode().split("\0")):
            if (TOP / name).is_file():
                (self.top / name).parent.mkdir(parents=True, exist_ok=True)
                shutil.copy2(TOP / name, self.top / name)

    def crate(self, name):
        return self.top / "crates" / name

    def teller(self, name):
        return CExample(self.top) if name == "board" else Crate(self.crate(name))

    def told_by(self, edit):
        """The crate that an accepted edit is handed to, if there is one."""
        is_program = Crate(self.crate(edit.crate)).is_program()
        name = edit.told_by or (edit.crate if is_program else "")
        if name and not self.crate(name).is_dir():
            raise Unfit(f"there is no crate {name} to tell it")
        return name

    def see_sound(self, what, passes):
        """Stops all where something does not pass as it stands."""
        if what in self.sound:
            return
        begun = time.monotonic()
        try:
            passed = passes()
        except (Refused, Unfit):
            passed = False
        if not passed:
            raise Unsound(f"{what} does not pass as it stands, so nothing was tried on it")
        self.sound.add(what)
        print(f"planted: {what} passes as it stands, in {time.monotonic() - begun:.0f} s", file=sys.stderr, flush=True)

    @contextlib.contextmanager
    def changed(self, edit):
        """Makes an edit, and takes it back at the end."""
        if not edit.changes:
            raise Unfit("it has no old and new text")
        kept = {}
        try:
            for file, old, new in edit.changes:
                path = self.crate(edit.crate) / file
                if not path.is_file():
                    raise Unfit(f"there is no file {file or 'told'}")
                text = path.read_text(encoding="utf-8")
                kept.setdefault(path, text)
                path.write_text(edited(text, file, old, new), encoding="utf-8")
            yield
        finally:
            for path, text in kept.items():
                path.write_text(text, encoding="utf-8")


def judged_by_check(ran):
    """What a check alone says of an edit, or nothing where it accepts it."""
    if ran.status == 0:
        return None
    if NOT_PROVED.search(ran.said):
        return Verdict("refused", ran.place())
    if ran.status == PROVER_LIMIT:
        return Verdict("refused", f"{ran.place()}, only at a limit of the prover")
    error = ERROR.search(ran.said)
    return Verdict("bad", error[0][:160] if error else f"its check ended with status {ran.status}")


def judge(copy, edit):
    """What comes of one edit, and the seconds that it took itself."""
    begun = time.monotonic()
    try:
        crate = copy.crate(edit.crate)
        told_by = copy.told_by(edit)
        with copy.changed(edit):
            pass
        copy.see_sound(edit.crate, lambda: run(["rt", "check"], crate).status == 0)
        if told_by:
            copy.see_sound(f"what {told_by} tells", lambda: copy.teller(told_by).tells() is None)
        begun = time.monotonic()
        with copy.changed(edit):
            verdict = judged_by_check(run(["rt", "check"], crate))
            if verdict is None:
                how = copy.teller(told_by).tells() if told_by else None
                verdict = Verdict("told", how) if how else Verdict("SURVIVED")
    except Refused as refused:
        verdict = Verdict("refused", str(refused))
    except Unfit as unfit:
        verdict = Verdict("bad", str(unfit))
    return verdict, time.monotonic() - begun


def work(edits, told, lock):
    """Judges edits in a copy of its own until none is left, or until something is unsound."""
    with tempfile.TemporaryDirectory(prefix="planted-") as top:
        copy = Copy(top)
        while True:
            try:
                edit = edits.get_nowait()
                verdict, seconds = judge(copy, edit)
            except queue.Empty:
                return
            except Unsound as unsound:
                with lock:
                    told["unsound"].append(str(unsound))
                while not edits.empty():
                    with contextlib.suppress(queue.Empty):
                        edits.get_nowait()
                return
            with lock:
                told[verdict.word].append(edit.label)
                said = f"{verdict.word:<9} {edit.label}  {verdict.reason}".rstrip()
                print(f"{said}  ({seconds:.0f} s)", flush=True)


def summed(counts):
    """Prints how many edits came to what, and returns the status."""
    refused, by_output, survived, bad = (counts.get(it, 0) for it in ("refused", "told", "SURVIVED", "bad"))
    print(
        f"{refused + by_output + survived + bad} planted: {refused} refused by a contract, "
        f"{by_output} told apart by a program's output, {survived} survived, {bad} bad"
    )
    return 1 if survived or bad else 0


def main():
    parser = argparse.ArgumentParser(usage="tools/planted.py [-j JOBS] [CRATE | CRATE/NAME ..]")
    parser.add_argument("-j", dest="jobs", type=int, default=1)
    parser.add_argument("words", nargs="*")
    asked = parser.parse_args()
    # so that a run which is ended takes its copies away with it
    signal.signal(signal.SIGTERM, lambda *_: sys.exit("planted: it was ended"))
    edits, told, lock = queue.SimpleQueue(), collections.defaultdict(list), threading.Lock()
    wanted = chosen(asked.words)
    for edit in wanted:
        edits.put(edit)
    how = {"target": work, "args": (edits, told, lock), "daemon": True}
    workers = [threading.Thread(**how) for _ in range(max(1, asked.jobs))]
    for worker in workers:
        worker.start()
    for worker in workers:
        worker.join()
    if told["unsound"]:
        sys.exit(f"planted: {told['unsound'][0]}")
    if sum(map(len, told.values())) < len(wanted):
        sys.exit("planted: some were not tried, since a worker ended before")
    return summed({word: len(labels) for word, labels in told.items()})


if __name__ == "__main__":
    sys.exit(main())
