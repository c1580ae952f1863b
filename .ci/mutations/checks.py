"""Runs the prover: checks, each with a time limit, that an interrupt ends, and the libraries that they rest on."""
import hashlib
import os
import pathlib
import shutil
import signal
import subprocess
import threading
import time

import proved
from proved import PARTS, ROOT

from .verdicts import LATE

# The seconds of a processor after which a check is ended, and those of a clock, which go on where the machine is busy with others.
SECONDS, MOST_SECONDS = 1200, 7200
# How often that is looked at.
STEP_SECONDS = 5


def seconds_of(ran):
    """Returns the seconds of a processor that a process has taken, or none where the system doesn't tell them."""
    try:
        told = pathlib.Path(f"/proc/{ran.pid}/stat").read_text().rpartition(")")[2].split()
    except OSError:
        return 0
    return (int(told[11]) + int(told[12])) / os.sysconf("SC_CLK_TCK")


class Checks:
    """The checks that run now, so that an interrupt can end them."""

    def __init__(self):
        self.running, self.lock, self.is_over, self.folder = set(), threading.Lock(), False, None

    def run(self, words, folder):
        """Returns the status of a check, and what it said, which is kept where a folder is given for it, and taken from there."""
        if not self.folder:
            return self.start(words, folder)
        total = hashlib.sha256(repr([it.replace(str(folder.parent), "") for it in words]).encode())
        for path in sorted(it for part in PARTS for it in (folder / part).rglob("*") if it.is_file()):
            total.update(repr((os.path.relpath(path, folder), path.read_bytes())).encode())
        kept = self.folder / f"{words[0].split('/')[-1]}-{total.hexdigest()[:16]}"
        if not kept.is_dir():
            status, text = self.start(words, folder)
            # One that a signal has ended says nothing.
            if status < 0:
                return status, text
            shutil.copytree(folder / "src", kept / "src")
            (kept / "status").write_text(str(status))
            (kept / "output").write_text(text)
        return int((kept / "status").read_text()), (kept / "output").read_text()

    def start(self, words, folder):
        """Runs a check."""
        pipes = {"stdin": subprocess.DEVNULL, "stdout": subprocess.PIPE, "stderr": subprocess.STDOUT}
        with self.lock:
            if self.is_over:
                return -signal.SIGTERM, "ended"
            ran = subprocess.Popen([*words, "--jobs", "1"], cwd=folder, start_new_session=True, **pipes)
            self.running.add(ran)
        text, is_late = self.wait(ran)
        with self.lock:
            self.running.discard(ran)
        return LATE if is_late else ran.returncode, text.decode(errors="replace")

    def wait(self, ran):
        """Returns what a check says, and whether it met a time limit."""
        begun = time.monotonic()
        while True:
            try:
                return ran.communicate(timeout=STEP_SECONDS)[0], False
            except subprocess.TimeoutExpired:
                taken, gone = seconds_of(ran), time.monotonic() - begun
            if taken > SECONDS or gone > MOST_SECONDS:
                self.end(ran)
                return ran.communicate()[0] + f"\nended after {gone:.0f} seconds".encode(), True

    def end(self, ran):
        """Ends a check and what it has started."""
        try:
            os.killpg(ran.pid, signal.SIGKILL)
        except ProcessLookupError:
            pass

    def end_all(self):
        with self.lock:
            self.is_over = True
            for ran in self.running:
                self.end(ran)


CHECKS = Checks()


class Libraries:
    """The libraries that rt ci has not left, each built once, for all crates that rest on it."""

    def __init__(self):
        self.lock, self.locks, self.built = threading.Lock(), {}, set()

    def build(self, name):
        """Has rt lib prove and build a library where it has changed, once those below it are built."""
        for below in reversed(proved.Crate(name).below):
            self.build(below)
        with self.lock:
            lock = self.locks.setdefault(name, threading.Lock())
        with lock:
            if name not in self.built:
                status, text = CHECKS.run(["rt", "lib"], pathlib.Path(ROOT, "crates", name))
                if status:
                    raise RuntimeError(f"rt lib does not build {name} (status {status}): {text.strip()[-200:]}")
                self.built.add(name)


LIBRARIES = Libraries()
