"""Proves crates side by side, each once those that it stands on are proved, and the program over them.

The toolchain's prover is called as `rt ci` calls it: it checks a crate from nothing, over libraries that keep what crates above can
cite of them, and not their proofs. `rt lib` keeps the proofs as well, which the crates above then read. A library stands beside what
rt itself keeps of its crate, with the sum of all that it was made from: its sources, the toolchain, and the libraries below as they
were built.

First come the crates with the longest chain of others above them, by crates.txt. A crate has two processors if one would be idle.
"""
import functools
import hashlib
import os
import shutil
import signal
import subprocess
import tempfile
import time

from builder import program

LOOK = 0.05  # seconds between two looks at the provers


def chains(uses):
    """Of each crate: how many crates the longest chain has that begins with it and goes on with crates above. `uses` has lower crates first."""
    longest = {}
    for crate in reversed(uses):
        longest[crate] = 1 + max((longest[it] for it in uses if crate in uses[it]), default=0)
    return longest


@functools.lru_cache(maxsize=None)
def kit():
    """The toolchain's folder, in which the page lies that `rt doc` names."""
    told = subprocess.run(["rt", "doc"], stdin=subprocess.DEVNULL, capture_output=True, text=True)
    return os.path.dirname(told.stdout.strip())


def group():
    """A group of processes for the provers, with all that they start. It is killed once we end, whatever ends us."""
    read, write = os.pipe()
    leader = os.fork()
    if leader == 0:
        os.setpgid(0, 0)
        os.close(write)
        try:
            os.read(read, 1)
        finally:
            os.killpg(0, signal.SIGKILL)
    os.close(read)
    try:
        os.setpgid(leader, leader)
    except OSError:
        pass  # it has done so itself
    return leader, write


class Proofs:
    """The proofs of the libraries that `dvbt` stands on. `tell` is called after each, with its name, what was printed, and how many are done."""

    def __init__(self, top, processors, places, tell):
        self.top, self.processors, self.places, self.tell = top, processors, places, tell
        self.uses, self.named = program.uses_of(top), program.named_of(top)
        longest = chains(self.uses)
        self.toolchain = program.toolchain_of()
        self.waiting = sorted((it for it in self.uses if it != "dvbt"), key=lambda it: (-longest[it], it))
        self.done, self.group = set(), group()

    def below(self, crate):
        """The crates below, each after those that it stands on."""
        found = {}
        for used in self.uses[crate]:
            found.update({**self.below(used), used: None})
        return found

    def place(self, crate):
        return f"{self.top}/crates/{crate}/out/rlib/statements"

    def library(self, crate):
        return f"{self.place(crate)}/{crate}.rlib"

    def sum_of(self, crate):
        """The sum of all that the library of a crate is made from, once those below it are built."""
        libraries = [(it, program.sum_of(f"{self.library(it)}/format")) for it in self.below(crate)]
        made_from = self.toolchain, self.named[crate], program.sums_of(self.top, crate), libraries
        return hashlib.sha256(repr(made_from).encode()).hexdigest()

    def words(self, crate, *more):
        """The arguments that call the prover for a crate."""
        words = [f"{kit()}/bin/rattle", "build", "--crate-name", crate, "src/main.rt" if crate == "dvbt" else "src/lib.rt"]
        of_kit = ["std", *[it for it in self.named[crate] if it not in self.uses]]
        libraries = {**{it: f"{kit()}/rlibs/{it}.rlib" for it in of_kit}, **{it: self.library(it) for it in self.uses[crate]}}
        for name, path in libraries.items():
            words += ["--extern", f"{name}={path}"]
        for folder in [f"{kit()}/rlibs", *map(self.place, self.below(crate))]:
            words += ["-L", f"dependency={folder}"]
        words += ["--antt-project", f"{kit()}/rattle/logic/antt-project.json", "--logic-built", f"{kit()}/logic_built", "--links", f"{crate}="]
        return [*words, *more]

    def start(self, crate, words):
        """Starts a command in a crate's folder: the process, and the file that takes what it prints."""
        said = tempfile.TemporaryFile("w+", errors="replace")
        how = {"cwd": f"{self.top}/crates/{crate}", "stdin": subprocess.DEVNULL, "stdout": said, "stderr": subprocess.STDOUT}
        return subprocess.Popen(words, preexec_fn=lambda: os.setpgid(0, self.group[0]), **how), said

    def begin(self, crate, jobs):
        """Begins to prove a crate and to make its library: process, output and sum; or None if it is of these sources already."""
        place, wanted = self.place(crate), self.sum_of(crate)
        if text_of(f"{place}/sum") == wanted and os.path.isdir(self.library(crate)):
            return None
        shutil.rmtree(place, ignore_errors=True)
        os.makedirs(place)
        return *self.start(crate, self.words(crate, "--jobs", str(jobs), "--statements", "-o", self.library(crate))), wanted, jobs

    def end(self, crate, said, wanted=None):
        """Notes that a crate is proved."""
        if wanted and self.sum_of(crate) == wanted:
            with open(f"{self.place(crate)}/sum", "w", encoding="ascii") as file:
                file.write(wanted)
        self.done.add(crate)
        self.tell(crate, said, len(self.done))

    def fill(self, running):
        """Begins what can be: the ready crates in order, while a processor is free."""
        ready = [it for it in self.waiting if self.done.issuperset(self.uses[it])]
        while ready and len(running) < self.places:
            free = self.processors - sum(jobs for *_, jobs in running.values())
            if free < 1:
                return
            crate, jobs = ready[0], 2 if len(ready) < free else 1
            self.waiting.remove(crate)
            begun = self.begin(crate, jobs)
            if begun:
                running[crate] = begun
            else:
                self.end(crate, "of these sources already\n")
            ready = [it for it in self.waiting if self.done.issuperset(self.uses[it])]

    def run(self):
        """Proves all; answers the name of the first crate whose proof failed and what was printed of it, or None."""
        running = {}
        while True:
            self.fill(running)
            if not running:
                return None
            for crate in [it for it in running if running[it][0].poll() is not None]:
                process, said, wanted, _ = running.pop(crate)
                if process.returncode:
                    self.stop()
                    return crate, text_in(said)
                self.end(crate, text_in(said), wanted)
            time.sleep(LOOK)

    def stop(self):
        """Ends what still runs."""
        os.close(self.group[1])
        os.waitpid(self.group[0], 0)

    def link(self, level, to):
        """Proves, compiles and links the program, for processors of this level; answers the status and what was printed."""
        toolchain = ["--toolchain", f"{kit()}/toolchain"]
        cpu = [f"--cpu={level}"] if level == "x86-64-v3" else []
        build = self.words("dvbt", "--jobs", str(min(2, self.processors)), "--backend", "llvm", *toolchain, *cpu, "-o", f"{to}.o")
        foreign = [f"{kit()}/c/libos_c.a", f"{kit()}/c/liblibc_c.a"]
        link = [f"{kit()}/bin/rattle-link", "--target", "x86_64-unknown-linux-gnu", *toolchain, "-o", to, f"{to}.o", *foreign]
        printed = ""
        for words in (build, link):
            process, said = self.start("dvbt", words)
            status = process.wait()
            printed += text_in(said)
            if status:
                break
        return status, printed


def text_in(said):
    """What a command printed."""
    said.seek(0)
    return said.read()


def text_of(path):
    try:
        with open(path, encoding="utf-8") as file:
            return file.read()
    except OSError:
        return None
