"""What the tests of bin/dvbt share: a small tree with bin/dvbt and its tools as they are, two crates, and stand-ins for the program and
for the toolchain."""
import hashlib
import os
import pathlib
import shutil
import subprocess
import sys
import tempfile
import time
import unittest

TOP = pathlib.Path(__file__).resolve().parent.parent

# Stands for `rt`, which bin/dvbt asks where its folder is and which one it is.
RT = r"""#!/bin/sh
[ "$1" = version ] && exec cat @TOP@/kit
[ "$1" = doc ] && exec echo @TOP@/rt/START-HERE.md
exit 2
"""
# Stands for the prover, of which the last word is the file to make: proves a crate unless the file `broken` is there.
RATTLE = r"""#!/bin/sh
top=@TOP@
crate=$3
for made; do :; done
echo $crate >> $top/calls
echo "$*" >> $top/words
[ -e $top/broken ] && { echo "src/lib.rt:1:1: error: the goal is open"; exit 1; }
[ -e $top/edited ] && echo "// more" >> $top/crates/low/src/lib.rt
[ $crate = dvbt ] && exec touch $made
if [ -e $top/meet ]; then
  touch $top/met.$crate
  for _ in $(seq 100); do [ -e $top/met.low ] && [ -e $top/met.other ] && break; sleep 0.1; done
  [ -e $top/met.low ] && [ -e $top/met.other ] || exit 1
fi
mkdir -p $made
cat src/lib.rt > $made/format
"""
# Stands for the linker: makes a program of the file `stand-in`.
LINK = r"""#!/bin/sh
[ -e @TOP@/unlinked ] && { echo "rattle: no linker"; exit 1; }
[ $5 = -o ] && exec cp @TOP@/stand-in $6
"""
# Stands for the program: prints $TEXT and ends with $STATUS. With $COPY it is `disperse` and copies its input to its output, with
# $WAITS it writes its number to that file and waits, with half of the file $READ read.
PROGRAM = r"""#!/bin/sh
[ -n "$OUTPUT" ] && printf x > "$OUTPUT"
[ -n "$COPY" ] && cat "$2" > "$3"
[ -n "$READ" ] && { exec 3< "$READ"; head -c 500000 <&3 > /dev/null; echo "$TEXT"; }
[ -n "$WAITS" ] && { echo $$ > pid.new; mv pid.new "$WAITS"; exec sleep 60; }
if [ -n "$SLOW" ]; then
  exec 3< "$SLOW"
  head -c 500000 <&3 > /dev/null
  for _ in $(seq 600); do [ -e go ] && break; sleep 0.1; done
fi
[ -n "$SIGNAL" ] && kill -$SIGNAL $$
[ -n "$TEXT" ] && echo "$TEXT"
exit ${STATUS:-0}
"""
SETTINGS = 'mode = "2k"\nconstellation = "qpsk"\nrate_hp = "1/2"\nguard = "1/32"\n'


class Tree(unittest.TestCase):
    def setUp(self):
        folder = tempfile.TemporaryDirectory()
        self.addCleanup(folder.cleanup)
        self.top = pathlib.Path(folder.name) / "tree"
        (self.top / "bin").mkdir(parents=True)
        shutil.copy(TOP / "bin/dvbt", self.top / "bin/dvbt")
        for part in ("door", "commands", "builder", "cell_tools", "monitor"):
            shutil.copytree(TOP / "tools" / part, self.top / "tools" / part, ignore=shutil.ignore_patterns("__pycache__"))
        for path in ("crates/low/src/lib.rt", "crates/low/specs/Low.antt", "crates/dvbt/src/main.rt"):
            self.put(path, "text\n")
        self.put("crates/low/must-fail/wrong.edit", "file: src/lib.rt\n")
        self.put("crates.txt", "# the crates\ndvbt: low\nlow:\nunused: low\n")
        self.put("HANDLES", "Handles allowed: none.\n")
        self.put("kit", "kit-1 logic 1\n")
        self.put("stand-in", PROGRAM, 0o755)
        for path, text in {"rt/rt": RT, "rt/bin/rattle": RATTLE, "rt/bin/rattle-link": LINK}.items():
            self.put(path, text.replace("@TOP@", str(self.top)), 0o755)
        self.put("s.toml", SETTINGS)
        self.put("in.ts", "\x47" * 188 * 3)
        self.path = f"{self.top}/rt:{os.environ['PATH']}"

    def put(self, path, text, mode=0o644):
        file = self.top / path
        file.parent.mkdir(parents=True, exist_ok=True)
        file.write_text(text)
        file.chmod(mode)

    def call(self, *words, path=None, **named):
        """Runs bin/dvbt: status, standard output, standard error."""
        env = {"PATH": path or self.path, "LANG": "C.UTF-8", **named}
        ran = subprocess.run([sys.executable, "bin/dvbt", *words], cwd=self.top, env=env, capture_output=True, text=True)
        return ran.returncode, ran.stdout, ran.stderr

    def shell(self, line, **named):
        """Runs a line of bash, with the program at hand: status, standard output, standard error."""
        env = {"PATH": self.path, "LANG": "C.UTF-8", "TEXT": "the report", "COPY": "1", "DVBT_PROGRAM": str(self.top / "stand-in"), **named}
        ran = subprocess.run(["bash", "-c", line], cwd=self.top, env=env, capture_output=True, text=True, timeout=60)
        return ran.returncode, ran.stdout, ran.stderr

    def calls(self):
        file = self.top / "calls"
        return file.read_text().splitlines() if file.exists() else []

    def no_rt(self):
        return os.pathsep.join(it for it in os.environ["PATH"].split(os.pathsep) if not os.path.exists(f"{it}/rt"))

    def dist(self):
        """A dist/ of the sources as they stand."""
        sys.path.insert(0, str(TOP / "tools"))
        from builder import program

        (self.top / "dist").mkdir()
        sums = []
        for level in program.LEVELS:
            self.put(f"dist/dvbt-{level}", PROGRAM, 0o755)
            sums.append(f"{hashlib.sha256(PROGRAM.encode()).hexdigest()}  dvbt-{level}\n")
        self.put("dist/SHA256SUMS", "".join(sums))
        self.put("dist/SOURCES.sha256", program.written(program.sums_of(str(self.top)), "kit-1 logic 1"))

    def made(self, name):
        """What a file holds, which then goes."""
        text = (self.top / name).read_text()
        os.remove(self.top / name)
        return text

    def begun(self, *words, **named):
        """A run of a program that waits: the door, and the program's number once it waits."""
        (self.top / "pid").unlink(missing_ok=True)
        env = {"PATH": self.path, "LANG": "C.UTF-8", "DVBT_PROGRAM": str(self.top / "stand-in"), "WAITS": "pid", **named}
        how = {"cwd": self.top, "env": env, "stdout": subprocess.PIPE, "stderr": subprocess.PIPE, "text": True}
        door = subprocess.Popen([sys.executable, "bin/dvbt", *words], **how)
        end = time.monotonic() + 20
        while not (self.top / "pid").exists() and time.monotonic() < end:
            time.sleep(0.005)
        return door, int((self.top / "pid").read_text())

    def is_gone(self, number):
        """Whether a process ends within some seconds."""
        end = time.monotonic() + 20
        while time.monotonic() < end:
            try:
                with open(f"/proc/{number}/stat") as file:
                    if file.read().rsplit(")", 1)[1].split()[0] == "Z":
                        return True
            except OSError:
                return True
            time.sleep(0.005)
        return False
