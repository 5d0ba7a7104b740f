"""Runs the program as a child that dies with the door: signals are passed on, and its report is handed on as it comes."""
import os
import select
import _signal as signal  # the built-in part alone: the rest takes as long to import as Python to start
import sys
from errno import EBADF

from cell_tools.standard_error import put
from door import explain
from door.names import STANDARD
from door.progress import EACH, Progress, of_limit

# Signals that are not passed on. SIGUSR1 asks for the progress. A fault of the door ends the program by its parent-death signal.
OWN = "USR1 CHLD PIPE KILL STOP WINCH URG TTIN TTOU SEGV BUS ILL FPE TRAP SYS".split()
PASSED_ON = signal.valid_signals() - {getattr(signal, f"SIG{name}") for name in OWN}
PR_SET_PDEATHSIG = 1


class Child:
    """The program as a child."""

    def __init__(self, program, words, closed):
        """Starts it. Signals wait from before the start until they can be passed on."""
        passed_on = {it for it in PASSED_ON if signal.getsignal(it) != signal.SIG_IGN}
        mask = signal.pthread_sigmask(signal.SIG_BLOCK, passed_on)
        self.door, self.is_over = os.getpid(), False
        self.report, end = os.pipe()
        self.wake = wakes()
        self.pid = os.fork()
        if self.pid == 0:
            self.begin(program, words, closed, mask, end)
        os.close(end)
        for number in passed_on:
            signal.signal(number, self.pass_on)
        signal.pthread_sigmask(signal.SIG_SETMASK, mask)

    def begin(self, program, words, closed, mask, end):
        """In the child: becomes the program, with `end` as its standard output; or ends."""
        try:
            die_with(self.door)
            if 1 not in closed:
                os.dup2(end, 1)
            signal.pthread_sigmask(signal.SIG_SETMASK, mask)
            become(program, words, closed)
        except OSError as error:
            explain.say(f"{program} can't be run: {error.strerror}")
        finally:
            os._exit(126)

    def pass_on(self, number, _):
        """Hands a signal on. A stop stops both, by SIGSTOP: without job control the system drops SIGTSTP."""
        is_stop = number == signal.SIGTSTP
        if not self.is_over:
            os.kill(self.pid, signal.SIGSTOP if is_stop else number)
        if is_stop:
            os.kill(os.getpid(), signal.SIGSTOP)

    def pieces(self, seconds):
        """What it prints, piece by piece, until it has ended. A piece is empty if a signal or the end of so many seconds came first."""
        while self.report or not os.waitid(os.P_PID, self.pid, os.WEXITED | os.WNOWAIT | os.WNOHANG):
            ready = select.select([self.wake, self.report] if self.report else [self.wake], [], [], seconds)[0]
            if self.wake in ready:
                os.read(self.wake, 4096)
            piece = os.read(self.report, 65536) if self.report in ready else b""
            if self.report in ready and not piece:
                self.let_go()
            yield piece

    def let_go(self):
        """Reads no more of what it prints."""
        os.close(self.report)
        self.report = None

    def status(self):
        """Its status once it has ended, or minus the signal that ended it."""
        self.is_over = True  # no signal is passed on to another process of its number
        return os.waitstatus_to_exitcode(os.waitpid(self.pid, 0)[1])


def wakes():
    """A descriptor that can be read after each signal that has a handler, and after the end of a child. Else a signal that comes just
    before a wait would be handled only after it."""
    read, write = os.pipe2(os.O_NONBLOCK | os.O_CLOEXEC)
    signal.set_wakeup_fd(write, warn_on_full_buffer=False)
    signal.signal(signal.SIGCHLD, lambda *_: None)
    return read


def die_with(door):
    """Has the system kill this process once its parent, the process `door`, is gone. Where Python has no ctypes it lives on."""
    try:
        import _ctypes  # without the classes of ctypes, which take half as long to import as Python to start

        number = type("Number", (_ctypes._SimpleCData,), {"_type_": "i"})
        call = type("Call", (_ctypes.CFuncPtr,), {"_flags_": _ctypes.FUNCFLAG_CDECL, "_restype_": number})
        call(_ctypes.dlsym(_ctypes.dlopen(None, 0), "prctl"))(PR_SET_PDEATHSIG, int(signal.SIGKILL))
    except (ImportError, AttributeError):
        pass
    if os.getppid() != door:
        os._exit(126)


def run(program, form, words, given, options, is_data, closed):
    """Runs the program with the arguments `given`; answers its status. With `is_data` the report goes to standard error."""
    before = {path: explain.seen(path) for path in form.outputs} if form else {}
    tell = (lambda text: None) if "quiet" in options else explain.say
    tell(of_limit(form) if form else [])
    progress = Progress(form, "quiet" not in options and sys.stderr.isatty())
    signal.signal(signal.SIGUSR1, progress.tell)
    to, report = 2 if is_data else 1, None
    take = lambda piece: put(piece, to)
    if "json" in options:
        from door.report import Report

        report = Report(form, to)
        take = report.take
    elif form and form.command == "measure" and "quiet" not in options and os.isatty(to):
        from door.measuring import Table

        take = Table(form, to).take
    child = Child(program, given, closed)
    progress.pid = child.pid
    lines, is_lost = handed_on(child, progress, take, to)
    status = child.status()
    progress.clear()
    if is_data and os.path.isfile("/dev/fd/1"):
        os.lseek(1, 0, os.SEEK_END)  # the program opened the file anew: what follows stands after what it wrote
    if is_lost and status == 0:
        explain.say("standard output took no more, so the last lines are lost")
        status = 6
    elif status < 0:
        why = ": so it ends if it has too little stack or address space (docs/use/RUNNING.md)" if status == -signal.SIGSEGV else ""
        tell([f"the program was ended by {name_of(-status)}{why}", *(explain.what_stands(form, before) if form else [])])
    elif status and "quiet" not in options:
        explain.of_refusal(form, words, status, lines[-1] if lines else "", before)
    elif form and status == 0 and options != {"quiet"}:
        status = judged(form, lines, tell, options, report)
    if report:
        status = report.close(status)
    return status if status >= 0 else end_by(-status)


def judged(form, lines, tell, options, report):
    """Says what a run of status 0 is worth; answers its status, which --strict makes 1 if there is something to say."""
    from commands.lines import facts_of
    from door import verdict

    said = verdict.of(form, facts_of([it for it in lines if "unmerged at" not in it]))
    if report:
        report.verdict = said
    tell(said or [])
    return 1 if said and "strict" in options else 0


def handed_on(child, progress, take, to):
    """Hands the program's report on; answers its last lines, and whether standard output did not take all of it."""
    text, rest, is_lost = b"", b"", False
    for piece in child.pieces(EACH if progress.is_shown else None):
        if not piece:
            progress.show()
            continue
        text = (text + piece)[-65536:]
        *lines, rest = (rest + piece).split(b"\n")
        progress.note(lines)
        progress.clear()
        try:
            take(piece)
        except OSError:
            # what standard error does not take is dropped; else the program then meets a fault of its standard output
            if to == 1:
                is_lost = True
                child.let_go()
    return text.decode("utf-8", "replace").splitlines(), is_lost


def become(program, words, closed):
    """The program in the place of this process."""
    for number in (signal.SIGPIPE, signal.SIGXFSZ):
        signal.signal(number, signal.SIG_DFL)  # Python ignores them
    for number in closed:
        os.close(number)
    os.environ.pop("DVBT_PROGRAM", None)  # a script of that name may call bin/dvbt
    os.execv(program, ["dvbt", *words])


def printed(text, status=0, to=1):
    """Prints a text; answers the status, or 6 in place of 0 if it can't be written."""
    try:
        put(f"{text}\n".encode(), to)
    except OSError as error:
        why = "is closed" if error.errno == EBADF else f"could not be written: {error.strerror}"
        explain.say(f"{STANDARD[to]} {why}")
        return status or 6
    return status


def end_by(number):
    """Ends by the signal that ended the program, without a second core file; else with 128 and its number, as shells do."""
    import resource

    resource.setrlimit(resource.RLIMIT_CORE, (0, 0))
    if number != signal.SIGKILL:
        signal.signal(number, signal.SIG_DFL)
    os.kill(os.getpid(), number)
    return 128 + number


def name_of(number):
    named = (name for name, value in vars(signal).items() if value == number and name.startswith("SIG") and "_" not in name)
    return next(named, f"signal {number}")
