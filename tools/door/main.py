"""What bin/dvbt does with its arguments."""
import os
import sys

import monitor
from cell_tools.standard_error import StandardError
from commands import forms
from door import explain, names, watch


def main(top, words, options, closed):
    """Runs the arguments; answers the exit status. `closed` are the descriptors that the program is to find closed."""
    if words[:1] == ["monitor"]:
        return monitor.start(words[1:], lambda: program_of(top, True, options), closed, "json" in options)
    said = told(top, words, options)
    if said is not None:
        return watch.printed(said)
    form = forms.form_of(words)
    given, is_data = names.given(form, closed) if form else (words, False)
    file = program_of(top, form, options)
    if file is None:
        # what the program answers to an invalid command line; nothing has to be built for it
        if "quiet" not in options:
            explain.of_usage(words)
        return object_of(words, 2, "usage") if "json" in options else watch.printed("usage", 2)
    if options == {"quiet"} and not is_data:
        watch.become(file, given, closed)
    return watch.run(file, form, words, given, options, is_data, closed)


def told(top, words, options):
    """The text that these arguments ask for, or None if they are for the program."""
    if {"--help", "-h"}.intersection(words[:1] + words[-1:]):
        from commands import texts

        others = [it for it in words if it not in ("--help", "-h")]
        if not others or others[0] in forms.FORMS:
            return texts.help_of(others[0]) if others else texts.help_of_all()
    if words == ["--version"]:
        from builder import program

        return "\n".join(program.described(top))
    return program_of(top, True, options) if words == ["--program"] else None


def program_of(top, form, options):
    """The program to run. If it is not built, it is built if `form` says that it is needed, else None."""
    file = program_named(top)
    if file:
        return file
    from builder import stamp

    file = stamp.program_of(top)
    if file is None and form:
        from builder import build

        file = build.build(top, "quiet" in options)
    return file


def program_named(top):
    """The program that $DVBT_PROGRAM names, which is run as it is, or None."""
    file = os.environ.get("DVBT_PROGRAM")
    if file and not (os.path.isfile(file) and os.access(file, os.X_OK)):
        raise names.Rejected(f"$DVBT_PROGRAM is {file}, which is not a program that can be run", status=126)
    if file and os.path.samefile(file, f"{top}/bin/dvbt"):
        raise names.Rejected(f"$DVBT_PROGRAM is {file}, which is bin/dvbt itself", status=126)
    return file and os.path.abspath(file)


def closed_descriptors():
    """Which of the descriptors 0 to 2 are closed. They are held open by /dev/null, so that no file of ours takes their place;
    what is printed to 1 fails as if it were closed."""
    closed = []
    for number in range(3):
        try:
            os.fstat(number)
        except OSError:
            closed.append(number)
            os.set_inheritable(os.open(os.devnull, os.O_RDONLY if number == 1 else os.O_RDWR), True)  # it is the lowest that is free
    return closed


def object_of(words, status, text, path=None):
    """Prints the object of a call that is not run; answers the status."""
    from door.report import Report

    form, refusal = forms.form_of(words), {"text": text, **({"file": path} if path else {})}
    return Report(form, 2 if form and "/dev/stdout" in form.outputs else 1, refusal).close(status)


def start(top, words):
    """As `main`, with every fault as a message. Where descriptors are closed the program finds them closed too."""
    sys.stderr = StandardError()
    closed = closed_descriptors()
    number = next((at for at, word in enumerate(words) if word not in forms.OPTIONS), len(words))
    options, words = {forms.OPTIONS[it] for it in words[:number]}, words[number:]
    try:
        return main(top, words, options, closed)
    except names.Rejected as why:
        status, path, sys.stderr.to = why.status, why.path, why.to
        explain.say(str(why))
    except OSError as error:
        status, path = 126, error.filename
        explain.say(f"{path or 'bin/dvbt'}: {error.strerror}")
    except SystemExit as end:
        status, path = end.code, None
    return object_of(words, status, sys.stderr.last.replace("dvbt: ", "", 1), path) if "json" in options else status
