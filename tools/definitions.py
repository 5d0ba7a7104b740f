"""The files of definitions (crates/*/specs/*.antt), and the names that definitions name."""
import pathlib
import re

TOP = pathlib.Path(__file__).resolve().parent.parent
DEFINED = re.compile(r"(?:abbrev |unfoldable |record |data |pub )+([^\s:(]+)")
# a record that takes the names of its module is indented
IN_MODULE = re.compile(r"  pub record ([^\s:(]+)")


def places():
    """All files of definitions as CRATE/FILE, but those that only name the others of their crate."""
    found = (TOP / "crates").glob("*/specs/*.antt")
    return sorted(f"{path.parts[-3]}/{path.stem}" for path in found if path.stem != "Lib")


def path_of(place):
    crate, name = place.split("/")
    return f"crates/{crate}/specs/{name}.antt"


class File:
    """A file of definitions: its first sentences, its definitions, and where its imported names come from."""

    def __init__(self, place, crates):
        self.head, self.lines_of, self.from_file, self.called = [], {}, {}, {}
        for paragraph in (TOP / path_of(place)).read_text().split("\n\n"):
            lines = paragraph.strip("\n").splitlines()
            imports = [line for line in lines if re.match(r"(pub )?use ", line)]
            for line in imports:
                self.take_import(line, crates)
            lines = [line for line in lines if line not in imports]
            defined = [m.group(1) for line in lines if (m := DEFINED.match(line) or IN_MODULE.match(line))]
            if not defined:
                self.head += lines
            for each in defined:
                self.lines_of[each] = lines

    def take_import(self, line, crates):
        found = re.match(r"(?:pub )?use Rattle\.(\w+)\.specs\.(\w+)(?:\.\{(.*)\}| as (\w+))$", line)
        if found and found.group(1) in crates:
            place = f"{found.group(1)}/{found.group(2)}"
            for name in found.group(3).split(", ") if found.group(3) else []:
                self.from_file[name] = place
            if found.group(4):
                self.called[found.group(4)] = place


def named_by(roots, crates):
    """The definitions that these name, by file, and the files."""
    files, reached, todo = {}, {}, list(roots)
    while todo:
        place, name = todo.pop()
        file = files.setdefault(place, None) or File(place, crates)
        files[place] = file
        if name not in file.lines_of:  # passed on by `pub use`
            if name in file.from_file:
                todo.append((file.from_file[name], name))
            continue
        if name in reached.setdefault(place, set()):
            continue
        reached[place].add(name)
        body = "\n".join(line.split("--")[0] for line in file.lines_of[name])
        for called, word in re.findall(r"\b(\w+)\.(\w+)", body):
            if called in file.called:
                todo.append((file.called[called], word))
                body = body.replace(f"{called}.{word}", " ")
        for word in set(re.findall(r"[^\s(){}.,;λ]+", body)) - {name}:
            if word in file.lines_of:
                todo.append((place, word))
            elif word in file.from_file:
                todo.append((file.from_file[word], word))
    return reached, files
