"""What is installed, and where: everything that runs in PREFIX/lib/dvbt, laid out as in the repository, and links to it."""
import glob
import os
import re
import shutil

from builder import program
from installing import completion, pages

LIBRARY = "lib/dvbt"
# Of the repository to PREFIX/lib/dvbt, under the same names.
COPIED = [
    "VERSION", "bin/dvbt", "tools/builder/level.py", "tools/cell_tools/*.py", "tools/monitor/page.html",
    "python/*.*", "python/dvbt/*.py", "grc/*.yml",
    "dist/dvbt-x86-64-v?", "dist/SHA256SUMS", "examples/*.py", "examples/*.grc", "examples/sample.ts", "examples/settings/*.toml", "bench/gnuradio_receiver.py",
]
DOCUMENTS = ["CITATION.cff", "docs/use/*", "docs/build/*"]  # to PREFIX/share/doc/dvbt, without docs/
AT_THE_TOP = ["README.md", "CHANGELOG.md"]  # as well, with links to documents as they are placed there
LINKS = {
    "bin/dvbt": "../lib/dvbt/bin/dvbt",
    "bin/dvbt-cells": "../lib/dvbt/tools/cells.py",
    "share/dvbt/examples": "../../lib/dvbt/examples",
}


class Unready(Exception):
    """Why nothing can be installed."""


def check(top):
    """Refuses programs that are not of the sources as they stand; answers their checksum and the toolchain's line."""
    kept, now = program.read_sums(f"{top}/dist/SOURCES.sha256"), program.sums_of(top)
    if not kept or kept[1] != now:
        raise Unready("dist/ is not of these sources; tools/dist proves and builds it anew")
    for name, wanted in (program.read_sums(f"{top}/dist/SHA256SUMS") or ("", {"SHA256SUMS": ""}))[1].items():
        if program.sum_of(f"{top}/dist/{name}") != wanted:
            raise Unready(f"dist/{name} is not the file that dist/SHA256SUMS lists")
    return f"{program.sum_of_all(now)[:16]} ({len(now)} files)", kept[0]


class Tree:
    """A tree that is being installed: files below `folder`, which will be `prefix`."""

    def __init__(self, folder, prefix):
        self.folder, self.prefix, self.made = folder, prefix, []

    def place(self, name):
        path = os.path.join(self.folder, name)
        os.makedirs(os.path.dirname(path), exist_ok=True)
        if os.path.lexists(path):
            os.remove(path)
        self.made.append(name)
        return path

    def put(self, name, content, mode=0o644):
        """Writes a file."""
        path = self.place(name)
        with open(path, "wb") as file:
            file.write(content.encode() if isinstance(content, str) else content)
        os.chmod(path, mode)

    def copy(self, top, pattern, to):
        """Copies the files of the repository that a pattern names."""
        for path in sorted(glob.glob(f"{top}/{pattern}")):
            if os.path.isfile(path):
                with open(path, "rb") as file:
                    self.put(to(os.path.relpath(path, top)), file.read(), 0o755 if os.access(path, os.X_OK) else 0o644)


def text_of(path):
    with open(path, encoding="utf-8") as file:
        return file.read()


def lay(top, folder, prefix):
    """Lays out everything below `folder`; answers the names of the files."""
    sources, toolchain = check(top)
    version, tree = program.version(top), Tree(folder, prefix)
    shutil.rmtree(os.path.join(folder, LIBRARY), ignore_errors=True)
    for pattern in COPIED:
        tree.copy(top, pattern, lambda name: f"{LIBRARY}/{name}")
    for path in sorted(glob.glob(f"{top}/tools/installing/builder/*.py")):
        tree.put(f"{LIBRARY}/tools/builder/{os.path.basename(path)}", text_of(path))
    for path in sorted(glob.glob(f"{top}/tools/door/*.py")):
        tree.put(f"{LIBRARY}/tools/door/{os.path.basename(path)}", re.sub(r"(?<![\w/])bin/dvbt(?= )", "dvbt", text_of(path)))
    for path in sorted(glob.glob(f"{top}/tools/commands/*.py") + glob.glob(f"{top}/tools/monitor/*.py")):
        tree.put(f"{LIBRARY}/{os.path.relpath(path, top)}", pages.placed(text_of(path), prefix))
    tree.put(f"{LIBRARY}/tools/cells.py", pages.placed(text_of(f"{top}/tools/cells.py"), prefix), 0o755)
    tree.put(f"{LIBRARY}/SOURCES", f"{sources}\n")
    tree.put(f"{LIBRARY}/TOOLCHAIN", f"{toolchain}\n")
    for pattern in DOCUMENTS:
        tree.copy(top, pattern, lambda name: f"share/doc/dvbt/{name.removeprefix('docs/')}")
    for name in AT_THE_TOP:
        tree.put(f"share/doc/dvbt/{name}", text_of(f"{top}/{name}").replace("](docs/", "]("))
    for name, text in pages.pages(top, prefix, version).items():
        tree.put(f"share/man/man{name[-1]}/{name}", text)
    for name, text in completion.COMPLETIONS.items():
        tree.put(name, text())
    for name, target in LINKS.items():
        os.symlink(target, tree.place(name))
    tree.put(f"{LIBRARY}/INSTALLED", "".join(f"{it}\n" for it in sorted([*tree.made, f"{LIBRARY}/INSTALLED"])))
    return tree.made


def remove(folder):
    """Removes what INSTALLED lists, the compiled modules, and the folders that are empty then."""
    with open(os.path.join(folder, LIBRARY, "INSTALLED"), encoding="utf-8") as file:
        names = file.read().splitlines()
    for name in names:
        if os.path.lexists(os.path.join(folder, name)):
            os.remove(os.path.join(folder, name))
    shutil.rmtree(os.path.join(folder, LIBRARY), ignore_errors=True)
    for at in sorted({parent for name in names for parent in parents(name)}, key=len, reverse=True):
        try:
            os.rmdir(os.path.join(folder, at))
        except OSError:
            pass  # others have files in it


def parents(name):
    """The folders above a name."""
    while "/" in name:
        name = name.rsplit("/", 1)[0]
        yield name
