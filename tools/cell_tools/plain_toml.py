"""Reads plain TOML documents, for Python before 3.11, which has no tomllib.

It knows lines `key = value`, `[[table]]` and comments. A value is a string in quotes without a backslash, or a decimal integer.
Whatever else TOML has is refused with the number of its line.
"""
import re

LINE = re.compile(
    r"""[ \t]*(?:
    \[\[[ \t]*(?P<table>[\w-]+)[ \t]*\]\]
    | (?P<key>[\w-]+)[ \t]*=[ \t]*(?:"(?P<basic>[^"\\]*)"|'(?P<literal>[^']*)'|(?P<number>[+-]?(?:0|[1-9][0-9]*)))
    )?[ \t]*(?:\#.*)?\r?""",
    re.VERBOSE | re.ASCII,
)


def loads(text):
    """The document as a dictionary, as tomllib.loads gives it. A ValueError where it is no TOML, or not plain."""
    whole, tables = {}, {}
    here = whole
    for number, line in enumerate(text.split("\n"), 1):
        found = LINE.fullmatch(line)
        if not found:
            raise ValueError(f"line {number} is not plain: Python before 3.11 reads lines such as mode = \"2k\" alone")
        name = found["table"] or found["key"]
        if found["table"]:
            here = {}
            rows = tables.setdefault(name, [])
            if whole.setdefault(name, rows) is not rows:
                raise ValueError(f"line {number}: {name} stands twice")
            rows.append(here)
        elif name:
            if name in here:
                raise ValueError(f"line {number}: {name} stands twice")
            here[name] = int(found["number"]) if found["number"] else found["basic"] or found["literal"] or ""
    return whole
