"""Markdown, as far as our documents use it, as a page of the manual (groff's man macros and tbl)."""
import re

FENCE = re.compile(r"```(\w*)$")
ROW = re.compile(r"\|(.*)\|$")
ITEM = re.compile(r"(?:- |(\d+)\. )(.*)")
WIDE = 22  # a column whose cells are longer is filled over several lines
LONG = 70  # a table of three columns or more with longer cells is a list


def page(name, section, summary, body, version, source="dvbt"):
    """A whole page: its header, NAME, and the body."""
    # one long page on a terminal, so that no table meets its end
    head = f"'\\\" t\n.TH {name.upper()} {section} \"\" \"{source} {version}\" \"DVB-T\"\n.if n .pl 2000v\n.nh\n.ad l\n.SH NAME\n"
    return f"{head}{escaped(name)} \\- {escaped(summary)}\n{body}"


def escaped(text, is_code=False):
    """A text with what groff would take for its own."""
    text = text.replace("\\", "\\e").replace("`", "\\(ga")
    text = text.replace("-", "\\-") if is_code else text
    return re.sub(r"(?m)^([.'])", r"\\&\1", text)


def inline(text):
    """A line of text: code and bold in bold, of links their text."""
    text = re.sub(r"!?\[([^\]]*)\]\([^)]*\)", r"\1", text)
    parts = re.split(r"(`[^`]+`|\*\*[^*]+\*\*)", text)
    return re.sub(r"^([.'])", r"\\&\1", "".join(map(part, parts)))


def part(text):
    if text[:1] == "`" and text[-1:] == "`" and len(text) > 2:
        return f"\\fB{escaped(text[1:-1], True)}\\fR"
    if text[:2] == "**" and text[-2:] == "**" and len(text) > 4:
        return f"\\fB{escaped(text[2:-2])}\\fR"
    return escaped(text).replace("\\&", "")


def literal(lines):
    """Lines as they stand, indented. Commands are broken behind each path of an example, as the shell takes them: these are long once
    they are installed."""
    parts = (re.sub(r"(examples/\S+) ", r"\1 \\\n    ", line) if re.match(r"(\$ )?(bin/dvbt|tools/)", line) else line for line in lines)
    shown = "\n".join(escaped(line, True) for line in parts)
    return f".PP\n.RS 4\n.nf\n{shown}\n.fi\n.RE\n"


def table(rows):
    """A table. The first row is its head."""
    rows = [[cell.strip() for cell in re.split(r"(?<!\\)\|", row)] for row in rows]
    columns = range(len(rows[0]))
    if len(columns) > 2 and max(len(cell) for row in rows for cell in row) > LONG:
        return "".join(entry(rows[0], row) for row in rows[1:])
    is_wide = [max(len(row[at]) for row in rows) > WIDE for at in columns]
    formats = " ".join("lx" if wide else "l" for wide in is_wide)
    out = f".PP\n.TS\ntab(\x07);\n{formats.replace('l', 'lB')}\n{formats}.\n"
    for row in rows:
        cells = [f"T{{\n{inline(cell)}\nT}}" if is_wide[at] else inline(cell) for at, cell in enumerate(row)]
        out += "\x07".join(cells) + "\n"
    return out + ".TE\n"


def entry(head, row):
    """A row of a table as an entry of a list, each of its cells after the head of its column."""
    cells = [f"{inline(name)}: {inline(cell)}" for name, cell in zip(head[1:], row[1:]) if cell]
    return f".TP\n{inline(row[0])}\n" + "\n.br\n".join(cells) + "\n"


def body(text, level=2):
    """The man macros of a document. Headings of `level` are sections, deeper ones subsections."""
    out, lines = [], text.split("\n")
    at = 0
    while at < len(lines):
        taken, made = block(lines, at, level)
        out.append(made)
        at += taken
    return "".join(out)


def block(lines, at, level):
    """The block that begins at a line: how many lines it has, and its macros."""
    line = lines[at]
    if not line.strip() or re.match(r"!\[[^\]]*\]\([^)]*\)$", line):
        return 1, ""
    if FENCE.match(line):
        end = lines.index("```", at + 1)
        return end + 1 - at, literal(lines[at + 1 : end])
    heading = re.match(r"(#+) (.*)", line)
    if heading:
        name = escaped(heading[2].replace("`", ""))
        return 1, f".SH {name.upper()}\n" if len(heading[1]) <= level else f".SS {name}\n"
    if line.startswith("    "):
        count = run(lines, at, lambda it: it.startswith("    ") or not it.strip())
        return count, literal([it[4:] for it in "\n".join(lines[at : at + count]).rstrip().split("\n")])
    if ROW.match(line):
        count = run(lines, at, ROW.match)
        rows = [ROW.match(it)[1] for it in lines[at : at + count]]
        return count, table(rows[:1] + rows[2:])
    item = ITEM.match(line)
    count = run(lines, at, lambda it: it.startswith("  ") and it.strip(), 1) if item else run(lines, at, is_text)
    words = " ".join(it.strip() for it in lines[at : at + count])
    if item:
        mark = f"{item[1]}." if item[1] else "\\(bu"
        return count, f".IP {mark} 4\n{inline(ITEM.match(words)[2])}\n"
    return count, f".PP\n{inline(words)}\n"


def is_text(line):
    return line.strip() and not (FENCE.match(line) or line.startswith(("#", "    ")) or ROW.match(line) or ITEM.match(line))


def run(lines, at, belongs, least=0):
    """How many lines from one on belong together; the first one does."""
    count = 1
    while at + count < len(lines) and belongs(lines[at + count]):
        count += 1
    return count


def sections(text, *names):
    """The sections of a document with these headings, in this order, each with its heading."""
    found = {part.split("\n", 1)[0]: f"## {part}" for part in re.split(r"(?m)^## ", text)[1:]}
    return "\n".join(found[name] for name in names)


def opening(text):
    """What a document has between its title and its first section."""
    return re.split(r"(?m)^## ", re.sub(r"\A# .*\n", "", text))[0]
