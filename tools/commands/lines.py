"""The lines of a report, and the values that they have. docs/use/JSON.md says the same."""

COUNTS = "clean {clean} corrected {corrected} bad {bad} unphased {unphased} unmerged {unmerged}"
TPS = "tps read {tps_read} bad {tps_bad}"
# Each line of a report, and the object that takes its values. `S` is hp or lp. Several lines `S+` make a list of each value.
# A line `live` is an object of its own, printed at once. Values are numbers but for TEXTS.
TEXTS = {"key", "constellation", "hierarchy", "rate_hp", "rate_lp", "guard"}
ROWS = (
    ("symbols {symbols} tail {tail}", ""),
    ("superframes {superframes}", ""),
    ("cells {cells}", ""),
    ("tps read {read} bad {bad}", "tps"),
    ("tune at {at} frame {frame}", "tune"),
    ("announced constellation {constellation} hierarchy {hierarchy} rate_hp {rate_hp} guard {guard}", "announced"),
    ("announced constellation {constellation} hierarchy {hierarchy} rate_hp {rate_hp} rate_lp {rate_lp} guard {guard}", "announced"),
    ("S packets {packets} tail {tail}", "S"),
    ("S packets {packets} back {back} sum {sum}", "S"),
    (f"S words {{words}} {COUNTS}", "S"),
    ("S words {words} clean {clean} corrected {corrected} rescued {rescued} bad {bad} unphased {unphased} unmerged {unmerged}", "S"),
    ("S unmerged at {unmerged_at}", "S+"),
    (f"superframe {{superframe}} symbols {{symbols}} cells {{cells}} muted {{muted}} power {{power}} error {{error}} {TPS}", "live"),
    (f"S bits {{bits}} wrong {{wrong}} words {{words}} {COUNTS} repaired {{repaired}}", "live"),
    ("usage", "refusal"),
    ("settings too long", "refusal"),
    ("settings not toml", "refusal"),
    ("settings unknown {index}", "refusal"),
    ("settings missing {key}", "refusal"),
    ("settings value {key}", "refusal"),
    ("settings clash {key}", "refusal"),
    ("settings form", "refusal"),
    ("S packet {packet}", "refusal"),
    ("read fault", "refusal"),
    ("write fault", "refusal"),
    ("memory", "refusal"),
    ("limit {limit}", "refusal"),
    ("cells header", "refusal"),
    ("tune none", "refusal"),
    ("tune form", "refusal"),
)


def values_of(row, line):
    """The values of a line by name if it has the form of the row, else None."""
    names, words, found = row.split(), line.split(), {}
    for name, word in zip(names, words):
        value = name.strip("{}")
        if name == "S" and word in ("hp", "lp"):
            found["stream"] = word
        elif name != value and (value in TEXTS or word.isdecimal()):
            found[value] = word if value in TEXTS else int(word)
        elif name != word:
            return None
    return found if len(names) == len(words) else None


def parsed(line):
    """The object that takes the values of a line, and these by name. A line of no such form is a value of its own."""
    return next(((place, it) for row, place in ROWS if (it := values_of(row, line)) is not None), ("+", {"lines": line}))


def add(found, place, values):
    """Adds the values of a line to those of a report."""
    into = found if place in ("", "+") else found.setdefault(values.pop("stream", place), {})
    for name, value in values.items():
        into[name] = [*into.get(name, []), value] if place.endswith("+") else value


def facts_of(lines):
    """The values of a report: those of a stream or the like by its name first."""
    found = {}
    for place, values in map(parsed, lines):
        if place not in ("live", "refusal"):
            add(found, place, values)
    return found
