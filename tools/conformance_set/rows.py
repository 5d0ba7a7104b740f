"""The rows of the set: their settings, their transport streams, and the table in which they stand."""
import itertools

from cell_tools.tps import RATES, VALUES

BITS = {"qpsk": 2, "16qam": 4, "64qam": 6}  # of a label
PAYLOAD = {"2k": 1512, "8k": 6048}  # carriers
CELL_IDS = [None, 0, 1, 255, 256, 4660, 43981, 65535]
START_UP = 11  # words that the outer interleaver's delay lines hold at first
PLANS = [  # the first parameters, and entries: the first super-frame, then constellation, hierarchy and rates
    ("qpsk none 1/2", "1 16qam 4 1/2 3/4"),
    ("16qam 4 1/2 3/4", "1 qpsk none 1/2", "3 16qam 4 1/2 3/4"),
    ("64qam none 2/3", "1 64qam 2 2/3 3/4", "2 64qam none 7/8"),
    ("64qam 1 3/4 7/8", "2 16qam 1 3/4 7/8", "3 16qam none 3/4"),
    ("16qam none 5/6", "1 qpsk none 5/6", "2 64qam none 5/6"),
    ("16qam 2 2/3 1/2", "1 16qam none 2/3", "2 16qam 2 2/3 1/2", "3 16qam none 2/3"),
]


def settings_rows():
    """The settings of the rows: each mode, constellation, hierarchy and rates. Guard interval and cell identifier go round."""
    numbers = itertools.count()
    for mode in VALUES["mode"]:
        for constellation, hierarchy in itertools.product(VALUES["constellation"], VALUES["hierarchy"]):
            if constellation == "qpsk" and hierarchy != "none":
                continue
            for rates in itertools.product(RATES, RATES if hierarchy != "none" else [None]):
                yield settings(next(numbers), mode, constellation, hierarchy, *rates)
    for mode in VALUES["mode"]:
        for first, *entries in PLANS:
            constellation, hierarchy, *rates = first.split()
            found = settings(next(numbers), mode, constellation, hierarchy, *rates, *[None] * (2 - len(rates)))
            yield found | {"plan": [entry(text) for text in entries]}


def settings(number, mode, constellation, hierarchy, rate_hp, rate_lp):
    """The settings of row `number`."""
    found = {"mode": mode, "constellation": constellation, "hierarchy": hierarchy, "rate_hp": rate_hp, "rate_lp": rate_lp}
    # a step of 5 in 8 and of 1 in 4 meets every pair of the two within 8 rows
    found["guard"] = VALUES["guard"][(number + number // 8) % 4]
    found["cell_id"] = CELL_IDS[5 * number % 8]
    return {key: value for key, value in found.items() if value is not None}


def entry(text):
    """An entry of a plan."""
    after, constellation, hierarchy, *rates = text.split()
    found = {"after": int(after), "constellation": constellation, "hierarchy": hierarchy}
    return found | dict(zip(("rate_hp", "rate_lp"), rates))


def super_frames(found):
    """The super-frames that a row sends: one, or one more than the last entry of its plan."""
    return 1 + max((entry["after"] for entry in found.get("plan", [])), default=0)


def in_super_frame(found, number):
    """The parameters of a super-frame."""
    return [found, *(entry for entry in found.get("plan", []) if entry["after"] <= number)][-1]


def words(parameters, mode, stream):
    """Outer words of a stream in a super-frame (EN 300 744, 4.7)."""
    bits = BITS[parameters["constellation"]]
    if parameters["hierarchy"] != "none":
        bits = 2 if stream == "hp" else bits - 2
    elif stream == "lp":
        return 0
    over, under = map(int, parameters[f"rate_{stream}"].split("/"))
    return SUPER_FRAME * PAYLOAD[mode] * bits * over // under // 1632


SUPER_FRAME = 272


def counts(found):
    """Packets of each stream that exists: as many as these super-frames carry, without the words of the start-up."""
    frames = [in_super_frame(found, number) for number in range(super_frames(found))]
    every = {stream: sum(words(frame, found["mode"], stream) for frame in frames) for stream in ("hp", "lp")}
    return {stream: count - START_UP for stream, count in every.items() if count}


def document(found):
    """The settings document of a row."""
    lines = [f"{key} = {toml(value)}" for key, value in found.items() if key != "plan"]
    for entry in found.get("plan", []):
        lines += ["", "[[plan]]", *(f"{key} = {toml(value)}" for key, value in entry.items())]
    return "\n".join(lines) + "\n"


def toml(value):
    """A number or a text as TOML writes it."""
    return str(value) if isinstance(value, int) else f'"{value}"'


def plan_text(found):
    """The plan of a row in one field."""
    return "; ".join(" ".join(str(value) for value in entry.values()) for entry in found.get("plan", [])) or "-"


def from_fields(fields):
    """The settings of a row as the table has them."""
    keys = ("mode", "constellation", "hierarchy", "rate_hp", "rate_lp", "guard", "cell_id")
    found = {key: fields[key] for key in keys if fields[key] != "-"}
    if "cell_id" in found:
        found["cell_id"] = int(found["cell_id"])
    if fields.get("plan", "-") != "-":
        found["plan"] = [entry(text) for text in fields["plan"].split("; ")]
    return found
