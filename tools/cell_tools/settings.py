"""The settings document (docs/use/SETTINGS.md) by the standard library alone: bin/dvbt explains by it, without numpy."""
import re

from cell_tools import plain_toml
from cell_tools.kinds import kind_in
from cell_tools.tps import VALUES

NUMBERS = {"cell_id": (0, 65535), "workers": (1, 16), "max_symbols": (1, 4294967295), "after": (1, 4294967295)}
WORDS = VALUES | {"start": ["zero", "any"]}
KEYS = ["mode", "constellation", "hierarchy", "rate_hp", "rate_lp", "guard", "cell_id", "start", "workers", "max_symbols", "plan"]
NEEDED = ["mode", "constellation", "rate_hp", "guard"]
ABSENT = {"hierarchy": "none", "start": "zero", "workers": 1, "max_symbols": 1000000, "plan": []}
LONGEST = 65536  # bytes of a document
OF_ENTRY = ["after", "constellation", "hierarchy", "rate_hp", "rate_lp"]


class Unfit(Exception):
    """What keeps a command from its work, in words for its user; the status, which is dvbt's for the same cause, and the file."""

    def __init__(self, why, status=9, path=None):
        super().__init__(why)
        self.status, self.path = status, path


def read_settings(path):
    """The settings document as a dictionary. What `dvbt` rejects (docs/use/SETTINGS.md) is rejected, with the line that it prints."""
    try:
        with open(path, "rb") as file:
            content = file.read(LONGEST + 1)
    except OSError as error:
        raise Unfit(f"{path or 'SETTINGS'} can't be read as SETTINGS: {error.strerror if path else 'its name is empty'}", 5, path) from None
    if kind_in(content):
        raise Unfit(f"{path} looks like {kind_in(content)}: SETTINGS comes first", 3, path)
    refusal = refusal_of(content)
    if refusal:
        raise Unfit(f"{path}: settings {refusal}: it {why_rejected(content, refusal)}", 3, path)
    return ABSENT | document(content)


def refusal_of(content):
    """What `dvbt` prints after `settings` as it rejects a document, or None if it takes it."""
    if len(content) > LONGEST:
        return "too long"
    try:
        found = document(content)
    except (ValueError, RecursionError):
        return "not toml"
    for place, key in enumerate(sorted(found, key=str.encode)):
        if key not in KEYS:
            return f"unknown {place}"
    for key in KEYS:
        if key not in found and key in NEEDED:
            return f"missing {key}"
        if key in found and not is_value(key, found[key]):
            return f"value {key}"
    reason = clash(ABSENT | found)
    return reason and f"clash {reason.partition(':')[0]}"


def document(content):
    """The document in these bytes. ValueError or RecursionError if Python's reader rejects it (before 3.11 it has none)."""
    text = in_toml_1_0(content.decode("utf-8-sig"))
    try:
        return plain_toml.loads(text)  # in a fifth of the time that the other takes to be loaded
    except ValueError as error:
        try:
            import tomllib
        except ImportError:
            raise error from None
    return tomllib.loads(text)


def in_toml_1_0(text):
    r"""The text with the escapes that TOML 1.1 added (`\x32`, `\e`) as 1.0 writes them: Python's reader knows no others."""

    def written(found):
        if len(found[1]) == 3:
            return "\\u00" + found[1][1:]
        return "\\u001b" if found[1] == "e" else found[0]

    return re.sub(r"(?s)\\(x[0-9A-Fa-f]{2}|.)", written, text)


def clash(settings):
    """Why parameters do not fit one another, or None."""
    if settings["constellation"] == "qpsk" and settings["hierarchy"] != "none":
        return "hierarchy: QPSK has none"
    if ("rate_lp" in settings) == (settings["hierarchy"] == "none"):
        return "rate_lp: it stands exactly with a hierarchy"
    return None


def is_value(key, value):
    """Whether a key may have this value."""
    if key == "plan":
        is_list = type(value) is list and 1 <= len(value) <= 16 and not any(map(why_no_entry, value))
        return is_list and all(a["after"] < b["after"] for a, b in zip(value, value[1:]))
    if key in NUMBERS:
        least, most = NUMBERS[key]
        return type(value) is int and least <= value <= most
    return type(value) is str and value in WORDS[key]


def why_no_entry(found):
    """Why this is no entry of a plan, or None if it is one."""
    if type(found) is not dict:
        return "is no table"
    for key in ("after", "constellation", "rate_hp"):
        if key not in found:
            return f"lacks {key}"
    for key, value in found.items():
        if key not in OF_ENTRY:
            return f"has {key!r}; its keys are {', '.join(OF_ENTRY)}"
        if not is_value(key, value):
            return f"has {told(key, value)}"
    reason = clash({"hierarchy": "none"} | found)
    return reason and f"has a wrong {reason}"


def settings_in(settings, super_frame):
    """The settings with the parameters of a super-frame, from 0 (docs/use/SETTINGS.md, plans)."""
    begun = [entry for entry in settings["plan"] if entry["after"] <= super_frame]
    if not begun:
        return settings
    return {key: value for key, value in settings.items() if key not in OF_ENTRY} | {"hierarchy": "none"} | begun[-1]


# Why dvbt rejects a document, in words


def why_rejected(content, refusal):
    """Why `dvbt` rejects these settings. `refusal` is what it prints after `settings`: `too long`, `unknown 1`, `value guard`."""
    kind, key = (refusal.split() + ["", ""])[:2]
    try:
        found, reason = document(content), ""
    except (ValueError, RecursionError) as error:
        found, reason = {}, "its values are nested too deeply" if isinstance(error, RecursionError) else str(error)
    if kind == "too":
        return "has more than 65,536 bytes"
    if kind == "not":
        return f"is not TOML{': ' * bool(reason)}{reason}{unquoted(content)}"
    if kind == "unknown":
        return f"has {unknown(sorted(found, key=str.encode), key)}"
    if kind == "missing":
        return f"lacks {key}, which is {allowed(key)}"
    if kind == "value" and key in found:
        return why_no_plan(found[key]) if key == "plan" else f"has {told(key, found[key])}"
    if kind == "clash" and key == "hierarchy":
        return "has QPSK with a hierarchy; only 16-QAM and 64-QAM have one"
    if kind == "clash":
        either = "has rate_lp without a hierarchy", "has a hierarchy without rate_lp"
        return either["rate_lp" not in found] if found else ", or ".join(either)
    return f"has a wrong value of {key}, which is {allowed(key)}"


def why_no_plan(plan):
    """What is wrong with a plan: the first table that is no entry, or their order."""
    tables = enumerate(plan, 1) if type(plan) is list and 1 <= len(plan) <= 16 else []
    reasons = [f"has a plan whose table {number} {why_no_entry(it)}" for number, it in tables if why_no_entry(it)]
    return reasons[0] if reasons else f"has a wrong plan; it is {allowed('plan')}"


def allowed(key):
    """What a key may be, in words."""
    if key == "plan":
        return "1 to 16 tables, and `after` rises from each to the next"
    if key in NUMBERS:
        return "a whole number from {} to {}".format(*NUMBERS[key])
    texts = [f'"{text}"' for text in WORDS.get(key, ["?"])]
    return " or ".join(filter(None, [", ".join(texts[:-1]), texts[-1]]))


def told(key, value):
    """A key with its value, and what it may be; quotes that lack or are too many are named."""
    import json

    wrong = " in quotes" if key in NUMBERS and type(value) is str else ""
    wrong = " without quotes" if key in WORDS and type(value) in (int, float) else wrong
    return f"{key} = {json.dumps(value, default=str, ensure_ascii=False)}{wrong}; it is {allowed(key)}"


def unknown(keys, number):
    """Names the key that has this number among the sorted keys of a document, and one that is like it."""
    if not number.isdigit() or int(number) >= len(keys):
        return f"an unknown key, number {number} of its sorted keys, from 0 (by Python the file can't be read again, so it has no name)"
    import difflib

    near = difflib.get_close_matches(keys[int(number)].lower(), KEYS, 2)
    return f"the unknown key {keys[int(number)]!r}; {'did you mean' if near else 'the keys are'} {', '.join(near or KEYS)}"


def unquoted(content):
    """Names a text that lacks its quotes."""
    found = re.search(rb"(?mi)=[ \t]*([28]k|qpsk|\d*-?qam|\d/\d+|none|any|zero)[ \t]*(#.*)?\r?$", content)
    return f". Put {found[1].decode()} in quotes" if found else ""
