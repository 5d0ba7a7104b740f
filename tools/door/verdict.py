"""What a run of status 0 is worth: one line on standard error if there is something to say."""
from cell_tools.kinds import EIGHT, sync_in
from door.explain import document_of, piece


def of(form, facts):
    """The verdict on a run of status 0 by the values of its report, empty if all is well."""
    return "; ".join(text for check in CHECKS.get(form.command, []) for text in check(form, facts))


def packets(form, facts):
    """Transport files that end within a packet, have none, or have nearly the most."""
    for stream, path in form.inputs:
        number, left = facts.get(stream, {}).get("packets", 1), facts.get(stream, {}).get("tail", 0)
        if left:
            yield f"{path} ends within a packet: its last {left} bytes were left out (a truncated file?)"
        elif number == 0:
            yield f"{path} has no packets"
        if number > 90_000_000:
            yield f"{path} has {number:,} packets; one run takes at most 100,000,000"


def symbols(form, facts):
    """Cells that end within a symbol or have none, and nearly as many symbols as the limit."""
    if facts.get("symbols") == 0 and "hp" not in facts:
        which = " from the next super-frame on" if "tune" in facts else ""
        yield f"{form.of('cells')[0]} has no whole symbol{which}"
    elif facts.get("tail"):
        yield f"{form.of('cells')[0]} ends within a symbol: its last {facts['tail']} bytes were left out (a truncated file?)"
    number, settings = facts.get("symbols", 272 * facts.get("superframes", 0)), settings_of(form)
    if "tune" in facts:
        number += facts["tune"]["at"] + 68 * (5 - facts["tune"]["frame"])
    if settings and number > 0.9 * settings["max_symbols"]:
        yield f"{number:,} symbols, and max_symbols is {settings['max_symbols']:,}: a longer run ends with status 8"


def reception(form, facts):
    """Streams of which nothing or not all was received."""
    streams = {stream: facts[stream] for stream in ("hp", "lp") if facts.get(stream, {}).get("words")}
    if "hp" in facts and not streams:
        which = " from the next super-frame on, where tune begins," if "tune" in facts else ""
        yield f"no reception: {facts.get('symbols', 0)} symbols{which} are too few"
    lost = [stream for stream, counts in streams.items() if counts["words"] in (counts["bad"], counts["unphased"])]
    for stream, counts in streams.items():
        of, bad, unphased = f"of {counts['words']} words of {stream.upper()}", counts["bad"], counts["unphased"]
        if stream in lost:
            yield f"no reception: {bad} {of} are bad, {unphased} unphased"
        elif bad:
            yield f"{bad} {of} are bad, {100 * bad / counts['words']:.2g} in a hundred"
        if stream not in lost and unphased > 7:
            yield f"{unphased} {of} are unphased, before the first group of eight, and gave no packets"
    tps = facts.get("tps", {"bad": 0})
    if tps["bad"]:
        yield f"{tps['bad']} of {tps['read'] + tps['bad']} TPS words can't be read"


def signal(form, facts):
    """What the beginning of the cells shows."""
    from cell_tools import beginning

    path, settings = form.of("cells")[0], settings_of(form)
    begin = piece(path, 0, beginning.BYTES[settings["mode"]]) if settings else b""
    said = ", ".join(beginning.against(begin, settings, form.command)) if begin else ""
    if begin and not said and is_lost(facts) and beginning.has_frame(begin, settings["mode"]):
        said = "its TPS fits the settings; likely causes: noise, or the gain of a channel, which track removes"
    yield from [f"{path}: {said}"] if said else []


def is_lost(facts):
    """Whether all words of a stream are bad."""
    streams = [facts[stream] for stream in ("hp", "lp") if facts.get(stream, {}).get("words")]
    return any(counts["words"] == counts["bad"] for counts in streams)


def written(form, facts):
    """Zeros in what was written, or cells that were made of a header or of packets."""
    from cell_tools import beginning

    if form.command == "upgrade" and sync_in(piece(form.of("cells")[0], 0, EIGHT))[0]:
        yield f"{form.of('cells')[0]} looks like a transport file, so {form.outputs[0]} holds no cells of use"
    begin = piece(form.outputs[0], 0, beginning.BYTES["2k"])
    said = ["its cells are wrong: OLD was of version 2 already"] if begin[8:12] == b"DVTC" else beginning.silent(begin)
    yield from (f"{form.outputs[0]}: {text}" for text in said)


def settings_of(form):
    """The settings with what is absent; empty if Python's reader rejects them."""
    from cell_tools import settings

    document = document_of(form.settings)
    return document and settings.ABSENT | document


CHECKS = {
    "modulate": [packets, symbols],
    "disperse": [packets],
    "outer": [packets],
    "inner": [packets],
    "receive": [reception, signal, symbols],
    "rescue": [reception, signal, symbols],
    "tune": [reception, symbols],
    "align": [written, symbols],
    "measure": [reception, signal, symbols],
    "upgrade": [written, symbols],
    "equalise": [signal, written, symbols],
    "track": [signal, written, symbols],
}
