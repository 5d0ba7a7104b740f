"""What the beginning of a cell file shows, by the standard library alone: bin/dvbt says by it what a run is worth."""
from struct import unpack_from

from cell_tools.settings import settings_in
from cell_tools.tps import differences, field, fields_of, first_frame, tps_carriers, why_unfit

SYMBOLS = 2 * 68  # what is looked at: a whole frame is among them, whichever the first one is
BYTES = {"2k": 8 + SYMBOLS * 5 * 1705, "8k": 8 + SYMBOLS * 5 * 6817}
NAMES = {"qpsk": "QPSK", "16qam": "16-QAM", "64qam": "64-QAM"}


def votes_in(begin, mode, header=8, width=5):
    """The bit of each whole symbol, by 17 TPS carriers of it and the symbol before (4.6.1); the first one counts as 0."""
    size, before, votes = width * (1705 if mode == "2k" else 6817), [], ""
    places = [width * k for k in tps_carriers(mode)[:: 1 if mode == "2k" else 4]]
    for start in range(header, len(begin) - size + 1, size)[:SYMBOLS]:
        cells = [unpack_from(">hh", begin, start + place) for place in places]
        votes += "01"[sum(a * c + b * d for (a, b), (c, d) in zip(cells, before)) < 0]
        before = cells
    return votes


def is_version_1(begin, size):
    """Whether a file without a header has cells of four bytes: whole symbols of them, or a TPS word."""
    frames = (first_frame(votes_in(begin, mode, 0, 4)) for mode in ("2k", "8k"))
    return size % (4 * 1705) == 0 or size % (4 * 6817) == 0 or any(frames)


def against(begin, settings, command):
    """What speaks against cells that a command reads: zeros, no frame, a wrong place, parameters that the settings contradict."""
    votes = votes_in(begin, settings["mode"])
    frame = first_frame(votes)
    yield from silent(begin)
    if frame is None and len(votes) == SYMBOLS and command != "receive":  # which counts TPS words itself
        yield "no TPS word can be read"
    if frame:
        yield from misplaced(*frame)
        yield from contradicted(frame[1], settings) if command != "equalise" else ()


def has_frame(begin, mode):
    """Whether a TPS word can be read."""
    return first_frame(votes_in(begin, mode)) is not None


def silent(begin):
    """Says of cells or weights that all are 0."""
    if len(begin) > 8 and not any(begin[12:9000:5]) and not any(begin[12::5]):
        yield "all weights are 0, so no cell counts"
    if len(begin) > 8 and not any(any(begin[part:9000:5]) or any(begin[part::5]) for part in range(8, 12)):
        yield "all cells are 0"


def misplaced(start, word):
    """Says that the cells do not begin at a super-frame."""
    frame = field(word, 23, 24) + 1
    if start % 68 or start // 68 % 4 != frame - 1:
        yield f"does not begin at a super-frame: symbol {start} is the first of frame {frame} (align writes the cells from the next one on)"


def contradicted(word, settings):
    """Says which parameters the signal announces and the settings contradict (4.6.2)."""
    if why_unfit(word):
        yield f"its TPS word has {why_unfit(word)}"
        return
    own, length = settings_in(settings, 1), field(word, 17, 22)
    announced = {**fields_of(word), "cell_id": "none" if length == 23 else "other"}
    wrong = [key for key in differences(word, announced, own) if key != "cell_id" or "cell_id" in own]
    if wrong:
        yield f"TPS says {named(announced, wrong)}, the settings say {named(own, wrong)}"


def named(values, wrong):
    """Parameters as an engineer names them: those that are wrong, constellation and rates together."""
    said = [f"{key} {values[key]}" for key in ("guard", "mode", "cell_id") if key in wrong]
    if len(wrong) == len(said):
        return ", ".join(said)
    is_flat = values["hierarchy"] == "none"
    rates = values["rate_hp"] if is_flat else f"{values['rate_hp']} and {values['rate_lp']}, hierarchy {values['hierarchy']}"
    return ", ".join([f"{NAMES[values['constellation']]} {rates}", *said])


def why_no_frame(begin):
    """Why `tune` found no frame, as far as these bytes show it."""
    votes = votes_in(begin, "8k" if begin[5:6] == b"\1" else "2k")
    start, word = first_frame(votes) or (0, None)
    if word and why_unfit(word):
        return f"the TPS word of the frame at symbol {start} has {why_unfit(word)}"
    if begin and len(votes) < 68:
        return f"{len(votes)} whole symbols, and a frame has 68"
    causes = "noise, cells of the other mode, TPS bits of DVB-H or of the 4K mode, or an LP rate without a hierarchy"
    return next(silent(begin), f"likely causes: {causes} (GNU Radio's example sends one)")
