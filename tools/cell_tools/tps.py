"""The TPS words of a transmission (EN 300 744, 4.6), by the standard library alone."""
import functools

# Carriers of the 2K mode; the 8K mode has them four times, 1704 apart (4.6).
TPS = [34, 50, 209, 346, 413, 569, 595, 688, 790, 901, 1073, 1219, 1262, 1286, 1469, 1594, 1687]
SYNC = ["0011010111101110", "1100101000010001"]  # frames 1 and 3, frames 2 and 4 (4.6)
RATES = ["1/2", "2/3", "3/4", "5/6", "7/8"]
VALUES = {  # of the settings, in the order of their numbers in TPS
    "constellation": ["qpsk", "16qam", "64qam"],
    "hierarchy": ["none", "1", "2", "4"],
    "rate_hp": RATES,
    "rate_lp": RATES,
    "guard": ["1/32", "1/16", "1/8", "1/4"],
    "mode": ["2k", "8k"],
}
PLACES = {  # the first and the last bit of each field
    "constellation": (25, 26),
    "hierarchy": (27, 29),
    "rate_hp": (30, 32),
    "rate_lp": (33, 35),
    "guard": (36, 37),
    "mode": (38, 39),
}


def tps_carriers(mode):
    """The TPS carriers of a mode, rising."""
    return [k + 1704 * j for j in range(1 if mode == "2k" else 4) for k in TPS]


def first_frame(votes):
    """The first symbol of a frame and its word, within two wrong bits, its fields valid or not. None if there is none."""
    for start in range(len(votes) - 67):
        found = corrected(votes[start + 1 : start + 68])
        if found and found[0][:16] == SYNC[field(found[0], 23, 24) % 2]:
            return start, found[0]
    return None


def bch_rest(bits):
    """What is left of the word, s1 the highest coefficient, after division by the generator of the TPS code (4.6)."""
    rest = int(bits, 2)
    for degree in range(66, 13, -1):
        if rest >> degree & 1:
            rest ^= 0b100001101110111 << degree - 14
    return rest


def field(bits, first, last):
    """Bits s_first to s_last as a number."""
    return int(bits[first - 1 : last], 2)


def fields_of(bits):
    """The fields of s1 to s67 as a dictionary of texts, `?` and the number where a value is reserved."""
    found = {}
    for key, (first, last) in PLACES.items():
        value, values = field(bits, first, last), VALUES[key]
        found[key] = values[value] if value < len(values) else f"?{value}"
    return found


def differences(bits, found, settings):
    """The keys of the settings that the fields contradict."""
    told = dict(settings)
    if settings["hierarchy"] == "none":
        told["rate_lp"] = "1/2"  # sent as 000
    wrong = [key for key in PLACES if found[key] != told[key]]
    cell = settings.get("cell_id")
    length = 23 if cell is None else 31
    byte = 0 if cell is None else cell >> 8 if field(bits, 23, 24) % 2 == 0 else cell & 255
    if field(bits, 17, 22) != length or field(bits, 40, 47) != byte:
        wrong.append("cell_id")
    return wrong


@functools.lru_cache(None)
def one_or_two():
    """Which bits are wrong if one is or two are, by what is left of the word."""
    alone = {place: bch_rest("".join("1" if i == place else "0" for i in range(67))) for place in range(67)}
    found = {rest: (place,) for place, rest in alone.items()}
    return found | {alone[a] ^ alone[b]: (a, b) for a in range(67) for b in range(a)}


def corrected(bits):
    """The word of the code within two bits of s1 to s67 and how many were wrong, or None."""
    rest = bch_rest(bits)
    places = one_or_two().get(rest) if rest else ()
    if places is None:
        return None
    return "".join("10"[int(bit)] if place in places else bit for place, bit in enumerate(bits)), len(places)


def why_unfit(word):
    """Why a word of the code is none that 4.6 has, or None if it is one."""
    found, length = fields_of(word), field(word, 17, 22)
    is_flat = found["hierarchy"] == "none"
    reasons = {
        "no synchronisation word": word[:16] != SYNC[field(word, 23, 24) % 2],
        f"the length indicator {length}, in place of 23 or 31 (DVB-H has 33)": length not in (23, 31),
        "the 4K mode or a reserved one": found["mode"].startswith("?"),
        "a reserved value": any(value.startswith("?") for value in found.values()),
        "QPSK with a hierarchy": not is_flat and found["constellation"] == "qpsk",
        "an LP rate without a hierarchy, as GNU Radio's example sends": is_flat and word[32:35] != "000",
        "a cell identifier that its length indicator leaves out": length == 23 and word[39:47] != "00000000",
        "reserved bits other than 0 (DVB-H uses two of them)": word[47:53] != "000000",
    }
    return next((reason for reason, holds in reasons.items() if holds), None)


def read_word(bits):
    """The word of the code within two bits of s1 to s67 and how many were wrong, or None; its fields are ones that can be sent."""
    found = corrected(bits)
    return found if found and not why_unfit(found[0]) else None


def cell_id_of(votes):
    """The cell identifier that two frames in a row announce (4.6.2), or None. `votes` are the TPS bits of 136 symbols, the first of a frame."""
    words = [read_word(votes[at + 1 : at + 68]) for at in (0, 68)]
    if not all(words) or any(field(it[0], 17, 22) != 31 for it in words):
        return None
    bytes_of = {field(it[0], 23, 24) % 2: field(it[0], 40, 47) for it in words}
    return 256 * bytes_of[0] + bytes_of[1] if len(bytes_of) == 2 else None
