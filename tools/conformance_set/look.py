"""What differs between two cell files of one row, in words."""
from conformance_set.layers import FRAME, HEADER, SUPER_FRAME, WIDTH, Symbols
from conformance_set.rows import in_super_frame

# Bits of an axis, from the greatest level to the least: the sign, then as many as the constellation has (EN 300 744, 4.3.5).
AXES = {"qpsk": ["0", "1"], "16qam": ["00", "01", "11", "10"]}
AXES["64qam"] = ["000", "001", "011", "010", "110", "111", "101", "100"]


def in_words(row):
    """The settings of a row in a few words."""
    keys = ("mode", "constellation", "hierarchy", "rate_hp", "rate_lp", "guard", "cell_id")
    text = " ".join(row[key] for key in keys if row[key] not in ("-", "none"))
    return text + (f", plan {row['plan']}" if row["plan"] != "-" else "")


def difference(found, content, expected):
    """What differs first between a file and the expected one."""
    symbols = Symbols(found["mode"])
    if content[:HEADER] != expected[:HEADER]:
        return f"the header is {content[:HEADER].hex()}, not {expected[:HEADER].hex()}"
    if len(content) != len(expected):
        return f"{symbols.count(content)} symbols, not {symbols.count(expected)}"
    places = [at for at in range(HEADER, len(content), WIDTH) if content[at : at + WIDTH] != expected[at : at + WIDTH]]
    cells = [divmod((at - HEADER) // WIDTH, symbols.carriers) for at in places]
    if not cells:
        return "nothing differs from the cells of the program, so those differ from the table as well"
    symbol, carrier = cells[0]
    text = f"{len(cells)} cell{'s' if len(cells) > 1 else ''}, the first in symbol {symbol} at carrier {carrier}, {kind(symbols, symbol, carrier)}"
    if all(content[at : at + 4] == expected[at : at + 4] for at in places):
        return f"{text}; only weights differ"
    of_data_cells = [set(symbols.data_places(phase)) for phase in range(4)]
    data = [cell for cell in cells if cell[1] in of_data_cells[cell[0] % 4]]
    return text + (f"; {of_data(found, symbols, data, content, expected)}" if data and len(data) == len(cells) else "")


def kind(symbols, symbol, carrier):
    """What a carrier is for, in words."""
    if carrier in symbols.tps:
        return f"a TPS carrier (bit {symbol % FRAME} of its frame)"
    if carrier in symbols.data_places(symbol):
        return "a data cell"
    return "a continual pilot" if carrier in symbols.continual else "a scattered pilot"


def of_data(found, symbols, cells, content, expected):
    """What is wrong with data cells: their order, their labels, or their values."""
    of_one = [at for symbol, at in cells if symbol == cells[0][0]]
    values = [[value_at(symbols, file, cells[0][0], carrier) for carrier in of_one] for file in (content, expected)]
    if len(of_one) > 1 and sorted(values[0]) == sorted(values[1]):
        return f"the cells of symbol {cells[0][0]} stand in another order (symbol interleaver)"
    constellation = in_super_frame(found, cells[0][0] // SUPER_FRAME)["constellation"]
    wrong = [labels_differ(constellation, symbols, expected, *cell, content) for cell in cells[:100]]
    if None in wrong:
        return "values that are no points of the constellation (levels)"
    bits = sorted({bit for one in wrong for bit in one})
    return f"label bit{'s' if len(bits) > 1 else ''} {', '.join(f'y{bit}' for bit in bits)} (bit interleaver or mapping)"


def value_at(symbols, content, symbol, carrier):
    """The parts of a cell."""
    at = symbols.start(symbol) + WIDTH * carrier
    return tuple(int.from_bytes(content[i : i + 2], "big", signed=True) for i in (at, at + 2))


def labels_differ(constellation, symbols, expected, symbol, carrier, content):
    """The bits of the label in which a data cell differs, or None if it is no point of the symbol's constellation."""
    levels = sorted({part for at in symbols.data_places(symbol) for part in value_at(symbols, expected, symbol, at)}, reverse=True)
    axis = dict(zip(levels, AXES[constellation]))
    ours, theirs = value_at(symbols, content, symbol, carrier), value_at(symbols, expected, symbol, carrier)
    if len(levels) != len(AXES[constellation]) or any(part not in axis for part in ours):
        return None
    return [2 * bit + part for part in (0, 1) for bit, (a, b) in enumerate(zip(axis[ours[part]], axis[theirs[part]])) if a != b]
