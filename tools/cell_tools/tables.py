"""Tables of the standard (EN 300 744), by the standard library alone."""

# Carriers of the 2K mode; the 8K mode has them four times, 1704 apart (4.5.4).
CONTINUAL = [
    0, 48, 54, 87, 141, 156, 192, 201, 255, 279, 282, 333, 432, 450, 483, 525, 531, 618, 636, 714, 759, 765, 780,
    804, 873, 888, 918, 939, 942, 969, 984, 1050, 1101, 1107, 1110, 1137, 1140, 1146, 1206, 1269, 1323, 1377, 1491,
    1683, 1704,
]

# Magnitudes on an axis from the innermost to the outermost, before the division by the root (4.3.5).
LEVELS = {
    ("qpsk", "none"): ([1], 2),
    ("16qam", "none"): ([1, 3], 10),
    ("16qam", "1"): ([1, 3], 10),
    ("16qam", "2"): ([2, 4], 20),
    ("16qam", "4"): ([4, 6], 52),
    ("64qam", "none"): ([1, 3, 5, 7], 42),
    ("64qam", "1"): ([1, 3, 5, 7], 42),
    ("64qam", "2"): ([2, 4, 6, 8], 60),
    ("64qam", "4"): ([4, 6, 8, 10], 108),
}


def continual_carriers(mode):
    """The carriers of the continual pilots of a mode, rising."""
    return sorted({k + 1704 * j for j in range(1 if mode == "2k" else 4) for k in CONTINUAL})


def reference_signs(mode):
    """The sign of a pilot on each carrier, by the reference sequence (4.5.2)."""
    bits = [1] * 11
    while len(bits) < (1705 if mode == "2k" else 6817):
        bits.append(bits[-9] ^ bits[-11])
    return [1 - 2 * bit for bit in bits]
