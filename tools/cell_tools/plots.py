"""matplotlib, as far as pictures need it."""
import sys

from cell_tools.settings import Unfit


def plots():
    """matplotlib, drawing to files."""
    try:
        import matplotlib

        matplotlib.use("Agg")
        import matplotlib.pyplot as plt
    except ImportError as error:
        raise Unfit(f"{error}; --out needs matplotlib (Debian: python3-matplotlib)", 126) from None
    return plt


def save(figure, out):
    """Writes a picture as PNG."""
    try:
        figure.savefig(sys.stdout.buffer if out == "-" else out, format="png", bbox_inches="tight")
    except OSError as error:
        raise Unfit(f"{out} can't be written: {error.strerror}", 6, out) from None
    plots().close(figure)
