"""The parts of tools/cells.py."""
