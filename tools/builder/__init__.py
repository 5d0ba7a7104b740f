"""Finds, proves and builds the program of the sources as they stand. An installed door has no sources, and none of this."""
