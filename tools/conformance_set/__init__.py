"""The parts of tools/conformance."""
