"""The parts of tools/install and tools/deb."""
