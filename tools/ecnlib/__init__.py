"""The parts of tools/ecn."""
