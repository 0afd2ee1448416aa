"""The parts of tools/look, which docs/look.md describes."""
