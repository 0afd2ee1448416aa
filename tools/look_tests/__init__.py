"""The tests of tools/test_look."""
