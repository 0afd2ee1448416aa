"""Parts of tools/test_traces."""
