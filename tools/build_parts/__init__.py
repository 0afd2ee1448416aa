"""Parts of tools/quick and tools/release."""
