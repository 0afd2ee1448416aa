"""What the tools for documents read of crates.txt and of the crates."""
