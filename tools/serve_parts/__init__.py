"""Parts of the tools that drive processes of `jichurpa serve`."""
