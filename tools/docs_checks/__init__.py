"""The checks of tools/docs: what the pages show, promise and define is what the sources have."""
