"""The command `sefgulaw`: answers about the packages of a tree, over the proved package loader."""

__version__ = "1.0.0"
