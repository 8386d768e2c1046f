"""Bazel's query language over the targets of a tree."""
