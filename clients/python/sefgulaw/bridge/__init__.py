"""Existing trees of Bazel by stand-ins for what the loader does not have.

Answers that rest on stand-ins are no proved answers about Bazel, and are always marked.
"""

from sefgulaw.bridge.repository import is_bazel

__all__ = ["is_bazel"]
