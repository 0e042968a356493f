"""Precedes numpy on the path of tests that expect answers as ``array.array``s."""

raise ImportError("numpy is hidden from these tests")
