"""Proves the crates of this repository and tries the wrong bodies that a proof must refuse.

`./build`, `./check` and `tools/edits` use this. The kit itself checks, builds and links one crate: its command `rt` is
loaded as a module (kit.py). These scripts are plain and aren't proved.
"""
