"""Tries the wrong bodies under wrong/, several of a crate in one check: the script wrong-bodies."""
