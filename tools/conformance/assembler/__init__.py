"""Spells modules and their parts as bytes, by the binary format of the standard."""
