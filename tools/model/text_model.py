"""A model of the lines and words of texts, scripts and schedules.

It is written from docs/formats alone, and shares nothing with the program or its definitions.
"""
import re


def lines_of(text):
    """The lines of a text: each ends with an LF, which the last may lack, and a CR before an LF isn't part of it."""
    *ended, last = text.split(b"\n")
    lines = [line.removesuffix(b"\r") for line in ended]
    return lines + [last] if last else lines


def words_of(line):
    """The words before a line's comment, or None if a byte there isn't allowed."""
    said, _, _ = line.partition(b"#")
    return said.decode("ascii").split() if re.fullmatch(rb"[\t\x20-\x7E]*", said) else None
