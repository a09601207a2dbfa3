"""How a section of the stored run is written down."""

from collections import namedtuple

from ..cases.common import line

Entry = namedtuple("Entry", "line answer")
Section = namedtuple("Section", "verbs entries")


def note(text):
    """A `#` line that says what the next calls show."""
    return Entry(b"# " + text.encode("ascii"), None)


def title(text):
    """The beginning of a section: an empty line and a heading."""
    return [Entry(b"", None), Entry(b"## " + text.encode("ascii"), None)]


def call(*parts, is_=None):
    """A call, and its answer where that is published."""
    return Entry(line(*parts), is_)


def raw(text, is_=None):
    """A line given as it is."""
    return Entry(text, is_)
