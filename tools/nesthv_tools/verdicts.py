"""The verdict that a guest gives of itself: the last line of its console, `exit N`, as `exit` of examples/c
writes it.
"""
import re

from nesthv_tools.reports import Section

LAST_LINE = re.compile(r"(?:\A|\n)exit ([0-9]+)\n?\Z")
UNENDED = 11  # of a guest that has not stopped
MOST = 255


def verdict_of(section: Section) -> int:
    """The number that a guest names; 0 where it has stopped and names none, and 11 where it has not
    stopped."""
    if section["status"] != "stopped":
        return UNENDED
    found = LAST_LINE.search(section["console"])
    return min(int(found[1][:9]), MOST) if found else 0


def words_of(section: Section) -> str:
    """What a guest came to that has another verdict than 0."""
    if section["status"] != "stopped":
        return f"guest {section['name']} is {section['status']}"
    return f"guest {section['name']} ended with exit {verdict_of(section)}"


def failures(sections: list[Section]) -> list[Section]:
    """The sections whose guests have another verdict than 0."""
    return [section for section in sections if verdict_of(section)]


def verdict(sections: list[Section]) -> int:
    """The first verdict that is not 0, or 0."""
    return next(map(verdict_of, failures(sections)), 0)
