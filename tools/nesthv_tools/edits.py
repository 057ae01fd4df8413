"""Edits of crates, and what they change. An edit, crates/NAME/must-fail/EDIT.edit or crates/NAME/controls/EDIT.edit,
is a wrong body that the prover has to refuse. Its control, crates/NAME/controls/EDIT.control, is a right body in the
same form, with the same lines `file:` and `old:`.
"""
import glob
import os
import re
from collections.abc import Callable
from typing import NamedTuple

from nesthv_tools import places

CRATES = os.path.join(places.TOP, "crates")
FOLDERS = ("must-fail", "controls")  # what the gate tries, and what it doesn't
KEYS = ("file", "old", "new")
FUNCTION = re.compile(r"^( *)(?:pub(?:\(\w+\))? )?(?:const )?fn (\w+)", re.MULTILINE)
IMPL = re.compile(r"^impl(?:<.*?>)? (?:(?P<trait>\w+)(?:<(?:\w+::)*(?P<of>\w+).*?>)? for )?(?P<type>\w+)", re.MULTILINE)


Place = Callable[[str, str, int], str]  # names a place of a file, by the file, its text and the place


class Unusable(Exception):
    """Nothing can be tried: why, in one line."""


class Edit(NamedTuple):
    """A file of a crate, and texts of one line each that are replaced in it."""
    file: str
    pairs: list[tuple[str, str]]

    def old(self) -> list[str]:
        return [old for old, _ in self.pairs]


class Change(NamedTuple):
    """The place of a text in a file, its length, and what replaces it."""
    place: int
    length: int
    text: str


def text_of(path: str) -> str:
    try:
        with open(path, encoding="utf-8") as file:
            return file.read()
    except UnicodeDecodeError:
        raise Unusable(f"{path}: it is not UTF-8") from None
    except OSError as error:
        raise Unusable(f"{path}: {error.strerror}") from None


def read_edit(path: str) -> Edit:
    """Reads an edit or a control."""
    found: dict[str, list[str]] = {key: [] for key in KEYS}
    for number, line in enumerate(text_of(path).splitlines(), 1):
        key, _, text = line.partition(":")
        if key not in found:
            raise Unusable(f"{path}:{number}: the line begins with none of `file:`, `old:`, `new:`")
        found[key].append(text.removeprefix(" "))
    files, old, new = found.values()
    if len(files) != 1 or not old or len(old) != len(new):
        raise Unusable(f"{path}: it has not one line `file:` and pairs of lines `old:` and `new:`")
    return Edit(files[0], list(zip(old, new)))


def by_name(crate: str, folder: str, kind: str) -> dict[str, Edit]:
    """The files of this kind in a folder of a crate, by their names."""
    paths = sorted(glob.glob(os.path.join(CRATES, crate, folder, f"*.{kind}")))
    return {os.path.splitext(os.path.basename(path))[0]: read_edit(path) for path in paths}


def edits_of(crate: str) -> dict[str, Edit]:
    """All edits of a crate."""
    tried, others = (by_name(crate, folder, "edit") for folder in FOLDERS)
    for name in sorted(tried.keys() & others.keys()):
        raise Unusable(f"crates/{crate}/controls/{name}.edit: it is in must-fail too")
    return dict(sorted({**tried, **others}.items()))


def controls_of(crate: str, edits: dict[str, Edit]) -> dict[str, Edit]:
    """The controls of these edits of a crate, which replace the same texts of the same files."""
    controls = by_name(crate, "controls", "control")
    for name, control in controls.items():
        path = os.path.join(CRATES, crate, "controls", f"{name}.control")
        edit = edits.get(name)
        if edit is None:
            raise Unusable(f"{path}: there is no {name}.edit")
        if (control.file, control.old()) != (edit.file, edit.old()):
            raise Unusable(f"{path}: its `file:` and its `old:` are not those of {name}.edit")
        if control == edit:
            raise Unusable(f"{path}: it is the wrong body itself")
    return controls


def changes_of(text: str, edit: Edit) -> list[Change]:
    """The changes that an edit makes to the text of its file, in which each old text stands once."""
    for old in edit.old():
        if text.count(old) != 1:
            raise Unusable(f"{edit.file}: {text.count(old)} places are `{old}`")
    return [Change(text.index(old), len(old), new) for old, new in edit.pairs]


def changed(text: str, changes: list[Change]) -> str:
    """The text with these changes, of which no two overlap."""
    for place, length, new in sorted(changes, reverse=True):
        text = text[:place] + new + text[place + length:]
    return text


def line_of(file: str, text: str, place: int) -> str:
    """The line of a file that has this place."""
    return f"{file}:{text.count(chr(10), 0, place) + 1}"


def function_at(text: str, place: int) -> re.Match[str] | None:
    """The head of the function of a file that has this place: its indentation and its name."""
    function = next(reversed(list(FUNCTION.finditer(text, 0, place))), None)
    is_in = function and f"\n{function[1]}}}" not in text[function.end():place]
    return function if is_in else None


def path_of(file: str, text: str, place: int) -> str:
    """By what `--only` finds the function of a file that has this place. That is its module and name, or for
    a method its type, its trait with what that is of, and its name. Outside functions it is the module, and
    at the root of a crate nothing."""
    module = "::".join(os.path.splitext(file)[0].split("/")[1:])
    path = [] if module in ("lib", "main") else [module]
    function = function_at(text, place)
    if function:
        if function[1]:
            impl = list(IMPL.finditer(text, 0, function.start()))[-1]
            path = [impl["type"] + (impl["trait"] or "") + (impl["of"] or "")]
        path.append(function[2])
    return "::".join(path)
