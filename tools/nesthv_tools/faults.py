"""Says in words what the program's line of a status means: which key, which range, which line of the file."""
import os
import re
import stat
import tomllib
from typing import Any

from nesthv_tools import records, saves, toml11

Table = dict[str, Any]

BLOCK = 2097152
BLOCK_FRAMES = 512
FRAMES = 131072
MOST_BYTES = 65536  # of a configuration
MOST_BLOCKS = 32
RANGES = {
    "name": "a text of 1 to 32 ASCII letters and digits",
    "image": "the name of a file, a text of 1 to 255 bytes",
    "blocks": "an integer from 1 to 32",
    "spaces": "an integer from 1 to 8",
    "entries": "an integer from 16 to 256",
    "console": "an integer from 0 to 1,048,576",
    "weight": "an integer from 1 to 1,000",
    "device": "an integer, 0 or 1",
    "resume": "the name of a file, a text of 1 to 255 bytes",
}
FILE_RANGES = {"spare": "an integer from 0 to 32"}
GUEST_KEYS = {1: ["name", "image", "blocks", "spaces", "entries", "console", "input"]}
GUEST_KEYS[2] = [*GUEST_KEYS[1], "weight", "device"]
RESUMED_KEYS = ["name", "resume", "weight"]  # of a guest of format 2 that goes on from a file
FILE_KEYS = {1: ["format", "guest", "turns", "quantum", "rounds"]}
FILE_KEYS[2] = [*FILE_KEYS[1], *FILE_RANGES]


def text_of(path: str) -> bytes | None:
    """The bytes of the configuration at this path, as many as the program reads, or none where it is not a
    regular file. What a pipe gives can be read once."""
    try:
        if stat.S_ISREG(os.stat(path).st_mode):
            with open(path, "rb") as file:
                return file.read(MOST_BYTES + 1)
    except (OSError, ValueError):
        pass
    return None


def parsed(text: bytes | None) -> tuple[Table | None, str]:
    """The document of these bytes, and why there is none."""
    if text is None:
        return None, ""
    try:
        return toml11.loads(text.decode()), ""
    except UnicodeDecodeError as error:
        return None, f"the byte at offset {error.start} is not UTF-8"
    except tomllib.TOMLDecodeError as error:
        return None, str(error)
    except (RecursionError, ValueError):  # deep nesting; an integer of thousands of digits
        return None, ""


def guests_of(document: Table | None) -> list[Table]:
    """The tables of the guests that a document has, by number; an empty one where there is another value."""
    guests = (document or {}).get("guest", [])
    guests = guests if isinstance(guests, list) else []
    return [guest if isinstance(guest, dict) else {} for guest in guests]


def format_of(document: Table | None) -> int:
    """The format of a document: 2, or 1 where it has another one or none."""
    value = (document or {}).get("format")
    return 2 if is_integer(value, 2, 2) else 1


def file_name(value: object) -> str | None:
    """A value that names a file, or none."""
    return value if isinstance(value, str) and value and "\0" not in value else None


def is_resumed(document: Table | None, guest: Table) -> bool:
    """Whether a guest of this document goes on from the file of a saved one."""
    return format_of(document) == 2 and "resume" in guest


def has_device_page(document: Table | None, guest: Table) -> bool:
    """Whether a guest of this document that begins at its start has the device page."""
    return format_of(document) == 2 and is_integer(guest.get("device"), 1, 1)


def image_names(document: Table | None) -> list[str | None]:
    """The name of each guest's image, or none where there is no text or the guest goes on from a file."""
    return [None if is_resumed(document, guest) else file_name(guest.get("image"))
            for guest in guests_of(document)]


def guest_files(document: Table | None) -> list[tuple[str, str | None]]:
    """The files that a document's guests have, in the order in which they are read. For each it tells what it
    is, in words, and its name, or none where there is no text."""
    files = []
    for number, guest in enumerate(guests_of(document)):
        if is_resumed(document, guest):
            files.append((f"the saved file of guest {number}", file_name(guest["resume"])))
            continue
        files.append((f"the image of guest {number}", file_name(guest.get("image"))))
        if format_of(document) == 2 and "input" in guest:
            files.append((f"the input file of guest {number}", file_name(guest["input"])))
    return files


def file_names(document: Table | None) -> list[str]:
    """The names of these files, as far as there is text."""
    return [name for _, name in guest_files(document) if name]


def too_long(table: Table, who: str, path: str) -> str:
    """Why the image at this path does not fit, as far as its file says."""
    has, most = table["blocks"] * BLOCK, MOST_BLOCKS * BLOCK
    what = f"the image {path} of {who}"
    if not os.path.isfile(path):
        return f"{what} gives more than {has:,} bytes, and is not a regular file: the guest's RAM has no more"
    length = os.path.getsize(path)
    if length > most:
        return f"{what} has {length:,} bytes, and no guest has more RAM than {most:,}, which is " \
            f"`blocks = {MOST_BLOCKS}`"
    return f"{what} has {length:,} bytes, and its RAM has {has:,}: `blocks = {-(-length // BLOCK)}` is enough"


def is_integer(value: object, least: int, most: int) -> bool:
    return isinstance(value, int) and not isinstance(value, bool) and least <= value <= most


def first_wrong(pairs: list[Any], first_most: int, second_most: int) -> int | None:
    """The index of the first element that is not a pair of integers from 0 to these, or none."""
    for index, pair in enumerate(pairs):
        if not (isinstance(pair, list) and len(pair) == 2
                and is_integer(pair[0], 0, first_most) and is_integer(pair[1], 0, second_most)):
            return index
    return None


def are_pairs_wrong(inputs: object) -> bool:
    """Whether the inputs of a guest are not pairs of a moment and a byte."""
    return not isinstance(inputs, list) or first_wrong(inputs, 2**62 - 1, 255) is not None


def bytes_at(path: str, most: int) -> bytes:
    """The bytes of the file at this path, as many as the program reads; none where it is not a regular
    file."""
    try:
        with open(path if os.path.isfile(path) else os.devnull, "rb") as file:
            return file.read(most)
    except (OSError, ValueError):
        return b""


def frames_in(folder: str, document: Table, guest: Table) -> int | str:
    """How many frames a guest of this document, in this folder, needs, or `?` where its file does not say."""
    if not is_resumed(document, guest):
        return frames_of(guest)
    try:
        return saves.Saved(bytes_at(os.path.join(folder, guest["resume"]), saves.MOST_BYTES)).frames()
    except saves.Wrong:
        return "?"


def frames_of(guest: Table) -> int:
    return int(BLOCK_FRAMES * guest["blocks"] + 5 + guest["spaces"] * (4 + 3 * guest["entries"]))


def too_many_frames(document: Table, frames: int | None, folder: str) -> str:
    """Why the guests and the spare blocks of a document in this folder have no room."""
    needs = "; ".join(f"{index}: {frames_in(folder, document, each)}"
                      for index, each in enumerate(guests_of(document)))
    spare = document.get("spare", 0)
    are_needed = f"the guests and the spare blocks need {frames}" if spare else f"the guests need {frames}"
    beside = f"; `spare = {spare}`: {BLOCK_FRAMES * spare}" if spare else ""
    return f"{are_needed} frames of 4,096 bytes, and there are {FRAMES}. By guest: {needs}{beside}"


def turns_wrong(document: Table, count: int) -> str:
    """What is wrong with a document's turns."""
    turns, pair = document.get("turns"), [key for key in ("quantum", "rounds") if key in document]
    if turns is not None and pair:
        return f"there are both `turns` and `{pair[0]}`: leave one of the two forms out"
    if turns is None and not pair:
        return "there are no turns: add `quantum` and `rounds`, or `turns`, before the first `[[guest]]`"
    if len(pair) == 1:
        other = "rounds" if pair[0] == "quantum" else "quantum"
        return f"`{pair[0]}` is there and `{other}` is not"
    if turns is None:
        if not is_integer(document["quantum"], 0, 2**32):
            return "`quantum` is an integer from 0 to 4,294,967,296"
        return f"`rounds` is an integer from 0 on, and times {count} guests at most 1,048,576"
    if not isinstance(turns, list):
        return "`turns` is an array of pairs, `[[0, 1000], [1, 500]]`"
    wrong = first_wrong(turns, count - 1, 2**32)
    if wrong is None:
        return "`turns` has more than 1,048,576 pairs"
    return f"element {wrong} of `turns` is {turns[wrong]!r}: it must be [guest, steps], a guest from 0 to " \
        f"{count - 1} and steps from 0 to 4,294,967,296"


def input_wrong(guest: Table, form: int) -> str:
    """What is wrong with a guest's inputs in this format."""
    inputs = guest.get("input")
    if form == 2:
        pairs = ": `tools/inputs` makes it of a text; pairs are of `format = 1`"
        return "in format 2 `input` is the name of a file, a text of 1 to 255 bytes" \
            + (pairs if isinstance(inputs, list) else "")
    if not isinstance(inputs, list):
        return "`input` is an array of pairs, `[[10, 72], [500, 105]]`" \
            + ("; the name of a file is of `format = 2`" if isinstance(inputs, str) else "")
    wrong = first_wrong(inputs, 2**62 - 1, 255)
    if wrong is not None:
        return f"element {wrong} of `input` is {inputs[wrong]!r}: it must be [moment, byte], a moment " \
            "below 2^62 and a byte from 0 to 255"
    for index in range(1, len(inputs)):
        if inputs[index][0] < inputs[index - 1][0]:
            return f"element {index} of `input` has the moment {inputs[index][0]}, which is less than the " \
                "one before"
    return "`input` has more than 65,536 pairs"


def input_file_wrong(path: str, who: str, record: int | None) -> str:
    """What is wrong with the record of this number in the input file at this path."""
    what = f"record {record} of the input file {path} of {who}: "
    data = bytes_at(path, records.MOST_BYTES)
    wrong = records.first_wrong(data)
    if wrong is None or wrong[0] != record:
        return what + "it must have 9 bytes: a moment, which is below 2^62 and not less than the one " \
            "before, and a byte"
    is_text = data.isascii() and b"\0" not in data
    return what + wrong[1] + ("; the file is a text: `tools/inputs` makes records of it" if is_text else "")


def saved_file_wrong(path: str, who: str) -> str:
    """Why the file at this path is not a saved guest."""
    what = f"{path}, which `resume` of {who} names, is not a saved guest"
    if not os.path.isfile(path):
        return f"{what}, nor a regular file"
    return f"{what}: {saves.wrong(bytes_at(path, saves.MOST_BYTES)) or 'it has changed by now'}"


def guest_missing(count: int, value: int | None) -> str:
    """Why there is no guest of this number."""
    return f"there is no guest {value}: guests are numbered from 0, and the last one is {count - 1}"


def weight_wrong(guest: Table, who: str, quantum: int, product: int | None) -> str:
    """Why a guest's turns have too many steps."""
    return f"`weight` of {who} is {guest.get('weight')} and `quantum` is {quantum}, so each of its turns " \
        f"would have {product} steps, and a turn has at most 4,294,967,296: lower one of the two, and have " \
        "more `rounds`"


class Guest:
    """The guest that a fault names, if it names one: its number, its table, and what it is called."""

    def __init__(self, document: Table, number: int | None) -> None:
        guests = guests_of(document)
        self.number, self.form, self.document = number, format_of(document), document
        self.table = guests[number] if number is not None and number < len(guests) else {}
        self.before = guests[:number]
        name = self.table.get("name")
        self.who = f"guest {number} ({name!r})" if isinstance(name, str) else f"guest {number}"

    def name_wrong(self) -> str:
        if self.table.get("name") in [other.get("name") for other in self.before]:
            return f"`name` of {self.who}: a guest before it has the same name"
        return f"`name` of {self.who}: it must be {RANGES['name']}"

    def value_wrong(self, key: str, value: int | None) -> str:
        shown = f"{value}" if value is not None else repr(self.table.get(key))
        if isinstance(self.table.get(key), bool):
            shown = "true" if self.table[key] else "false"
        return f"`{key}` of {self.who} is {shown}: it must be {RANGES[key]}"

    def keys(self) -> list[str]:
        """The keys that the guest may have, or without one the file."""
        if self.number is None:
            return FILE_KEYS[self.form]
        return RESUMED_KEYS if is_resumed(self.document, self.table) else GUEST_KEYS[self.form]

    def owner(self, name: str) -> str:
        """What has a key that the guest, or without one the file, may not have, in words, or nothing."""
        if self.number is not None and self.keys() is RESUMED_KEYS and name in GUEST_KEYS[2]:
            return " (the file that `resume` names tells it)"
        of_format_2 = FILE_KEYS[2] if self.number is None else [*GUEST_KEYS[2], *RESUMED_KEYS]
        return " (a key of `format = 2`)" if name in of_format_2 else ""

    def lacks(self, key: str) -> str:
        """That the guest has no such key, and what its value would be."""
        is_choice = key == "image" and self.form == 2
        other = "; a guest that goes on from a file has `resume` in its place" if is_choice else ""
        return f"{self.who} lacks `{key}`: {RANGES[key]}{other}"

    def extra_keys(self) -> str:
        """Which keys the guest, or without one the file, has and should not."""
        is_file = self.number is None
        there, known = self.document if is_file else self.table, self.keys()
        extra = ", ".join(f"`{name}`{self.owner(name)}" for name in there if name not in known)
        is_misplaced = not is_file and set(there) & set(FILE_KEYS[2])
        moved = "; keys of the file stand before the first `[[guest]]`" if is_misplaced else ""
        who = "the file" if is_file else self.who
        if not extra:
            return f"each key of {who} is one that it may have: the program is of another version than " \
                "this tool"
        return f"{who} has {extra}, and its keys are {', '.join(known)}{moved}"


def guests_wrong(document: Table, value: int | None) -> str:
    """What is wrong with the array of guests."""
    if isinstance(document.get("guest"), dict):
        return "`[guest]` is written for `[[guest]]`: two brackets on each side make one guest of several"
    return f"there are {value} guests, and there may be 1 to 16" if value is not None else \
        "`guest` is an array of tables: write `[[guest]]` once for each guest"


def file_value_wrong(document: Table, key: str, value: int | None) -> str:
    """What is wrong with the value of a key of the file."""
    shown = f"{value}" if value is not None else repr(document.get(key))
    return f"`{key}` is {shown}: it must be {FILE_RANGES[key]}"


def file_lacks(key: str) -> str:
    said = {"format": "the file lacks `format = 1` or `format = 2`",
            "guest": "the file has no guest: write `[[guest]]` once for each, and its keys below"}
    return said[key]


def is_binary(text: bytes | None) -> bool:
    return text is not None and (text.startswith(b"\x7fELF") or b"\0" in text)


def no_toml(text: bytes | None, why: str) -> str:
    if text and is_binary(text):
        what = "an ELF file" if text.startswith(b"\x7fELF") else "a binary file, such as an image"
        return f"it is {what}, not a configuration: a configuration is a text, which names images by `image`"
    other = "an integer of more than 64 bits, or arrays, tables or dotted keys more than 80 deep"
    return f"it is not TOML: {why or other}"


def of_configuration(folder: str, text: bytes | None, number: int, guest: int | None, key: str,
                     value: int | None) -> str:
    """Why a configuration of these bytes, in this folder, is refused with this fault."""
    document, why = parsed(text)
    document, guests, named = document or {}, guests_of(document), Guest(document, guest)
    match number:
        case 1:
            return no_toml(text, why)
        case 2:
            return "`format` must be 1 or 2" if "format" in document else file_lacks("format")
        case 3 if key == "guest":
            return file_lacks("guest")
        case 3:
            return named.lacks(key)
        case 4 if key == "guest":
            return guests_wrong(document, value)
        case 4 if guest is None:
            return file_value_wrong(document, key, value)
        case 4:
            return named.value_wrong(key, value)
        case 5:
            return named.name_wrong()
        case 6:
            return turns_wrong(document, len(guests))
        case 7:
            return f"{named.who}: {input_wrong(named.table, named.form)}"
        case 8:
            return named.extra_keys()
        case 9:
            return no_toml(text, "") if is_binary(text) else f"a file has at most {MOST_BYTES:,} bytes"
        case 10:
            return too_long(named.table, named.who, os.path.join(folder, named.table["image"]))
        case 11:
            return too_many_frames(document, value, folder)
        case 12:
            return input_file_wrong(os.path.join(folder, named.table["input"]), named.who, value)
        case 13:
            return weight_wrong(named.table, named.who, document["quantum"], value)
        case 14:
            return saved_file_wrong(os.path.join(folder, named.table["resume"]), named.who)
        case 15:
            return guest_missing(len(guests), value)
    return ""


def of_read(number: int, configuration: str, document: Table | None, report: str | None) -> str:
    """Why the read of the file of this number fails, where the configuration has this document."""
    if number == 1:
        return f"the configuration {configuration} cannot be read{unreadable(configuration)}"
    files = guest_files(document)
    if not files:
        return f"a file of a guest{', or the stored report,' if report else ''} cannot be read"
    if number >= 2 + len(files):
        return f"the stored report {report} cannot be read{unreadable(report)}" if report else ""
    what, name = files[number - 2]
    if name is None:
        return f"{what} cannot be read"
    path = os.path.join(os.path.dirname(configuration), name)
    what, whose = what.split(" of ")
    return f"{what} {path} of {whose} cannot be read{unreadable(path)}"


def unreadable(path: str) -> str:
    """Why the file at this path cannot be read, as far as that shows."""
    try:
        mode = os.stat(path).st_mode
    except FileNotFoundError:
        is_link = os.path.islink(path)
        return ": it is a link to a file that is not there" if is_link else ": there is no such file"
    except (OSError, ValueError) as error:
        return f": {getattr(error, 'strerror', error)}"
    if stat.S_ISDIR(mode):
        return ": it is a folder"
    return "" if os.access(path, os.R_OK) else ": you may not read it"


def explained(line: str, configuration: str, text: bytes | None, report: str | None = None) -> str:
    """What the program's line on standard error means, or nothing. The configuration at this path has these
    bytes, none where they are not known, and the stored report is at that path."""
    fault = r"nesthv: configuration fault (\d+)(?: guest (\d+))?(?: key (\w+))?(?: value (-?\d+))?$"
    if found := re.match(fault, line):
        number = int(found[1])
        guest, value = (int(part) if part else None for part in (found[2], found[4]))
        document, _ = parsed(text)
        is_known = text is not None and (document is not None or number in (1, 9))
        folder = os.path.dirname(configuration)
        return of_configuration(folder, text, number, guest, found[3], value) if is_known else ""
    if found := re.match(r"nesthv: read fault (\d+)$", line):
        return of_read(int(found[1]), configuration, parsed(text)[0], report)
    if line.startswith("nesthv: usage: "):
        return "the name of a file is not UTF-8, which the program needs, or the number of the guest to " \
            "save is not 1 or 2 decimal digits"
    if line == "nesthv: write fault":
        return "the output could not be written: the disk is full, or the program that reads the pipe has " \
            "ended"
    if line == "nesthv: out of memory":
        return "there is not enough memory for the files, the guests' memory or a console: lower `blocks` " \
            "or `spare`, or free memory"
    return ""
