"""The version, and what dist/MADE says of the proved program, as CHANGES.md or tools/install has put it
here."""
import os
import re
import subprocess

from nesthv_tools import places, programs

INSTALLED = os.path.join(places.TOOLS, "VERSION")  # what tools/install writes
UNKNOWN = "unknown"


def lines_at(path: str) -> list[str]:
    """The lines of a file, or none where it cannot be read."""
    try:
        with open(path, encoding="utf-8") as file:
            return file.read().splitlines()
    except OSError:
        return []


def value_of(lines: list[str], word: str) -> str:
    """What stands after this word in its line."""
    return next((line.removeprefix(f"{word} ") for line in lines if line.startswith(f"{word} ")), UNKNOWN)


def first_version() -> tuple[str, str]:
    """The version of CHANGES.md that is its newest one, and its date, or an empty text where it has none."""
    for line in lines_at(os.path.join(places.TOP, "CHANGES.md")):
        if found := re.match(r"## Version (\S+?)(?:,? \(?(\d{4}-\d\d-\d\d)\)?)?$", line):
            return found[1], found[2] or ""
    return UNKNOWN, ""


def version() -> str:
    """The version of these tools."""
    return value_of(lines_at(INSTALLED), "version") if os.path.isfile(INSTALLED) else first_version()[0]


def made() -> list[str]:
    """The lines that say of what the proved program was made."""
    return lines_at(INSTALLED) or lines_at(os.path.join(places.DIST, "MADE"))


def of_commit(form: str, commit: str) -> str:
    """What `git show` tells of a commit in this form, or an empty text where there is no such commit."""
    ran = subprocess.run(["git", "show", "-s", f"--format={form}", commit], cwd=places.TOP,
                         stdin=subprocess.DEVNULL, capture_output=True, text=True)
    return ran.stdout.strip() if ran.returncode == 0 else ""


def seconds() -> int:
    """The time of what is packed: SOURCE_DATE_EPOCH, else that of the commit of dist/MADE, else 0."""
    if os.environ.get("SOURCE_DATE_EPOCH", "").isdecimal():
        return int(os.environ["SOURCE_DATE_EPOCH"])
    told = of_commit("%ct", value_of(made(), "commit"))
    return int(told) if told.isdecimal() else 0


def author() -> str:
    """The name and the address of the author of the commit of dist/MADE, else of the last commit."""
    form = "%an <%ae>"
    return of_commit(form, value_of(made(), "commit")) or of_commit(form, "HEAD")


def installed_text() -> str:
    """What tools/install writes beside the tools."""
    lines = [f"version {version()}", *(line for line in made() if line.split()[:1] in (["commit"], ["kit"]))]
    return "".join(f"{line}\n" for line in lines)


def text_of(program: "programs.Program | None") -> str:
    """The version, and of the program its commit, its SHA-256 and its kit."""
    lines = [f"nesthv {version()}"]
    if program is None:
        return "\n".join([*lines, "there is no proved program"]) + "\n"
    is_made = program.is_proved and programs.is_of(program.path, places.TOOLS if os.path.isfile(INSTALLED)
                                                   else places.DIST)
    for word in ("commit", "kit"):
        lines.append(f"{word} {value_of(made(), word) if is_made else UNKNOWN}")
    return "\n".join([*lines, f"sha256 {programs.hash_of(program.path)}"]) + "\n"
