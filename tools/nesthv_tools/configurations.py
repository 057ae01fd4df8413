"""The configuration that a word of a user names: a file, or an example by its name."""
import os

from nesthv_tools import faults, places, streams


class Unknown(Exception):
    """Why a word names no configuration, in words."""


def example_names() -> list[str]:
    """The examples that there are, by name."""
    names = os.listdir(places.EXAMPLES) if os.path.isdir(places.EXAMPLES) else []
    return sorted(name for name in names
                  if os.path.isfile(os.path.join(places.EXAMPLES, name, name + ".bin")))


def path_of(name: str) -> str:
    """The path of the configuration, ELF file or image that a word names."""
    if name in example_names():
        return os.path.join(places.EXAMPLES, name, name + ".toml")
    if os.path.islink(name) and os.path.isfile(name):
        return followed(name)
    if name.endswith(".toml") or os.path.exists(name):
        return name
    raise Unknown(why_unknown(name))


def file_of(name: str) -> str:
    """The same, where there is a file, and not a folder or a pipe."""
    path = path_of(name)
    if not os.path.isfile(path):
        raise Unknown(f"the configuration {path} cannot be read{faults.unreadable(path)}" if os.path.exists(path) else
                      why_unknown(path))
    return path


def why_unknown(name: str) -> str:
    """What is wrong with a word that names no configuration."""
    maker = os.path.join(places.EXAMPLES, name, "make")
    if os.path.isfile(maker):
        return f"{name} has no image here: {os.path.relpath(maker)} builds it, in a folder of yours"
    names = [] if os.path.splitext(name)[1] or os.sep in name else example_names()
    examples = f", nor such an example: {', '.join(names)} are" if names else ""
    return f"{name}: there is no such file{examples}"


def followed(path: str) -> str:
    """The path of a configuration that is a symbolic link: where it points, if the files that it names are there and
    not beside the link. It says which."""
    target, here = os.path.realpath(path), os.path.dirname(path)
    there = os.path.dirname(target)
    names = faults.file_names(faults.parsed(faults.text_of(path))[0])
    if not names or os.path.samefile(here or ".", there):
        return path
    is_there = not has_all(here, names) and has_all(there, names)
    streams.say(f"{path} is a link: " + (f"its images are those of {there}, where it points" if is_there else
                                         "its images are those beside it"))
    return target if is_there else path


def has_all(folder: str, names: list[str]) -> bool:
    return all(os.path.isfile(os.path.join(folder, name)) for name in names)
