"""Installs the proved program `nesthv`, the debugger `nesthv-gdb` and the log `nesthv-trace` where dist/ has
them, and the tools: `nesthv-run`, which explains what the program says, `nesthv-build`, which builds a guest,
`nesthv-look`, which looks at a guest at any step, `nesthv-debug`, which starts gdb, `nesthv-profile`, which
shows a whole run, `nesthv-batch`, which runs many configurations, `nesthv-explore`, which tries what hardware
may do, `nesthv-fuzz`, which fuzzes a guest's inputs, `nesthv-inputs`, which makes files of inputs,
`nesthv-saved`, which shows files of saved guests, and `nesthv-qemu-run`, which runs a guest under QEMU; with
man pages, the examples, and completion for bash, zsh and fish. It writes over no file that it has not
written. With --uninstall it removes what it has installed.
"""
import contextlib
import glob
import os

from nesthv_tools import command_line, layout, programs, streams, whole_files


class Refused(Exception):
    """Why nothing is installed, in words."""


def made(prefix: str, path: str) -> str:
    """A path below the prefix, whose folder is there."""
    whole = os.path.join(prefix, path)
    os.makedirs(os.path.dirname(whole), exist_ok=True)
    return whole


def install(program: str, prefix: str) -> None:
    files, links = list(layout.files(program)), list(layout.links())
    paths = sorted(layout.paths_of(files, links))
    known = {*paths_installed(prefix), *modules_installed(prefix)}
    refuse_others(prefix, files, links, known)
    write_manifest(prefix, sorted({*known, *paths}))  # so that an install that was interrupted is known
    for file in files:
        whole_files.write(made(prefix, file.path), file.data, file.mode)
    for link in links:
        whole_files.link(link.target, made(prefix, link.path))
    remove(prefix, sorted(known - set(paths)))
    write_manifest(prefix, paths)


def write_manifest(prefix: str, paths: list[str]) -> None:
    whole_files.write(made(prefix, layout.MANIFEST), "".join(f"{path}\n" for path in paths).encode(), 0o644)


def refuse_others(prefix: str, files: list[layout.File], links: list[layout.Link], known: set[str]) -> None:
    """Refuses to write over what no install has written, unless it is the same."""
    wanted: dict[str, bytes | str] = {each.path: each.data for each in files}
    wanted.update((each.path, each.target) for each in links)
    for path, content in wanted.items():
        whole = os.path.join(prefix, path)
        if os.path.lexists(whole) and path not in known and content_of(whole) != content:
            raise Refused(f"{whole} is there, and is not of an install of nesthv: move it away, or name another PREFIX")


def content_of(path: str) -> bytes | str | None:
    """The bytes of a file, or what a link names; nothing where there is something else."""
    if os.path.islink(path):
        return os.readlink(path)
    return layout.bytes_at(path) if os.path.isfile(path) else None


def paths_installed(prefix: str) -> list[str]:
    """The paths below the prefix that an install has written, as its list says."""
    try:
        with open(os.path.join(prefix, layout.MANIFEST), encoding="utf-8") as file:
            paths = file.read().splitlines()
    except OSError:
        return []
    return [path for path in paths if path and not path.startswith("/") and ".." not in path.split("/")]


def modules_installed(prefix: str) -> list[str]:
    """The modules below the prefix: an older version, which had no list, has left others."""
    form = os.path.join(glob.escape(os.path.join(prefix, layout.LIBRARY)), "**", "*.py")
    return [os.path.relpath(path, prefix) for path in glob.glob(form, recursive=True)]


def remove(prefix: str, paths: list[str]) -> None:
    """Removes these paths below the prefix, and the folders that are empty then."""
    for path in paths:
        with contextlib.suppress(FileNotFoundError):
            os.remove(os.path.join(prefix, path))
        folder = os.path.dirname(path)
        while folder:
            try:
                os.rmdir(os.path.join(prefix, folder))
            except OSError:
                break
            folder = os.path.dirname(folder)


def uninstall(prefix: str) -> int:
    """Removes what the list of an install names."""
    paths = paths_installed(prefix)
    if not paths:
        streams.say(f"nothing is installed in {prefix}: there is no {layout.MANIFEST}, which tools/install "
                    "writes")
        return 1
    remove(prefix, [*paths, layout.MANIFEST])
    print(f"removed from {prefix}")
    return 0


def main() -> int:
    parser = command_line.Parser(__doc__)
    parser.add_argument("prefix", metavar="PREFIX", nargs="?", default=os.path.expanduser("~/.local"),
                        help="the folder that gets `bin`, `lib` and `share`; ~/.local if left out")
    parser.add_argument("--uninstall", action="store_true", help="removes what was installed there")
    options = parser.parse_args()
    prefix = os.path.abspath(options.prefix)
    if options.uninstall:
        return uninstall(prefix)
    program = programs.proved()
    if not program:
        streams.say("no proved program (see dist/check); `rt all check` and `rt run` in crates/nesthv make "
                    "it")
        return 1
    try:
        install(program.path, prefix)
    except Refused as why:
        streams.say(str(why))
        return 1
    print(f"installed in {prefix}, from {program.path}"
          + (f", which {program.notice}" if program.notice else ""))
    folder = os.path.join(prefix, "bin")
    if folder not in os.environ.get("PATH", "").split(":"):
        print(f"{folder} is not on the path: export PATH=\"{folder}:$PATH\"")
    return 0
