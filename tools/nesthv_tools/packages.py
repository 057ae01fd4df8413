"""Packs what tools/install installs, the pages and the examples: `nesthv-VERSION-x86_64-linux.tar.gz`, and
with dpkg-deb `nesthv_VERSION_amd64.deb`. The same sources give the same bytes, whoever packs them, and when.
"""
import gzip
import hashlib
import io
import os
import shutil
import subprocess
import tarfile
from collections.abc import Iterator

from nesthv_tools import command_line, endings, layout, places, programs, streams, versions, whole_files

PAGES = ("README.md", "CHANGES.md", "CONTRIBUTING.md", "SECURITY.md", "docs/*.md", "docs/*.svg")
COPYRIGHT = """nesthv: a deterministic RISC-V simulator for hypervisors

No licence has been granted yet. You may read it. Ask the owner before you
use, copy or change it.
"""
CONTROL = """Package: nesthv
Version: {version}
Section: otherosfs
Priority: optional
Architecture: amd64
Depends: libc6 (>= 2.34), python3 (>= 3.11)
Suggests: gdb-multiarch, gcc-riscv64-linux-gnu, qemu-system-misc | qemu-system-riscv, valgrind, kcachegrind,
 lcov
Maintainer: {maintainer}
Installed-Size: {size}
Description: deterministic RISC-V simulator for hypervisors, proved
 It runs bare images for RV64IMA with the hypervisor extension. The same
 files always give the same output, which is proved to be that of a written
 definition. Its tools look at a guest at any step, and let gdb go backwards.
"""


def folders_of(paths: list[str]) -> list[str]:
    """The folders of these paths, each after the one that it is in."""
    found = set()
    for path in paths:
        while path := os.path.dirname(path):
            found.add(path)
    return sorted(found)


def entry(path: str, kind: bytes, mode: int, seconds: int) -> tarfile.TarInfo:
    """The header of an entry, which is of nobody."""
    made = tarfile.TarInfo(path)
    made.type, made.mode, made.mtime = kind, mode, seconds
    made.uname = made.gname = "root"
    return made


def archive(top: str, files: list[layout.File], links: list[layout.Link], seconds: int) -> bytes:
    """A tar archive of these files in the folder `top`, sorted, compressed by gzip."""
    made = io.BytesIO()
    with tarfile.open(fileobj=made, mode="w", format=tarfile.GNU_FORMAT) as tar:
        paths = [os.path.join(top, path) for path in layout.paths_of(files, links)]
        for folder in folders_of(paths):
            tar.addfile(entry(folder, tarfile.DIRTYPE, 0o755, seconds))
        for file in sorted(files):
            header = entry(os.path.join(top, file.path), tarfile.REGTYPE, file.mode, seconds)
            header.size = len(file.data)
            tar.addfile(header, io.BytesIO(file.data))
        for link in sorted(links):
            header = entry(os.path.join(top, link.path), tarfile.SYMTYPE, 0o777, seconds)
            header.linkname = link.target
            tar.addfile(header)
    return gzip.compress(made.getvalue(), 9, mtime=seconds)


def put(root: str, files: list[layout.File], links: list[layout.Link], seconds: int) -> None:
    """Writes these files below a folder, each of this time."""
    paths = layout.paths_of(files, links)
    for folder in folders_of(paths):
        os.makedirs(os.path.join(root, folder), exist_ok=True)
        os.chmod(os.path.join(root, folder), 0o755)
    for file in files:
        path = os.path.join(root, file.path)
        with open(path, "wb") as opened:
            opened.write(file.data)
        os.chmod(path, file.mode)
    for link in links:
        os.symlink(link.target, os.path.join(root, link.path))
    for path in [*paths, *reversed(folders_of(paths)), ""]:
        os.utime(os.path.join(root, path), (seconds, seconds), follow_symlinks=False)


def debian_files(files: list[layout.File]) -> Iterator[layout.File]:
    """The files as Debian has them: pages of the manual and the changes compressed, completion of zsh where its zsh
    reads it, and what there is to say of a licence."""
    for file in files:
        if file.path.startswith(layout.MANUAL):
            yield layout.File(f"{file.path}.gz", gzip.compress(file.data, 9, mtime=0), file.mode)
        else:
            yield file._replace(path=file.path.replace(layout.ZSH, layout.ZSH_OF_DEBIAN))
    changes = layout.bytes_at(os.path.join(places.TOP, "CHANGES.md"))
    yield layout.File(os.path.join(places.DOCUMENTS, "changelog.gz"), gzip.compress(changes, 9, mtime=0), 0o644)
    yield layout.File(os.path.join(places.DOCUMENTS, "copyright"), COPYRIGHT.encode(), 0o644)


def debian_package(version: str, files: list[layout.File], links: list[layout.Link], seconds: int) -> bytes:
    """A package of Debian, below /usr, made by dpkg-deb."""
    files = sorted(file._replace(path=os.path.join("usr", file.path)) for file in debian_files(files))
    links = [link._replace(path=os.path.join("usr", link.path)) for link in links]
    size = sum(-(-len(file.data) // 1024) for file in files)
    sums = "".join(f"{hashlib.md5(file.data).hexdigest()}  {file.path}\n" for file in files)
    fields = CONTROL.format(version=version, size=size, maintainer=versions.author())
    control = [layout.File("DEBIAN/control", fields.encode(), 0o644),
               layout.File("DEBIAN/md5sums", sums.encode(), 0o644)]
    with endings.Folder("nesthv-package-") as folder:
        root, made = os.path.join(folder, "root"), os.path.join(folder, "made.deb")
        os.mkdir(root, 0o755)
        os.chmod(root, 0o755)
        put(root, [*files, *control], links, seconds)
        words = ["dpkg-deb", "--root-owner-group", "-Zxz", "--threads-max=1", "--build", root, made]
        ran = subprocess.run(words, stdin=subprocess.DEVNULL, capture_output=True, text=True,
                             env={**os.environ, "SOURCE_DATE_EPOCH": str(seconds), "LC_ALL": "C"})
        if ran.returncode:
            raise OSError(None, f"dpkg-deb failed: {ran.stderr.strip()}")
        return layout.bytes_at(made)


def main() -> int:
    parser = command_line.Parser(__doc__)
    parser.add_argument("folder", metavar="FOLDER", nargs="?", default=os.path.join(places.DIST, "out"),
                        help="the folder that gets the packages; dist/out if left out")
    options = parser.parse_args()
    program = programs.proved()
    if not program:
        streams.say("no proved program (see dist/check)")
        return 1
    files, links = [*layout.files(program.path), *layout.documents(*PAGES)], list(layout.links())
    version, seconds = versions.version(), versions.seconds()
    name = f"nesthv-{version}-x86_64-linux"
    begin = layout.Link("README.md", os.path.join(places.DOCUMENTS, "README.md"))
    made = {f"{name}.tar.gz": archive(name, files, [*links, begin], seconds)}
    if shutil.which("dpkg-deb"):
        made[f"nesthv_{version}_amd64.deb"] = debian_package(version, files, links, seconds)
    else:
        streams.say("there is no dpkg-deb, so no .deb is made")
    os.makedirs(options.folder, exist_ok=True)
    for name, data in made.items():
        whole_files.write(os.path.join(options.folder, name), data)
        print(f"{hashlib.sha256(data).hexdigest()}  {name}")
    return 0
