"""Runs each guest of the examples under QEMU, and compares its console with the one in the example's stored
report. Guests with the device page are left out, since QEMU has another device there. The status is 1 where a
console differs and should not, or a run fails, and 2 where QEMU cannot be run.
"""
import os
import subprocess
from collections.abc import Iterator

from nesthv_tools import command_line, faults, places, reports

# Guests whose consoles differ, and why: by the example's folder and the guest's name.
KNOWN = {
    ("kernel", "kernel"): "QEMU 7.2 makes misaligned loads, and sets D itself",
    ("two", "kernel"): "QEMU 7.2 makes misaligned loads, and sets D itself",
    ("hypervisor", "hypervisor"): "QEMU drops cached translations more often than a guest may rest on",
    ("traps", "traps"): "QEMU's clock does not count steps, and its vsstatus begins with a bit more",
    ("nested3", "nested"): "QEMU drops cached translations more often than a guest may rest on",
    ("sbi", "sbi"): "QEMU drops cached translations more often than a guest may rest on",
}



def guests() -> Iterator[tuple[str, int, reports.Section]]:
    """Each guest of the examples that QEMU can run: its folder, its number, and its section of the stored
    report."""
    for folder in sorted(os.listdir(places.EXAMPLES)):
        path = os.path.join(places.EXAMPLES, folder, "report")
        if os.path.isfile(path):
            with open(path, "rb") as file:
                sections = reports.sections_of(file.read()) or []
            path = os.path.join(places.EXAMPLES, folder, f"{folder}.toml")
            document, _ = faults.parsed(faults.text_of(path))
            tables = dict(enumerate(faults.guests_of(document)))
            for number, section in enumerate(sections):
                if not faults.has_device_page(document, tables.get(number, {})):
                    yield folder, number, section


def main() -> int:
    command_line.Parser(__doc__).parse_args()
    counts = {"same": 0, "known": 0, "wrong": 0, "failed": 0}
    for folder, number, section in guests():
        ran = subprocess.run([os.path.join(places.TOOLS, "qemu-run"), "--guest", str(number), folder],
                             capture_output=True)
        if ran.returncode != 0:
            os.write(2, ran.stderr)
        if ran.returncode == 2:
            return 2
        console, who = ran.stdout.decode("latin-1"), f"{folder}: {section['name']}"
        reason = KNOWN.get((folder, section["name"]))
        if ran.returncode != 0:
            print(f"{who}: the run failed, with status {ran.returncode}", flush=True)
            kind = "failed"
        elif console == section["console"]:
            print(f"{who}: the same, {len(console)} bytes", flush=True)
            kind = "same"
        else:
            kind = "known" if reason else "wrong"
            print(f"{who}: QEMU {console!r}, nesthv {section['console']!r}"
                  + (f" ({reason})" if reason else ""),
                  flush=True)
        counts[kind] += 1
    print(" ".join(f"{kind}={count}" for kind, count in counts.items()))
    return int(counts["wrong"] + counts["failed"] > 0)
