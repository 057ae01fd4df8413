"""Writes a timeline as JSON of Chrome's trace events, which Perfetto shows. A microsecond is a step."""
import json
from typing import Any, BinaryIO

from nesthv_tools import event_logs
from nesthv_tools.timelines import Mark, Stretch, Visit

Event = dict[str, Any]

PROCESS = 1
AT_ONCE = 1000  # events that are written together


class Writer:
    """A track for HS and one for each hgatp. On each there are visits, below them modes, and marks, which lie
    in the middle of their steps."""

    def __init__(self, file: BinaryIO, guest: str) -> None:
        self.file, self.tracks = file, {"HS": 1}
        self.visit: Visit | None = None
        self.last = 0  # the end of the last stretch
        self.events = [named("process_name", 0, guest), named("thread_name", 1, "HS")]
        self.front = '{"traceEvents":[\n'

    def put(self, event: Event) -> None:
        """Adds an event, and writes those that there are where they are many."""
        self.events.append(event)
        if len(self.events) == AT_ONCE:
            self.write()

    def write(self) -> None:
        """Writes the events that there are."""
        if self.events:
            self.file.write((self.front + json.dumps(self.events, separators=(",", ":"))[1:-1]).encode())
            self.events, self.front = [], ",\n"

    def track_of(self, visit: Visit) -> int:
        """The number of a visit's track, which is named once."""
        world = visit.world()
        if world not in self.tracks:
            self.tracks[world] = len(self.tracks) + 1
            words = world if visit.hgatp is None else event_logs.words_of_guest(visit.hgatp)
            self.put(named("thread_name", self.tracks[world], words))
        return self.tracks[world]

    def begin(self, visit: Visit, at: int, name: str) -> None:
        """The begin of a visit or of a mode in it."""
        self.put({"ph": "B", "pid": PROCESS, "tid": self.track_of(visit), "ts": at, "name": name})

    def end(self, visit: Visit, at: int) -> None:
        """The end of what began last."""
        self.put({"ph": "E", "pid": PROCESS, "tid": self.track_of(visit), "ts": at})

    def take(self, item: Stretch | Mark) -> None:
        if isinstance(item, Mark):
            self.put({"ph": "i", "s": "t", "pid": PROCESS, "tid": self.track_of(item.visit),
                      "ts": item.step + 0.5, "cat": item.kind, "name": item.name, "args": item.details})
            return
        if item.visit != self.visit:
            self.close()
            self.visit = item.visit
            self.begin(item.visit, item.start, name_of(item.visit))
        if item.mode:
            self.begin(item.visit, item.start, item.mode)
            self.end(item.visit, item.end)
        self.last = item.end

    def close(self) -> None:
        """Ends the visit that is open."""
        if self.visit:
            self.end(self.visit, self.last)

    def finish(self) -> None:
        self.close()
        self.write()
        self.file.write(b'\n],"displayTimeUnit":"ns"}\n')


def named(what: str, track: int, name: str) -> Event:
    """The event that names the process or a track."""
    return {"ph": "M", "pid": PROCESS, "tid": track, "name": what, "args": {"name": name}}


def name_of(visit: Visit) -> str:
    """The name of a visit: of one of HS the cause of the exit before it."""
    return "V = 1" if visit.is_nested else visit.cause or "V = 0"
