"""How a tool begins and ends: with the standard streams open, and with a status for each way in which it
fails.
"""
import contextlib
import importlib
import os
import signal
import sys
from collections.abc import Callable
from types import FrameType
from typing import NoReturn

from nesthv_tools import children, endings, places, streams

ENDS = (signal.SIGINT, signal.SIGTERM, signal.SIGHUP)
INTERRUPTED = 128 + signal.SIGINT
AGAIN = 0.05  # seconds until an exception that was dropped is raised again


def commands() -> list[str]:
    """The names of the commands that have a script."""
    names = (os.path.splitext(name)[0] for name in os.listdir(os.path.join(places.PACKAGE, "commands")))
    return sorted(name.replace("_", "-") for name in names if not name.startswith("_"))


def command(name: str) -> NoReturn:
    """Makes the command of this name, and ends the process."""
    module = f"nesthv_tools.commands.{name.replace('-', '_')}"

    def main() -> int:
        return int(importlib.import_module(module).main())

    def failed() -> int:
        return int(getattr(sys.modules.get(module), "FAILED", 2))

    run(main, failed)


def end_by_signal(number: int, frame: FrameType | None) -> None:
    """Ends as after an error, so that no temporary folder and no program is left. Later signals change
    nothing."""
    if not endings.STATUS:
        endings.STATUS.append(128 + number)
        children.end()
        endings.leave()


def leave_again(number: int, frame: FrameType | None) -> None:
    endings.leave()


def take_dropped(dropped: "sys.UnraisableHookArgs") -> None:
    """Takes an exception that Python drops, as it does each one of a finalizer. That of a signal is raised
    again."""
    if endings.STATUS and isinstance(dropped.exc_value, SystemExit):
        signal.setitimer(signal.ITIMER_REAL, AGAIN)
    else:
        sys.__unraisablehook__(dropped)


def take_signals() -> None:
    """Has signals end this process, but for those that it is to ignore, as under `nohup`."""
    sys.unraisablehook = take_dropped
    signal.signal(signal.SIGALRM, leave_again)
    for number in ENDS:
        if signal.getsignal(number) != signal.SIG_IGN:
            signal.signal(number, end_by_signal)


def status_of(main: Callable[[], int], failed: Callable[[], int]) -> int:
    try:
        return main()
    except SystemExit as ended:  # of argparse, and of a signal
        return ended.code if isinstance(ended.code, int) else int(ended.code is not None)
    except BrokenPipeError:
        streams.say("the output could not be written: the program that reads the pipe has ended")
    except OSError as error:
        streams.say(words_of(error))
    return failed()


def words_of(error: OSError) -> str:
    """The file that failed, and why; without a name it is the output, to which `print` writes."""
    if error.filename:
        return f"{error.filename}: {error.strerror}"
    return f"the output could not be written: {error.strerror or error}"


def written(main: Callable[[], int], failed: Callable[[], int]) -> int:
    """The status of `main`, whose output is written."""
    status = status_of(main, failed)
    error = None if endings.STATUS else streams.flush()
    if error and not status:
        streams.say(f"the output could not be written: {error.strerror}")
        return failed()
    return status


def run(main: Callable[[], int], failed: Callable[[], int] = lambda: 2) -> NoReturn:
    """Ends the process with the status that `main` returns, with that of `failed` where a file or stream
    fails, or with 128 and the number of a signal that came."""
    take_signals()
    streams.hold()
    status = 0
    with contextlib.suppress(SystemExit):  # of a signal that came after `main`
        status = written(main, failed)
    for number in (signal.SIGALRM, *ENDS):
        signal.signal(number, signal.SIG_IGN)
    if endings.STATUS:
        status, = endings.STATUS
        streams.drop()
        if status == INTERRUPTED:
            streams.say("interrupted")
    sys.exit(status)
