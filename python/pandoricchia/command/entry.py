"""Where the command begins and ends: its status, and what is said of failures."""
from __future__ import annotations

import os
import signal
from typing import Optional, Sequence

from .files import ClosedPipe, Failed, Refusal, say
from .parser import Usage, parser


class Ended(BaseException):
    """A signal that ends the command, once what is unfinished is put away."""

    def __init__(self, number: int) -> None:
        super().__init__(number)
        self.number = number


def run(arguments: Optional[Sequence[str]] = None) -> int:
    """The verb that the arguments name: its status."""
    label = "pandoricchia"
    try:
        options, rest = parser().parse_known_args(arguments)
        label = options.label
        if rest:  # said here, so that it is the verb's help that is named
            raise Usage(f"{label}: not understood: {rest[0]}; see {label} --help")
        return int(options.run(options))
    except Usage as error:
        say(str(error))
        return 2
    except (Failed, ImportError) as error:
        say(f"{label}: {error}")
        return 2
    except (OSError, MemoryError) as error:  # as where no process can be started
        say(f"{label}: {error or type(error).__name__}")
        return 2
    except Refusal as error:
        say(f"{label}: {error}")
        return 1
    except SystemExit as ended:  # after help
        return int(ended.code or 0)


def _descriptors() -> None:
    """Standard streams that are closed get a place of their own, so that no file comes to stand there; it can't be read or written."""
    for descriptor in (0, 1, 2):
        try:
            os.fstat(descriptor)
        except OSError:
            os.open(os.devnull, os.O_RDONLY if descriptor else os.O_WRONLY)


def _end(number: int, _: object) -> None:
    raise Ended(number)


def _signals() -> None:
    """From here on there may be something to put away; a signal that is ignored, as by nohup, stays so."""
    for number, handler in ((signal.SIGTERM, _end), (signal.SIGHUP, _end), (signal.SIGINT, signal.default_int_handler)):
        if signal.getsignal(number) != signal.SIG_IGN:
            signal.signal(number, handler)


def main() -> int:
    """What the console script does. Interrupts, and a pipe that nobody reads, end it as they end any program: by the signal, quietly."""
    try:
        _descriptors()
        _signals()
        return run()
    except KeyboardInterrupt:
        number = signal.SIGINT
    except ClosedPipe:
        number = signal.SIGPIPE
    except Ended as ended:
        number = signal.Signals(ended.number)
    signal.signal(number, signal.SIG_DFL)
    os.kill(os.getpid(), number)
    return 128 + number
