"""The command ``pandoricchia``: words, units, streams and logs from a shell.

It is thin and stands outside the proofs; what it computes it asks of the library. ``main`` is the console script.
"""
import signal


def main() -> int:
    """The console script. Until it is loaded there is nothing to put away, and an interrupt just ends it."""
    if signal.getsignal(signal.SIGINT) != signal.SIG_IGN:
        signal.signal(signal.SIGINT, signal.SIG_DFL)
    from .entry import main as begin  # pylint: disable=import-outside-toplevel

    return begin()
