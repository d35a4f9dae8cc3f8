"""``python3 -m pandoricchia``: the command."""
import sys

from .command import main

if __name__ == "__main__":  # not again in a process of --jobs
    sys.exit(main())
