"""Debian's capstone is for Debian's own Python, and python3 may be another."""
import importlib.util
import os
import subprocess
import sys


def with_capstone(name):
    """Goes on if this interpreter has capstone; else begins anew with one that has; else says what is skipped, and ends."""
    if importlib.util.find_spec("capstone"):
        return
    for other in ("/usr/bin/python3", "/usr/local/bin/python3"):
        if os.path.exists(other) and os.path.realpath(other) != os.path.realpath(sys.executable):
            if subprocess.run([other, "-c", "import capstone"], stderr=subprocess.DEVNULL).returncode == 0:
                sys.stdout.flush()
                os.execv(other, [other] + sys.argv)
    print("skipped: %s needs capstone for Python (Debian's python3-capstone)" % name)
    sys.exit(0)
