"""How the x86-64 instructions of a program are counted: on an x86-64 machine by callgrind, on another by Debian's qemu-user, which shows a
program as much of a processor as callgrind does, with outside/count.c."""
import os
import platform
import re
import shutil
import subprocess

NATIVE = platform.machine() == "x86_64"
BUILT = os.path.join("target", "outside")
PLUGIN = os.path.join(BUILT, "count.so")
EMULATOR = ["qemu-x86_64", "-cpu", "max"]
COUNTER = ["valgrind", "--tool=callgrind", "--callgrind-out-file=/dev/null"] if NATIVE else EMULATOR + ["-plugin", PLUGIN]
# What runs a program uncounted.
RUNNER = [] if NATIVE else EMULATOR


def run(*words, env=None, given=None):
    return subprocess.run(words, check=True, capture_output=True, text=True, env=env, stdin=given)


def can_count():
    """Whether what counts is installed; another machine's plugin is built."""
    if not shutil.which(COUNTER[0]):
        return False
    if not NATIVE:
        os.makedirs(BUILT, exist_ok=True)
        run("cc", "-O2", "-shared", "-fPIC", "-o", PLUGIN, "outside/count.c")
    return True


def executed(*words, given=None):
    """Instructions of a program with its arguments. Where the stack begins depends on the environment and the arguments, and what it
    costs to clear an array on that: so there is no environment, and the arguments have one length."""
    said = run(shutil.which(COUNTER[0]), *COUNTER[1:], *words, env={}, given=given).stderr
    return int(re.search(r"Collected : (\d+)", said).group(1))
