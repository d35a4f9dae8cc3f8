"""The programs of outside/comparisons: their sources and arguments, and how many answers they say that they compared."""
import os
import re

TOP = os.path.dirname(os.path.dirname(os.path.abspath(__file__)))


def read(name):
    with open(os.path.join(TOP, name), encoding="utf-8") as file:
        return file.read()


def argument(word, n, seed):
    """N, N/10 and S as numbers, anything else as it stands."""
    share = re.fullmatch(r"N(?:/(\d+))?", word)
    return str(n // int(share.group(1) or 1)) if share else str(seed) if word == "S" else word


def comparisons(n, seed):
    """Of each program its name, sources and arguments."""
    for line in read("outside/comparisons").splitlines():
        if line and not line.startswith("#"):
            name, files, words = line.split(":")
            yield name, ["outside/" + each for each in files.split()], [argument(word, n, seed) for word in words.split()]


def answers(said):
    """How many answers a program says that it compared, or None if it does not say that all were the same."""
    found = re.findall(r"(\d+) (?:answers compared, no difference|calls on \d+ streams, .* no difference|passed, 0 failed)", said)
    return int(found[-1]) if found else None
