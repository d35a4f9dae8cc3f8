#!/usr/bin/env python3
"""wordbench on the machines of a Dask cluster (Debian's python3-distributed): a recording is cut into ranges of words, each worker
runs wordbench on its range, and the lines come out in order, the same log.

usage: examples/cluster.py [--scheduler ADDRESS | --workers N] [--program WORDS] [--octets N] < RECORDING > LOG

Without a scheduler's address a cluster of N workers is started on this machine. The program is wordbench on each worker's path,
unless another is named. A range travels to its worker, so no files are shared, and two a worker are under way at a time: however
long the recording, the memory is bounded. Exits non-zero, with the log unfinished and a line that says why, where no cluster is
found or a worker's wordbench is not there or says that it failed.
"""
import argparse
import collections
import itertools
import os
import shlex
import subprocess
import sys

try:
    from distributed import Client
except ImportError:
    sys.exit("cluster.py: this python3 has no Dask (Debian's python3-distributed, for /usr/bin/python3)")

HEADER = b"word answer flips first last unlike\n"
WORD_OCTETS = {1: 16, 2: 32, 3: 64, 4: 1022, 5: 1020}


def lines(program, head, words, first):
    """On a worker: the log's lines for these words, without the header, counted from the first one's index."""
    ran = subprocess.run(program, input=head + words, stdout=subprocess.PIPE, stderr=subprocess.PIPE, check=True)
    if ran.stderr:
        raise RuntimeError(ran.stderr.decode().strip())
    logged = (line.split(b" ", 1) for line in ran.stdout.splitlines()[1:])
    return b"".join(b"%d %s\n" % (first + int(index), rest) for index, rest in logged)


def ranges(head, recording, octets):
    """Words, and the index of the first of them. Where there are none, or the code is not offered, one range without words."""
    size = WORD_OCTETS.get(head[0], 0) if len(head) == 3 else 0
    count = max(1, octets // size) if size else 0
    for nth in itertools.count():
        words = recording.read(count * size)
        if nth and not words:
            return
        yield words, nth * count


def main():
    take = argparse.ArgumentParser(description="wordbench on the machines of a Dask cluster: a recording in, its log out.")
    where = take.add_mutually_exclusive_group()
    where.add_argument("--scheduler", help="the address of a Dask scheduler, as tcp://10.0.0.1:8786")
    where.add_argument("--workers", type=int, default=2, help="how many workers are started on this machine (2)")
    take.add_argument("--program", default="wordbench", help="what a worker runs")
    take.add_argument("--octets", type=int, default=500000, help="the octets of a range, at most (500000)")
    told = take.parse_args()

    recording, log = sys.stdin.buffer, sys.stdout.buffer
    started = {"n_workers": told.workers, "threads_per_worker": 1, "dashboard_address": None}
    with Client(told.scheduler) if told.scheduler else Client(**started) as client:
        client.wait_for_workers(1)
        ahead = 2 * sum(client.nthreads().values())
        head, program = recording.read(3), shlex.split(told.program)
        log.write(HEADER)
        waiting = collections.deque()
        for words, first in ranges(head, recording, told.octets):
            if len(waiting) == ahead:
                log.write(waiting.popleft().result())
            waiting.append(client.submit(lines, program, head, words, first, pure=False))
        while waiting:
            log.write(waiting.popleft().result())


if __name__ == "__main__":
    try:
        main()
    except BrokenPipeError:  # nobody reads the log any more; what is left of it goes nowhere
        os.dup2(os.open(os.devnull, os.O_WRONLY), sys.stdout.fileno())
        sys.exit(1)
    except (OSError, RuntimeError, subprocess.CalledProcessError) as error:
        sys.exit("cluster.py: %s" % error)
