"""The same octets on the processor: an image is mapped at its address in a process of its own, by native.c, and called."""
import os
import struct
import subprocess

from image import Image

TOP = os.path.dirname(os.path.dirname(os.path.abspath(__file__)))
PROGRAM = os.path.join(TOP, "target", "outside", "native")
BASE = 0x10000000
GIVEN, MADE, RECORD, SIZE = 0x100000, 0x101000, 0x102000, 0x102100  # the caller's buffers, behind the image
SECONDS = 5


def built():
    """Builds the program; says whether there is one."""
    done = subprocess.run([os.path.join(TOP, "outside", "build_c"), PROGRAM, os.path.join(TOP, "machine", "native.c")], capture_output=True)
    return done.returncode == 0


class Native:
    def __init__(self, octets):
        self.image = Image(octets, BASE)

    def laid_out(self):
        flat = bytearray(SIZE)
        for start, held, _, _ in self.image.segments:
            flat[start - BASE:start - BASE + len(held)] = held
        places = self.image.slots
        return struct.pack("<QQQ", BASE, SIZE, len(places)) + flat + b"".join(
            struct.pack("<QQ", at, ("memcpy", "memset").index(name)) for at, name in places)

    def run(self, calls):
        """calls: name, arguments, octets given, octets made. For each rax, rdx and the octets made, or crash or hang."""
        asked = self.laid_out()
        for name, arguments, given, made in calls:
            put = given.ljust(MADE - GIVEN, b"\0") + b"\xa5" * (SIZE - MADE)  # what is not written stays so
            arguments = (list(arguments) + [0] * 7)[:7]
            asked += struct.pack("<12Q", self.image.symbols["pandoricchia_" + name], *arguments, BASE + GIVEN, len(put), BASE + MADE, SIZE - MADE)
            asked += put
        return answers(asked, len(calls), SIZE - MADE)


def answers(asked, count, octets):
    """What the program answers: for each call rax, rdx and so many octets; or what became of it."""
    try:
        done = subprocess.run([os.path.join(TOP, "outside", "run_x86"), PROGRAM], input=asked, capture_output=True, timeout=SECONDS)
    except subprocess.TimeoutExpired:
        return "hang"
    each = 16 + octets
    if done.returncode or len(done.stdout) != count * each:
        return "crash"
    found = [done.stdout[at:at + each] for at in range(0, len(done.stdout), each)]
    return [struct.unpack_from("<QQ", one) + (one[16:],) for one in found]
