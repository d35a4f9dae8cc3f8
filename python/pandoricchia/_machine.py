"""For which machine a library is. The system's loader passes over a library for another machine as if its file were not there."""
from __future__ import annotations

OWN = "/proc/self/exe"
# By their numbers in an ELF file; any other is said as its number.
MACHINES = {
    2: "SPARC",
    3: "x86",
    8: "MIPS",
    20: "PowerPC",
    21: "PowerPC",
    22: "S/390",
    40: "Arm",
    43: "SPARC",
    62: "x86-64",
    183: "Arm",
    243: "RISC-V",
    258: "LoongArch",
}


def machine(path: str) -> str:
    """The machine of an ELF file, as "Arm, 64 bits"; an empty text for any other file, and where there is none."""
    try:
        with open(path, "rb") as file:
            head = file.read(20)
    except OSError:
        return ""
    if len(head) < 20 or head[:4] != b"\x7fELF":
        return ""
    number = int.from_bytes(head[18:20], "little" if head[5] == 1 else "big")
    return f"{MACHINES.get(number, f'machine {number}')}, {32 * head[4]} bits"


def other_machine(path: str) -> str:
    """What is to be said of a library for another machine than this Python's; else an empty text."""
    its, own = machine(path), machine(OWN)
    if not its or not own or its == own:
        return ""
    return (
        f"{path} is for another machine: it is for {its}, and this Python for {own}. "
        "`make install` and `pip install ./python` make one for this machine, from the C file."
    )
