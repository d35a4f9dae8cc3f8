"""The man page, made from the parser: ``python3 -m pandoricchia.command.manual > man/pandoricchia.1``. A test compares."""
from __future__ import annotations

import argparse
import sys
from typing import Dict, Iterator, List

from .._library import ENVIRONMENT, VERSION
from ..numbers import Number
from .parser import DESCRIPTION, filled, parser

#: When it last changed.
DATE = "2026-11-18"

#: The words of these pages beside those of the field. README has the same; a test compares.
GLOSSARY = (
    ("word", "a received codeword, right or wrong: information bits, then parity. A codeword is a word that the encoder can give"),
    ("check", "a parity check. The broken checks of a word are the ones of its syndrome"),
    ("quiet", "with no check broken: the syndrome is zero"),
    ("excess", "of a bit: the number of its broken checks less that of its met ones. A flip takes the bit that has most"),
    ("run", "iterative bit flipping, a bit in each iteration; flips are its iterations, and the limit is the most that it makes"),
    ("unlike", "the Hamming distance between the word as it was received and the run's last word"),
    ("taken", "decoded: answer 0. Refused is any other answer, a decoding failure by its number"),
    ("unit", "a CLTU, the telecommand transmission unit: start sequence, codeblocks, tail sequence"),
    ("marker", "an ASM, the attached sync marker 1A CF FC 1D before each randomised telemetry word (together a CADU)"),
    ("sample", "a float for each bit: a soft decision, used to choose among bits of equal excess. All else here is hard decision"),
)

STATUS = (
    ("0", "All is taken. Of check and quick: no check is broken."),
    ("1", "Something is refused: the log says which words. Where it is the whole input, or nothing was received, or the verb writes octets"
          " alone, one line on standard error says what, and no output file is left or changed; report and summary are written."),
    ("2", "Bad usage, or a read or write that failed: one line on standard error says what, and no output file is left or changed."),
)


def escaped(text: str) -> str:
    """Text as roff takes it."""
    safe = text.replace("\\", "\\e").replace("-", "\\-")
    return "\n".join("\\&" + line if line.startswith((".", "'")) else line for line in safe.splitlines())


def _usage(made: argparse.ArgumentParser) -> str:
    """How a verb is called: what it needs, and where its input is named."""
    needed = [_named(action) for action in made._actions if action.required and action.option_strings]
    groups = [group for group in made._mutually_exclusive_groups if group.required]
    needed += ["(" + " | ".join(_named(action) for action in group._group_actions) + ")" for group in groups]
    files = [f"[{action.metavar}]" if action.nargs == "?" else str(action.metavar) for action in made._actions if not action.option_strings]
    return " ".join([made.prog, *needed, "[OPTION]..", *files])


def _named(action: argparse.Action) -> str:
    """An option's long name with its value."""
    return action.option_strings[-1] + _value(action)


def _value(action: argparse.Action) -> str:
    return f" {action.metavar or action.dest.upper()}" if action.option_strings and action.nargs != 0 else ""


def below(made: argparse.ArgumentParser) -> Dict[str, argparse.ArgumentParser]:
    """The verbs of a parser, in their order."""
    groups = [action for action in made._actions if isinstance(action, argparse._SubParsersAction)]
    return {name: inner for action in groups for name, inner in action.choices.items()}


def leaves(made: argparse.ArgumentParser) -> Iterator[argparse.ArgumentParser]:
    """The verbs that can be run, in their order."""
    for inner in below(made).values():
        yield from leaves(inner)
    if not below(made):
        yield made


def _verb(made: argparse.ArgumentParser) -> Iterator[str]:
    yield f".SS {escaped(made.prog.split(' ', 1)[1])}"
    yield f".B {escaped(_usage(made))}"
    yield ".PP"
    yield escaped(made.description or "")
    for action in made._actions:
        if action.dest == "help":
            continue
        names = ", ".join(action.option_strings) or str(action.metavar)
        yield ".TP"
        yield f".B {escaped(names + _value(action))}"
        yield escaped(filled((action.help or "") + "."))
    yield ".PP"
    yield "Example:"
    yield ".PP"
    yield ".EX"
    yield escaped("\n".join((made.epilog or "").splitlines()[1:]))
    yield ".EE"


def manual() -> str:
    """The whole page."""
    made = parser()
    lines: List[str] = [
        f'.TH PANDORICCHIA 1 {DATE} "pandoricchia {VERSION}" "User Commands"',
        ".SH NAME",
        "pandoricchia \\- words of five CCSDS LDPC codes from a shell",
        ".SH SYNOPSIS",
        ".B pandoricchia",
        "\\fIVERB\\fR [\\fIOPTION\\fR].. [\\fIFILE\\fR]",
        ".SH DESCRIPTION",
        escaped(filled(DESCRIPTION)),
        ".PP",
        filled(
            "The codes are 1 (128,64), 2 (256,128), 3 (512,256), 4 (8176,7154) and 5 (8160,7136). Answers are the library's numbers:"
            " 0 is taken, any other is a refusal; they and the words of this page are explained below."
        ),
        ".SH VERBS",
    ]
    for verb in leaves(made):
        lines += _verb(verb)
    lines.append(".SH ANSWERS")
    for number in Number:
        lines += [".TP", f".B {int(number)}", escaped(number.text[0].upper() + number.text[1:] + ".")]
    lines.append(".SH WORDS")
    for word, meaning in GLOSSARY:
        lines += [".TP", f".B {escaped(word)}", escaped(filled(meaning[0].upper() + meaning[1:] + "."))]
    lines.append(".SH EXIT STATUS")
    for status, meaning in STATUS:
        lines += [".TP", f".B {status}", escaped(filled(meaning))]
    lines += [
        ".PP",
        "A pipe that nobody reads any more ends it by the system's signal, quietly.",
        ".SH ENVIRONMENT",
        ".TP",
        f".B {ENVIRONMENT}",
        filled("The shared library. Without it the one in the package's folder is taken, else the one that the system's loader finds."),
        ".SH SEE ALSO",
        "The programs",
        ".BR wordbench ,",
        ".BR why ,",
        ".BR frames ,",
        ".BR unitread ,",
        ".BR unitwrite ,",
        ".B fromblocks",
        "and",
        ".BR toblocks ,",
        "which are proved; the command stands outside the proofs.",
    ]
    return "\n".join(lines) + "\n"


if __name__ == "__main__":
    sys.stdout.write(manual())
