"""The command's verbs and options, with an example for each. The man page is made from it."""
from __future__ import annotations

import argparse
import hashlib
from typing import IO, Any, Callable, List, NoReturn, Optional, Tuple

from .. import _library
from . import campaign, links, report, samples, summary, words
from .files import Failed, Sink

RECORDING = (
    "The input is a recording: one octet code, two octets limit (high first), then words to the end. With --code it is words of"
    " that code alone."
)
LOG = "A line for each word goes to standard output."


class Usage(Failed):
    """Bad usage, with the command's name before it."""


class Parser(argparse.ArgumentParser):
    """A parser that says what is wrong in one line, and writes its help as everything else is written."""

    def __init__(self, **more: Any) -> None:
        super().__init__(formatter_class=argparse.RawDescriptionHelpFormatter, allow_abbrev=False, **more)

    def error(self, message: str) -> NoReturn:
        raise Usage(f"{self.prog}: {message}; see {self.prog} --help")

    def _print_message(self, message: str, file: Optional[IO[str]] = None) -> None:
        Sink(None).write(message.encode())


class Version(argparse.Action):
    """Says the command's version, and which library it asks: its version, its file, and the file's hash."""

    def __call__(self, *_: object) -> NoReturn:
        Sink(None).write(f"pandoricchia {_library.VERSION}\n".encode())
        library = _library.load()
        file = _library.file_of(library)
        Sink(None).write(f"library {_library.written(library.pandoricchia_version())}, {file}\n".encode("utf-8", "surrogateescape"))
        with open(file, "rb") as octets:
            Sink(None).write(f"SHA-256 {hashlib.sha256(octets.read()).hexdigest()}\n".encode())
        raise SystemExit(0)


def _number(least: int, most: int) -> Callable[[str], int]:
    """The type of a whole number between two."""

    def read(given: str) -> int:
        try:
            value = int(given)
        except ValueError:
            value = least - 1
        if not least <= value <= most:
            raise argparse.ArgumentTypeError(f"{given!r} is no number from {least} to {most}")
        return value

    return read


class _OneOf:
    """The type of a code's number."""

    def __init__(self, codes: Tuple[int, ...]) -> None:
        self.codes = codes

    def __call__(self, given: str) -> int:
        if given not in map(str, self.codes):
            raise argparse.ArgumentTypeError(f"{given!r} is no code of this verb ({', '.join(map(str, self.codes))})")
        return int(given)


def _real(most: float, what: str) -> Callable[[str], float]:
    """The type of a number from 0, with fractions."""

    def read(given: str) -> float:
        try:
            value = float(given)
        except ValueError:
            value = -1.0
        if not 0 <= value <= most:
            raise argparse.ArgumentTypeError(f"{given!r} is no {what} from 0 to {most:g}")
        return value

    return read


class Verbs:
    """Adds verbs to a parser, and options to them."""

    def __init__(self, parser: argparse.ArgumentParser, name: str) -> None:
        self._made = parser.add_subparsers(dest=name, metavar="VERB", title="verbs", required=True, parser_class=Parser)

    def add(self, name: str, run: Callable[[argparse.Namespace], int], gives: str, more: str, *examples: str) -> Parser:
        """A verb: what it does in a few words, what there is more to say, and examples."""
        parser: Parser = self._made.add_parser(name, help=gives, description=filled(f"{gives[0].upper()}{gives[1:]}. {more}"))
        parser.epilog = "example:\n" + "\n".join(f"  {example}" for example in examples)
        parser.set_defaults(run=run, label=parser.prog, code=None, limit=None, output=None, jobs=1, count=False)
        return parser

    def group(self, name: str, gives: str) -> Verbs:
        """A verb that has verbs."""
        parser = self._made.add_parser(name, help=gives, description=f"{gives[0].upper()}{gives[1:]}.")
        return Verbs(parser, name + "_verb")


def filled(text: str) -> str:
    """Text in lines of at most 78 characters."""
    lines: List[str] = [""]
    for word in text.split():
        if len(lines[-1]) + len(word) > 77:
            lines.append("")
        lines[-1] += (" " if lines[-1] else "") + word
    return "\n".join(lines)


# Options, where a person expects them.


def _input(parser: argparse.ArgumentParser, what: str) -> None:
    parser.add_argument("input", nargs="?", metavar="FILE", help=f"{what}; standard input where it is - or not named")


def _output(parser: argparse.ArgumentParser, what: str) -> None:
    parser.add_argument("-o", "--output", metavar="FILE", help=f"{what}; it comes into place when all of it is written")


def _code(parser: argparse.ArgumentParser, what: str, codes: Tuple[int, ...] = (1, 2, 3, 4, 5), required: bool = False) -> None:
    parser.add_argument("-c", "--code", type=_OneOf(codes), metavar="CODE", required=required, help=what)


def _limit(parser: argparse.ArgumentParser, what: str = "the most flips of a word, 0 to 65535") -> None:
    parser.add_argument("-l", "--limit", type=_number(0, 65535), metavar="FLIPS", help=what)


def _seed(parser: argparse.ArgumentParser) -> None:
    parser.add_argument("-s", "--seed", default="1", help="any number or word; the same seed draws the same (1 unless said)")


def _jobs(parser: argparse.ArgumentParser) -> None:
    many = "spread the work over N processes (1 unless said)"
    parser.add_argument("-j", "--jobs", type=_number(1, 256), default=1, metavar="N", help=many)


def _count(parser: argparse.ArgumentParser) -> None:
    many = "when all is printed, say on standard error how many words there were: summary --words demands as many"
    parser.add_argument("--count", action="store_true", help=many)


def _words_demanded(parser: argparse.ArgumentParser) -> None:
    many = "demand so many words: a log whose end is missing has fewer, which nothing in it tells"
    parser.add_argument("--words", type=_number(0, 10**15), metavar="N", help=many)


def _worst(parser: argparse.ArgumentParser, default: int) -> None:
    many = f"show the N worst words ({default} unless said)"
    parser.add_argument("--worst", type=_number(0, 1000), default=default, metavar="N", help=many)


MENDED = "two wrong bits are promised to be mended, but 16 pairs of code 1"
BARE = "the input is words of this code, 1 to 5, without the three octets of a recording"
OWN_LIMIT = "the most flips of a word, 0 to 65535; else the recording's own, and with --code 65535, which no run reaches"


def _words(verbs: Verbs) -> None:
    encode = verbs.add(
        "encode", words.encode, "write the words of information",
        "The input is information, as many octets a word as the code has. What is written is a recording: one octet code, two octets"
        " limit, then the words. The first word that is refused ends it, with status 1: a short last one without --fill, or under code 4"
        " one whose six last bits are not 0. An output file stays as it was then; on standard output words before it may stand already.",
        "pandoricchia encode --code 1 --fill notes.txt --output sent.bin",
    )
    _input(encode, "the information")
    _output(encode, "where the recording goes, else to standard output")
    _code(encode, "the code, 1 to 5", required=True)
    _limit(encode, "the limit that the recording is to say, 65535 unless said")
    filling = "fill up a short last word's information with octets 55, as a unit does; under code 4 its six last bits are 0"
    encode.add_argument("--fill", action="store_true", help=filling)
    encode.add_argument("--bare", action="store_true", help="write the words alone, without a recording's three octets")
    _jobs(encode)

    spoil = verbs.add(
        "spoil", words.spoil, "flip bits of words",
        f"{RECORDING} What is written is the same with wrong bits, drawn from the seed and the word's index. Of code 5 the last two"
        " bits, which are filling, stay as they are; so does a last word that is cut short.",
        "pandoricchia spoil --wrong 2 --seed 7 sent.bin --output heard.bin",
        "pandoricchia spoil --rate 0.001 sent.bin | wordbench",
    )
    _input(spoil, "the recording")
    _output(spoil, "where the spoilt recording goes, else to standard output")
    how = spoil.add_mutually_exclusive_group(required=True)
    how.add_argument("-w", "--wrong", type=_number(0, 8176), metavar="BITS", help="so many wrong bits in each word")
    how.add_argument("-r", "--rate", type=_real(1, "rate"), metavar="RATE", help="each bit is wrong at this rate, from 0 to 1")
    _seed(spoil)
    _code(spoil, BARE)
    _jobs(spoil)

    for name, run, gives, more in (
        ("check", words.check, "count the broken checks of words",
         "how many checks are broken, and the lowest of them, or the number of checks where none is"),
        ("quick", words.quick, "say of words whether no check is broken",
         "1 where no check is broken and else 0, and how many checks were read to know"),
    ):
        check = verbs.add(
            name, run, gives, f"{RECORDING} {LOG} Its columns are index, answer, {more}. The status is 1 if a check of any word is broken.",
            f"pandoricchia {name} heard.bin",
        )
        _input(check, "the recording")
        _code(check, BARE)
        _jobs(check)

    correct = verbs.add(
        "correct", words.correct, "correct words, and print what wordbench prints",
        f"{RECORDING} {LOG} Its columns are index, answer, flips, broken checks at the start and at the end, and how many bits the run"
        " left unlike those received. With --output the words are written too, as a recording or alone as they came: those that are"
        " refused as they were received.",
        "pandoricchia correct heard.bin --output mended.bin > heard.log",
        "pandoricchia correct --code 5 --limit 40 --jobs 4 words.raw > words.log",
    )
    _input(correct, "the recording")
    _output(correct, "where the corrected words go, else nowhere")
    _code(correct, BARE)
    _limit(correct, OWN_LIMIT)
    _count(correct)
    _jobs(correct)

    opened = verbs.add(
        "open", words.open_words, "take the information out of codewords",
        f"{RECORDING} {LOG} Its columns are index, answer, the lowest broken check, and the information in hexadecimal, - where there is"
        " none. Codes 1, 2, 3 and 5. With --output the information's octets are written, what encode filled up among them; a refused word"
        " has none.",
        "pandoricchia open mended.bin --output notes.back > mended.opened",
    )
    _input(opened, "the recording")
    _output(opened, "where the information goes, else nowhere")
    _code(opened, BARE)
    _jobs(opened)

    why = verbs.add(
        "why", words.why, "correct words and list every flip, and print what the program why prints",
        f"{RECORDING} Under a word's line stand its flips, with bit, excess and broken checks left; for answer 5 the bit that came"
        " nearest to a flip; and for a refused word of code 1 the nearest codeword within three flips.",
        "pandoricchia why heard.bin > heard.why",
    )
    _input(why, "the recording")
    _code(why, BARE)
    _limit(why, OWN_LIMIT)
    _count(why)
    _jobs(why)

    nearest = verbs.add(
        "nearest", words.nearest, "search for the nearest codeword of words of code 1",
        f"{RECORDING} {LOG} Its columns are index, answer, the fewest flips that give a codeword, and their bits. With --output the"
        " mended words are written, those that are refused as they were received.",
        "pandoricchia nearest --reach 3 heard.bin --output nearer.bin",
    )
    _input(nearest, "the recording")
    _output(nearest, "where the mended words go, else nowhere")
    many = "search up to so many flips, 0 to 3 (3 unless said)"
    nearest.add_argument("-r", "--reach", type=_number(0, 3), default=3, metavar="FLIPS", help=many)
    _code(nearest, "the input is words of code 1, without the three octets of a recording", (1,))
    _jobs(nearest)


def _samples(verbs: Verbs) -> None:
    group = verbs.group("samples", "a receiver's samples of words of codes 1 to 4, a number for each bit")
    make = group.add(
        "make", samples.make, "write noisy samples of words",
        f"{RECORDING} Of each bit a sample is written, 1 for a 0 and -1 for a 1, and normal noise on it, drawn from the seed and the"
        " word's index. What is written is samples alone: 32-bit floats, little-endian, word after word. Codes 1 to 4. A last word that"
        " is cut short gives as many samples as it has bits.",
        "pandoricchia samples make --noise 0.5 --seed 7 sent.bin --output heard.f32",
    )
    _input(make, "the recording")
    _output(make, "where the samples go, else to standard output")
    make.add_argument(
        "--noise", type=_real(samples.LOUDEST, "noise"), default=0.5, metavar="DEVIATION",
        help="the noise's standard deviation, 0 or more (0.5 unless said)",
    )
    _seed(make)
    _code(make, "the input is words of this code, 1 to 4, without the three octets of a recording", samples.CODES)
    _jobs(make)
    correct = group.add(
        "correct", samples.correct, "correct words by their samples, and print a log as correct does",
        "The input is samples alone, one for each bit, word after word: 32-bit floats, little-endian, as a file sink of floats in GNU"
        " Radio writes them. A bit is 1 if its sample is below 0. The run is that of correct, but of several bits of greatest"
        f" excess it flips the one whose sample is nearest to 0. {LOG} Its columns are those of correct; a word with a sample that is"
        " infinite or not a number has answer 16, and a last word that is cut short 2. With --output the words are written too, as a"
        " recording: those that are refused as their bits were read, of one that is cut short its whole octets.",
        "pandoricchia samples correct --code 1 heard.f32 --output mended.bin > heard.log",
    )
    _input(correct, "the samples")
    _output(correct, "where a recording of the corrected words goes, else nowhere")
    _code(correct, "the code, 1 to 4", samples.CODES, True)
    _limit(correct, "the most flips of a word, 0 to 65535 (65535 unless said, which no run reaches)")
    _count(correct)
    _jobs(correct)


def _links(verbs: Verbs) -> None:
    unit = verbs.group("unit", "telecommand transmission units of codes 1 and 3")
    write = unit.add(
        "write", links.unit_write, "write the unit of information",
        "The input is information, up to 65,536 octets; it is filled up to whole codeblocks with octets 55.",
        "pandoricchia unit write --code 1 command.bin --output command.unit",
    )
    _input(write, "the information")
    _output(write, "where the unit goes, else to standard output")
    _code(write, "the code, 1 or 3", (1, 3), True)
    read = unit.add(
        "read", links.unit_read, "read a unit, and print what unitread prints",
        "The input is the unit alone, up to 131,096 octets: code and limit are options. A line for each codeblock goes to standard"
        " output: index, correct's numbers, and its information in hexadecimal. With --output the information's octets are written,"
        " the fill among them, up to the first refused codeblock.",
        "pandoricchia unit read --code 1 --limit 10 command.unit",
    )
    _input(read, "the unit")
    _output(read, "where the information goes, else nowhere")
    _code(read, "the code, 1 or 3", (1, 3), True)
    _limit(read, "the most flips of a codeblock, 0 to 65535 (65535 unless said, which no run reaches)")
    _count(read)

    frames = verbs.add(
        "frames", links.frames, "take marked words of code 5 out of a stream, and print what frames prints",
        "The input is the stream alone, of any length: limit and edition are options. A line for each word goes to standard output:"
        " index, the offset of its first octet in the stream, and correct's numbers. With --output the words are written as a recording,"
        " without the randomiser: corrected, and those that are refused as they were received. Where nothing is taken, a line on standard"
        " error says how many words the other randomiser's editions would take.",
        "pandoricchia frames --limit 40 received.octets --output received.bin > received.log",
        "pandoricchia frames --received received.octets --output heard.bin > received.log; pandoricchia why heard.bin",
    )
    _input(frames, "the stream")
    _output(frames, "where a recording of the words goes, else nowhere")
    frames.add_argument("--received", action="store_true", help="write every word as it was received, for why and report")
    _limit(frames, "the most flips of a word, 0 to 65535 (65535 unless said, which no run reaches)")
    frames.add_argument(
        "-e", "--edition", type=_number(0, 255), default=0, metavar="ISSUE",
        help="the issue of CCSDS 131.0-B, which fixes the randomiser: 1 to 5, or 0 where none is stated (0 unless said)",
    )
    _count(frames)

    blocks = verbs.group("blocks", "recordings in blocks of the lab's disk")
    taken = blocks.add(
        "import", links.blocks_import, "write the octets of a recording from its blocks, as fromblocks does",
        "The input is up to 128 blocks of 512 octets. A block at fault refuses all.",
        "pandoricchia blocks import disk.blocks --output recording.bin",
    )
    _input(taken, "the blocks")
    _output(taken, "where the recording goes, else to standard output")
    given = blocks.add(
        "export", links.blocks_export, "write a recording in blocks, as toblocks does",
        "The input is up to 64,512 octets of any kind.",
        "pandoricchia blocks export recording.bin --output disk.blocks",
    )
    _input(given, "the recording")
    _output(given, "where the blocks go, else to standard output")

    bch = verbs.group("bch", "the older BCH (63,56) words: 7 octets of information, 8 of a word")
    encode = bch.add(
        "encode", links.bch_encode, "write the BCH words of information",
        "The input is information, 7 octets a word. A short last one is refused, and an output file stays as it was then.",
        "pandoricchia bch encode commands.bin --output commands.bch",
    )
    _input(encode, "the information")
    _output(encode, "where the words go, else to standard output")
    check = bch.add(
        "check", links.bch_check, "check BCH words, and mend a single wrong bit in each",
        f"The input is words of 8 octets. {LOG} Its columns are index, answer, and how many bits were mended. With --output the"
        " codewords are written, and those that are refused as they were received.",
        "pandoricchia bch check heard.bch --output mended.bch",
    )
    _input(check, "the words")
    _output(check, "where the codewords go, else nowhere")
    check.add_argument("--detect-only", action="store_true", help="mend nothing: a word is a codeword, or it is refused")


def _pictures(verbs: Verbs) -> None:
    short = verbs.add(
        "summary", summary.summary, "say what a log holds as a whole",
        "The input is a log of correct, samples correct, why, frames or unit read, or of the program of that kind, whole: a line that is"
        " missing or moved refuses it. How many words have each answer, flips and unlike by how many, how many were changed in more bits"
        " than is promised, and the words that need a look: those that are refused, those in which a bit was flipped and flipped back,"
        " and those that were taken with more bits changed than is promised, and than twice as many as half of the words have. The"
        " status is 1 if a word was refused, or there is none.",
        "pandoricchia summary heard.log",
        "pandoricchia summary --code 1 --words 8 heard.log",
    )
    _input(short, "the log")
    _output(short, "where the summary goes, else to standard output")
    _code(short, f"the log is of words of this code, 1 to 5: {MENDED}")
    _words_demanded(short)
    _worst(short, 10)

    long = verbs.add(
        "report", report.report, "make one page of HTML from a log or a recording",
        "The input is a log, as for summary, or a recording, or with --code words. The page needs nothing from elsewhere: answers by"
        " kind, flips and unlike, broken checks at the start against flips, the worst words with their runs flip by flip (of a"
        " recording, or of a log of why), and what was proved of these numbers. The status is 1 if a word was refused, or there is none.",
        "pandoricchia report heard.bin --output heard.html",
    )
    _input(long, "the log or the recording")
    _output(long, "where the page goes, else to standard output")
    _code(long, f"{BARE}; or the log is of words of this code")
    _limit(long, OWN_LIMIT)
    _words_demanded(long)
    _worst(long, 5)
    _jobs(long)

    tried = verbs.add(
        "campaign", campaign.campaign, "encode, spoil and correct random words, and count what came back",
        "For each code, and each number of wrong bits from 0 on, random information is encoded, spoilt and corrected. A table goes to"
        " standard output: how many words came back right, came back as another codeword, or were refused with which number. With"
        " --output a page with a chart for each code is written. No coding gain is claimed. The status is 0, whatever was refused.",
        "pandoricchia campaign --code 1 --words 1000 --wrong 10 --seed 7 --output campaign.html",
    )
    _output(tried, "where the page with the charts goes, else nowhere")
    _code(tried, "this code alone, 1 to 5; all unless said")
    _limit(tried, "the most flips of a word, 0 to 65535 (65535 unless said, which no run reaches)")
    many = f"up to so many wrong bits (unless said {', '.join(map(str, campaign.MOST.values()))} for codes 1 to 5)"
    tried.add_argument("-w", "--wrong", type=_number(0, 8176), metavar="BITS", help=many)
    many = "words for each number of wrong bits (100 unless said)"
    tried.add_argument("-n", "--words", type=_number(1, 10**9), default=100, metavar="N", help=many)
    _seed(tried)
    _jobs(tried)


def _completion(options: argparse.Namespace) -> int:
    from .completion import completion  # which is made from what is made here  # pylint: disable=import-outside-toplevel

    return completion(options)


def _shells(verbs: Verbs) -> None:
    given = verbs.add(
        "completion", _completion, "write what bash or zsh completes",
        "Verbs, options and codes are completed, and files where one is named. An installed kit has both in their usual places.",
        "pandoricchia completion bash > ~/.local/share/bash-completion/completions/pandoricchia",
    )
    given.add_argument("shell", choices=("bash", "zsh"), metavar="SHELL", help="bash or zsh")
    _output(given, "where it goes, else to standard output")


DESCRIPTION = (
    "Encode, spoil, check, open and correct words of five CCSDS LDPC codes, and what lies around them: samples, units, streams,"
    " blocks, BCH words; and make summaries, reports and campaigns. It is thin and stands outside the proofs: what it computes it asks"
    " of the proved library."
)
STATUS = (
    "exit status: 0 if all is taken, 1 if something is refused, 2 for bad usage or a read or write that failed, which is said in one"
    " line on standard error."
)


def parser() -> Parser:
    """The command's parser."""
    made = Parser(prog="pandoricchia", description=filled(DESCRIPTION), epilog=filled(STATUS))
    said = "say the versions of the command and of the library, and which file that is"
    made.add_argument("--version", action=Version, nargs=0, help=said)
    verbs = Verbs(made, "verb")
    _words(verbs)
    _samples(verbs)
    _links(verbs)
    _pictures(verbs)
    _shells(verbs)
    return made
