"""Blocks for GNU Radio over the Python package: an encoder, a corrector of packed octets, and one of float samples.

An item is a word: vectors of octets, or of floats, one for each bit, as `stream_to_vector` makes them. A corrector gives a word for
each word: corrected, and one that is refused as it was received. Two tags stand at each: `answer`, 0 for one that was taken and else the
number of the refusal, and `flips`.

What is computed is asked of the proved library. These blocks stand outside the proofs, like the package.
"""
import numpy
import pandoricchia
import pmt
from gnuradio import gr

#: No run has as many flips.
NO_LIMIT = 65535

ANSWER, FLIPS = pmt.intern("answer"), pmt.intern("flips")


class encode(gr.sync_block):
    """Information octets in, words out: `code` is 1 to 5. Of code 4 the six last bits of the information must be 0."""

    def __init__(self, code=1):
        self._code = code
        given, made = pandoricchia.information_octets(code), pandoricchia.word_octets(code)
        gr.sync_block.__init__(self, "encode (Pandoricchia)", in_sig=[(numpy.uint8, given)], out_sig=[(numpy.uint8, made)])

    def work(self, input_items, output_items):
        for information, word in zip(input_items[0], output_items[0]):
            number = pandoricchia.encode(self._code, information, word)
            if number:
                raise ValueError(f"encode is refused with number {int(number)}: {number.text}")
        return len(output_items[0])


class _corrector(gr.sync_block):
    """What the two correctors share: the words out, and the tags at them."""

    def __init__(self, name, code, limit, given):
        self._code, self._limit = code, limit
        gr.sync_block.__init__(self, name, in_sig=[given], out_sig=[(numpy.uint8, pandoricchia.word_octets(code))])

    def _corrected(self, heard, word):
        """Correct's numbers; the word is written where it is taken."""
        raise NotImplementedError

    def _received(self, heard):
        """A word as it was received, which is what is given for a refused one."""
        raise NotImplementedError

    def work(self, input_items, output_items):
        for k, (heard, word) in enumerate(zip(input_items[0], output_items[0])):
            corrected = self._corrected(heard, word)
            if corrected.number:
                word[:] = self._received(heard)
            at = self.nitems_written(0) + k
            self.add_item_tag(0, at, ANSWER, pmt.from_long(int(corrected.number)))
            self.add_item_tag(0, at, FLIPS, pmt.from_long(corrected.flips))
        return len(output_items[0])


class correct(_corrector):
    """Words of packed octets in, hard decisions: codes 1 to 5."""

    def __init__(self, code=1, limit=NO_LIMIT):
        super().__init__("correct (Pandoricchia)", code, limit, (numpy.uint8, pandoricchia.word_octets(code)))

    def _corrected(self, heard, word):
        return pandoricchia.correct(self._code, heard, self._limit, word)

    def _received(self, heard):
        return heard


class correct_samples(_corrector):
    """Words of samples in, a float for each bit, below 0 for a 1: codes 1 to 4. Among bits of equal excess the sizes choose."""

    def __init__(self, code=1, limit=NO_LIMIT):
        super().__init__("correct samples (Pandoricchia)", code, limit, (numpy.float32, 8 * pandoricchia.word_octets(code)))

    def _corrected(self, heard, word):
        return pandoricchia.correct_samples(self._code, heard, self._limit, word)

    def _received(self, heard):
        return numpy.packbits(heard < 0)
