#!/usr/bin/env python3
"""A flowgraph without a window: random telecommands, encoded, sent as 1 and -1, with noise, corrected in two ways, and counted.

    PYTHONPATH=python PANDORICCHIA_LIBRARY=target/staticlib/libpandoricchia.so python3 examples/gnuradio/telecommands.py --noise 0.6

Noise is a standard deviation. By bits a sample counts as its sign alone; by samples its size has a say. `--samples FILE` keeps what was
received, as `pandoricchia samples correct --code 1 FILE` reads it. Python must be the one that GNU Radio was built for.
"""
import argparse
from collections import Counter

import numpy
import pandoricchia_blocks
import pmt
from gnuradio import analog, blocks, digital, gr

import pandoricchia


class count(gr.sync_block):
    """Holds each word to the one that was sent: it came back right, as another codeword, or was refused."""

    def __init__(self, sent):
        self._sent = sent
        self.found = Counter()
        gr.sync_block.__init__(self, "count", in_sig=[(numpy.uint8, sent.shape[1])], out_sig=None)

    def work(self, input_items, output_items):
        start = self.nitems_read(0)
        tags = self.get_tags_in_window(0, 0, len(input_items[0]), pandoricchia_blocks.ANSWER)
        answers = {tag.offset: pmt.to_long(tag.value) for tag in tags}
        for k, word in enumerate(input_items[0], start):
            right = "right" if (word == self._sent[k]).all() else "another codeword"
            self.found[f"refused {answers[k]}" if answers[k] else right] += 1
        return len(input_items[0])

    def said(self):
        return ", ".join(f"{many} {kind}" for kind, many in sorted(self.found.items(), reverse=True))


class telecommands(gr.top_block):
    """Source, encoder, noise, both correctors, counters."""

    def __init__(self, code, words, noise, seed, samples=None):
        gr.top_block.__init__(self, "telecommands")
        chance = numpy.random.default_rng(seed)
        octets, length = pandoricchia.information_octets(code), pandoricchia.word_octets(code)
        information = chance.integers(0, 256, (words, octets), dtype=numpy.uint8)
        sent = numpy.array([pandoricchia.raising.encode(code, one) for one in information])

        source = blocks.vector_source_b(information.ravel().tolist(), False, octets)
        bits = blocks.packed_to_unpacked_bb(1, gr.GR_MSB_FIRST)
        level = blocks.add_const_ff(1)  # 1 for a 0, -1 for a 1
        heard = blocks.add_ff()
        self.encoder = pandoricchia_blocks.encode(code)  # a block in Python lives as long as something holds it
        self.connect(source, self.encoder, blocks.vector_to_stream(gr.sizeof_char, length), bits)
        self.connect(bits, blocks.char_to_float(1, -0.5), level, (heard, 0))
        self.connect(analog.noise_source_f(analog.GR_GAUSSIAN, noise, seed), (heard, 1))

        self.octets, self.samples = pandoricchia_blocks.correct(code), pandoricchia_blocks.correct_samples(code)
        self.by_bits, self.by_samples = count(sent), count(sent)
        packed = blocks.unpacked_to_packed_bb(1, gr.GR_MSB_FIRST)
        self.connect(heard, blocks.multiply_const_ff(-1), digital.binary_slicer_fb(), packed)
        self.connect(packed, blocks.stream_to_vector(gr.sizeof_char, length), self.octets, self.by_bits)
        self.connect(heard, blocks.stream_to_vector(gr.sizeof_float, 8 * length), self.samples, self.by_samples)
        if samples:
            self.connect(heard, blocks.file_sink(gr.sizeof_float, samples))


def main():
    told = argparse.ArgumentParser(description=__doc__.splitlines()[0])
    told.add_argument("--code", type=int, default=1, choices=(1, 2, 3), help="the code, 1 to 3 (1 unless said)")
    told.add_argument("--words", type=int, default=1000, help="so many words (1000 unless said)")
    told.add_argument("--noise", type=float, default=0.6, help="the noise's standard deviation (0.6 unless said)")
    told.add_argument("--seed", type=int, default=1, help="the same seed draws the same (1 unless said)")
    told.add_argument("--samples", help="where the samples go that were received, else nowhere")
    options = told.parse_args()
    graph = telecommands(options.code, options.words, options.noise, options.seed, options.samples)
    graph.run()
    print(f"by bits: {graph.by_bits.said()}")
    print(f"by samples: {graph.by_samples.said()}")


if __name__ == "__main__":
    main()
