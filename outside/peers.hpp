/* What the programs over IT++ and GNU Radio share: outside/peers.c's calls on outside/peers.c's words, asked of a peer.
 *
 *     PROGRAM CALL ALIST WRONG WORDS PASSES < FILE
 *
 * A peer is made from the alist file, whether it is to encode, and how sure a received bit is: log((1 - p) / p), where p is the
 * share of wrong bits. It has types of its own for bits and for soft bits; making them of words is not timed. */
#ifndef PEERS_HPP
#define PEERS_HPP

#include <cmath>
#include <cstdint>
#include <cstdio>
#include <cstdlib>
#include <ctime>
#include <fstream>
#include <string>
#include <vector>

using Bits = std::vector<uint8_t>;

inline Bits read_bits(size_t bits)
{
    Bits found;
    for (size_t i = 0; i < (bits + 7) / 8; i++) {
        int octet = std::getchar();
        if (octet < 0)
            std::exit(2);
        for (int shift = 7; shift >= 0; shift--)
            found.push_back(octet >> shift & 1);
    }
    found.resize(bits);
    return found;
}

inline double nanoseconds()
{
    timespec now;
    clock_gettime(CLOCK_PROCESS_CPUTIME_ID, &now);
    return 1e9 * now.tv_sec + now.tv_nsec;
}

/* What the call gives for each of the inputs; each becomes the nanoseconds of one call. */
template <class Input, class Call>
auto timed(const std::vector<Input> &inputs, size_t passes, double &each, Call call)
{
    std::vector<decltype(call(inputs[0]))> results(inputs.size());
    double start = nanoseconds();
    for (size_t t = 0; t < passes; t++)
        for (size_t w = 0; w < inputs.size(); w++)
            results[w] = call(inputs[w]);
    each = (nanoseconds() - start) / double(passes * inputs.size());
    return results;
}

template <class Peer>
int ask(int argc, char **argv)
{
    if (argc != 6)
        return 2;
    std::string call = argv[1], path = argv[2];
    size_t wrong = std::atoi(argv[3]), count = std::atoi(argv[4]), passes = std::atoi(argv[5]);
    size_t bits, checks;
    if (!(std::ifstream(path) >> bits >> checks) || count == 0)
        return 2;
    std::vector<Bits> information, word, spoiled;
    for (size_t w = 0; w < count; w++) {
        information.push_back(read_bits(bits - checks));
        word.push_back(read_bits(bits));
        spoiled.push_back(read_bits(bits));
    }

    double share = double(wrong) / double(bits), each;
    Peer peer(path, call == "encode", std::log((1 - share) / share));
    std::vector<typename Peer::Hard> hard;
    std::vector<typename Peer::Soft> soft;
    size_t well = 0;
    if (call == "check") {
        for (const Bits &b : word)
            hard.push_back(peer.hard(b));
        auto quiet = timed(hard, passes, each, [&](const typename Peer::Hard &b) { return int(peer.quiet(b)); });
        for (size_t w = 0; w < count; w++)
            well += quiet[w] && !peer.quiet(peer.hard(spoiled[w]));
    } else if (call == "encode") {
        for (const Bits &b : information)
            hard.push_back(peer.hard(b));
        auto encoded = timed(hard, passes, each, [&](const typename Peer::Hard &b) { return peer.encode(b); });
        for (size_t w = 0; w < count; w++)
            well += peer.encoded(encoded[w]) == word[w];
    } else {
        for (const Bits &b : spoiled)
            soft.push_back(peer.soft(b));
        auto corrected = timed(soft, passes, each, [&](const typename Peer::Soft &b) { return peer.correct(b); });
        for (size_t w = 0; w < count; w++)
            well += peer.corrected(corrected[w]) == word[w];
    }
    std::printf("%zu %.0f\n", well, each);
    return 0;
}

#endif
