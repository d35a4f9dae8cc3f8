/* GNU Radio (Debian's gnuradio-dev) as a peer: outside/peers.hpp. Its decoder is belief propagation for white noise, up to 50
 * rounds; the noise is set so that a received bit is as sure as it is. Its encoder takes the parity bits from the first columns, and
 * gives the word in the order of the columns. */
#include "peers.hpp"

#include <algorithm>
#include <gnuradio/fec/awgn_bp.h>
#include <gnuradio/fec/cldpc.h>

class Peer
{
    alist list;
    cldpc code;
    awgn_bp decoder;

public:
    using Hard = Bits;
    using Soft = std::vector<float>;

    Peer(const std::string &path, bool encoding, double sure) : list(path.c_str()), decoder(list, std::sqrt(0.5 / sure))
    {
        decoder.set_K(list.get_N() - list.get_M());
        decoder.set_max_iterations(50);
        if (encoding)
            code = cldpc(list);
    }

    Hard hard(const Bits &bits) const { return bits; }
    Soft soft(const Bits &bits) const
    {
        Soft made;
        for (uint8_t bit : bits)
            made.push_back(bit ? -1 : 1);
        return made;
    }

    bool quiet(const Hard &word) { return decoder.is_codeword(word); }
    Hard encode(const Hard &information) { return code.encode(information); }
    Bits encoded(Hard word) const
    {
        std::rotate(word.begin(), word.begin() + word.size() / 2, word.end());
        return word;
    }

    Hard correct(const Soft &word)
    {
        int rounds;
        return decoder.decode(word, &rounds);
    }
    Bits corrected(const Hard &word) const { return word; }
};

int main(int argc, char **argv)
{
    return ask<Peer>(argc, argv);
}
