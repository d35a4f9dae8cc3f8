/* IT++ (Debian's libitpp-dev) as a peer: outside/peers.hpp. Its decoder is belief propagation, up to 50 rounds. Its encoder takes
 * the parity bits from the first columns, and gives the information before them. */
#include "peers.hpp"

#include <itpp/itcomm.h>

class Peer
{
    itpp::LDPC_Parity parity;
    itpp::LDPC_Generator_Systematic generator;
    itpp::LDPC_Code code;
    double sure;

public:
    using Hard = itpp::bvec;
    using Soft = itpp::QLLRvec;

    Peer(const std::string &alist, bool encoding, double sure) : parity(alist, "alist"), sure(sure)
    {
        if (encoding)
            generator.construct(&parity, true);
        code.set_code(&parity, encoding ? &generator : nullptr);
        code.set_exit_conditions(50, true, true);
    }

    Hard hard(const Bits &bits) const
    {
        Hard made(bits.size());
        for (size_t i = 0; i < bits.size(); i++)
            made(i) = bits[i];
        return made;
    }

    Soft soft(const Bits &bits) const
    {
        itpp::vec made(bits.size());
        for (size_t i = 0; i < bits.size(); i++)
            made(i) = bits[i] ? -sure : sure;
        return code.get_llrcalc().to_qllr(made);
    }

    bool quiet(const Hard &word) const { return code.syndrome_check(word); }
    Hard encode(const Hard &information) { return code.encode(information); }
    Bits encoded(const Hard &word) const
    {
        Bits bits;
        for (int i = 0; i < word.size(); i++)
            bits.push_back(word(i) == itpp::bin(1));
        return bits;
    }

    Soft correct(const Soft &word)
    {
        Soft out;
        code.bp_decode(word, out);
        return out;
    }
    Bits corrected(const Soft &word) const
    {
        Bits bits;
        for (int i = 0; i < word.size(); i++)
            bits.push_back(word(i) < 0);
        return bits;
    }
};

int main(int argc, char **argv)
{
    return ask<Peer>(argc, argv);
}
