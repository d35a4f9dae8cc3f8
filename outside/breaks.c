/* Which checks each parity bit flips, as the judge has them, solved for single checks by elimination. */
#include "breaks.h"
#include "judge.h"

#include <stdlib.h>
#include <string.h>

enum { MOST = 1022, WORDS = 16 };

static const unsigned checks[] = {0, 64, 128, 256, 1022, 1022};
static const unsigned first_parity[] = {0, 64, 128, 256, 7154, 7136};

/* Sets of checks or of parity bits. */
struct set {
    uint64_t word[WORDS];
};

/* flipped[k]: the parity bits that flip the checks of made[k]; in the end made[k] is check k and what is said above. */
struct solved {
    struct set made[MOST], flipped[MOST];
};

static struct solved *solution[6];

static void add(struct set *sum, const struct set *other)
{
    for (unsigned k = 0; k < WORDS; k++)
        sum->word[k] ^= other->word[k];
}

static bool in(const struct set *set, unsigned n)
{
    return set->word[n / 64] >> n % 64 & 1;
}

static void put(struct set *set, unsigned n)
{
    set->word[n / 64] ^= UINT64_C(1) << n % 64;
}

static void swap(struct set *a, struct set *b)
{
    struct set kept = *a;
    *a = *b;
    *b = kept;
}

static void flip(uint8_t *word, unsigned bit)
{
    word[bit / 8] ^= (uint8_t)(0x80 >> bit % 8);
}

static struct solved *solve(uint8_t code)
{
    struct solved *s = calloc(1, sizeof *s);
    unsigned n = checks[code];
    for (unsigned k = 0; k < n; k++) {
        uint8_t word[MOST] = {0};
        unsigned char broken[MOST];
        flip(word, first_parity[code] + k);
        judge_checks(code, word, broken);
        for (unsigned check = 0; check < n; check++)
            if (broken[check])
                put(&s->made[k], check);
        put(&s->flipped[k], k);
    }
    /* The last check of a block row of codes 4 and 5 is the sum of the others of its row, and is left. */
    for (unsigned check = 0; check < n; check++) {
        unsigned pivot = check;
        if (code >= 4 && check % 511 == 510)
            continue;
        while (pivot < n && !in(&s->made[pivot], check))
            pivot++;
        for (unsigned k = 0; pivot == n && k < check; k++)
            if (code >= 4 && k % 511 == 510 && in(&s->made[k], check))
                pivot = k;
        if (pivot == n)
            abort();
        swap(&s->made[check], &s->made[pivot]);
        swap(&s->flipped[check], &s->flipped[pivot]);
        for (unsigned k = 0; k < n; k++)
            if (k != check && in(&s->made[k], check)) {
                add(&s->made[k], &s->made[check]);
                add(&s->flipped[k], &s->flipped[check]);
            }
    }
    return s;
}

void break_check(uint8_t code, uint32_t check, uint8_t *word)
{
    if (solution[code] == NULL)
        solution[code] = solve(code);
    if (code >= 4 && check % 511 == 510)
        return;
    for (unsigned k = 0; k < checks[code]; k++)
        if (in(&solution[code]->flipped[check], k))
            flip(word, first_parity[code] + k);
}
