/* Numbers drawn for the comparisons, the same for the same seed: splitmix64. */
#ifndef DRAWS_H
#define DRAWS_H

#include <stddef.h>
#include <stdint.h>

static uint64_t state;

static inline uint64_t draw(void)
{
    uint64_t z = (state += 0x9E3779B97F4A7C15);
    z = (z ^ z >> 30) * 0xBF58476D1CE4E5B9;
    z = (z ^ z >> 27) * 0x94D049BB133111EB;
    return z ^ z >> 31;
}

static inline size_t below(size_t n)
{
    return (size_t)(draw() % n);
}

static inline void draw_octets(uint8_t *octets, size_t len)
{
    for (size_t i = 0; i < len; i++)
        octets[i] = (uint8_t)draw();
}

#endif
