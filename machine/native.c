/* native: runs machine code on the processor. Standard input has an image and calls into it, standard output what comes back;
 * native.py writes and reads both. All numbers are 64 bits, as the machine has them:
 *   the image's address, its size, how many places hold the address of a function of ours; its octets; for each place its
 *   address and 0 for memcpy, 1 for memset; then for each call its entry, seven arguments, where octets are put and how many,
 *   where octets are taken and how many; the octets to put. Out come rax, rdx and the octets taken. */
#define _DEFAULT_SOURCE
#include <stdint.h>
#include <stdio.h>
#include <string.h>
#include <sys/mman.h>

typedef struct {
    uint64_t rax, rdx;
} returned;
typedef returned call(uint64_t, uint64_t, uint64_t, uint64_t, uint64_t, uint64_t, uint64_t);

static int get(void *to, size_t octets)
{
    return fread(to, 1, octets, stdin) == octets;
}

int main(void)
{
    uint64_t head[3], place[2], job[12];
    if (!get(head, sizeof head))
        return 2;
    void *image = mmap((void *)head[0], head[1], PROT_READ | PROT_WRITE | PROT_EXEC, MAP_PRIVATE | MAP_ANONYMOUS | MAP_FIXED, -1, 0);
    if (image != (void *)head[0] || !get(image, head[1]))
        return 2;
    for (uint64_t n = 0; n < head[2]; n++) {
        if (!get(place, sizeof place))
            return 2;
        *(uint64_t *)place[0] = place[1] ? (uint64_t)memset : (uint64_t)memcpy;
    }
    while (get(job, sizeof job)) {
        if (!get((void *)job[8], job[9]))
            return 2;
        returned r = ((call *)job[0])(job[1], job[2], job[3], job[4], job[5], job[6], job[7]);
        fwrite(&r, sizeof r, 1, stdout);
        fwrite((void *)job[10], 1, job[11], stdout);
        if (fflush(stdout))
            return 2;
    }
    return 0;
}
