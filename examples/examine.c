/* Reads a network and examines a plan for it.
 *
 *   cc examine.c $(pkg-config --cflags --libs pudeyan) -o examine
 */
#include <pudeyan.h>

#include <stdio.h>

/* Four places, the origin 0, the archive 3; five links: start, end, capacity,
 * transit. */
static const uint8_t network[] = {4, 0, 3, 5,
                                  0, 1, 2, 1,
                                  1, 3, 1, 1,
                                  1, 2, 1, 1,
                                  2, 3, 1, 2,
                                  0, 2, 1, 3};

/* The network's length and the network again; amount 4, T = 5, the cut 0 1 2 4,
 * then two rows: links, length, rate, first slot and departures of each. */
static const uint8_t plan[] = {24,
                               4, 0, 3, 5,
                               0, 1, 2, 1,
                               1, 3, 1, 1,
                               1, 2, 1, 1,
                               2, 3, 1, 2,
                               0, 2, 1, 3,
                               4, 5, 0, 1, 2, 4, 2,
                               2, 0, 1, 2, 1, 0, 3,
                               3, 0, 2, 3, 4, 1, 0, 1};

int main(void) {
    uint32_t numbers[PUDEYAN_NUMBERS];
    uint32_t refusal = pudeyan_read_network(network, sizeof network, numbers);
    if (refusal != PUDEYAN_DONE) {
        printf("refused %u\n", (unsigned)refusal);
        return 1;
    }
    printf("places %u links %u\n", (unsigned)numbers[0], (unsigned)numbers[3]);

    uint32_t verdict;
    uint64_t bound;
    refusal = pudeyan_examine(network, sizeof network, plan, sizeof plan, &verdict, &bound);
    if (refusal != PUDEYAN_DONE) {
        printf("refused %u\n", (unsigned)refusal);
        return 1;
    }
    printf("verdict %u bound %llu\n", (unsigned)verdict, (unsigned long long)bound);
    return verdict == PUDEYAN_RIGHT ? 0 : 1;
}
