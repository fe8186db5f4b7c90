/* Plans a transfer, examines the plan, and asks for the most by its horizon.
 *
 *   cc plan.c $(pkg-config --cflags --libs pudeyan) -o plan
 */
#include <pudeyan.h>

#include <stdio.h>

/* Four places, the origin 0, the archive 3; five links: start, end, capacity,
 * transit. */
static const uint8_t network[] = {4, 0, 3, 5,
                                  0, 1, 2, 1,
                                  1, 3, 1, 1,
                                  1, 2, 1, 1,
                                  2, 3, 1, 2,
                                  0, 2, 1, 3};

static int refused(uint32_t number) {
    printf("refused %u\n", (unsigned)number);
    return 1;
}

int main(void) {
    static uint8_t buffer[PUDEYAN_PLAN_BUFFER];
    uint64_t horizon, length, bound, most;
    uint32_t verdict, cut[PUDEYAN_PLACES_MOST], refusal;

    refusal = pudeyan_plan(network, sizeof network, 4, buffer, sizeof buffer, &horizon, &length);
    if (refusal != PUDEYAN_DONE) return refused(refusal);
    printf("amount 4 horizon %llu\n", (unsigned long long)horizon);

    refusal = pudeyan_examine(network, sizeof network, buffer, (size_t)length, &verdict, &bound);
    if (refusal != PUDEYAN_DONE) return refused(refusal);
    printf("verdict %u\n", (unsigned)verdict);

    refusal = pudeyan_most(network, sizeof network, horizon, cut, PUDEYAN_PLACES_MOST, &most);
    if (refusal != PUDEYAN_DONE) return refused(refusal);
    printf("most by %llu: %llu\n", (unsigned long long)horizon, (unsigned long long)most);
    return verdict == PUDEYAN_RIGHT ? 0 : 1;
}
