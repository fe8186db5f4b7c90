/* The header as a C program sees it: every function called, with out numbers
 * and buffers looked at after refusals. Also compiled as C++. */
#include "pudeyan.h"
#include "pudeyan.h"

#include <stdio.h>
#include <string.h>

static int checks, failures;

#define CHECK(holds) check((holds) ? 1 : 0, #holds, __LINE__)

static void check(int holds, const char *what, int line) {
    ++checks;
    if (!holds) {
        ++failures;
        printf("line %d: %s does not hold\n", line, what);
    }
}

static const uint8_t a[] = {4, 0, 3, 5, 0, 1, 2, 1, 1, 3, 1, 1, 1, 2, 1, 1, 2, 3, 1, 2, 0, 2, 1, 3};
static const uint8_t right[] = {24, 4, 0, 3, 5, 0, 1, 2, 1, 1, 3, 1, 1, 1, 2, 1, 1, 2, 3, 1, 2, 0, 2, 1, 3,
                                4, 5, 0, 1, 2, 4, 2, 2, 0, 1, 2, 1, 0, 3, 3, 0, 2, 3, 4, 1, 0, 1};

static void read_and_write(void) {
    uint32_t numbers[PUDEYAN_NUMBERS], stale[PUDEYAN_NUMBERS];
    uint8_t buffer[32], kept[32];
    uint64_t length = 99;
    memset(stale, 0x5A, sizeof stale);
    memset(kept, 0xA5, sizeof kept);
    memcpy(numbers, stale, sizeof stale);
    CHECK(pudeyan_read_network(a, sizeof a - 1, numbers) == PUDEYAN_NETWORK_ENDS);
    CHECK(memcmp(numbers, stale, sizeof stale) == 0);
    CHECK(pudeyan_read_network(a, sizeof a, numbers) == PUDEYAN_DONE);
    CHECK(numbers[0] == 4 && numbers[2] == 3 && numbers[3] == 5 && numbers[23] == 3);
    CHECK(numbers[24] == 0 && numbers[PUDEYAN_NUMBERS - 1] == 0);

    memcpy(buffer, kept, sizeof kept);
    CHECK(pudeyan_write_network(numbers, buffer, sizeof a - 1, &length) == PUDEYAN_BUFFER_SHORT);
    CHECK(length == 0 && memcmp(buffer, kept, sizeof kept) == 0);
    CHECK(pudeyan_write_network(numbers, buffer, sizeof buffer, &length) == PUDEYAN_DONE);
    CHECK(length == sizeof a && memcmp(buffer, a, sizeof a) == 0);
    CHECK(memcmp(buffer + sizeof a, kept, sizeof kept - sizeof a) == 0);
    numbers[2] = numbers[1];
    length = 99;
    CHECK(pudeyan_write_network(numbers, buffer, sizeof buffer, &length) == PUDEYAN_SAME_ENDS);
    CHECK(length == 0);
}

static void examine(void) {
    uint8_t plan[sizeof right];
    uint32_t verdict = 99;
    uint64_t bound = 99;
    CHECK(pudeyan_examine(a, sizeof a, right, sizeof right, &verdict, &bound) == PUDEYAN_DONE);
    CHECK(verdict == PUDEYAN_RIGHT && bound == 2);
    CHECK(pudeyan_examine(a, sizeof a, right, sizeof right - 1, &verdict, &bound) == PUDEYAN_PLAN_ENDS);
    CHECK(verdict == 0 && bound == 0);
    CHECK(pudeyan_examine(a, 0, right, sizeof right, &verdict, &bound) == PUDEYAN_NETWORK_ENDS);
    memcpy(plan, right, sizeof right);
    plan[1 + sizeof a] = 5;
    CHECK(pudeyan_examine(a, sizeof a, plan, sizeof plan, &verdict, &bound) == PUDEYAN_DONE);
    CHECK(verdict == PUDEYAN_WRONG_SUM && bound == 2);
    plan[sizeof a] = 2;
    CHECK(pudeyan_examine(a, sizeof a, plan, sizeof plan, &verdict, &bound) == PUDEYAN_ANOTHER_NETWORK);
    CHECK(verdict == 0 && bound == 0);
    CHECK(pudeyan_examine(a, sizeof a, plan, sizeof a, &verdict, &bound) == PUDEYAN_PLAN_ENDS);
}

static void most(void) {
    static const uint64_t figures[] = {0, 1, 2, 4, 6};
    uint32_t cut[5] = {7, 7, 7, 7, 7};
    uint64_t most = 99;
    unsigned i;
    CHECK(pudeyan_most(a, sizeof a, 100063001, cut, 5, &most) == PUDEYAN_HORIZON_LIMITS);
    CHECK(most == 0 && cut[0] == 7 && cut[3] == 7);
    CHECK(pudeyan_most(a, sizeof a, 5, cut, 3, &most) == PUDEYAN_CUT_SHORT);
    for (i = 0; i < 5; ++i) {
        CHECK(pudeyan_most(a, sizeof a, i + 2, cut, 5, &most) == PUDEYAN_DONE);
        CHECK(most == figures[i] && cut[0] == 0 && cut[3] == i + 2 && cut[4] == 7);
    }
}

static void plan(void) {
    static const uint64_t figures[] = {3, 4, 5, 5, 6};
    static uint8_t buffer[PUDEYAN_PLAN_BUFFER];
    uint64_t horizon = 99, length = 99, bound;
    uint32_t verdict;
    unsigned amount;
    CHECK(pudeyan_plan(a, sizeof a, 0, buffer, sizeof buffer, &horizon, &length) == PUDEYAN_AMOUNT_LIMITS);
    CHECK(horizon == 0 && length == 0 && buffer[0] == 0);
    CHECK(pudeyan_plan(a, sizeof a, 1, buffer, sizeof buffer - 1, &horizon, &length) == PUDEYAN_PLAN_BUFFER_SHORT);
    for (amount = 1; amount <= 5; ++amount) {
        CHECK(pudeyan_plan(a, sizeof a, amount, buffer, sizeof buffer, &horizon, &length) == PUDEYAN_DONE);
        CHECK(horizon == figures[amount - 1] && buffer[0] == sizeof a && memcmp(buffer + 1, a, sizeof a) == 0);
        CHECK(buffer[1 + sizeof a] == amount && buffer[2 + sizeof a] == horizon);
        CHECK(pudeyan_examine(a, sizeof a, buffer, (size_t)length, &verdict, &bound) == PUDEYAN_DONE);
        CHECK(verdict == PUDEYAN_RIGHT && bound < amount);
    }
}

static void replay(void) {
    /* two blocks enter link 0 in slot 0, one goes on over link 1 in slot 1, and slot 2 is logged without blocks */
    static const uint8_t log[] = {255, 255, 255, 255, 0, 2, 0, 0, 0, 0, 1, 1, 1, 0, 0, 0, 1, 0};
    uint8_t early[sizeof log];
    uint32_t finding = 99;
    uint64_t delivered = 99;
    CHECK(pudeyan_replay(a, sizeof a, log, sizeof log, &finding, &delivered) == PUDEYAN_DONE);
    CHECK(finding == PUDEYAN_KEPT && delivered == 1);
    CHECK(pudeyan_replay(a, sizeof a, log, sizeof log - 1, &finding, &delivered) == PUDEYAN_LOG_ENTRY);
    CHECK(finding == 0 && delivered == 0);
    CHECK(pudeyan_replay(a, sizeof a, log, 0, &finding, &delivered) == PUDEYAN_DONE);
    CHECK(finding == PUDEYAN_KEPT && delivered == 0);
    memcpy(early, log, sizeof log);
    early[0] = 0;
    CHECK(pudeyan_replay(a, sizeof a, early, sizeof early, &finding, &delivered) == PUDEYAN_DONE);
    CHECK(finding == PUDEYAN_KEPT);
    early[0] = 255;
    early[5] = 3;
    CHECK(pudeyan_replay(a, sizeof a, early, sizeof early, &finding, &delivered) == PUDEYAN_DONE);
    CHECK(finding == PUDEYAN_OVERFULL && delivered == 0);
    early[5] = 0;
    CHECK(pudeyan_replay(a, sizeof a, early, sizeof early, &finding, &delivered) == PUDEYAN_DONE);
    CHECK(finding == PUDEYAN_OVERSENT && delivered == 0);
    early[9] = 127;
    CHECK(pudeyan_replay(a, sizeof a, early, sizeof early, &finding, &delivered) == PUDEYAN_LOG_SLOT);
    early[9] = 128;
    CHECK(pudeyan_replay(a, sizeof a, early, sizeof early, &finding, &delivered) == PUDEYAN_LOG_DISTANCE);
    CHECK(pudeyan_replay(a, 3, early, sizeof early, &finding, &delivered) == PUDEYAN_NETWORK_ENDS);
}

int main(void) {
    read_and_write();
    examine();
    most();
    plan();
    replay();
    printf("interface: %d checks, %d failures\n", checks, failures);
    return failures != 0 || checks == 0;
}
