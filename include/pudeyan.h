/*
 * Pudeyan: plan transfers over a network of relay hops, examine plans, and
 * replay link logs.
 *
 * Link with libpudeyan, static or shared (x86-64): `pkg-config --cflags --libs
 * pudeyan` tells how. Of the C library it calls memcpy and memset, and nothing
 * else: no allocation, no global state, no input or output. Any thread may call
 * that has the stack which the function needs (PUDEYAN_STACK_.. below).
 *
 * Every function returns 0 or the number of a refusal (enum pudeyan_refusal).
 * After a refusal the single numbers answered through pointers (most, horizon,
 * length, verdict, bound, finding, delivered) are 0, and every buffer or list
 * that was lent keeps its content, the table of pudeyan_read_network too.
 * Conditions are tested in the order in which each function lists them; the
 * first that holds decides.
 *
 * Records are rows of numbers, each unsigned LEB128 in shortest form, of at
 * most four octets.
 * Network record: places, origin, destination, links; then for each link its
 * start, end, capacity, transit.
 * Plan record: the length of the network's record, and that record; amount; T;
 * the cut for T - 1, one number for each place; rows; then for each row: links
 * in it, their numbers, its length (the sum of their transits), rate, first
 * slot, departures.
 * Link log: for each entry a stamp, which is no such number but four octets,
 * least first; the number of a link; and how many blocks it took.
 *
 * A pointer is never null, also where the length beside it is 0. A length
 * counts elements. What is lent for writing overlaps nothing else that is
 * lent in the same call.
 */
#ifndef PUDEYAN_H
#define PUDEYAN_H

#include <stddef.h>
#include <stdint.h>

/* The version, as in the file VERSION. */
#define PUDEYAN_VERSION_MAJOR 0
#define PUDEYAN_VERSION_MINOR 1
#define PUDEYAN_VERSION_PATCH 0
#define PUDEYAN_VERSION "0.1.0"

#ifdef __cplusplus
extern "C" {
#endif

/* Limits of the records. */
enum {
    PUDEYAN_PLACES_MOST = 64,         /* places: 2 to 64 */
    PUDEYAN_LINKS_MOST = 256,         /* links: 1 to 256 */
    PUDEYAN_CAPACITY_MOST = 10000,    /* capacity: 0 to 10,000; rate: from 1 */
    PUDEYAN_TRANSIT_MOST = 1000,      /* transit: 0 to 1,000 */
    PUDEYAN_AMOUNT_MOST = 100000000,  /* amount: 1 to 100,000,000 */
    PUDEYAN_HORIZON_MOST = 100063000, /* horizons, slots, departures, cuts */
    PUDEYAN_ROWS_MOST = 257,          /* rows of a plan: 1 to 257 */
    PUDEYAN_ROW_LINKS_MOST = 63,      /* links in a row: 1 to 63 */
    PUDEYAN_LENGTH_MOST = 63000,      /* length of a row: 0 to 63,000 */
    PUDEYAN_NUMBERS = 1028,           /* numbers of a network: 4 + 4 * 256 */
    PUDEYAN_NETWORK_OCTETS = 1541,    /* longest network record */
    PUDEYAN_PLAN_OCTETS = 37789,      /* longest plan record */
    PUDEYAN_PLAN_BUFFER = 38912,      /* shortest buffer pudeyan_plan takes */
    PUDEYAN_LOG_ENTRIES_MOST = 4096,  /* entries of a log: 0 to 4,096 */
    PUDEYAN_LOG_BLOCKS_MOST = 10000,  /* blocks of an entry: 0 to 10,000 */
    PUDEYAN_LOG_SLOT_MOST = 100063000, /* slots logged: 0 to 100,063,000 */
    PUDEYAN_LOG_OCTETS = 32768        /* longest log */
};

/*
 * Octets of stack that a call needs at most, from the caller's frame on, for
 * any input. The dynamic linker's part is in it where memcpy and memset are
 * looked up at their first call; a signal handler's is not.
 */
enum {
    PUDEYAN_STACK_READ = 28672,       /* pudeyan_read_network: 28 KB */
    PUDEYAN_STACK_WRITE = 20480,      /* pudeyan_write_network: 20 KB */
    PUDEYAN_STACK_MOST = 49152,       /* pudeyan_most: 48 KB */
    PUDEYAN_STACK_PLAN = 98304,       /* pudeyan_plan: 96 KB */
    PUDEYAN_STACK_EXAMINE = 196608,   /* pudeyan_examine: 192 KB */
    PUDEYAN_STACK_REPLAY = 180224     /* pudeyan_replay: 176 KB */
};

/*
 * What a function returns. Of one number 3 is tested first, then 1, 2, 4 (16,
 * then 14, 15, 17 in a plan); 5 follows the destination, 6 a link's end.
 */
enum pudeyan_refusal {
    PUDEYAN_DONE = 0,                  /* not refused */
    /* the network's record, number by number */
    PUDEYAN_NETWORK_ENDS = 1,          /* it ends before a number's last octet */
    PUDEYAN_NETWORK_NOT_SHORTEST = 2,  /* a number is not in shortest form */
    PUDEYAN_NETWORK_CONTINUES = 3,     /* a fourth octet has its top bit set */
    PUDEYAN_NETWORK_LIMITS = 4,        /* a number is outside its limits; origin,
                                          destination or a link's end is not
                                          below the number of places */
    PUDEYAN_SAME_ENDS = 5,             /* the destination is the origin */
    PUDEYAN_LINK_LOOP = 6,             /* a link ends where it starts */
    PUDEYAN_NETWORK_REMAINS = 7,       /* octets remain after the last number */
    /* what else a call hands over */
    PUDEYAN_BUFFER_SHORT = 8,          /* write: buffer shorter than the record */
    PUDEYAN_HORIZON_LIMITS = 9,        /* most: horizon above 100,063,000 */
    PUDEYAN_CUT_SHORT = 10,            /* most: fewer numbers lent than places */
    PUDEYAN_AMOUNT_LIMITS = 11,        /* plan: amount not from 1 to 100,000,000 */
    PUDEYAN_NO_CHAIN = 12,             /* plan: no chain of links with capacity
                                          leads from origin to archive */
    PUDEYAN_PLAN_BUFFER_SHORT = 13,    /* plan: buffer under 38,912 octets */
    /* the plan's record, number by number */
    PUDEYAN_PLAN_ENDS = 14,            /* it ends before a number's last octet, or
                                          before its copy of the network does */
    PUDEYAN_PLAN_NOT_SHORTEST = 15,    /* a number is not in shortest form */
    PUDEYAN_PLAN_CONTINUES = 16,       /* a fourth octet has its top bit set */
    PUDEYAN_PLAN_LIMITS = 17,          /* a number is outside its limits; a link
                                          number is not below the links */
    PUDEYAN_PLAN_REMAINS = 18,         /* octets remain after the last row */
    /* the link log, entry by entry */
    PUDEYAN_LOG_ENTRY = 20,            /* an entry is cut short, misspelled or
                                          out of limits, or is the 4,097th */
    PUDEYAN_LOG_DISTANCE = 21,         /* its stamp's distance from the one before
                                          is 2,147,483,648 or more */
    PUDEYAN_LOG_SLOT = 22,             /* its slot is above 100,063,000 */
    /* the plan's record, after its copy of the network and before the amount */
    PUDEYAN_ANOTHER_NETWORK = 23       /* the copy is not the given network */
};

/* What the examiner says of a plan: the first that applies, 7 directly after 1. */
enum pudeyan_verdict {
    PUDEYAN_RIGHT = 0,         /* none of those below: T is the least horizon */
    PUDEYAN_NOT_A_CHAIN = 1,   /* a row is no chain from origin to archive */
    PUDEYAN_OVERLOADED = 2,    /* a link takes in more than its capacity in some
                                  slot, all rows together, past T - 1 too */
    PUDEYAN_LATE = 3,          /* a row's first + departures + length is above T */
    PUDEYAN_WRONG_SUM = 4,     /* rate * departures do not sum to the amount */
    PUDEYAN_WRONG_CUT = 5,     /* the cut is not 0 at the origin and T - 1 at the
                                  archive, or a number of it is above T - 1 */
    PUDEYAN_BOUND_TOO_HIGH = 6,
                               /* the cut's bound is not below the amount */
    PUDEYAN_WRONG_LENGTH = 7   /* a row's length is not the sum of its transits */
};

/* What the replay of a link log finds: 1 before 2. */
enum pudeyan_finding {
    PUDEYAN_KEPT = 0,          /* neither of those below */
    PUDEYAN_OVERFULL = 1,      /* a link took more than its capacity in some slot,
                                  its entries for the slot added up */
    PUDEYAN_OVERSENT = 2       /* a place but the origin sent more up to some slot
                                  than had reached it up to that slot */
};

/*
 * Read a network: its record to numbers.
 * numbers: places, origin, destination, links; then start, end, capacity,
 * transit of each link; 0 after the last link.
 * Refuses with 1 to 7.
 */
uint32_t pudeyan_read_network(const uint8_t *record, size_t record_len,
                              uint32_t numbers[PUDEYAN_NUMBERS]);

/*
 * Write a network: numbers to its record, from the buffer's first octet.
 * length: of the record. Octets past it keep their content. Numbers past the
 * last link are not looked at.
 * Refuses with 4, 5, 6 in record order, then 8.
 */
uint32_t pudeyan_write_network(const uint32_t numbers[PUDEYAN_NUMBERS],
                               uint8_t *buffer, size_t buffer_len,
                               uint64_t *length);

/*
 * Most by a horizon: the most blocks that any flow with the horizon delivers,
 * and a cut for the horizon whose bound equals it, one number per place in
 * the first numbers of `cut`; further numbers keep their content. Flows that
 * hold no block at a relay deliver as many.
 * Refuses with 1 to 7, then 9, then 10.
 */
uint32_t pudeyan_most(const uint8_t *record, size_t record_len,
                      uint64_t horizon, uint32_t *cut, size_t cut_len,
                      uint64_t *most);

/*
 * Plan the least horizon: the plan's record from the buffer's first octet,
 * its horizon T and its length. It opens with the network record's length and
 * the network record. Octets past the record keep their content.
 * pudeyan_examine gives the plan verdict 0; no row visits a place twice, and
 * every block leaves a relay in the slot in which it arrives there.
 * Refuses with 1 to 7, then 11, then 13, then 12.
 */
uint32_t pudeyan_plan(const uint8_t *record, size_t record_len,
                      uint64_t amount, uint8_t *buffer, size_t buffer_len,
                      uint64_t *horizon, uint64_t *length);

/*
 * Examine a plan: a verdict, and the bound of the plan's cut, which is the
 * sum over the numbers as written under every verdict.
 * The copy of the network at the plan's front is compared with `record`, octet
 * by octet.
 * Refuses with 1 to 7 for the network, then 14 to 18 and 23 for the plan (16,
 * 14, 15, 17 for the copy's length, 14 for a copy cut short, 23; then 16, 14,
 * 15, 17 number by number; then 18).
 */
uint32_t pudeyan_examine(const uint8_t *record, size_t record_len,
                         const uint8_t *plan, size_t plan_len,
                         uint32_t *verdict, uint64_t *bound);

/*
 * Replay a link log: does it keep capacities, and does no place but the origin
 * send more by any slot than reached it by then.
 * The first entry is slot 0; the slot grows by each stamp's distance from the
 * one before it, modulo 4,294,967,296. Entries for one link and slot are added
 * up. A block may leave in the slot in which it arrives.
 * delivered: under finding 0, arrivals less departures at the archive up to
 * and with the slot of the last entry, whatever its blocks; else 0. An empty
 * log gives 0 and 0.
 * Refuses with 1 to 7 for the network, then entry by entry 20, 21, 22.
 */
uint32_t pudeyan_replay(const uint8_t *record, size_t record_len,
                        const uint8_t *log, size_t log_len,
                        uint32_t *finding, uint64_t *delivered);

#ifdef __cplusplus
}
#endif

#endif
