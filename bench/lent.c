/*
 * The cost of an octet and of a Tick on the lent state. The bench loop is one call, which unpacks the state, lends it
 * for every octet and Tick and packs it again; so two runs that differ in some octets alone tell what these take.
 * `make bench` runs this program under valgrind, and instructions.awk takes the differences.
 *
 * Every run begins with the memory that the workload has before a telegram. The exported calls for the same gaps,
 * octets and Ticks are made on a second copy of it: they show what the run has to leave, and how many octets it had.
 */
#include "lent.h"
#include "workload.h"

#include <inttypes.h>

/* After each of the two telegrams; far fewer than the watchdog has. */
enum { TICKS = 32 };

static uint8_t lent[sizeof memory];
static uint8_t called[sizeof memory];

/* A part of a place: always merged into it, since the calls are told apart by it. */
#define PART static inline __attribute__((always_inline))

PART void turn_by_calls(const uint8_t *t, size_t octets, uint32_t ticks)
{
    CALL(dp_gap(called, sizeof called));
    for (size_t i = 0; i < octets; i++)
        CALL(dp_octet(called, sizeof called, t[i], 0));
    for (uint32_t i = 0; i < ticks; i++)
        CALL(dp_tick(called, sizeof called));
}

static void expect_same(size_t octets, uint32_t ticks)
{
    for (size_t i = 0; i < sizeof called; i++) {
        if (lent[i] == called[i])
            continue;
        fprintf(stderr,
                "after %zu octets and twice %" PRIu32 " Ticks octet %zu of the memory is %d by lent_exchange and %d by "
                "the exported calls; are both libraries of the same state of the repository?\n",
                octets, ticks, i, lent[i], called[i]);
        exit(EXIT_FAILURE);
    }
}

/* The octets are those of the second telegram and the first is empty: behind them comes the packing alone. */
PART void run(const uint8_t *t, size_t octets, uint32_t ticks)
{
    memcpy(lent, memory, sizeof lent);
    memcpy(called, memory, sizeof called);
    int64_t answer = lent_exchange(lent, sizeof lent, t, 0, t, octets, ticks);
    expect("the answer of lent_exchange (1: the memory is well)", answer, 1);
    turn_by_calls(t, 0, ticks);
    turn_by_calls(t, octets, ticks);
    expect_same(octets, ticks);
}

/* ---- The places ---- */

PLACE void no_octets(const uint8_t *t)
{
    run(t, 0, 0);
}

PLACE void up_to_first_octet(const uint8_t *t)
{
    run(t, 1, 0);
}

PLACE void up_to_header(const uint8_t *t)
{
    run(t, HEADER, 0);
}

PLACE void up_to_data(const uint8_t *t)
{
    run(t, HEADER + OUTPUTS, 0);
}

PLACE void up_to_check_octet(const uint8_t *t)
{
    run(t, TELEGRAM - 1, 0);
}

PLACE void up_to_last_octet(const uint8_t *t)
{
    run(t, TELEGRAM, 0);
}

PLACE void no_octets_but_ticks(const uint8_t *t)
{
    run(t, 0, TICKS);
}

static void all_runs(unsigned cycle)
{
    uint8_t t[TELEGRAM];
    fill_request(t, cycle);
    no_octets(t);
    up_to_first_octet(t);
    up_to_header(t);
    up_to_data(t);
    up_to_check_octet(t);
    up_to_last_octet(t);
    no_octets_but_ticks(t);
}

int main(int argc, char **argv)
{
    unsigned cycles = cycles_asked_for(argc, argv, 200);
    begin_exchange();
    for (unsigned cycle = 1; cycle <= cycles; cycle++) {
        all_runs(cycle);
        whole_cycle(cycle);
    }
    printf("lent_exchange left what the exported calls leave, in every run of %u cycles\n", cycles);
    return 0;
}
