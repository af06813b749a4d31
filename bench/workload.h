/*
 * The workload that is measured: whole cycles of Data_Exchange with 32 outputs and 32 inputs, and the vat program's
 * calls in between, all by the exported calls on one memory.
 *
 * Each place that a call comes from is a function of its own, since valgrind tells calls apart by their caller.
 */
#ifndef WORKLOAD_H
#define WORKLOAD_H

#include "dp.h"
#include "refusals.h"

#include <stddef.h>

/* A place: never merged into its caller or with another place. */
#define PLACE static __attribute__((noinline, noclone, no_icf))

enum { OUTPUTS = 32, INPUTS = 32, DIAGNOSIS_LEN = 16 };

/* SD2: 68 LE LE 68 DA SA FC, the data, FCS 16. SD1, which has no data: 10 DA SA FC FCS 16. */
enum { SD1 = 0x10, HEADER = 7, END = 2, TELEGRAM = HEADER + OUTPUTS + END, REPLY = HEADER + INPUTS + END };

/* The memory that the station of the workload lives in. */
extern uint8_t memory[DP_MEMORY_MIN];

/* A station: the memory that it lives in, how many outputs and inputs it has, and how many channels are set up, from
   channel 0 on, with both buffers of so many octets. A library from before Req 08 does not look at the channels. */
struct station {
    uint8_t *memory;
    uint64_t memory_len;
    uint32_t outputs;
    uint32_t inputs;
    uint32_t channels;
    uint8_t channel_len;
};

/* The station that all calls go to. */
extern const struct station *station;
#define MEMORY station->memory, station->memory_len

/* A call's answer; a refusal ends the program. */
int64_t granted(const char *call, int64_t answer);
#define CALL(call) granted(#call, call)

/* A benchmark of a station that answers wrongly would be worth nothing. */
void expect(const char *what, int64_t found, int64_t expected);

/* How many cycles the program is to run, by its only argument, or `otherwise`; a wrong argument ends it. */
unsigned cycles_asked_for(int argc, char **argv, unsigned otherwise);

/* From any memory into the exchange, at the station of the workload. */
void start_up(void);

/* From any memory of another station to where that waits for Set_Prm: its outputs, its inputs, its channels, all else
   as in the workload. The answer of dp_start, which may be a refusal. */
int64_t start_other(const struct station *other);

/* Set_Prm with the watchdog on. Its ticks are ten times the product of the two, since it has no octet 7 and so a base of
   10 ms; the fast one has a base of 1 ms, and the product is its ticks. A library from before Req 07 does not look at
   octet 7: with it both have the product. */
void put_parameters(uint8_t factor_1, uint8_t factor_2);
void put_fast_parameters(uint8_t factor_1, uint8_t factor_2);

/* From any memory into the exchange, and inputs are handed over: cycle 1 may follow. */
void begin_exchange(void);

/* As a master does it: the frame count bit (FC bit 5, which counts by bit 4) changes with each new request, or the
   station would take it for a repeat. A request, SD2 or SD1, has the bit of the next one until that is sent. */
void count_request(uint8_t *t, size_t count);
void request_sent(void);

/* The telegram that brings the outputs of a cycle, as the next request. */
void fill_request(uint8_t *t, unsigned cycle);

/* A cycle: all of it, or the telegram alone. */
void whole_cycle(unsigned cycle);
void receive_telegram(unsigned cycle);

#endif
