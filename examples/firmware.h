/*
 * What the programs share with the rest of the firmware, all of it in card.c: the station's memory and how calls on it
 * are kept apart, the octets of its buffers, the vat, and what any program does in a round of its loop.
 */
#ifndef FIRMWARE_H
#define FIRMWARE_H

#include "card.h"
#include "dp.h"

#include <stdbool.h>
#include <stddef.h>

/* ---- Calls are kept apart ---- */

/* The station's whole world. On every card here it needs no more than the least length. */
extern uint8_t memory[DP_MEMORY_MIN];
#define MEMORY memory, sizeof memory

/* None of the cards sets a channel up: both lengths of each are 0. */
extern const uint8_t no_channels[DP_CHANNEL_LENGTHS];
#define NO_CHANNELS no_channels, sizeof no_channels

/* A critical section, in which no interrupt calls the station; one may lie inside another. */
void lock(void);
void unlock(void);

/* Ends the critical section of a call. Answers its answer; any refusal but the one foreseen ends the program. */
int64_t finished(const char *call, int64_t answer, int64_t foreseen);

/* One call, undivided; with CALL_UNLESS the caller has an answer to that refusal. */
#define CALL(call) (lock(), finished(#call, call, 0))
#define CALL_UNLESS(refusal, call) (lock(), finished(#call, call, refusal))

/* ---- The octets of the buffers ---- */

/* Octets of a kind from index 0 on, as many as asked for; a set that is shown may have fewer. Answers how many. */
uint32_t read_octets(uint32_t kind, uint8_t *octets, uint32_t most);

/* Octets of a kind from an index on. False, and nothing is written, while the buffer is not the vat program's: that of
   the diagnosis while the last one is delayed. */
bool write_octets(uint32_t kind, uint32_t first, const uint8_t *octets, uint32_t count);

/* A diagnosis behind the station's six octets: a block of two, its length and an octet. Answers as write_octets. */
bool write_diagnosis(uint8_t octet);

/* ---- The vat ---- */

/* The outputs are the orders of the master: which valves are open, how much is heated. */
enum { OUTPUT_VALVES = 0, OUTPUT_HEATING = 1 };

/* The inputs are what is measured. */
enum { INPUT_TEMPERATURE = 0, INPUT_LEVEL = 1 };

/* The octet behind the standard's seven of Set_Prm is looked at by the station alone: it has the watchdog's base. The
   one behind it is this vat's: the highest temperature allowed. */
enum { PARAMETER_BASE = DP_PARAMETERS_MIN, PARAMETER_LIMIT };

struct vat {
    uint8_t temperature, level;
};
extern struct vat vat;

/* What a round of the loop does to the vat. */
void run_vat(const uint8_t *outputs);

/* What is measured, as inputs. */
void measure_vat(uint8_t *inputs);

/* What the vat asks of parameters. */
bool good_parameters(const uint8_t *octets, uint32_t count);

/* ---- A round of a program ---- */

void print_octets(const uint8_t *octets, size_t count);

/* What programs differ in there. Their stations are all started with CARD_CONFIGURATION and CARD_DIAGNOSIS. */
struct program {
    const char *name;       /* printed in front of what it does */
    const uint8_t *modules; /* the configuration, as Chk_Cfg has to bring it */
    uint32_t module_count;
    void (*judge_parameters)(const struct program *program);
};

/* Takes the outputs and reads them, as many octets as they have. */
void newest_outputs(const struct program *program, uint8_t *outputs, uint32_t count);

/* Writes the inputs, all of them, and hands them over. */
void hand_over_inputs(const struct program *program, const uint8_t *inputs, uint32_t count);

/* A new diagnosis: the fault in words and an octet on it, or, with NULL, that there is none. False, and nothing is
   given, while the last one is delayed. */
bool give_diagnosis(const struct program *program, const char *fault, uint8_t octet);

/* Whether a configuration is the program's. */
bool good_configuration(const struct program *program, const uint8_t *octets, uint32_t count);

/* For judge_parameters, where Set_Prm has no octet of the program's own. */
void accept_parameters(const struct program *program);

/* Acts on the events that are set, one at a time and the most urgent first: each is acknowledged, and the set that it
   tells of is judged. */
void look_at_events(const struct program *program);

/* The vat program of card.c. The older one asks for the same configuration. */
extern const struct program vat_program;

#endif
