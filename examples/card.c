/*
 * A card's firmware around the station: what stands in the interrupts, what in the main loop, and what keeps the two
 * apart. On a card the functions of card.h are entered by hardware; here master.c calls them. The vat program is the
 * one at the end, or the older one of older.c. The lamp panel of panel.c and the sensor of sensor.c are such cards too,
 * started with other lengths, and with programs of their own.
 */
#include "firmware.h"
#include "refusals.h"

static const uint8_t configuration[] = {CARD_MODULES};

/* ---- Calls are kept apart ---- */

uint8_t memory[DP_MEMORY_MIN];
const uint8_t no_channels[DP_CHANNEL_LENGTHS] = {0};

/* How many critical sections are open, one inside the other. */
static unsigned masked;

/* On a card: mask the interrupts that call the station, and then count. */
void lock(void)
{
    masked++;
}

/* On a card: let them through again once the count is back at 0. */
void unlock(void)
{
    masked--;
}

/* An interrupt that comes inside a critical section is a fault of the mask, not of the station. */
static void entered_by_interrupt(void)
{
    if (masked != 0) {
        fprintf(stderr, "an interrupt came while it was masked\n");
        exit(EXIT_FAILURE);
    }
}

/* Any refusal but the one foreseen is a fault of this program. A card would put the vat's outputs into their safe state
   here and start the station again. */
int64_t finished(const char *call, int64_t answer, int64_t foreseen)
{
    unlock();
    if (answer < 0 && -answer != foreseen)
        stop_refused(call, answer);
    return answer;
}

/* ---- The bus side ---- */

void card_power_up(void)
{
    CALL(dp_start(MEMORY, CARD_ADDRESS, CARD_IDENT, CARD_OUTPUTS, CARD_INPUTS, CARD_PARAMETERS, CARD_CONFIGURATION,
                  CARD_DIAGNOSIS, configuration, sizeof configuration, NO_CHANNELS));
}

void card_power_up_older(void)
{
    card_power_up();
    write_diagnosis(vat.temperature);
    CALL(dp_new_diagnosis(MEMORY, CARD_DIAGNOSIS, 0));
}

void card_on_octet(uint8_t octet, uint8_t bad)
{
    entered_by_interrupt();
    CALL(dp_octet(MEMORY, octet, bad));
}

void card_on_gap(void)
{
    entered_by_interrupt();
    CALL(dp_gap(MEMORY));
}

int card_on_transmitter_free(void)
{
    entered_by_interrupt();
    int64_t octet = CALL(dp_send(MEMORY));
    return octet == DP_NO_OCTET ? CARD_SILENT : (int)octet;
}

void card_on_tick(void)
{
    entered_by_interrupt();
    CALL(dp_tick(MEMORY));
}

/* ---- The octets of the buffers ---- */

uint32_t read_octets(uint32_t kind, uint8_t *octets, uint32_t most)
{
    for (uint32_t i = 0; i < most; i++) {
        int64_t octet = CALL_UNLESS(DP_REFUSED_ABSENT, dp_read(MEMORY, kind, i));
        if (octet < 0)
            return i;
        octets[i] = (uint8_t)octet;
    }
    return most;
}

/* The first write tells whether the buffer is there: only a new diagnosis of the vat program itself takes it away. */
bool write_octets(uint32_t kind, uint32_t first, const uint8_t *octets, uint32_t count)
{
    for (uint32_t i = 0; i < count; i++) {
        if (CALL_UNLESS(DP_REFUSED_ABSENT, dp_write(MEMORY, kind, first + i, octets[i])) < 0)
            return false;
    }
    return true;
}

bool write_diagnosis(uint8_t octet)
{
    const uint8_t block[CARD_DIAGNOSIS - DP_DIAGNOSIS_MIN] = {sizeof block, octet};
    return write_octets(DP_KIND_DIAGNOSIS, DP_DIAGNOSIS_MIN, block, sizeof block);
}

/* ---- The vat ---- */

/* A vat at room temperature, and what it may reach. */
enum { COLD = 20, FULL = 100 };
struct vat vat = {COLD, 0};

/* Heating warms it, without it cools, the first valve fills it. */
void run_vat(const uint8_t *outputs)
{
    if (outputs[OUTPUT_HEATING] != 0)
        vat.temperature = (uint8_t)(vat.temperature + outputs[OUTPUT_HEATING] / 16);
    else if (vat.temperature > COLD)
        vat.temperature--;
    if ((outputs[OUTPUT_VALVES] & 1) != 0 && vat.level < FULL)
        vat.level = (uint8_t)(vat.level + 5);
}

void measure_vat(uint8_t *inputs)
{
    inputs[INPUT_TEMPERATURE] = vat.temperature;
    inputs[INPUT_LEVEL] = vat.level;
}

bool good_parameters(const uint8_t *octets, uint32_t count)
{
    return count == CARD_PARAMETERS && octets[PARAMETER_LIMIT] >= COLD;
}

/* ---- A round of a program ---- */

void print_octets(const uint8_t *octets, size_t count)
{
    for (size_t i = 0; i < count; i++)
        printf(" %02X", octets[i]);
}

/* Reads after a take are all of one telegram, whatever comes on the line meanwhile. In sync the newest outputs are
   those that the master's last sync or unsync let through, or the station's zeros. */
void newest_outputs(const struct program *program, uint8_t *outputs, uint32_t count)
{
    static const char *const news[] = {"has the same outputs:", "takes new outputs:", "takes the station's zeros:"};
    int64_t taken = CALL(dp_take_outputs(MEMORY));
    read_octets(DP_KIND_OUTPUTS, outputs, count);
    printf("    %-8s %s", program->name, news[taken]);
    print_octets(outputs, count);
    printf("\n");
}

/* All inputs are written before they go out together. In freeze the newest wait for the next freeze or unfreeze. */
void hand_over_inputs(const struct program *program, const uint8_t *inputs, uint32_t count)
{
    write_octets(DP_KIND_INPUTS, 0, inputs, count);
    CALL(dp_hand_over_inputs(MEMORY));
    printf("    %-8s hands over inputs:", program->name);
    print_octets(inputs, count);
    printf("\n");
}

bool give_diagnosis(const struct program *program, const char *fault, uint8_t octet)
{
    if (!write_diagnosis(octet))
        return false;
    uint32_t count = fault != NULL ? CARD_DIAGNOSIS : DP_DIAGNOSIS_MIN;
    CALL(dp_new_diagnosis(MEMORY, count, fault != NULL ? DP_DIAGNOSIS_EXT : 0));
    printf("    %-8s gives a new diagnosis: %s\n", program->name, fault != NULL ? fault : "no fault");
    return true;
}

static void print_judgement(const struct program *program, const char *what, const uint8_t *octets, uint32_t count,
                            bool good, int64_t answer)
{
    printf("    %-8s %s", program->name, what);
    print_octets(octets, count);
    if (answer == -DP_REFUSED_JUDGING)
        printf(": cannot be judged now\n");
    else if (answer == 1)
        printf(": a newer set has come\n");
    else
        printf(": judged %s\n", good ? "good" : "bad");
}

/* The station itself has looked at the standard's octets. What is not read may be judged at any time: whichever set is
   open by then, it is good. */
void accept_parameters(const struct program *program)
{
    int64_t answer = CALL_UNLESS(DP_REFUSED_JUDGING, dp_judge_parameters(MEMORY, DP_GOOD));
    print_judgement(program, "has no parameters of its own", NULL, 0, true, answer);
}

bool good_configuration(const struct program *program, const uint8_t *octets, uint32_t count)
{
    return count == program->module_count && memcmp(octets, program->modules, count) == 0;
}

/* Reading and judging are one piece: no telegram may put another set in the place of the one that is judged. */
static void judge_configuration(const struct program *program)
{
    uint8_t octets[CARD_CONFIGURATION];
    lock();
    uint32_t count = read_octets(DP_KIND_CONFIGURATION, octets, CARD_CONFIGURATION);
    bool good = good_configuration(program, octets, count);
    int64_t answer = CALL_UNLESS(DP_REFUSED_JUDGING, dp_judge_configuration(MEMORY, good ? DP_GOOD : DP_BAD));
    unlock();
    print_judgement(program, "reads configuration:", octets, count, good, answer);
}

static void print_event(const struct program *program, unsigned event)
{
    static const char *const names[DP_NO_EVENT] = {
        [DP_EVENT_DATA_EXCH] = "exchange of data entered or left",
        [DP_EVENT_WATCHDOG] = "watchdog expired",
        [DP_EVENT_CONTROL] = "new control octet",
        [DP_EVENT_CONFIGURATION] = "configuration to be judged",
        [DP_EVENT_PARAMETERS] = "parameters to be judged",
        [DP_EVENT_DIAGNOSIS] = "diagnosis changed",
        [DP_EVENT_OUTPUTS] = "outputs published",
    };
    const char *name = names[event] != NULL ? names[event] : "not known";
    printf("    %-8s event %u: %s\n", program->name, event, name);
}

/* The event to act on next: the most urgent one, but parameters ahead of configuration, which cannot be judged before
   them. The bus may go on between the two calls: what comes then is found by the next look, and a set that is dropped
   then cannot be judged, which refusal 6 says. */
static unsigned next_event(void)
{
    unsigned event = (unsigned)CALL(dp_pending(MEMORY));
    if (event != DP_EVENT_CONFIGURATION)
        return event;
    bool parameters = (CALL(dp_events(MEMORY)) & DP_EVENT_BIT(DP_EVENT_PARAMETERS)) != 0;
    return parameters ? DP_EVENT_PARAMETERS : DP_EVENT_CONFIGURATION;
}

/* Seven events can be set at once, a newer set of each kind can wait, and judging can raise event 1 again. All of these
   fit into a round; what a busy line adds is left to the next one, or it could keep the main loop here. */
enum { EVENTS_IN_A_ROUND = 10 };

/* Acknowledged before it is acted on, so that it is not lost if it comes again meanwhile. That does nothing to 10 and
   11: they are met again until their set is judged or dropped, and so a newer set is judged next. */
void look_at_events(const struct program *program)
{
    for (int count = 0; count < EVENTS_IN_A_ROUND; count++) {
        unsigned event = next_event();
        if (event == DP_NO_EVENT)
            return;
        CALL(dp_acknowledge(MEMORY, DP_EVENT_BIT(event)));
        print_event(program, event);
        if (event == DP_EVENT_PARAMETERS)
            program->judge_parameters(program);
        else if (event == DP_EVENT_CONFIGURATION)
            judge_configuration(program);
    }
}

/* ---- The vat program ---- */

/* The highest temperature allowed, 0 before good parameters; and whether the master was told that it is exceeded. */
static uint8_t limit;
static bool reported_hot;

/* Reading and judging are one piece here too. */
static void judge_parameters(const struct program *program)
{
    uint8_t octets[CARD_PARAMETERS];
    lock();
    uint32_t count = read_octets(DP_KIND_PARAMETERS, octets, CARD_PARAMETERS);
    bool good = good_parameters(octets, count);
    int64_t answer = CALL_UNLESS(DP_REFUSED_JUDGING, dp_judge_parameters(MEMORY, good ? DP_GOOD : DP_BAD));
    unlock();
    if (answer == 0 && good)
        limit = octets[PARAMETER_LIMIT];
    print_judgement(program, "reads parameters:", octets, count, good, answer);
}

const struct program vat_program = {"vat", configuration, sizeof configuration, judge_parameters};

/* Too hot, or no longer: the master is to know. What cannot be said now is said in the next round. */
static void report_temperature(void)
{
    bool hot = limit != 0 && vat.temperature > limit;
    if (hot != reported_hot && give_diagnosis(&vat_program, hot ? "too hot" : NULL, vat.temperature))
        reported_hot = hot;
}

void vat_cycle(void)
{
    uint8_t outputs[CARD_OUTPUTS], inputs[CARD_INPUTS];
    newest_outputs(&vat_program, outputs, CARD_OUTPUTS);
    run_vat(outputs);
    measure_vat(inputs);
    hand_over_inputs(&vat_program, inputs, CARD_INPUTS);
    report_temperature();
    look_at_events(&vat_program);
}
