#include "workload.h"

enum { ADDRESS = 5, MASTER = 2, IDENT = 0x80B3, PARAMETER_LEN = 16, CONFIGURATION_LEN = 16 };

/* A request that must be answered, with the frame count bit valid; and that bit. */
enum { FC_REQUEST = 0x5D, FRAME_COUNT_BIT = 0x20 };

uint8_t memory[DP_MEMORY_MIN];

static const struct station of_workload = {memory, sizeof memory, OUTPUTS, INPUTS, 0, 0};
const struct station *station = &of_workload;

int64_t granted(const char *call, int64_t answer)
{
    if (answer < 0)
        stop_refused(call, answer);
    return answer;
}

void expect(const char *what, int64_t found, int64_t expected)
{
    if (found == expected)
        return;
    fprintf(stderr, "%s is %lld and not %lld\n", what, (long long)found, (long long)expected);
    exit(EXIT_FAILURE);
}

unsigned cycles_asked_for(int argc, char **argv, unsigned otherwise)
{
    unsigned cycles = argc > 1 ? (unsigned)strtoul(argv[1], NULL, 10) : otherwise;
    if (cycles == 0 || argc > 2) {
        fprintf(stderr, "usage: %s [CYCLES]\n", argv[0]);
        exit(EXIT_FAILURE);
    }
    return cycles;
}

/* ---- The places ---- */

PLACE void gap_before_telegram(void)
{
    CALL(dp_gap(MEMORY));
}

PLACE void first_octet(uint8_t octet)
{
    CALL(dp_octet(MEMORY, octet, 0));
}

PLACE void header_octet(uint8_t octet)
{
    CALL(dp_octet(MEMORY, octet, 0));
}

PLACE void inner_data_octet(uint8_t octet)
{
    CALL(dp_octet(MEMORY, octet, 0));
}

PLACE void check_octet(uint8_t octet)
{
    CALL(dp_octet(MEMORY, octet, 0));
}

PLACE void last_octet(uint8_t octet)
{
    CALL(dp_octet(MEMORY, octet, 0));
}

PLACE int64_t send_around_data(void)
{
    return CALL(dp_send(MEMORY));
}

PLACE int64_t send_data_octet(void)
{
    return CALL(dp_send(MEMORY));
}

PLACE int64_t send_nothing_left(void)
{
    return CALL(dp_send(MEMORY));
}

PLACE void vat_takes(void)
{
    expect("the answer of dp_take_outputs", CALL(dp_take_outputs(MEMORY)), 1);
}

PLACE void vat_reads(uint32_t index, uint8_t expected)
{
    expect("an output", CALL(dp_read(MEMORY, DP_KIND_OUTPUTS, index)), expected);
}

PLACE void vat_writes(uint32_t index, uint8_t octet)
{
    CALL(dp_write(MEMORY, DP_KIND_INPUTS, index, octet));
}

PLACE void vat_hands_over(void)
{
    CALL(dp_hand_over_inputs(MEMORY));
}

PLACE void tick_in_exchange(void)
{
    CALL(dp_tick(MEMORY));
}

/* ---- The exchange ---- */

static uint8_t pattern(unsigned cycle, unsigned i)
{
    return (uint8_t)(cycle * 7 + i * 3 + 1);
}

static void fill_telegram(uint8_t *t, uint8_t da, uint8_t sa, uint8_t fc, unsigned cycle)
{
    uint8_t sum = (uint8_t)(da + sa + fc);
    const uint8_t header[HEADER] = {0x68, OUTPUTS + 3, OUTPUTS + 3, 0x68, da, sa, fc};
    memcpy(t, header, HEADER);
    for (unsigned i = 0; i < OUTPUTS; i++) {
        t[HEADER + i] = pattern(cycle, i);
        sum = (uint8_t)(sum + t[HEADER + i]);
    }
    t[HEADER + OUTPUTS] = sum;
    t[HEADER + OUTPUTS + 1] = 0x16;
}

static uint8_t fc_of_next_request = FC_REQUEST;

void count_request(uint8_t *t, size_t count)
{
    size_t da = t[0] == SD1 ? 1 : 4; /* where DA is; SA and FC follow */
    uint8_t sum = 0;
    t[da + 2] = fc_of_next_request;
    for (size_t i = da; i < count - END; i++)
        sum = (uint8_t)(sum + t[i]);
    t[count - END] = sum;
}

void request_sent(void)
{
    fc_of_next_request ^= FRAME_COUNT_BIT;
}

void fill_request(uint8_t *t, unsigned cycle)
{
    fill_telegram(t, ADDRESS, MASTER, fc_of_next_request, cycle);
}

void receive_telegram(unsigned cycle)
{
    uint8_t t[TELEGRAM];
    fill_request(t, cycle);
    gap_before_telegram();
    first_octet(t[0]);
    for (unsigned i = 1; i < HEADER; i++)
        header_octet(t[i]);
    for (unsigned i = HEADER; i < HEADER + OUTPUTS; i++)
        inner_data_octet(t[i]);
    check_octet(t[TELEGRAM - 2]);
    last_octet(t[TELEGRAM - 1]);
    request_sent();
}

/* The reply brings the inputs of the cycle before. */
static void send_reply(unsigned cycle)
{
    uint8_t t[REPLY];
    fill_telegram(t, MASTER, ADDRESS, 0x08, cycle - 1);
    for (unsigned i = 0; i < HEADER; i++)
        expect("a sent octet", send_around_data(), t[i]);
    for (unsigned i = HEADER; i < HEADER + INPUTS; i++)
        expect("a sent octet", send_data_octet(), t[i]);
    for (unsigned i = HEADER + INPUTS; i < REPLY; i++)
        expect("a sent octet", send_around_data(), t[i]);
    expect("what is sent behind the reply", send_nothing_left(), DP_NO_OCTET);
}

void whole_cycle(unsigned cycle)
{
    receive_telegram(cycle);
    send_reply(cycle);
    vat_takes();
    for (unsigned i = 0; i < OUTPUTS; i++)
        vat_reads(i, pattern(cycle, i));
    for (unsigned i = 0; i < INPUTS; i++)
        vat_writes(i, pattern(cycle, i));
    vat_hands_over();
    tick_in_exchange();
}

/* ---- The way into the exchange ---- */

/* Always merged into its two callers, by which the calls are told apart. The frame count bit begins anew, so that no
   figure depends on how many requests came before. */
static inline __attribute__((always_inline)) int64_t start_station(void)
{
    static const uint8_t get_cfg[] = {0x1F, 0x1F, 0x2F, 0x2F};
    uint8_t channels[DP_CHANNEL_LENGTHS] = {0};
    memset(channels, station->channel_len, 2 * station->channels);
    fc_of_next_request = FC_REQUEST;
    return dp_start(MEMORY, ADDRESS, IDENT, station->outputs, station->inputs, PARAMETER_LEN, CONFIGURATION_LEN,
                    DIAGNOSIS_LEN, get_cfg, sizeof get_cfg, channels, sizeof channels);
}

PLACE void station_starts(void)
{
    granted("dp_start", start_station());
}

int64_t start_other(const struct station *other)
{
    station = other;
    return start_station();
}

PLACE void octet_at_start_up(uint8_t octet)
{
    CALL(dp_octet(MEMORY, octet, 0));
}

PLACE void last_octet_of_set_prm(uint8_t octet)
{
    CALL(dp_octet(MEMORY, octet, 0));
}

PLACE void last_octet_of_chk_cfg(uint8_t octet)
{
    CALL(dp_octet(MEMORY, octet, 0));
}

PLACE void acknowledged_at_start_up(uint8_t *t, size_t count, void (*last)(uint8_t))
{
    count_request(t, count);
    CALL(dp_gap(MEMORY));
    for (size_t i = 0; i + 1 < count; i++)
        octet_at_start_up(t[i]);
    last(t[count - 1]);
    request_sent();
    expect("the reply at start-up", CALL(dp_send(MEMORY)), 0xE5);
}

PLACE void vat_judges(void)
{
    expect("parameters", CALL(dp_judge_parameters(MEMORY, DP_GOOD)), 0);
    expect("configuration", CALL(dp_judge_configuration(MEMORY, DP_GOOD)), 0);
}

PLACE void vat_looks_at_events(void)
{
    uint16_t word = (uint16_t)CALL(dp_events(MEMORY));
    expect("an event", CALL(dp_pending(MEMORY)), DP_EVENT_DATA_EXCH);
    CALL(dp_acknowledge(MEMORY, word));
}

/* Set_Prm with that data behind DSAP and SSAP. */
static void put_parameter_data(const uint8_t *data, size_t count)
{
    enum { POINTS = 2 };
    const uint8_t le = (uint8_t)(count + POINTS + 3);
    uint8_t t[HEADER + POINTS + PARAMETER_LEN + END] = {0x68, le, le, 0x68, 0x85, 0x82, FC_REQUEST, 0x3D, 0x3E};
    memcpy(t + HEADER + POINTS, data, count);
    t[HEADER + POINTS + count + 1] = 0x16;
    acknowledged_at_start_up(t, HEADER + POINTS + count + END, last_octet_of_set_prm);
}

void put_parameters(uint8_t factor_1, uint8_t factor_2)
{
    const uint8_t data[] = {0x88, factor_1, factor_2, 0x0B, 0x80, 0xB3, 0x00};
    put_parameter_data(data, sizeof data);
}

/* The last octet, 7, has the base in its bit 2. */
void put_fast_parameters(uint8_t factor_1, uint8_t factor_2)
{
    const uint8_t data[] = {0x88, factor_1, factor_2, 0x0B, 0x80, 0xB3, 0x00, 0x04};
    put_parameter_data(data, sizeof data);
}

/* A watchdog of 10 x 255 x 255 ticks, Chk_Cfg: from a fresh memory into the exchange. */
void start_up(void)
{
    uint8_t chk_cfg[] = {0x68, 0x09, 0x09, 0x68, 0x85, 0x82, FC_REQUEST, 0x3E,
                         0x3E, 0x1F, 0x1F, 0x2F, 0x2F, 0x00, 0x16};
    station = &of_workload;
    station_starts();
    put_parameters(255, 255);
    acknowledged_at_start_up(chk_cfg, sizeof chk_cfg, last_octet_of_chk_cfg);
    vat_judges();
    vat_looks_at_events();
}

/* The first cycle's reply is to bring inputs of a cycle before it. */
void begin_exchange(void)
{
    start_up();
    for (unsigned i = 0; i < INPUTS; i++)
        CALL(dp_write(MEMORY, DP_KIND_INPUTS, i, pattern(0, i)));
    CALL(dp_hand_over_inputs(MEMORY));
}
