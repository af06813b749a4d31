/*
 * The header in C99 and in C++17: every call has its type and is in the library, so that this links, the constants are
 * the numbers that the station answers, a memory has to be as long as the header says, of several events the smallest
 * is told, and a watchdog has as many ticks as the header says.
 */
#include "dp.h"
#include "dp.h" /* a second time: the guard holds */
#include "refusals.h"

typedef int64_t (*on_memory)(uint8_t *, uint64_t);
typedef int64_t (*on_number)(uint8_t *, uint64_t, uint32_t);
typedef int64_t (*on_two_numbers)(uint8_t *, uint64_t, uint32_t, uint32_t);
typedef int64_t (*on_octet)(uint8_t *, uint64_t, uint8_t, uint8_t);
typedef int64_t (*on_mask)(uint8_t *, uint64_t, uint16_t);
typedef int64_t (*on_write)(uint8_t *, uint64_t, uint32_t, uint32_t, uint8_t);
typedef int64_t (*on_start)(uint8_t *, uint64_t, uint32_t, uint16_t, uint32_t, uint32_t, uint32_t, uint32_t, uint32_t,
                            const uint8_t *, uint64_t, const uint8_t *, uint64_t);

static const on_start start = dp_start;
static const on_octet octet = dp_octet;
static const on_write writes[] = {dp_write, dp_window_write};
static const on_mask acknowledge = dp_acknowledge;
static const on_two_numbers two_numbers[] = {dp_read, dp_new_diagnosis, dp_window_read};
static const on_number judgements[] = {dp_judge_parameters, dp_judge_configuration};
static const on_memory memory_alone[] = {dp_gap,    dp_send,    dp_tick,        dp_take_outputs, dp_hand_over_inputs,
                                         dp_events, dp_pending, dp_leave_master};

#define COUNT(list) (sizeof(list) / sizeof(list)[0])

/* The greatest length that all six can have in the shortest memory. */
enum { SHORT = 64 };

/* The shortest memory for six lengths of which all are the same. channels: what the channels' buffers take. */
#define MEMORY_FOR(len, channels) DP_MEMORY_FOR(len, len, len, len, len, len, channels)

/* What the buffers of all channels take, with the greatest lengths. */
enum { ALL_CHANNELS = DP_CHANNELS * 2 * DP_ROOM(DP_CHANNEL_MAX) };

static uint8_t memory[DP_MEMORY_MAX + DP_MEMORY_STEP];
static const uint8_t get_cfg[DP_LENGTH_MAX] = {0x10};

/* One octet more than there are lengths: so there can be one too many. */
static uint8_t channels[DP_CHANNEL_LENGTHS + 1];

static void expect(const char *what, int64_t answer, int64_t expected)
{
    if (answer == expected)
        return;
    fprintf(stderr, "%s answered %lld and not %lld\n", what, (long long)answer, (long long)expected);
    exit(EXIT_FAILURE);
}

/* len: that of parameters, configuration, diagnosis and Get_Cfg. */
static int64_t started_with(size_t memory_len, uint32_t address, uint32_t outputs, uint32_t inputs, uint32_t len)
{
    return start(memory, memory_len, address, 0x80B3, outputs, inputs, len, len, len, get_cfg, len, channels,
                 DP_CHANNEL_LENGTHS);
}

static int64_t started(size_t memory_len, uint32_t address, uint32_t len)
{
    return started_with(memory_len, address, len, len, len);
}

/* Every call but Start on a memory in which no station was started. With 99 for an index, a count, flags or an address
   the call could be refused by a higher number too. */
static void expect_damaged(void)
{
    for (size_t i = 0; i < COUNT(memory_alone); i++)
        expect("a call without a station", memory_alone[i](memory, DP_MEMORY_MAX), -DP_REFUSED_DAMAGED);
    for (size_t i = 0; i < COUNT(two_numbers); i++)
        expect("two numbers without a station", two_numbers[i](memory, DP_MEMORY_MAX, 1, 99), -DP_REFUSED_DAMAGED);
    for (size_t i = 0; i < COUNT(judgements); i++)
        expect("judging without a station", judgements[i](memory, DP_MEMORY_MAX, DP_GOOD), -DP_REFUSED_DAMAGED);
    for (size_t i = 0; i < COUNT(writes); i++)
        expect("a write without a station", writes[i](memory, DP_MEMORY_MAX, 4, 99, 0), -DP_REFUSED_DAMAGED);
    expect("dp_octet without a station", octet(memory, DP_MEMORY_MAX, 0, 0), -DP_REFUSED_DAMAGED);
    expect("dp_acknowledge without a station", acknowledge(memory, DP_MEMORY_MAX, 0), -DP_REFUSED_DAMAGED);
}

static void expect_start(void)
{
    expect("dp_start, memory too short", started(DP_MEMORY_MIN - DP_MEMORY_STEP, 5, SHORT), -DP_REFUSED_MEMORY_LENGTH);
    expect("dp_start, odd memory", started(DP_MEMORY_MIN + 4, 5, SHORT), -DP_REFUSED_MEMORY_LENGTH);
    expect("dp_start, address", started(DP_MEMORY_MIN, DP_ADDRESS_MAX + 1, SHORT), -DP_REFUSED_ADDRESS);
    expect("dp_start, length", started(DP_MEMORY_MAX, 5, DP_LENGTH_MAX + 1), -DP_REFUSED_LENGTH);
    expect("dp_start, room", started(DP_MEMORY_MIN, 5, SHORT + 1), -DP_REFUSED_ROOM);
    expect("dp_start, memory too long", started(DP_MEMORY_MAX + DP_MEMORY_STEP, 5, SHORT), -DP_REFUSED_MEMORY_LENGTH);
    expect("dp_start, the longest memory", started(DP_MEMORY_MAX, DP_ADDRESS_MAX, DP_LENGTH_MAX), 0);
    expect("dp_start, all lengths 64", started(DP_MEMORY_MIN, 5, SHORT), 0);
}

/* The length that the header says is enough, and nothing below it; expected: that length. */
static void expect_shortest(uint32_t len, uint32_t channels_room, uint32_t expected)
{
    uint32_t shortest = MEMORY_FOR(len, channels_room);
    expect("DP_MEMORY_FOR", shortest, expected);
    expect("dp_start, the shortest memory", started(shortest, 5, len), 0);
    if (shortest > DP_MEMORY_MIN)
        expect("dp_start, one below", started(shortest - DP_MEMORY_STEP, 5, len), -DP_REFUSED_ROOM);
}

/* Lengths of the channels from the first on, as long as there are any; all others are 0. */
static void set_channels(uint32_t count, uint8_t indication, uint8_t response)
{
    memset(channels, 0, sizeof channels);
    for (uint32_t n = 0; n < count; n++) {
        channels[2 * n] = indication;
        channels[2 * n + 1] = response;
    }
}

/* Sixteen channels with lengths that are allowed or are not. */
static void expect_lengths(uint8_t indication, uint8_t response, int64_t expected)
{
    set_channels(DP_CHANNELS, indication, response);
    expect("dp_start, the channels' lengths", started(DP_MEMORY_MAX, 5, DP_LENGTH_MAX), expected);
}

static void expect_memories(void)
{
    expect_shortest(SHORT / 2, 0, DP_MEMORY_MIN);
    expect_shortest(SHORT, 0, DP_MEMORY_MIN);
    expect_shortest(96, 0, 2048);
    expect_shortest(97, 0, 2176);
    expect_shortest(DP_LENGTH_MAX, 0, 4480);
    set_channels(1, DP_CHANNEL_MIN, DP_CHANNEL_MIN + 5);
    expect_shortest(SHORT, DP_ROOM(DP_CHANNEL_MIN) + DP_ROOM(DP_CHANNEL_MIN + 5), DP_MEMORY_MIN + 24);
    set_channels(DP_CHANNELS, DP_CHANNEL_MAX, DP_CHANNEL_MAX);
    expect_shortest(DP_LENGTH_MAX, ALL_CHANNELS, 12160);
}

static void expect_channels(void)
{
    expect_memories();
    expect_lengths(DP_CHANNEL_MIN, DP_CHANNEL_MAX, 0);
    expect_lengths(DP_CHANNEL_MIN - 1, DP_CHANNEL_MIN, -DP_REFUSED_LENGTH);
    expect_lengths(DP_CHANNEL_MAX, DP_CHANNEL_MAX + 1, -DP_REFUSED_LENGTH);
    expect_lengths(DP_CHANNEL_MIN, 0, -DP_REFUSED_LENGTH);
    expect_lengths(0, DP_CHANNEL_MIN, -DP_REFUSED_LENGTH);
    set_channels(0, 0, 0);
    for (uint64_t len = DP_CHANNEL_LENGTHS - 1; len <= DP_CHANNEL_LENGTHS + 1; len++)
        expect("dp_start, how many lengths",
               start(memory, DP_MEMORY_MIN, 5, 0x80B3, 1, 1, 7, 1, 6, get_cfg, 1, channels, len),
               len == DP_CHANNEL_LENGTHS ? 0 : -DP_REFUSED_LENGTH);
}

/* kind: that of the length 0. It has no octet, and the calls that could move one answer as ever. */
static void expect_no_octet(uint32_t kind)
{
    uint8_t *m = memory;
    size_t n = DP_MEMORY_MIN;
    expect("dp_read, length 0", dp_read(m, n, kind, 0), -DP_REFUSED_RANGE);
    expect("dp_write, length 0", dp_write(m, n, kind, 0, 0x21), -DP_REFUSED_RANGE);
    expect("dp_hand_over_inputs", dp_hand_over_inputs(m, n), 0);
    expect("dp_take_outputs", dp_take_outputs(m, n), 0);
    expect("dp_leave_master", dp_leave_master(m, n), 0);
    expect("dp_take_outputs", dp_take_outputs(m, n), 2);
}

/* Outputs and inputs may be 0, but not both. */
static void expect_lengths_0(void)
{
    expect("dp_start, neither", started_with(DP_MEMORY_MIN, 5, 0, 0, SHORT), -DP_REFUSED_LENGTH);
    expect("dp_start, no outputs", started_with(DP_MEMORY_MIN, 5, 0, SHORT, SHORT), 0);
    expect_no_octet(DP_KIND_OUTPUTS);
    expect("dp_start, no inputs", started_with(DP_MEMORY_MIN, 5, SHORT, 0, SHORT), 0);
    expect_no_octet(DP_KIND_INPUTS);
}

static void expect_fresh(void)
{
    uint8_t *m = memory;
    size_t n = DP_MEMORY_MIN;
    expect("dp_send", dp_send(m, n), DP_NO_OCTET);
    expect("dp_pending", dp_pending(m, n), DP_NO_EVENT);
    expect("dp_judge_parameters", dp_judge_parameters(m, n, DP_GOOD), -DP_REFUSED_JUDGING);
    expect("dp_read", dp_read(m, n, DP_KIND_DIAGNOSIS, DP_DIAGNOSIS_MIN - 1), -DP_REFUSED_RANGE);
    expect("dp_read", dp_read(m, n, DP_KIND_PARAMETERS, 0), -DP_REFUSED_ABSENT);
    expect("dp_write", dp_write(m, n, DP_KIND_INPUTS, SHORT - 1, 0x21), 0);
    expect("dp_read", dp_read(m, n, DP_KIND_INPUTS, SHORT - 1), 0x21);
    expect("dp_new_diagnosis", dp_new_diagnosis(m, n, DP_DIAGNOSIS_MIN, DP_DIAGNOSIS_EXT | DP_DIAGNOSIS_STAT), 0);
    expect("dp_events", dp_events(m, n), DP_EVENT_BIT(DP_EVENT_DIAGNOSIS));
    expect("dp_pending", dp_pending(m, n), DP_EVENT_DIAGNOSIS);
    expect("dp_acknowledge", dp_acknowledge(m, n, DP_EVENT_BIT(DP_EVENT_DIAGNOSIS)), 0);
    expect("dp_leave_master", dp_leave_master(m, n), 0);
    expect("dp_take_outputs", dp_take_outputs(m, n), 2);
}

/* A telegram behind a gap. */
static void put_on_line(const uint8_t *octets, size_t count)
{
    expect("dp_gap", dp_gap(memory, DP_MEMORY_MIN), 0);
    for (size_t i = 0; i < count; i++)
        expect("dp_octet", octet(memory, DP_MEMORY_MIN, octets[i], 0), 0);
}

/* Events 13, 12, 11 and 10 come one after the other: each is told ahead of the earlier ones. */
static void expect_smallest(void)
{
    static const uint8_t set_prm[] = {0x68, 0x0C, 0x0C, 0x68, 0x85, 0x82, 0x4D, 0x3D, 0x3E,
                                      0x80, 0x00, 0x00, 0x0B, 0x80, 0xB3, 0x00, 0x8D, 0x16};
    static const uint8_t chk_cfg[] = {0x68, 0x06, 0x06, 0x68, 0x85, 0x82, 0x4D, 0x3E, 0x3E, 0x20, 0xF0, 0x16};
    uint8_t *m = memory;
    size_t n = DP_MEMORY_MIN;
    expect("dp_start", started(n, 5, SHORT), 0);
    expect("dp_pending, no event", dp_pending(m, n), DP_NO_EVENT);
    expect("dp_leave_master", dp_leave_master(m, n), 0);
    expect("dp_pending, 13", dp_pending(m, n), DP_EVENT_OUTPUTS);
    expect("dp_new_diagnosis", dp_new_diagnosis(m, n, DP_DIAGNOSIS_MIN, 0), 0);
    expect("dp_pending, 12 and 13", dp_pending(m, n), DP_EVENT_DIAGNOSIS);
    put_on_line(set_prm, sizeof set_prm);
    expect("dp_pending, 11 to 13", dp_pending(m, n), DP_EVENT_PARAMETERS);
    put_on_line(chk_cfg, sizeof chk_cfg);
    expect("dp_pending, 10 to 13", dp_pending(m, n), DP_EVENT_CONFIGURATION);
    expect("dp_events, 10 to 13", dp_events(m, n), 0x3C00);
}

/* From there on each is told until it is ended: 10 and 11 by judging, which raises 1, the others by acknowledging. */
static void expect_ended(void)
{
    static const uint32_t others[] = {DP_EVENT_DATA_EXCH, DP_EVENT_DIAGNOSIS, DP_EVENT_OUTPUTS};
    uint8_t *m = memory;
    size_t n = DP_MEMORY_MIN;
    expect("dp_acknowledge, 10 and 11", dp_acknowledge(m, n, 0x0C00), 0);
    expect("dp_judge_configuration, too early", dp_judge_configuration(m, n, DP_GOOD), -DP_REFUSED_JUDGING);
    expect("dp_pending, 10 to 13", dp_pending(m, n), DP_EVENT_CONFIGURATION);
    expect("dp_judge_parameters", dp_judge_parameters(m, n, DP_GOOD), 0);
    expect("dp_pending, 10, 12 and 13", dp_pending(m, n), DP_EVENT_CONFIGURATION);
    expect("dp_judge_configuration", dp_judge_configuration(m, n, DP_GOOD), 0);
    for (size_t i = 0; i < COUNT(others); i++) {
        expect("dp_pending, 1, 12 and 13 in turn", dp_pending(m, n), others[i]);
        expect("dp_acknowledge", dp_acknowledge(m, n, DP_EVENT_BIT(others[i])), 0);
    }
    expect("dp_pending, no event left", dp_pending(m, n), DP_NO_EVENT);
}

/* Set_Prm's octets 1, 2 and 7, how many octets it has, 7 or 8, and what comes of them. */
struct watchdog {
    uint8_t factor_1, factor_2, octet_7, count;
    uint32_t ticks;
};

/* Set_Prm to a fresh station. */
static void set_watchdog(const struct watchdog *w)
{
    const uint8_t le = (uint8_t)(w->count + 5);
    uint8_t t[] = {0x68,        le,          le,   0x68, 0x85, 0x82, 0x4D, 0x3D, 0x3E, 0x88,
                   w->factor_1, w->factor_2, 0x0B, 0x80, 0xB3, 0x00, 0x00, 0x00, 0x00};
    size_t end = 4u + le;
    uint8_t sum = 0;
    if (w->count == 8)
        t[end - 1] = w->octet_7;
    for (size_t i = 4; i < end; i++)
        sum = (uint8_t)(sum + t[i]);
    t[end] = sum;
    t[end + 1] = 0x16;
    expect("dp_start", started(DP_MEMORY_MIN, 5, SHORT), 0);
    put_on_line(t, end + 2);
    expect("the reply to Set_Prm", dp_send(memory, DP_MEMORY_MIN), 0xE5);
}

/* The last tick sets event 3 and publishes zeros, and the parameters are dropped. */
static void expect_ticks(uint32_t ticks)
{
    const int64_t expired = DP_EVENT_BIT(DP_EVENT_WATCHDOG) | DP_EVENT_BIT(DP_EVENT_OUTPUTS);
    uint8_t *m = memory;
    size_t n = DP_MEMORY_MIN;
    for (uint32_t tick = 1; tick < ticks; tick++)
        expect("dp_tick", dp_tick(m, n), 0);
    expect("dp_events, before the last tick", dp_events(m, n), DP_EVENT_BIT(DP_EVENT_PARAMETERS));
    expect("dp_tick", dp_tick(m, n), 0);
    expect("dp_events, after the last tick", dp_events(m, n), expired);
}

/* The shortest and the longest watchdog on either base, and that of a Set_Prm without octet 7. */
static void expect_watchdog(void)
{
    static const struct watchdog all[] = {{1, 2, 0x04, 8, 2},
                                          {255, 255, 0x04, 8, 65025},
                                          {1, 2, 0x00, 8, 20},
                                          {255, 255, 0x00, 8, 650250},
                                          {1, 2, 0x00, 7, 20}};
    for (size_t i = 0; i < COUNT(all); i++) {
        set_watchdog(&all[i]);
        expect_ticks(all[i].ticks);
    }
}

/* What does not depend on the order. Every command here leaves the events as they were. */
static void expect_cells(uint32_t order)
{
    uint8_t *m = memory;
    size_t n = DP_MEMORY_MIN;
    expect("New_DIN_Buffer_Cmd", dp_window_read(m, n, order, DP_CELL_NEW_DIN_BUFFER), 0);
    expect("Next_DOUT_Buffer_Cmd", dp_window_read(m, n, order, DP_CELL_NEXT_DOUT_BUFFER), 0);
    for (uint32_t cell = DP_CELL_USER_PRM_DATA_OK; cell <= DP_CELL_USER_CFG_DATA_NOK; cell++)
        expect("a judging cell", dp_window_read(m, n, order, cell), -DP_REFUSED_JUDGING);
    expect("the last cell", dp_window_read(m, n, order, DP_CELL_LAST), 0);
    expect("the last cell, written", dp_window_write(m, n, order, DP_CELL_LAST, 0xFF), 0);
    expect("a command cell, written", dp_window_write(m, n, order, DP_CELL_NEW_DIAG_BUFFER, 0xFF), 0);
    const uint32_t beyond[] = {DP_CELL_LAST + 1, 0x100 + DP_CELL_INT_ACK_LOW, 0x10000 + DP_CELL_INT_ACK_LOW,
                               UINT32_MAX};
    for (size_t i = 0; i < COUNT(beyond); i++) {
        expect("behind the window", dp_window_read(m, n, order, beyond[i]), -DP_REFUSED_CELL);
        expect("behind the window, written", dp_window_write(m, n, order, beyond[i], 0xFF), -DP_REFUSED_CELL);
    }
}

/* swap: 1 where the order exchanges the halves of a register, otherwise 0. Event 12 is set, in the upper half. */
static void expect_halves(uint32_t order, uint32_t swap)
{
    uint8_t *m = memory;
    size_t n = DP_MEMORY_MIN;
    const uint8_t diagnosis = DP_EVENT_BIT(DP_EVENT_DIAGNOSIS) >> 8;
    expect("New_DIAG_Puffer_Cmd", dp_window_read(m, n, order, DP_CELL_NEW_DIAG_BUFFER), 0);
    expect_cells(order);
    expect("Int-Req-Reg, written", dp_window_write(m, n, order, DP_CELL_INT_REQ_HIGH ^ swap, 0xFF), 0);
    expect("the other half of Int-Ack-Reg", dp_window_write(m, n, order, DP_CELL_INT_ACK_LOW ^ swap, 0xFF), 0);
    expect("Int-Req-Reg 7..0", dp_window_read(m, n, order, DP_CELL_INT_REQ_LOW ^ swap), 0);
    expect("Int-Req-Reg 15..8", dp_window_read(m, n, order, DP_CELL_INT_REQ_HIGH ^ swap), diagnosis);
    expect("Int-Reg 7..0", dp_window_read(m, n, order, DP_CELL_INT_LOW ^ swap), 0);
    expect("Int-Reg 15..8", dp_window_read(m, n, order, DP_CELL_INT_HIGH ^ swap), diagnosis);
    expect("Int-Ack-Reg 15..8", dp_window_write(m, n, order, DP_CELL_INT_ACK_HIGH ^ swap, diagnosis), 0);
    expect("dp_events", dp_events(m, n), 0);
}

static void expect_window(void)
{
    expect("dp_start", started(DP_MEMORY_MIN, 5, SHORT), 0);
    expect_halves(DP_INTEL, 0);
    expect_halves(DP_MOTOROLA, 1);
    expect_halves(0x100, 1);
    expect_halves(UINT32_MAX, 1);
}

int main(void)
{
    expect_damaged();
    expect_lengths_0();
    expect_channels();
    expect_start();
    expect_fresh();
    expect_smallest();
    expect_ended();
    expect_watchdog();
    expect_window();
    return 0;
}
