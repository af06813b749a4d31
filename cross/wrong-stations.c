/*
 * Wrong stations, to try lists.c: the real one with the mistake that the environment's WRONG names.
 * cross/try-wrong-stations has what lists.c has to say of each. Linked with --wrap for each call of the Makefile's WRAPPED.
 */
#include "dp.h"

#include <stdbool.h>
#include <stdlib.h>
#include <string.h>

typedef int64_t read_call(uint8_t *memory, uint64_t memory_len, uint32_t kind, uint32_t index);
typedef int64_t write_call(uint8_t *memory, uint64_t memory_len, uint32_t kind, uint32_t index, uint8_t octet);
typedef int64_t alone_call(uint8_t *memory, uint64_t memory_len);
typedef int64_t octet_call(uint8_t *memory, uint64_t memory_len, uint8_t octet, uint8_t bad);
typedef int64_t window_read_call(uint8_t *memory, uint64_t memory_len, uint32_t order, uint32_t address);
typedef int64_t window_write_call(uint8_t *memory, uint64_t memory_len, uint32_t order, uint32_t address,
                                  uint8_t octet);
typedef int64_t start_call(uint8_t *memory, uint64_t memory_len, uint32_t address, uint16_t ident, uint32_t output_len,
                           uint32_t input_len, uint32_t parameter_len, uint32_t configuration_len,
                           uint32_t diagnosis_len, uint8_t *get_cfg, uint64_t get_cfg_len, uint8_t *channels,
                           uint64_t channels_len);
read_call __real_dp_read, __wrap_dp_read;
write_call __real_dp_write, __wrap_dp_write;
alone_call __real_dp_gap, __wrap_dp_gap;
alone_call __real_dp_tick, __wrap_dp_tick;
alone_call __real_dp_take_outputs, __wrap_dp_take_outputs;
alone_call __real_dp_pending, __wrap_dp_pending;
octet_call __real_dp_octet, __wrap_dp_octet;
start_call __real_dp_start, __wrap_dp_start;
window_read_call __real_dp_window_read, __wrap_dp_window_read;
window_write_call __real_dp_window_write, __wrap_dp_window_write;

static int is(const char *mistake)
{
    return strcmp(getenv("WRONG"), mistake) == 0;
}

/* ---- The state part's octets, as docs/memory.md has them ---- */

enum { OWNER = 0, FLAGS = 3, EVENTS = 4, REPLY_CONTROL = 12, SENDING = 17, DRAWN = 18, ADDRESS = 20, PHASE = 21 };
enum { PARAMETER_ROLES = 24, OUTPUT_SET = 29, READING = 31, DESTINATION = 34, SOURCE = 35, CONTROL = 36, POINT = 37 };
enum { OUTPUT_LEN = 48, INPUT_LEN = 49, PARAMETER_LEN = 50, COUNTED = 54, COUNTED_MASTER = 55, BUFFERS = 512 };
enum { READING_END = 10, READING_COMPLETE = 11, SENDING_E5 = 9, WAIT_PRM = 0, WAIT_CFG = 1 };
enum { DRAWN_E5 = 1, DRAWN_EXCHANGE = 4, DRAWN_SLAVE_DIAG = 8 };
enum { FLAG_NOTED = 0x04, FLAG_STAT_DIAG = 0x10, FLAG_DIAG = 0x40, HELD_BACK = 0x04 };
enum { FC_FCV = 0x10, FC_FCB = 0x20, NOBODY = 127 };

/* ---- Repeats ---- */

/* The last request whose frame count bit counts: octets 54 and 55. */
struct chain {
    uint8_t counted, master;
};
static const struct chain no_chain = {0, NOBODY};

/* The chain that another master's request ended. */
static struct chain ended_by_another = {0, NOBODY};

/* Of the octets since the last gap, and of the last request that was no repeat. */
static uint8_t sum, sum_of_request;

static struct chain chain_of(const uint8_t *memory)
{
    struct chain c = {memory[COUNTED], memory[COUNTED_MASTER]};
    return c;
}

static void put_chain(uint8_t *memory, struct chain c)
{
    memory[COUNTED] = c.counted;
    memory[COUNTED_MASTER] = c.master;
}

/* A telegram that is here but for its last octet. */
struct telegram {
    uint8_t destination, master, fc;
    bool to_set_prm;
};

static struct telegram telegram_of(const uint8_t *memory)
{
    bool to_set_prm = (memory[DESTINATION] & 0x80) != 0 && memory[POINT] == 61;
    struct telegram t = {memory[DESTINATION] & 0x7F, memory[SOURCE] & 0x7F, memory[CONTROL], to_set_prm};
    return t;
}

/* Whether it acts here; one to all stations does not count. */
static bool acts(struct telegram t, const uint8_t *memory)
{
    return t.destination == memory[ADDRESS] && t.master != NOBODY && (t.fc & 0xC0) == 0x40;
}

static bool is_request(struct telegram t, const uint8_t *memory)
{
    return acts(t, memory) && (t.fc & 0x0F) != 4 && (t.fc & 0x0F) != 6;
}

static bool repeats(struct telegram t, struct chain c)
{
    bool bit = (t.fc & FC_FCB) != 0;
    return (t.fc & FC_FCV) != 0 && t.master == c.master && bit == (c.counted & 1);
}

/* Before the last octet of a request: another chain than there is, for a wrong station to judge by. */
static void mistake_repeat(uint8_t *memory, struct telegram t)
{
    if (is("data-tells-repeat") && repeats(t, chain_of(memory)) && sum != sum_of_request)
        put_chain(memory, no_chain);
    if (is("repeat-behind-another") && repeats(t, ended_by_another))
        put_chain(memory, ended_by_another);
}

/* Behind it. c: the chain that it was judged by. */
static void mistake_behind(uint8_t *memory, struct telegram t, struct chain c)
{
    bool clears = memory[OWNER] == t.master && (memory[FLAGS] & FLAG_STAT_DIAG) == 0;
    bool diagnosis = c.counted >> 1 == DRAWN_SLAVE_DIAG;
    if (is("repeat-clears-diag-flag") && repeats(t, c) && diagnosis && clears)
        memory[FLAGS] &= (uint8_t)~FLAG_DIAG;
    if (!repeats(t, c))
        sum_of_request = sum;
    if (c.master != NOBODY)
        ended_by_another = c.master != t.master ? c : no_chain;
}

/* ---- Stations without outputs or without inputs ---- */

/* Other lengths than Start is given, for a wrong station to judge by. */
static void mistake_lengths(uint32_t *output_len, uint32_t *input_len)
{
    if (is("length-0-refused") && (*output_len == 0 || *input_len == 0))
        *output_len = *input_len = 0;
    if (is("both-lengths-0") && *output_len == 0 && *input_len == 0)
        *input_len = 1;
}

/* Behind the last octet of a request: what it held back, and what it drew. */
static void mistake_one_sided(uint8_t *memory)
{
    bool without_inputs = memory[INPUT_LEN] == 0 && memory[DRAWN] == DRAWN_EXCHANGE;
    if (is("empty-list-not-held") && memory[OUTPUT_LEN] == 0)
        memory[OUTPUT_SET] &= (uint8_t)~HELD_BACK;
    if (is("diag-flag-not-in-fc") && without_inputs)
        memory[REPLY_CONTROL] = 0x08;
    if (is("always-e5") && without_inputs)
        memory[SENDING] = SENDING_E5;
}

/* ---- Pending ---- */

/* Other events than are set, for a wrong station to tell of. For the greatest the smallest are left out one by one. */
static uint16_t mistaken_events(uint16_t word)
{
    const uint16_t configuration = DP_EVENT_BIT(DP_EVENT_CONFIGURATION);
    const uint16_t sets = configuration | DP_EVENT_BIT(DP_EVENT_PARAMETERS);
    if (is("sets-not-told"))
        word &= (uint16_t)~sets;
    if (is("parameters-first") && (word & sets) == sets)
        word &= (uint16_t)~configuration;
    while (is("greatest-first") && (word & (word - 1)) != 0)
        word &= (uint16_t)(word - 1);
    return word;
}

/* ---- The watchdog's base ---- */

/* The octets since the last gap, as far as a Set_Prm has octets that the station looks at: up to octet 7. */
enum { LE = 1, SET_PRM_DATA = 9, LOOKED_AT = SET_PRM_DATA + 8, WD_ON = 0x08, WD_BASE = 0x04 };
static uint8_t came[LOOKED_AT];
static size_t came_count;

/* A station with a wrong base is the real one, to which more or fewer ticks come than go by. factors: octet 1 times
   octet 2 of the last good Set_Prm, 0 where the watchdog is off; right: its ticks; wrong: those that the wrong station
   has instead; gone: how many went by since it was refilled. */
static struct {
    uint32_t factors, right, wrong, gone;
} watchdog;

/* The base of the last Set_Prm that had an octet 7: whether it is 1 ms. */
static bool was_fast;

static size_t rounded(uint8_t length)
{
    return (length + 7u) / 8 * 8;
}

/* Octet 7 of the buffer that a Set_Prm went to; if it has fewer octets, what was left there. */
static uint8_t octet_7_in_buffer(const uint8_t *memory)
{
    size_t before = 4 * rounded(memory[OUTPUT_LEN]) + 3 * rounded(memory[INPUT_LEN]);
    size_t fill = memory[PARAMETER_ROLES] / 2;
    return memory[BUFFERS + before + fill * rounded(memory[PARAMETER_LEN]) + 7];
}

static size_t set_prm_count(void)
{
    return came[LE] - 5u;
}

/* Whether the Set_Prm that came asks for a base of 1 ms. */
static bool is_fast(void)
{
    return set_prm_count() >= 8 && (came[SET_PRM_DATA + 7] & WD_BASE) != 0;
}

/* Whether the wrong station takes it so. */
static bool mistaken_fast(uint8_t in_buffer)
{
    const uint8_t *data = came + SET_PRM_DATA;
    if (is("base-always-10-ms"))
        return false;
    if (is("base-always-1-ms"))
        return true;
    if (is("base-by-octet-0"))
        return (data[0] & WD_BASE) != 0;
    if (is("base-by-any-bit"))
        return set_prm_count() >= 8 && data[7] != 0;
    if (is("base-of-8-octets-alone"))
        return set_prm_count() == 8 && is_fast();
    if (is("octet-7-from-buffer"))
        return (in_buffer & WD_BASE) != 0;
    if (is("base-stays"))
        return was_fast;
    return is_fast();
}

/* Behind a Set_Prm. taken: it was good, and no repeat. */
static void set_watchdog(bool taken, uint8_t in_buffer)
{
    const uint8_t *data = came + SET_PRM_DATA;
    if (taken) {
        watchdog.factors = (data[0] & WD_ON) != 0 ? (uint32_t)(data[1] * data[2]) : 0;
        watchdog.right = is_fast() ? watchdog.factors : 10 * watchdog.factors;
        was_fast = set_prm_count() >= 8 ? is_fast() : was_fast;
    }
    if (taken || is("base-by-any-set-prm"))
        watchdog.wrong = mistaken_fast(in_buffer) ? watchdog.factors : 10 * watchdog.factors;
    if (is("ticks-modulo-65536"))
        watchdog.wrong %= 65536;
}

/* Whether a Set_Prm that was no repeat was good. */
static bool is_good(struct telegram t, const uint8_t *memory)
{
    bool locks = (came[SET_PRM_DATA] & 0xC0) == 0x80;
    return locks && memory[DRAWN] == DRAWN_E5 && memory[PHASE] == WAIT_CFG && memory[OWNER] == t.master;
}

static bool refills(struct telegram t, const uint8_t *memory)
{
    bool counts = memory[PHASE] != WAIT_PRM && (memory[FLAGS] & FLAG_NOTED) == 0;
    return counts && acts(t, memory) && t.master == memory[OWNER];
}

/* Behind a telegram that refills. If the wrong watchdog is shorter, the ticks that it lacks go by at once. */
static void refill(uint8_t *memory, uint64_t memory_len)
{
    watchdog.gone = 0;
    for (uint32_t tick = watchdog.wrong; tick < watchdog.right; tick++)
        __real_dp_tick(memory, memory_len);
}

/* Whether the right watchdog waits at this tick for a wrong one that is longer. */
static bool waits(const uint8_t *memory)
{
    if (watchdog.wrong <= watchdog.right || (memory[FLAGS] & FLAG_NOTED) != 0)
        return false;
    watchdog.gone++;
    return watchdog.gone % (watchdog.wrong / watchdog.right) != 0;
}

/* ---- Start ---- */

/* What it is given. */
struct start {
    uint8_t *memory;
    uint64_t memory_len;
    uint32_t address;
    uint16_t ident;
    uint32_t output_len, input_len, parameter_len, configuration_len, diagnosis_len;
    uint8_t *get_cfg;
    uint64_t get_cfg_len;
    uint8_t *channels;
    uint64_t channels_len;
};

static int64_t started(const struct start *s)
{
    return __real_dp_start(s->memory, s->memory_len, s->address, s->ident, s->output_len, s->input_len,
                           s->parameter_len, s->configuration_len, s->diagnosis_len, s->get_cfg, s->get_cfg_len,
                           s->channels, s->channels_len);
}

/* A length of a channel as a wrong station takes it. other: the other one of the channel. */
static uint8_t mistaken_length(uint8_t length, uint8_t other)
{
    if (is("channel-of-241") && length == DP_CHANNEL_MAX + 1)
        return DP_CHANNEL_MAX;
    if (is("channel-of-3") && length == DP_CHANNEL_MIN - 1)
        return DP_CHANNEL_MIN;
    if (is("channel-of-one-buffer") && length == 0 && other != 0)
        return DP_CHANNEL_MIN;
    return length;
}

/* Other channels than Start is given, for a wrong station to judge by. Too many of them are left as they are. */
static void mistake_channels(struct start *s)
{
    static uint8_t lengths[DP_CHANNEL_LENGTHS];
    if (s->channels_len > DP_CHANNEL_LENGTHS)
        return;
    memset(lengths, 0, sizeof lengths);
    memcpy(lengths, s->channels, s->channels_len);
    for (size_t i = 0; i < DP_CHANNEL_LENGTHS; i++)
        lengths[i] = mistaken_length(lengths[i], lengths[i ^ 1]);
    if (is("channels-of-31") && s->channels_len == DP_CHANNEL_LENGTHS - 1)
        s->channels_len = DP_CHANNEL_LENGTHS;
    s->channels = lengths;
}

/* The same where the right station refuses: what the wrong one does not look at becomes 0. */
static void mistake_refused(struct start *s, int64_t answer)
{
    const bool no_room = answer == -DP_REFUSED_ROOM;
    if (s->channels_len != DP_CHANNEL_LENGTHS)
        return;
    for (size_t i = 0; no_room && i < DP_CHANNEL_LENGTHS; i++) {
        if (is("channels-take-no-room"))
            s->channels[i] = 0;
        if (is("channels-rounded-down") && s->channels[i] >= 8)
            s->channels[i] &= 0xF8;
    }
    if (answer == -DP_REFUSED_LENGTH && is("last-channel-not-looked-at"))
        memset(s->channels + DP_CHANNEL_LENGTHS - 2, 0, 2);
}

/* ---- The calls ---- */

int64_t __wrap_dp_read(uint8_t *memory, uint64_t memory_len, uint32_t kind, uint32_t index)
{
    int64_t answer = __real_dp_read(memory, memory_len, kind, index);
    if (is("look-changes"))
        memory[memory_len - 1] ^= 1;
    if (is("behind-memory"))
        memory[memory_len] ^= 1;
    if (is("before-memory"))
        memory[-1] ^= 1;
    if (is("other-refusal") && answer == -DP_REFUSED_ABSENT)
        return -DP_REFUSED_RANGE;
    return answer + (is("one-alignment") && (uintptr_t)memory % 8 == 5);
}

int64_t __wrap_dp_write(uint8_t *memory, uint64_t memory_len, uint32_t kind, uint32_t index, uint8_t octet)
{
    int64_t answer = __real_dp_write(memory, memory_len, kind, index, octet);
    if (is("refusal-changes") && answer < 0)
        memory[memory_len - 1] ^= 1;
    return answer;
}

int64_t __wrap_dp_octet(uint8_t *memory, uint64_t memory_len, uint8_t octet, uint8_t bad)
{
    sum = (uint8_t)(sum + octet);
    if (came_count < LOOKED_AT)
        came[came_count++] = octet;
    if (memory[READING] != READING_END)
        return __real_dp_octet(memory, memory_len, octet, bad);
    struct telegram t = telegram_of(memory);
    bool request = is_request(t, memory);
    uint8_t in_buffer = octet_7_in_buffer(memory);
    if (request)
        mistake_repeat(memory, t);
    struct chain c = chain_of(memory);
    int64_t answer = __real_dp_octet(memory, memory_len, octet, bad);
    if (memory[READING] != READING_COMPLETE)
        return answer;
    if (request) {
        if (t.to_set_prm)
            set_watchdog(is_good(t, memory) && !repeats(t, c), in_buffer);
        mistake_behind(memory, t, c);
        mistake_one_sided(memory);
    } else if (is("control-ends-chain") && (t.fc & 0x0F) == 6) {
        put_chain(memory, no_chain);
    }
    if (refills(t, memory))
        refill(memory, memory_len);
    return answer;
}

int64_t __wrap_dp_gap(uint8_t *memory, uint64_t memory_len)
{
    sum = 0;
    came_count = 0;
    return __real_dp_gap(memory, is("half-length") ? (uint32_t)memory_len : memory_len);
}

/* A tick that changes nothing is refused as any call is. */
int64_t __wrap_dp_tick(uint8_t *memory, uint64_t memory_len)
{
    if (!waits(memory))
        return __real_dp_tick(memory, memory_len);
    int64_t events = dp_events(memory, memory_len);
    return events < 0 ? events : 0;
}

int64_t __wrap_dp_take_outputs(uint8_t *memory, uint64_t memory_len)
{
    int64_t answer = __real_dp_take_outputs(memory, memory_len);
    return is("empty-list-not-new") && memory[OUTPUT_LEN] == 0 && answer == 1 ? 0 : answer;
}

int64_t __wrap_dp_pending(uint8_t *memory, uint64_t memory_len)
{
    const uint8_t low = memory[EVENTS], high = memory[EVENTS + 1];
    uint16_t mistaken = mistaken_events((uint16_t)(high << 8 | low));
    memory[EVENTS] = (uint8_t)mistaken;
    memory[EVENTS + 1] = (uint8_t)(mistaken >> 8);
    int64_t answer = __real_dp_pending(memory, memory_len);
    memory[EVENTS] = low;
    memory[EVENTS + 1] = high;
    if (is("pending-acknowledges") && answer >= 0)
        dp_acknowledge(memory, memory_len, DP_EVENT_BIT(answer));
    return answer;
}

int64_t __wrap_dp_start(uint8_t *memory, uint64_t memory_len, uint32_t address, uint16_t ident, uint32_t output_len,
                        uint32_t input_len, uint32_t parameter_len, uint32_t configuration_len, uint32_t diagnosis_len,
                        uint8_t *get_cfg, uint64_t get_cfg_len, uint8_t *channels, uint64_t channels_len)
{
    struct start s = {memory,        memory_len,        address,       ident,   output_len,  input_len,
                      parameter_len, configuration_len, diagnosis_len, get_cfg, get_cfg_len, channels,
                      channels_len};
    if (is("memory-of-4096") && memory_len > 4096)
        return -DP_REFUSED_MEMORY_LENGTH;
    mistake_lengths(&s.output_len, &s.input_len);
    mistake_channels(&s);
    int64_t answer = started(&s);
    if (answer < 0) {
        mistake_refused(&s, answer);
        answer = started(&s);
    }
    if (answer == 0) {
        ended_by_another = no_chain;
        memset(&watchdog, 0, sizeof watchdog);
        was_fast = false;
    }
    if (is("slice-changes") && get_cfg_len > 0)
        get_cfg[0] ^= 1;
    if (is("behind-slice") && get_cfg_len <= DP_LENGTH_MAX)
        get_cfg[get_cfg_len] ^= 1;
    if (is("channels-change") && channels_len > 0)
        channels[0] ^= 1;
    if (is("behind-channels") && channels_len <= DP_CHANNEL_LENGTHS)
        channels[channels_len] ^= 1;
    return answer;
}

int64_t __wrap_dp_window_read(uint8_t *memory, uint64_t memory_len, uint32_t order, uint32_t address)
{
    int64_t answer = __real_dp_window_read(memory, memory_len, is("one-motorola") ? order == 1 : order,
                                           is("short-address") ? (uint8_t)address : address);
    if (is("window-look-changes") && address == 0x15)
        memory[memory_len - 1] ^= 1;
    return answer;
}

int64_t __wrap_dp_window_write(uint8_t *memory, uint64_t memory_len, uint32_t order, uint32_t address, uint8_t octet)
{
    int64_t answer = __real_dp_window_write(memory, memory_len, order, address, octet);
    if (is("command-written") && address == 0x0B)
        __real_dp_window_read(memory, memory_len, order, address);
    return answer;
}
