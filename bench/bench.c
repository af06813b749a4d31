/*
 * The cost of the exported calls on the workload. `make bench` runs it under valgrind, which counts the instructions of
 * every call; by itself it prints octets per second, which is a time on this machine and says nothing about another
 * one.
 */
#include "workload.h"

#include <stdbool.h>
#include <time.h>

/* ---- The rare calls, and other telegrams than Data_Exchange ---- */

PLACE void vat_has_diagnosis(void)
{
    CALL(dp_new_diagnosis(MEMORY, DIAGNOSIS_LEN, DP_DIAGNOSIS_EXT));
}

PLACE void vat_leaves(void)
{
    CALL(dp_leave_master(MEMORY));
}

PLACE void octet_of_other_telegram(uint8_t octet)
{
    CALL(dp_octet(MEMORY, octet, 0));
}

PLACE void last_octet_to_another(uint8_t octet)
{
    CALL(dp_octet(MEMORY, octet, 0));
}

PLACE void last_octet_of_slave_diag(uint8_t octet)
{
    CALL(dp_octet(MEMORY, octet, 0));
}

PLACE void last_octet_of_get_cfg(uint8_t octet)
{
    CALL(dp_octet(MEMORY, octet, 0));
}

PLACE void last_octet_of_read_inputs(uint8_t octet)
{
    CALL(dp_octet(MEMORY, octet, 0));
}

PLACE void last_octet_of_read_outputs(uint8_t octet)
{
    CALL(dp_octet(MEMORY, octet, 0));
}

PLACE void last_octet_to_58(uint8_t octet)
{
    CALL(dp_octet(MEMORY, octet, 0));
}

PLACE void last_octet_to_63(uint8_t octet)
{
    CALL(dp_octet(MEMORY, octet, 0));
}

PLACE void last_octet_in_sync(uint8_t octet)
{
    CALL(dp_octet(MEMORY, octet, 0));
}

PLACE void last_octet_of_sync(uint8_t octet)
{
    CALL(dp_octet(MEMORY, octet, 0));
}

PLACE void last_octet_of_repeated_exchange(uint8_t octet)
{
    CALL(dp_octet(MEMORY, octet, 0));
}

PLACE void last_octet_of_repeated_set_prm(uint8_t octet)
{
    CALL(dp_octet(MEMORY, octet, 0));
}

/* ---- Calls that end the exchange ---- */

PLACE void vat_judges_bad(void)
{
    expect("parameters", CALL(dp_judge_parameters(MEMORY, DP_BAD)), 0);
}

PLACE void tick_expires(void)
{
    CALL(dp_tick(MEMORY));
}

PLACE void tick_leaves(void)
{
    CALL(dp_tick(MEMORY));
}

PLACE void gap_leaves(void)
{
    CALL(dp_gap(MEMORY));
}

PLACE void send_while_put_off(void)
{
    CALL(dp_send(MEMORY));
}

PLACE int64_t last_send_leaves(void)
{
    return CALL(dp_send(MEMORY));
}

/* ---- The window ---- */

PLACE void window_reads_events(void)
{
    CALL(dp_window_read(MEMORY, DP_INTEL, DP_CELL_INT_LOW));
}

PLACE void window_reads_events_in_motorola_order(void)
{
    CALL(dp_window_read(MEMORY, DP_MOTOROLA, DP_CELL_INT_LOW));
}

PLACE void window_hands_over(void)
{
    CALL(dp_window_read(MEMORY, DP_INTEL, DP_CELL_NEW_DIN_BUFFER));
}

PLACE void window_takes(void)
{
    expect("the answer of 0BH", CALL(dp_window_read(MEMORY, DP_INTEL, DP_CELL_NEXT_DOUT_BUFFER)), 1);
}

PLACE void window_gives_diagnosis(void)
{
    CALL(dp_window_read(MEMORY, DP_INTEL, DP_CELL_NEW_DIAG_BUFFER));
}

PLACE void window_judges_parameters(void)
{
    expect("the answer of 0EH", CALL(dp_window_read(MEMORY, DP_INTEL, DP_CELL_USER_PRM_DATA_OK)), 0);
}

PLACE void window_judges_parameters_bad(void)
{
    expect("the answer of 0FH", CALL(dp_window_read(MEMORY, DP_INTEL, DP_CELL_USER_PRM_DATA_NOK)), 0);
}

PLACE void window_judges_configuration(void)
{
    expect("the answer of 10H", CALL(dp_window_read(MEMORY, DP_INTEL, DP_CELL_USER_CFG_DATA_OK)), 0);
}

PLACE void window_judges_configuration_bad(void)
{
    expect("the answer of 11H", CALL(dp_window_read(MEMORY, DP_INTEL, DP_CELL_USER_CFG_DATA_NOK)), 0);
}

PLACE void window_reads_nothing(void)
{
    expect("the last cell", CALL(dp_window_read(MEMORY, DP_INTEL, DP_CELL_LAST)), 0);
}

PLACE void window_refuses_read(void)
{
    expect("a cell behind", dp_window_read(MEMORY, DP_INTEL, DP_CELL_LAST + 1), -DP_REFUSED_CELL);
}

PLACE void window_acknowledges(uint8_t octet)
{
    CALL(dp_window_write(MEMORY, DP_INTEL, DP_CELL_INT_ACK_HIGH, octet));
}

PLACE void window_writes_nothing(void)
{
    CALL(dp_window_write(MEMORY, DP_INTEL, DP_CELL_LAST, 0xFF));
}

PLACE void window_refuses_write(void)
{
    expect("a cell behind", dp_window_write(MEMORY, DP_INTEL, DP_CELL_LAST + 1, 0xFF), -DP_REFUSED_CELL);
}

/* ---- Stations without outputs, without inputs, with long lengths ---- */

PLACE void vat_takes_empty_list(void)
{
    expect("the answer of dp_take_outputs", CALL(dp_take_outputs(MEMORY)), 1);
}

PLACE int64_t send_data_without_outputs(void)
{
    return CALL(dp_send(MEMORY));
}

PLACE void header_octet_without_outputs(uint8_t octet)
{
    CALL(dp_octet(MEMORY, octet, 0));
}

PLACE void last_octet_without_outputs(uint8_t octet)
{
    CALL(dp_octet(MEMORY, octet, 0));
}

PLACE void data_octet_without_inputs(uint8_t octet)
{
    CALL(dp_octet(MEMORY, octet, 0));
}

PLACE void last_octet_without_inputs(uint8_t octet)
{
    CALL(dp_octet(MEMORY, octet, 0));
}

PLACE void last_octet_without_inputs_repeated(uint8_t octet)
{
    CALL(dp_octet(MEMORY, octet, 0));
}

PLACE void last_octet_without_inputs_flagged(uint8_t octet)
{
    CALL(dp_octet(MEMORY, octet, 0));
}

PLACE void data_octet_of_long_outputs(uint8_t octet)
{
    CALL(dp_octet(MEMORY, octet, 0));
}

/* ---- Scenes ---- */

/* A telegram. The data of an SD2, or the header of an SD1 behind its first octet, has the place `inner`. */
static void put_by_places(const uint8_t *t, size_t count, void (*inner)(uint8_t), void (*last)(uint8_t))
{
    size_t from = t[0] == SD1 ? 1 : HEADER;
    CALL(dp_gap(MEMORY));
    for (size_t i = 0; i + 1 < count; i++)
        (from <= i && i < count - END ? inner : octet_of_other_telegram)(t[i]);
    last(t[count - 1]);
}

static void put_telegram(const uint8_t *t, size_t count, void (*last)(uint8_t))
{
    put_by_places(t, count, octet_of_other_telegram, last);
}

/* A new request. */
static void put_request_by_places(uint8_t *t, size_t count, void (*inner)(uint8_t), void (*last)(uint8_t))
{
    count_request(t, count);
    put_by_places(t, count, inner, last);
    request_sent();
}

static void put_request(uint8_t *t, size_t count, void (*last)(uint8_t))
{
    put_request_by_places(t, count, octet_of_other_telegram, last);
}

static void fetch_reply(void)
{
    while (CALL(dp_send(MEMORY)) != DP_NO_OCTET)
        continue;
}

/* A telegram and its reply, if it draws one: one that is no new request, or one that is. */
static void other_telegram(const uint8_t *t, size_t count, void (*last)(uint8_t))
{
    put_telegram(t, count, last);
    fetch_reply();
}

static void other_request(uint8_t *t, size_t count, void (*last)(uint8_t))
{
    put_request(t, count, last);
    fetch_reply();
}

/* A request without data to a service point; SD2 or SD1, with which its reply begins: an SD1 is RS. */
static void request_to_point(uint8_t dsap, void (*last)(uint8_t), uint8_t drawn)
{
    uint8_t t[] = {0x68, 0x05, 0x05, 0x68, 0x85, 0x82, 0x5D, dsap, 0x3E, 0x00, 0x16};
    put_request(t, sizeof t, last);
    expect("the first octet of a point's reply", CALL(dp_send(MEMORY)), drawn);
    fetch_reply();
}

static void other_telegrams(void)
{
    static const uint8_t status_of_another[] = {0x10, 0x07, 0x02, 0x49, 0x52, 0x16};
    other_telegram(status_of_another, sizeof status_of_another, last_octet_to_another);
    request_to_point(59, last_octet_of_get_cfg, 0x68);
    request_to_point(56, last_octet_of_read_inputs, 0x68);
    request_to_point(57, last_octet_of_read_outputs, 0x68);
    request_to_point(58, last_octet_to_58, 0x10); /* Global_Control comes by another function */
    request_to_point(63, last_octet_to_63, 0x10); /* no point */
    request_to_point(60, last_octet_of_slave_diag, 0x68);
}

/* Parameters that come in the exchange. */
static void judged_bad(void)
{
    start_up();
    put_parameters(255, 255);
    vat_judges_bad();
}

/* Fast parameters are two ticks in every version. */
static void watchdog_expires(void)
{
    start_up();
    put_fast_parameters(1, 2);
    CALL(dp_tick(MEMORY));
    tick_expires();
    expect("the events", CALL(dp_events(MEMORY)) & DP_EVENT_BIT(DP_EVENT_WATCHDOG), DP_EVENT_BIT(DP_EVENT_WATCHDOG));
}

/* Leave master on a busy line is put off: to the next tick, to a gap inside a telegram, to the end of a reply. */
static void put_off(void (*end)(void))
{
    start_up();
    CALL(dp_gap(MEMORY));
    octet_of_other_telegram(0x68);
    CALL(dp_leave_master(MEMORY));
    end();
    expect("the outputs taken", CALL(dp_take_outputs(MEMORY)), 2);
}

static void put_off_to_end_of_reply(void)
{
    uint8_t t[TELEGRAM];
    start_up();
    fill_request(t, 1);
    put_request(t, sizeof t, octet_of_other_telegram);
    CALL(dp_leave_master(MEMORY));
    for (unsigned i = 1; i < REPLY; i++)
        send_while_put_off();
    expect("the last octet of the reply", last_send_leaves(), 0x16);
    expect("the outputs taken", CALL(dp_take_outputs(MEMORY)), 2);
}

/* Set_Prm, with sync allowed, and Chk_Cfg. They go by none of start_up's places, whose figures stay those of start-ups
   alone. */
static void put_set_prm(void)
{
    uint8_t set_prm[] = {0x68, 0x0C, 0x0C, 0x68, 0x85, 0x82, 0x5D, 0x3D, 0x3E,
                         0xA8, 0xFF, 0xFF, 0x0B, 0x80, 0xB3, 0x00, 0x00, 0x16};
    other_request(set_prm, sizeof set_prm, octet_of_other_telegram);
}

static void put_chk_cfg(void)
{
    uint8_t chk_cfg[] = {0x68, 0x09, 0x09, 0x68, 0x85, 0x82, 0x5D, 0x3E, 0x3E, 0x1F, 0x1F, 0x2F, 0x2F, 0x00, 0x16};
    other_request(chk_cfg, sizeof chk_cfg, octet_of_other_telegram);
}

/* From WAIT_PRM into the exchange. */
static void enter_exchange(void)
{
    put_set_prm();
    expect("parameters", CALL(dp_judge_parameters(MEMORY, DP_GOOD)), 0);
    put_chk_cfg();
    expect("configuration", CALL(dp_judge_configuration(MEMORY, DP_GOOD)), 0);
}

/* Outputs that the first sync holds back and the second one publishes. The telegram finds new inputs, as in the
   workload. */
static void outputs_by_sync(void)
{
    static const uint8_t sync[] = {0x68, 0x07, 0x07, 0x68, 0xFF, 0x82, 0x46, 0x3A, 0x3E, 0x20, 0x00, 0x5F, 0x16};
    uint8_t t[TELEGRAM];
    fill_request(t, 1);
    enter_exchange();
    other_telegram(sync, sizeof sync, octet_of_other_telegram);
    CALL(dp_take_outputs(MEMORY));
    CALL(dp_hand_over_inputs(MEMORY));
    other_request(t, sizeof t, last_octet_in_sync);
    expect("what is taken in sync", CALL(dp_take_outputs(MEMORY)), 0);
    other_telegram(sync, sizeof sync, last_octet_of_sync);
    expect("what is taken after the next sync", CALL(dp_take_outputs(MEMORY)), 1);
}

/* A start-up and a cycle by the window, as an older vat program makes them, and bad judgements. From WAIT_PRM to
   WAIT_PRM. */
static void by_window(void)
{
    uint8_t t[TELEGRAM];
    fill_request(t, 1);
    put_set_prm();
    window_judges_parameters();
    put_chk_cfg();
    window_judges_configuration();
    other_request(t, sizeof t, octet_of_other_telegram);
    window_reads_events();
    window_reads_events_in_motorola_order();
    window_acknowledges(DP_EVENT_BIT(DP_EVENT_OUTPUTS) >> 8);
    window_takes();
    window_hands_over();
    window_gives_diagnosis();
    window_reads_nothing();
    window_writes_nothing();
    window_refuses_read();
    window_refuses_write();
    put_set_prm();
    window_judges_parameters_bad();
    put_set_prm();
    expect("parameters", CALL(dp_judge_parameters(MEMORY, DP_GOOD)), 0);
    put_chk_cfg();
    window_judges_configuration_bad();
}

/* What shows that a telegram was a repeat. A library of another version may know none: it is counted all the same. */
static void expect_of_repeat(const char *what, int64_t found, int64_t expected)
{
#ifndef OTHER_VERSION
    expect(what, found, expected);
#else
    (void)what, (void)found, (void)expected;
#endif
}

/* The last request again, as a master sends it that missed the reply. */
static void repeated(uint8_t *t, size_t count, void (*last)(uint8_t), uint8_t drawn)
{
    put_telegram(t, count, last);
    expect("the first octet of a repeat's reply", CALL(dp_send(MEMORY)), drawn);
    fetch_reply();
}

/* The repeat of a Data_Exchange finds new inputs, which it leaves to the next one; that of a Set_Prm comes when the
   parameters are judged. */
static void repeats(void)
{
    uint8_t t[TELEGRAM];
    uint8_t set_prm[] = {0x68, 0x0C, 0x0C, 0x68, 0x85, 0x82, 0x5D, 0x3D, 0x3E,
                         0x88, 0xFF, 0xFF, 0x0B, 0x80, 0xB3, 0x00, 0x00, 0x16};
    start_up();
    fill_request(t, 1);
    other_request(t, sizeof t, octet_of_other_telegram);
    expect("the outputs taken", CALL(dp_take_outputs(MEMORY)), 1);
    CALL(dp_hand_over_inputs(MEMORY));
    repeated(t, sizeof t, last_octet_of_repeated_exchange, 0x68);
    expect_of_repeat("what is taken behind a repeat", CALL(dp_take_outputs(MEMORY)), 0);
    other_request(set_prm, sizeof set_prm, octet_of_other_telegram);
    expect("parameters", CALL(dp_judge_parameters(MEMORY, DP_GOOD)), 0);
    repeated(set_prm, sizeof set_prm, last_octet_of_repeated_set_prm, 0xE5);
    expect_of_repeat("the event of parameters", CALL(dp_events(MEMORY)) & DP_EVENT_BIT(DP_EVENT_PARAMETERS), 0);
}

/* ---- Scenes at other stations ---- */

/* Three buffers of the outputs take turns, and three of the inputs. After as many cycles each had its turn: so the
   figures can be compared with those of the workload. */
enum { TURNS = 3 };

/* Whether another station is started. A library of another version may know no length 0, and no memory above 4,096
   octets: a station that needs one is then left out, and one without channels has a memory of 4,096. */
static bool is_started(const struct station *other)
{
    int64_t answer = start_other(other);
#ifdef OTHER_VERSION
    static struct station shorter;
    if (answer == -DP_REFUSED_LENGTH && (other->outputs == 0 || other->inputs == 0))
        return false;
    if (answer == -DP_REFUSED_MEMORY_LENGTH && other->channels > 0)
        return false;
    if (answer == -DP_REFUSED_MEMORY_LENGTH) {
        shorter = *other;
        shorter.memory_len = 4096;
        answer = start_other(&shorter);
    }
#endif
    granted("dp_start", answer);
    return true;
}

/* Another station is started, and cycles are made. */
static void cycles_at(const struct station *other, void (*cycle)(void))
{
    if (!is_started(other))
        return;
    enter_exchange();
    for (int turn = 0; turn < TURNS; turn++)
        cycle();
}

static void expect_sent(const uint8_t *t, size_t count)
{
    for (size_t i = 0; i < count; i++)
        expect("an octet of the reply", CALL(dp_send(MEMORY)), t[i]);
}

static void expect_end_of_reply(void)
{
    expect("what is sent behind the reply", CALL(dp_send(MEMORY)), DP_NO_OCTET);
}

/* Without inputs: a Data_Exchange and its repeat. */
static void acknowledged_cycle(void)
{
    uint8_t t[TELEGRAM];
    fill_request(t, 1);
    put_request_by_places(t, sizeof t, data_octet_without_inputs, last_octet_without_inputs);
    expect("the reply without inputs", CALL(dp_send(MEMORY)), 0xE5);
    expect_end_of_reply();
    expect("the outputs taken", CALL(dp_take_outputs(MEMORY)), 1);
    repeated(t, sizeof t, last_octet_without_inputs_repeated, 0xE5);
    expect_of_repeat("what is taken behind a repeat", CALL(dp_take_outputs(MEMORY)), 0);
}

/* Without inputs: a Data_Exchange while there is a new diagnosis. */
static void flagged_cycle(void)
{
    static const uint8_t flagged[] = {0x68, 0x04, 0x04, 0x68, 0x02, 0x05, 0x0A, 0x00, 0x11, 0x16};
    uint8_t t[TELEGRAM];
    fill_request(t, 1);
    CALL(dp_new_diagnosis(MEMORY, DIAGNOSIS_LEN, DP_DIAGNOSIS_EXT));
    put_request(t, sizeof t, last_octet_without_inputs_flagged);
    expect_sent(flagged, sizeof flagged);
    expect_end_of_reply();
    expect("the outputs taken", CALL(dp_take_outputs(MEMORY)), 1);
}

/* Without outputs: a Data_Exchange finds new inputs, as in the workload. */
static void polled_cycle(void)
{
    static const uint8_t header[HEADER] = {0x68, INPUTS + 3, INPUTS + 3, 0x68, 0x02, 0x05, 0x08};
    uint8_t t[] = {SD1, 0x05, 0x02, 0x00, 0x00, 0x16};
    for (uint8_t i = 0; i < INPUTS; i++)
        CALL(dp_write(MEMORY, DP_KIND_INPUTS, i, i));
    CALL(dp_hand_over_inputs(MEMORY));
    put_request_by_places(t, sizeof t, header_octet_without_outputs, last_octet_without_outputs);
    expect_sent(header, sizeof header);
    for (uint8_t i = 0; i < INPUTS; i++)
        expect("an input", send_data_without_outputs(), i);
    fetch_reply();
    vat_takes_empty_list();
}

/* Lengths above 64, which the check tests one by one. */
enum { LONG = 100 };

static void long_cycle(void)
{
    enum { LAST_OUTPUT = 0xA5 };
    uint8_t t[HEADER + LONG + END] = {0x68, LONG + 3, LONG + 3, 0x68, 0x05, 0x02};
    t[HEADER + LONG - 1] = LAST_OUTPUT;
    t[HEADER + LONG + 1] = 0x16;
    put_request_by_places(t, sizeof t, data_octet_of_long_outputs, octet_of_other_telegram);
    expect("the first octet of a long reply", CALL(dp_send(MEMORY)), 0x68);
    fetch_reply();
    expect("the outputs taken", CALL(dp_take_outputs(MEMORY)), 1);
    expect("the last output", CALL(dp_read(MEMORY, DP_KIND_OUTPUTS, LONG - 1)), LAST_OUTPUT);
}

static uint8_t longest_memory[DP_MEMORY_MAX];

/* In the longest memory the check makes no sum of the long lengths. */
static void other_stations(void)
{
    static const struct station without_inputs = {memory, sizeof memory, OUTPUTS, 0, 0, 0};
    static const struct station without_outputs = {memory, sizeof memory, 0, INPUTS, 0, 0};
    static const struct station with_long_lengths = {longest_memory, sizeof longest_memory, LONG, LONG, 0, 0};
    cycles_at(&without_inputs, acknowledged_cycle);
    cycles_at(&without_inputs, flagged_cycle);
    cycles_at(&without_outputs, polled_cycle);
    cycles_at(&with_long_lengths, long_cycle);
}

/* ---- Scenes at stations with channels ---- */

/* The places of such a station's calls. */
struct places {
    void (*data_octet)(uint8_t octet);
    void (*tick)(void);
    void (*take)(void);
    void (*read)(uint32_t index, uint8_t expected);
};

/* A Data_Exchange as in the workload, and what the vat program and the timer do behind it. */
static void cycle_by_places(const struct places *at)
{
    uint8_t t[TELEGRAM];
    fill_request(t, 1);
    put_request_by_places(t, sizeof t, at->data_octet, octet_of_other_telegram);
    expect("the first octet of the reply", CALL(dp_send(MEMORY)), 0x68);
    fetch_reply();
    at->take();
    for (uint32_t i = 0; i < OUTPUTS; i++)
        at->read(i, t[HEADER + i]);
    at->tick();
}

/* A cycle at a station of that name. */
#define CYCLE_WITH(name) \
    PLACE void data_octet_with_##name(uint8_t octet) \
    { \
        CALL(dp_octet(MEMORY, octet, 0)); \
    } \
    PLACE void tick_with_##name(void) \
    { \
        CALL(dp_tick(MEMORY)); \
    } \
    PLACE void take_with_##name(void) \
    { \
        expect("the outputs taken", CALL(dp_take_outputs(MEMORY)), 1); \
    } \
    PLACE void read_with_##name(uint32_t index, uint8_t expected) \
    { \
        expect("an output", CALL(dp_read(MEMORY, DP_KIND_OUTPUTS, index)), expected); \
    } \
    static void cycle_with_##name(void) \
    { \
        static const struct places at = {data_octet_with_##name, tick_with_##name, take_with_##name, \
                                         read_with_##name}; \
        cycle_by_places(&at); \
    }

CYCLE_WITH(two_channels)
CYCLE_WITH(two_channels_in_little_room)
CYCLE_WITH(sixteen_channels)

/* Beside short lengths the check makes no sum where the memory has room for the channels behind 1,536 octets. */
static void stations_with_channels(void)
{
    enum { SHORT_CHANNEL = 64, ROOM = DP_MEMORY_MIN + 2 * 2 * DP_ROOM(SHORT_CHANNEL) };
    static const struct station two = {longest_memory, ROOM, OUTPUTS, INPUTS, 2, SHORT_CHANNEL};
    static const struct station two_in_little_room = {longest_memory, DP_MEMORY_MIN, OUTPUTS, INPUTS, 2, SHORT_CHANNEL};
    static const struct station sixteen = {longest_memory, DP_MEMORY_MAX, OUTPUTS, INPUTS, DP_CHANNELS, DP_CHANNEL_MAX};
    cycles_at(&two, cycle_with_two_channels);
    cycles_at(&two_in_little_room, cycle_with_two_channels_in_little_room);
    cycles_at(&sixteen, cycle_with_sixteen_channels);
}

/* ---- All scenes ---- */

static void rare_calls(void)
{
    for (int i = 0; i < 10; i++) {
        start_up();
        other_telegrams();
        vat_has_diagnosis();
        vat_leaves();
        judged_bad();
        watchdog_expires();
        put_off(tick_leaves);
        put_off(gap_leaves);
        put_off_to_end_of_reply();
        outputs_by_sync(); /* in WAIT_PRM, where the Leave master that was put off ended */
        CALL(dp_leave_master(MEMORY));
        by_window();
        repeats();
        other_stations();
        stations_with_channels();
    }
}

/* ---- Times ---- */

static double octets_per_second(unsigned octets, clock_t from, clock_t to)
{
    double seconds = (double)(to - from) / CLOCKS_PER_SEC;
    return seconds > 0 ? octets / seconds : 0;
}

static void run_cycles(unsigned cycles)
{
    begin_exchange();
    clock_t from = clock();
    for (unsigned cycle = 1; cycle <= cycles; cycle++)
        whole_cycle(cycle);
    clock_t to = clock();
    printf("  %9.0f  whole cycles with the vat program's calls; received and sent octets\n",
           octets_per_second(cycles * (TELEGRAM + REPLY), from, to));
}

static void run_receiving(unsigned cycles)
{
    begin_exchange();
    clock_t from = clock();
    for (unsigned cycle = 1; cycle <= cycles; cycle++)
        receive_telegram(cycle);
    clock_t to = clock();
    printf("  %9.0f  receiving alone\n", octets_per_second(cycles * TELEGRAM, from, to));
}

int main(int argc, char **argv)
{
    unsigned cycles = cycles_asked_for(argc, argv, 20000);
    rare_calls();
    printf("Octets per second, by the processor time of this machine over %u cycles:\n", cycles);
    run_cycles(cycles);
    if (argc <= 1)
        run_receiving(cycles);
    return 0;
}
