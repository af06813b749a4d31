/*
 * An older vat program, written for the chip: all that it knows of the station is registers by their addresses. It
 * looks at events, acknowledges and gives commands through the window alone. The octets of the buffers lay in the
 * chip's RAM above 015H, which is not in the window: read_octets and write_octets of card.c have them.
 */
#include "firmware.h"

#include <stdio.h>

/* The order of its card's processor, and the registers by the addresses that they have in it. */
enum { ORDER = DP_MOTOROLA };
enum {
    INT_REG_HIGH = 0x02, /* events 15 to 8; written, it is Int-Ack-Reg */
    INT_REG_LOW = 0x03,  /* events 7 to 0; likewise */
    NEW_DIN_BUFFER_CMD = 0x09,
    NEXT_DOUT_BUFFER_CMD = 0x0B,
    NEW_DIAG_BUFFER_CMD = 0x0D,
    USER_PRM_DATA_OK = 0x0E,
    USER_PRM_DATA_NOK = 0x0F,
    USER_CFG_DATA_OK = 0x10,
    USER_CFG_DATA_NOK = 0x11
};

/* Bits of the upper half of the events. The first two are never acknowledged: they end with their sets. */
enum { NEW_CFG_DATA = 0x04, NEW_PRM_DATA = 0x08, DX_OUT = 0x20 };

/* What the judging registers answer; 1 is that a newer set has come, whose event is still set: the next round judges
   that one. */
enum { FINISHED = 0, NOT_ALLOWED = 3 };

/* What the program knows: the outputs taken last, the highest temperature allowed (0 before good parameters) and the
   temperature that it reported last. */
static struct {
    uint8_t outputs[CARD_OUTPUTS];
    uint8_t limit, reported;
} known;

/* ---- The registers ---- */

/* With the chip this was one access to its address. What the bus can cause is refused here, a set that was dropped or a
   diagnosis that is delayed, and read as the "not allowed" of the chip's judging registers. Any other refusal is a fault
   of this program. */
static uint8_t read_register(uint8_t address)
{
    int64_t foreseen = address == NEW_DIAG_BUFFER_CMD ? DP_REFUSED_DELAYED : DP_REFUSED_JUDGING;
    int64_t answer = CALL_UNLESS(foreseen, dp_window_read(MEMORY, ORDER, address));
    return answer < 0 ? NOT_ALLOWED : (uint8_t)answer;
}

static void write_register(uint8_t address, uint8_t octet)
{
    CALL(dp_window_write(MEMORY, ORDER, address, octet));
}

/* A command is given by reading its register; `octets` are those of its buffer. */
static void print_command(uint8_t address, uint8_t answer, const char *what, const uint8_t *octets, uint32_t count)
{
    printf("    older    reads %02XH: %02X, %s", address, answer, what);
    print_octets(octets, count);
    printf("\n");
}

/* ---- The program ---- */

static void acknowledge(uint8_t address, uint8_t events)
{
    if (events == 0)
        return;
    write_register(address, events);
    printf("    older    writes %02XH: %02X\n", address, events);
}

/* Reading a set and judging it are one piece, as in card.c. */
static void judge_parameters(void)
{
    uint8_t octets[CARD_PARAMETERS];
    lock();
    uint32_t count = read_octets(DP_KIND_PARAMETERS, octets, CARD_PARAMETERS);
    bool good = good_parameters(octets, count);
    uint8_t command = good ? USER_PRM_DATA_OK : USER_PRM_DATA_NOK;
    uint8_t answer = read_register(command);
    unlock();
    if (answer == FINISHED && good)
        known.limit = octets[PARAMETER_LIMIT];
    print_command(command, answer, "parameters", octets, count);
}

static void judge_configuration(void)
{
    uint8_t octets[CARD_CONFIGURATION];
    lock();
    uint32_t count = read_octets(DP_KIND_CONFIGURATION, octets, CARD_CONFIGURATION);
    uint8_t command = good_configuration(&vat_program, octets, count) ? USER_CFG_DATA_OK : USER_CFG_DATA_NOK;
    uint8_t answer = read_register(command);
    unlock();
    print_command(command, answer, "configuration", octets, count);
}

/* 0BH answers 1 for new outputs and 2 for the station's zeros, where the chip has bits for both. */
static void take_outputs(void)
{
    uint8_t answer = read_register(NEXT_DOUT_BUFFER_CMD);
    read_octets(DP_KIND_OUTPUTS, known.outputs, CARD_OUTPUTS);
    print_command(NEXT_DOUT_BUFFER_CMD, answer, "outputs", known.outputs, CARD_OUTPUTS);
}

static void give_inputs(void)
{
    uint8_t inputs[CARD_INPUTS];
    measure_vat(inputs);
    write_octets(DP_KIND_INPUTS, 0, inputs, CARD_INPUTS);
    uint8_t answer = read_register(NEW_DIN_BUFFER_CMD);
    print_command(NEW_DIN_BUFFER_CMD, answer, "inputs", inputs, CARD_INPUTS);
}

/* Above the limit every new temperature is a diagnosis. Octets and command are one piece: while the last diagnosis is
   delayed neither is possible, and the next round tries again. */
static void report_temperature(void)
{
    uint8_t temperature = vat.temperature;
    if (known.limit == 0 || temperature <= known.limit || temperature == known.reported)
        return;
    lock();
    write_diagnosis(temperature);
    uint8_t answer = read_register(NEW_DIAG_BUFFER_CMD);
    unlock();
    if (answer != NOT_ALLOWED)
        known.reported = temperature;
    print_command(NEW_DIAG_BUFFER_CMD, answer, "temperature", &temperature, 1);
}

/* Acknowledged before they are acted on, so that none is lost that comes meanwhile. */
void older_vat_cycle(void)
{
    uint8_t high = read_register(INT_REG_HIGH);
    uint8_t low = read_register(INT_REG_LOW);
    printf("    older    reads %02XH: %02X, %02XH: %02X\n", INT_REG_HIGH, high, INT_REG_LOW, low);
    acknowledge(INT_REG_HIGH, (uint8_t)(high & ~(NEW_PRM_DATA | NEW_CFG_DATA)));
    acknowledge(INT_REG_LOW, low);
    if ((high & NEW_PRM_DATA) != 0)
        judge_parameters();
    if ((high & NEW_CFG_DATA) != 0)
        judge_configuration();
    if ((high & DX_OUT) != 0)
        take_outputs();
    run_vat(known.outputs);
    give_inputs();
    report_temperature();
}
