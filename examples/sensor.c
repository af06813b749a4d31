/*
 * A sensor: a station that sends inputs and has no outputs. A Data_Exchange brings it no data, but counts as new
 * outputs all the same, an empty list: by the take the program learns that the master has polled, and measures anew. In
 * sync a poll is held back like any outputs, so that the master's next sync makes all sensors measure at the same time.
 */
#include "firmware.h"

#include <stdio.h>

static const uint8_t modules[] = {SENSOR_MODULES};
static const struct program sensor = {"sensor", modules, sizeof modules, accept_parameters};

/* What the take answers when the master has polled. The station's own zeros, 2, are as empty, but nobody has polled. */
enum { POLLED = 1 };

/* What is measured: it rises by one from one time to the next. */
static uint16_t measured = 0x00FE;

/* High octet first. Both go out together, so the master never sees the one without the other. */
static void measure(void)
{
    measured++;
    const uint8_t inputs[SENSOR_INPUTS] = {(uint8_t)(measured >> 8), (uint8_t)measured};
    hand_over_inputs(&sensor, inputs, SENSOR_INPUTS);
}

/* The first poll is to find inputs, too. */
void sensor_power_up(void)
{
    CALL(dp_start(MEMORY, SENSOR_ADDRESS, SENSOR_IDENT, 0, SENSOR_INPUTS, SENSOR_PARAMETERS, CARD_CONFIGURATION,
                  CARD_DIAGNOSIS, modules, sizeof modules, NO_CHANNELS));
    measure();
}

void sensor_cycle(void)
{
    bool polled = CALL(dp_take_outputs(MEMORY)) == POLLED;
    printf("    %-8s was %s\n", sensor.name, polled ? "polled" : "not polled");
    if (polled)
        measure();
    look_at_events(&sensor);
}
