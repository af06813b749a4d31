/*
 * A lamp panel: a station that takes outputs and has no inputs. So the program hands nothing over, and the station
 * answers a Data_Exchange by E5, or, while there is a new diagnosis, by FC 0A with one octet 00.
 */
#include "firmware.h"

static const uint8_t modules[] = {PANEL_MODULES};
static const struct program panel = {"panel", modules, sizeof modules, accept_parameters};

/* Each output bit lights a lamp. A lamp that is burnt out takes no current when it is lit: here the second one. */
enum { BURNT_OUT = 0x02 };

/* The failed lamps that the master was told of. */
static uint8_t reported;

void panel_power_up(void)
{
    CALL(dp_start(MEMORY, PANEL_ADDRESS, PANEL_IDENT, PANEL_OUTPUTS, 0, PANEL_PARAMETERS, CARD_CONFIGURATION,
                  CARD_DIAGNOSIS, modules, sizeof modules, NO_CHANNELS));
}

/* What cannot be said now is said in the next round. */
static void report_lamps(uint8_t failed)
{
    if (failed != reported && give_diagnosis(&panel, failed != 0 ? "lamp failed" : NULL, failed))
        reported = failed;
}

void panel_cycle(void)
{
    uint8_t lamps[PANEL_OUTPUTS];
    newest_outputs(&panel, lamps, PANEL_OUTPUTS);
    report_lamps(lamps[0] & BURNT_OUT);
    look_at_events(&panel);
}
