/* The card's firmware, by what drives it: the line's interrupts, the timer of 1 ms, the main loop. */
#ifndef CARD_H
#define CARD_H

#include <stdint.h>

/* What the station is started with. As much of it as a master has to know stands in card.gsd too; make check compares
   the two. */
enum { CARD_ADDRESS = 5, CARD_IDENT = 0x80B3, CARD_OUTPUTS = 2, CARD_INPUTS = 2 };

/* The longest sets and the longest diagnosis. Of Set_Prm's octets the first seven are the standard's, and the next one
   has the watchdog's base; of the diagnosis the first six are the station's. */
enum { CARD_PARAMETERS = 9, CARD_CONFIGURATION = 8, CARD_DIAGNOSIS = 8 };

/* The modules, as Get_Cfg sends them and Chk_Cfg has to bring them: two octets of inputs, two of outputs. */
#define CARD_MODULES 0x11, 0x21

/* Other cards: a lamp panel, which has no inputs, and a sensor, which has no outputs. Their Set_Prm has the standard's
   seven octets alone, and so a watchdog's base of 10 ms. */
enum { PANEL_ADDRESS = 6, PANEL_IDENT = 0x80B4, PANEL_OUTPUTS = 1, PANEL_PARAMETERS = 7 };
enum { SENSOR_ADDRESS = 7, SENSOR_IDENT = 0x80B5, SENSOR_INPUTS = 2, SENSOR_PARAMETERS = 7 };

/* Their modules: one octet of outputs; two of inputs. */
#define PANEL_MODULES 0x20
#define SENSOR_MODULES 0x11

/* What the transmitter gets when there is nothing to send. */
enum { CARD_SILENT = -1 };

/* Power-up, before any interrupt is let through. */
void card_power_up(void);

/* The same for the older vat program. Its diagnosis gets count and flags here, once: the chip had them in its RAM, and
   the window cannot change them. */
void card_power_up_older(void);

/* Power-up of the other cards. Their interrupts are those below. */
void panel_power_up(void);
void sensor_power_up(void);

/* The receive interrupt. bad: not 0 if the receiver flags the octet. */
void card_on_octet(uint8_t octet, uint8_t bad);

/* The timer that runs out when the line was quiet for so long that a telegram may begin. */
void card_on_gap(void);

/* The transmit side: asked after the station's delay, and then whenever the transmitter has room. Answers an octet or
   CARD_SILENT, at which the driver goes back to listening. */
int card_on_transmitter_free(void);

/* The timer of 1 ms. */
void card_on_tick(void);

/* One round of the main loop. */
void vat_cycle(void);

/* One round of the older vat program's, in place of that one: it works through the window of registers alone. */
void older_vat_cycle(void);

/* One round of the other cards' programs. */
void panel_cycle(void);
void sensor_cycle(void);

#endif
