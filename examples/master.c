/*
 * A master that takes the card of card.c through a start-up, some exchanges of data, a diagnosis and a clear, and falls
 * silent. On a fast line, where the watchdog's base is 1 ms, it falls silent once more. It comes back to run the vat in
 * step with others, by sync and freeze. Once the vat program is late and finds several events at once. Then the master
 * meets the older vat program of older.c, and misses a reply. At last it turns to other stations: the lamp panel of
 * panel.c, which has no inputs, and the sensor of sensor.c, which has no outputs. It prints each telegram; the programs
 * print what they see. Nothing depends on time or chance.
 */
#include "card.h"

#include <stddef.h>
#include <stdio.h>

enum { MASTER = 2, EXTENSION = 0x80, SSAP = 62 };
enum { SD1 = 0x10, SD2 = 0x68, ED = 0x16 };
enum { FC_STATUS = 0x49, FC_NO_ANSWER = 0x46 };

/* Bit 4 of a request's FC says that bit 5, the frame count bit, counts. */
enum { FC_REQUEST = 0x5D, FRAME_COUNT_BIT = 0x20 };
enum { FC_DIAG_FLAG = 0x0A };

/* Set_Prm's octet 0: the master takes the station, with a watchdog; and the commands that it allows itself. */
enum { PRM_LOCK = 0x80, PRM_WATCHDOG = 0x08, PRM_SYNC = 0x20, PRM_FREEZE = 0x10 };

/* Its octet 7, the watchdog's base. */
enum { PRM_BASE_10_MS = 0x00, PRM_BASE_1_MS = 0x04 };

/* Global_Control's octet 0. */
enum { CLEAR = 0x02, UNFREEZE = 0x04, FREEZE = 0x08, UNSYNC = 0x10, SYNC = 0x20 };

/* Set_Prm with the watchdog on: 3 x 2, in ticks by its base. */
enum { WATCHDOG_FACTOR_1 = 3, WATCHDOG_FACTOR_2 = 2 };
enum { FAST_WATCHDOG_TICKS = WATCHDOG_FACTOR_1 * WATCHDOG_FACTOR_2, WATCHDOG_TICKS = 10 * FAST_WATCHDOG_TICKS };

/* A station as the master has to know it. */
struct station {
    const char *direction; /* printed in front of its replies */
    uint8_t address;
    uint16_t ident;
    size_t parameters; /* how many octets its Set_Prm has */
    uint8_t modules[2];
    size_t module_count;
};
static const struct station card = {"card   >", CARD_ADDRESS, CARD_IDENT, CARD_PARAMETERS, {CARD_MODULES}, 2};
static const struct station panel = {"panel  >", PANEL_ADDRESS, PANEL_IDENT, PANEL_PARAMETERS, {PANEL_MODULES}, 1};
static const struct station sensor = {"sensor >", SENSOR_ADDRESS, SENSOR_IDENT, SENSOR_PARAMETERS, {SENSOR_MODULES}, 1};

/* The one that it talks to. */
static const struct station *slave = &card;

enum { LONGEST = 255 };
struct telegram {
    uint8_t octets[LONGEST];
    size_t count;
};

/* The FC of a new request. The frame count bit changes with each; left as it was, it tells the station that the master
   asks once more for a reply that it missed. */
static uint8_t next_request(void)
{
    static uint8_t fc = FC_REQUEST | FRAME_COUNT_BIT;
    fc ^= FRAME_COUNT_BIT;
    return fc;
}

static void print_octets(const char *direction, const uint8_t *octets, size_t count)
{
    printf("    %s", direction);
    for (size_t i = 0; i < count; i++)
        printf(" %02X", octets[i]);
    puts(count == 0 ? " nothing" : "");
}

static void append(struct telegram *t, uint8_t octet)
{
    t->octets[t->count++] = octet;
}

/* The check octet is the sum from DA on. */
static void append_end(struct telegram *t, size_t from)
{
    uint8_t sum = 0;
    for (size_t i = from; i < t->count; i++)
        sum = (uint8_t)(sum + t->octets[i]);
    append(t, sum);
    append(t, ED);
}

static struct telegram without_data(uint8_t fc)
{
    struct telegram t = {{SD1, slave->address, MASTER, fc}, 4};
    append_end(&t, 1);
    return t;
}

static struct telegram with_data(uint8_t da, uint8_t sa, uint8_t fc, const uint8_t *data, size_t count)
{
    uint8_t le = (uint8_t)(count + 3);
    struct telegram t = {{SD2, le, le, SD2, da, sa, fc}, 7};
    for (size_t i = 0; i < count; i++)
        append(&t, data[i]);
    append_end(&t, 4);
    return t;
}

/* The reply octet by octet, as long as the station has one and up to a count. */
static struct telegram fetch_octets(size_t most)
{
    struct telegram reply = {{0}, 0};
    while (reply.count < most) {
        int octet = card_on_transmitter_free();
        if (octet == CARD_SILENT)
            break;
        append(&reply, (uint8_t)octet);
    }
    print_octets(slave->direction, reply.octets, reply.count);
    return reply;
}

static struct telegram fetch_reply(void)
{
    return fetch_octets(LONGEST);
}

/* Some octets of a telegram, as they come one by one. */
static void put_on_line(const uint8_t *octets, size_t count)
{
    print_octets("master >", octets, count);
    for (size_t i = 0; i < count; i++)
        card_on_octet(octets[i], 0);
}

static struct telegram ask(struct telegram t)
{
    card_on_gap();
    put_on_line(t.octets, t.count);
    return fetch_reply();
}

/* To a service point of the station: bit 7 in both addresses, DSAP and SSAP before the data. */
static struct telegram to_point(uint8_t da, uint8_t fc, uint8_t dsap, const uint8_t *data, size_t count)
{
    uint8_t all[32] = {dsap, SSAP};
    for (size_t i = 0; i < count; i++)
        all[i + 2] = data[i];
    return with_data(da | EXTENSION, MASTER | EXTENSION, fc, all, count + 2);
}

static struct telegram ask_point(uint8_t da, uint8_t fc, uint8_t dsap, const uint8_t *data, size_t count)
{
    return ask(to_point(da, fc, dsap, data, count));
}

static struct telegram slave_diag_telegram(void)
{
    return to_point(slave->address, next_request(), 60, NULL, 0);
}

static void slave_diag(void)
{
    ask(slave_diag_telegram());
}

/* allowed: PRM_SYNC, PRM_FREEZE, both or 0; limit: the vat's own parameter. The other stations get neither base nor
   limit. */
static void set_prm(uint8_t base, uint8_t allowed, uint8_t limit)
{
    const uint8_t status = PRM_LOCK | PRM_WATCHDOG | allowed;
    const uint8_t high = (uint8_t)(slave->ident >> 8), low = (uint8_t)slave->ident;
    const uint8_t data[] = {status, WATCHDOG_FACTOR_1, WATCHDOG_FACTOR_2, 0x0B, high, low, 0x01, base, limit};
    ask_point(slave->address, next_request(), 61, data, slave->parameters);
}

static void chk_cfg(void)
{
    ask_point(slave->address, next_request(), 62, slave->modules, slave->module_count);
}

/* To all stations of all groups; nobody answers. */
static void global_control(uint8_t commands)
{
    const uint8_t data[] = {commands, 0x00};
    ask_point(127, FC_NO_ANSWER, 58, data, sizeof data);
}

static struct telegram exchange_telegram(uint8_t valves, uint8_t heating)
{
    const uint8_t data[CARD_OUTPUTS] = {valves, heating};
    return with_data(CARD_ADDRESS, MASTER, next_request(), data, sizeof data);
}

/* Whether the reply to a Data_Exchange tells of a new diagnosis. E5 tells of none. */
static int has_diag_flag(struct telegram reply)
{
    return reply.count > 6 && reply.octets[6] == FC_DIAG_FLAG;
}

/* Answers whether the card has a new diagnosis. */
static int data_exchange(uint8_t valves, uint8_t heating)
{
    return has_diag_flag(ask(exchange_telegram(valves, heating)));
}

/* The same for the panel, with a bit for each lamp. */
static struct telegram lamps_telegram(uint8_t lamps)
{
    return with_data(PANEL_ADDRESS, MASTER, next_request(), &lamps, PANEL_OUTPUTS);
}

static int light_lamps(uint8_t lamps)
{
    return has_diag_flag(ask(lamps_telegram(lamps)));
}

/* And for the sensor: without outputs there is no data, and the shortest telegram does. */
static void poll_sensor(void)
{
    ask(without_data(next_request()));
}

/* The main loop runs when it runs: here while a telegram is half here. */
static void data_exchange_with_cycle_inside(uint8_t valves, uint8_t heating)
{
    struct telegram t = exchange_telegram(valves, heating);
    size_t half = 8; /* the first output has come, the second not yet */
    card_on_gap();
    put_on_line(t.octets, half);
    vat_cycle();
    put_on_line(t.octets + half, t.count - half);
    fetch_reply();
}

/* Or while a reply is half sent, here the older vat program's loop, twice. */
static void slave_diag_with_older_cycles_inside(void)
{
    struct telegram t = slave_diag_telegram();
    size_t half = 9; /* the header has been sent, the diagnosis not yet */
    card_on_gap();
    put_on_line(t.octets, t.count);
    fetch_octets(half);
    older_vat_cycle();
    older_vat_cycle();
    fetch_reply();
}

/* The timer goes on while the line is silent. */
static void pass_ticks(int first, int last)
{
    if (first < last)
        printf("    ticks %d to %d\n", first, last);
    else
        printf("    tick %d\n", last);
    for (int tick = first; tick <= last; tick++)
        card_on_tick();
}

/* Silence until the watchdog expires, with rounds of the vat program before and after the last tick. */
static void silence(int ticks)
{
    pass_ticks(1, ticks - 1);
    vat_cycle();
    pass_ticks(ticks, ticks);
    vat_cycle();
}

static void title(const char *text)
{
    static int number;
    printf("%d. %s\n", ++number, text);
}

/* From parameters to the exchange of data, with rounds of the station's program. */
static void enter_exchange(uint8_t base, uint8_t allowed, uint8_t limit, void (*cycle)(void))
{
    set_prm(base, allowed, limit);
    cycle();
    chk_cfg();
    cycle();
}

/* A request whose reply the master misses, and the same again, with a round of the station's program behind each. */
static void ask_twice(struct telegram t, void (*cycle)(void), const char *title_of_second)
{
    ask(t);
    cycle();
    title(title_of_second);
    ask(t);
    cycle();
}

static void start_up(void)
{
    title("The master asks whether the station is there.");
    ask(without_data(FC_STATUS));
    vat_cycle();
    title("Slave_Diag: it waits for parameters and has no master (02 05 00 FF).");
    slave_diag();
    title("Set_Prm: a watchdog of 60 ticks (3 x 2 x 10 ms), a limit of 1E degrees. The vat program judges.");
    set_prm(PRM_BASE_10_MS, 0, 0x1E);
    vat_cycle();
    title("Chk_Cfg. The vat program judges, and the exchange of data begins.");
    chk_cfg();
    vat_cycle();
    title("Slave_Diag: the station is ready, the watchdog is on, its master is 2 (00 0C 00 02).");
    slave_diag();
}

static void exchange(void)
{
    title("Data_Exchange: first valve open, heating 40.");
    data_exchange(0x01, 0x40);
    vat_cycle();
    title("Data_Exchange: both valves open, heating 20. The vat program runs while the telegram is half here.");
    data_exchange_with_cycle_inside(0x03, 0x20);
    vat_cycle();
    title("Data_Exchange: the same. The vat gets too hot, which is a new diagnosis.");
    data_exchange(0x03, 0x20);
    vat_cycle();
}

static void diagnosis(void)
{
    title("Data_Exchange: heating off. FC is 0A, so the master fetches the diagnosis: Ext_Diag (08), and 02 20.");
    if (data_exchange(0x03, 0x00))
        slave_diag();
    vat_cycle();
    title("Data_Exchange: the master has the diagnosis, FC is 08. The vat cools down, which is a new diagnosis too.");
    data_exchange(0x02, 0x00);
    vat_cycle();
    title("Data_Exchange: FC is 0A, and the diagnosis has no Ext_Diag and only the six octets.");
    if (data_exchange(0x02, 0x00))
        slave_diag();
    vat_cycle();
}

static void clear_and_silence(void)
{
    title("Data_Exchange: first valve open, heating 08.");
    data_exchange(0x01, 0x08);
    vat_cycle();
    title("Global_Control: clear. Nobody answers; the station publishes zeros.");
    global_control(CLEAR);
    vat_cycle();
    title("Data_Exchange: first valve open, heating 08.");
    data_exchange(0x01, 0x08);
    vat_cycle();
    title("Silence. The watchdog expires at tick 60; the vat program runs before that tick and after it.");
    silence(WATCHDOG_TICKS);
    title("Slave_Diag: the station waits for parameters and has no master (02 05 00 FF).");
    slave_diag();
}

/* What a fast line is for: the outputs are zeros a few milliseconds after the master's last telegram. */
static void fast_line(void)
{
    title("A fast line: Set_Prm has 04 in octet 7, the base of 1 ms, so that 3 x 2 are 6 ticks. Chk_Cfg.");
    enter_exchange(PRM_BASE_1_MS, 0, 0x1E, vat_cycle);
    title("Data_Exchange, twice, with 5 ticks behind each: the master is in time.");
    data_exchange(0x02, 0x10);
    pass_ticks(1, FAST_WATCHDOG_TICKS - 1);
    data_exchange(0x02, 0x10);
    pass_ticks(1, FAST_WATCHDOG_TICKS - 1);
    vat_cycle();
    title("Data_Exchange and silence. The watchdog expires at tick 6, with the factors that took 60 ticks before.");
    data_exchange(0x02, 0x20);
    silence(FAST_WATCHDOG_TICKS);
    title("Slave_Diag: as after the longer silence (02 05 00 FF).");
    slave_diag();
}

static void start_up_again(void)
{
    title("Set_Prm: sync and freeze are allowed (B8), the base is 10 ms. Chk_Cfg. The exchange of data begins again.");
    enter_exchange(PRM_BASE_10_MS, PRM_SYNC | PRM_FREEZE, 0x1E, vat_cycle);
}

static void sync_outputs(void)
{
    title("Global_Control: sync. From now on outputs are held back.");
    global_control(SYNC);
    vat_cycle();
    title("Data_Exchange, twice: the vat program has the same outputs all the time.");
    data_exchange(0x01, 0x20);
    vat_cycle();
    data_exchange(0x03, 0x10);
    vat_cycle();
    title("Global_Control: sync again. The newest outputs are published, both together.");
    global_control(SYNC);
    vat_cycle();
}

static void freeze_inputs(void)
{
    title("Global_Control: freeze. Data_Exchange, twice: the card sends the same inputs, and sync goes on.");
    global_control(FREEZE);
    data_exchange(0x02, 0x00);
    vat_cycle();
    data_exchange(0x02, 0x00);
    vat_cycle();
    title("Global_Control: freeze again. Data_Exchange: the card sends the newest inputs.");
    global_control(FREEZE);
    data_exchange(0x02, 0x00);
    vat_cycle();
    title("Slave_Diag: sync and freeze are on (00 3C 00 02).");
    slave_diag();
}

static void end_sync_and_freeze(void)
{
    title("Global_Control: unsync and unfreeze. The outputs that were held back are published.");
    global_control(UNSYNC | UNFREEZE);
    vat_cycle();
    title("Data_Exchange: outputs are published at once and the newest inputs are sent, as before.");
    data_exchange(0x01, 0x08);
    vat_cycle();
    title("Slave_Diag: sync and freeze are off (00 0C 00 02).");
    slave_diag();
}

/* The events of all this are set when the vat program looks at last: 13 came first and is told last. */
static void late_round(void)
{
    title("Data_Exchange, silence until the watchdog expires, Set_Prm, Chk_Cfg, all before the vat program's round.");
    data_exchange(0x02, 0x10);
    pass_ticks(1, WATCHDOG_TICKS);
    set_prm(PRM_BASE_10_MS, 0, 0x1E);
    chk_cfg();
    title("Its round: the smallest event first, but 11 ahead of 10; the 1 that judging raises comes ahead of 13.");
    vat_cycle();
    title("Data_Exchange: the exchange of data goes on.");
    data_exchange(0x02, 0x10);
    vat_cycle();
}

static void older_start_up(void)
{
    title("The card starts again, with the older vat program. Its order is Motorola's: 02H has events 15 to 8.");
    card_power_up_older();
    older_vat_cycle();
    title("Set_Prm: a limit of 0A degrees, too low. Chk_Cfg. 0FH judges bad, and 11H has nothing left to judge (03).");
    set_prm(PRM_BASE_10_MS, 0, 0x0A);
    chk_cfg();
    older_vat_cycle();
    title("Slave_Diag: the parameters are at fault, no master (42 05 00 FF). Behind that 02 19, as given at power-up.");
    slave_diag();
    title("Set_Prm: a limit of 1E degrees. 0EH judges good.");
    set_prm(PRM_BASE_10_MS, 0, 0x1E);
    older_vat_cycle();
    title("Chk_Cfg. 10H judges good, and the exchange of data begins.");
    chk_cfg();
    older_vat_cycle();
    title("Slave_Diag: the station is ready, the watchdog is on, its master is 2 (00 0C 00 02).");
    slave_diag();
}

static void older_exchange(void)
{
    title("Data_Exchange: first valve open, heating 60. 02H and 03H acknowledge, 0BH takes, 09H hands over.");
    data_exchange(0x01, 0x60);
    older_vat_cycle();
    title("Data_Exchange: the same. The vat gets too hot: 0DH, with the count and flags of power-up.");
    data_exchange(0x01, 0x60);
    older_vat_cycle();
}

static void older_diagnosis(void)
{
    title("Data_Exchange: FC is 0A. Slave_Diag: while it is answered 0DH is first delayed (00) and then refused (03).");
    if (data_exchange(0x00, 0x20))
        slave_diag_with_older_cycles_inside();
    title("Data_Exchange: heating off. FC is 0A by the diagnosis that was delayed, and 0DH gives a newer one.");
    data_exchange(0x00, 0x00);
    older_vat_cycle();
    title("Slave_Diag: the newest temperature (02 24).");
    slave_diag();
}

/* The vat program runs before the master asks once more, so that there are new inputs by then and no outputs to take. */
static void missed_reply(void)
{
    title("Data_Exchange: second valve open, heating 10. The master misses the reply.");
    ask_twice(exchange_telegram(0x02, 0x10), older_vat_cycle,
              "The same telegram again: the same inputs, with the FC of now. There are no outputs a second time.");
    title("Data_Exchange: a new one, the frame count bit has changed. The card sends the newest inputs.");
    data_exchange(0x02, 0x08);
    older_vat_cycle();
}

static void panel_start_up(void)
{
    title("A lamp panel at address 6: outputs and no inputs. Set_Prm and Chk_Cfg, and the exchange of data begins.");
    slave = &panel;
    panel_power_up();
    enter_exchange(PRM_BASE_10_MS, 0, 0, panel_cycle);
    title("Data_Exchange: lamps 1 and 3. There are no inputs to be sent, the reply is E5.");
    light_lamps(0x05);
    panel_cycle();
}

static void panel_diagnosis(void)
{
    title("Data_Exchange: lamp 2 too, which takes no current. That is a new diagnosis.");
    light_lamps(0x07);
    panel_cycle();
    title("Data_Exchange: FC is 0A, with one octet 00. Slave_Diag: Ext_Diag (08), and 02 02.");
    if (light_lamps(0x07))
        slave_diag();
    panel_cycle();
}

/* The program runs before the master asks once more, so that there is a new diagnosis by then. */
static void panel_missed_reply(void)
{
    title("Data_Exchange: lamp 2 off. The reply is E5 again, and the master misses it. There is a new diagnosis.");
    ask_twice(lamps_telegram(0x05), panel_cycle,
              "The same telegram again: E5 again, new diagnosis or not. There are no outputs a second time.");
    title("Data_Exchange: a new one. FC is 0A, and the diagnosis has no Ext_Diag and only the six octets.");
    if (light_lamps(0x05))
        slave_diag();
    panel_cycle();
}

static void sensor_polls(void)
{
    title("A sensor at address 7: inputs and no outputs. Set_Prm, with sync allowed (A8), and Chk_Cfg.");
    slave = &sensor;
    sensor_power_up();
    enter_exchange(PRM_BASE_10_MS, PRM_SYNC, 0, sensor_cycle);
    title("Data_Exchange: without data. The reply has the inputs. The sensor is told of the poll and measures anew.");
    poll_sensor();
    sensor_cycle();
    title("Data_Exchange: the newest inputs. The sensor is told of a poll once.");
    poll_sensor();
    sensor_cycle();
    sensor_cycle();
}

static void sensor_sync(void)
{
    title("Global_Control: sync. Data_Exchange: the inputs are sent as before, but the poll is held back.");
    global_control(SYNC);
    poll_sensor();
    sensor_cycle();
    title("Global_Control: sync again. The poll is published, and the sensor measures.");
    global_control(SYNC);
    sensor_cycle();
    title("Data_Exchange: what was measured at the sync.");
    poll_sensor();
    sensor_cycle();
}

int main(void)
{
    card_power_up();
    start_up();
    exchange();
    diagnosis();
    clear_and_silence();
    fast_line();
    start_up_again();
    sync_outputs();
    freeze_inputs();
    end_sync_and_freeze();
    late_round();
    older_start_up();
    older_exchange();
    older_diagnosis();
    missed_reply();
    panel_start_up();
    panel_diagnosis();
    panel_missed_reply();
    sensor_polls();
    sensor_sync();
    return 0;
}
