/*
 * The DP slave station as firmware in C calls it. The library is libcard.a, one for each processor; the project's README
 * says where each lies and what it asks of the firmware.
 *
 * Memory. Every call gets the one memory that the station lives in, as pointer and length: DP_MEMORY_MIN to
 * DP_MEMORY_MAX octets, a multiple of DP_MEMORY_STEP, of any alignment. The station keeps nothing anywhere else: no
 * heap, no static data that changes. Two memories are two stations. Pointers must be valid for their length and not
 * null; what dp_start is given for Get_Cfg and for the channels must not lie in the memory. Nobody but these calls may
 * write to the memory. DP_MEMORY_FOR says how long it has to be.
 *
 * Lengths. They have 64 bits on every processor, since that is how wide the library takes them. Where size_t has 32, a
 * prototype with size_t would link without a word and every call would get a wrong length; so no length here is a
 * size_t. What sizeof gives is widened by the prototype.
 *
 * Keeping calls apart. Each call must get the memory as the last one left it. A call reads the state out of the
 * memory, goes one step and writes it back, and takes no lock of its own. So two calls on the same memory must never
 * meet: not an interrupt inside a call of the main program, not an interrupt inside a call of another one, not two
 * processors at once. Mask the interrupts that call the station (or hold one lock) from before a call until after it.
 * One call is enough: between two calls of the vat program the bus may go on, and outputs that were taken stay as they
 * are until the next take. The one thing that wants several calls in one piece is reading a set and judging it, see
 * dp_judge_parameters.
 *
 * The watchdog. A master that falls silent loses the station if its Set_Prm has switched the watchdog on (octet 0, bit
 * 3; octets count from 0). The time is octet 1 x octet 2 on a base of 10 ms, or of 1 ms where bit 2 of octet 7 is set.
 * Octet 7 is there with 8 or more octets of data; without it the base is 10 ms. A tick is 1 ms, so these are 20 to
 * 650,250 ticks, or 2 to 65,025. Each telegram of the master that acts and is to this address begins the time anew;
 * since a tick may come right behind it, n ticks are n - 1 to n ms. When they are over, event 3 is set and the station
 * leaves the master as by dp_leave_master. With it on, a factor 0, or 1 for both, is a Prm_Fault on either base. The
 * other bits of octet 7 have no effect. Parameters of the vat program's own begin at octet 8, as with the chip: if they
 * began at octet 7, bit 2 of their first octet would be taken for the base.
 *
 * Sync and freeze. A master that allows itself these by Set_Prm (octet 0, bits 5 and 4) switches them by
 * Global_Control, to run several stations in step; the vat program has no part in it. In sync the outputs of
 * Data_Exchange are held back, later ones in place of earlier ones, until the master's next sync or its unsync
 * publishes the newest. In freeze the inputs that are sent stay the same until its next freeze or its unfreeze brings
 * the newest that were handed over. The master's clear publishes zeros at once and empties what is held back. Both
 * modes end when the exchange of data does, and what is then held back is never published.
 *
 * Retries. A master that missed a reply sends its request again, with the same frame count bit (FC bit 5, which counts
 * where bit 4 is set). The station then draws the reply again, formed anew where it has data, and changes nothing but
 * the owner's watchdog: parameters, configuration and outputs come to the vat program once, with one event. A request
 * of another master, or one with FC bit 4 clear, ends that; Global_Control does not.
 *
 * Without inputs or without outputs. A station that sends nothing, such as a lamp panel, is started with an input
 * length of 0, one that takes nothing, such as a sensor, with an output length of 0; never with both. Without inputs a
 * Data_Exchange is answered by E5, or, while there is a new diagnosis, by FC 0A with one octet 00. Without outputs it
 * comes without data, and one with data is a Cfg_Fault. It publishes an empty list, which is new outputs like any:
 * event 13 and dp_take_outputs tell the vat program that the master has polled, and sync holds it back.
 *
 * Channels. A station can have up to 16 acyclic channels, numbered from 0 on, each with a buffer for an indication and
 * one for the response; dp_start is told the lengths of both, 0 and 0 for a channel that is not set up. In this version
 * a channel is set up but carries nothing yet: all that it does is take its room in the memory. A request to one of the
 * service points 0 to 15 draws RS, whether the channel is set up or not, and there is no call for a channel. A station
 * that has no use for them is started with 32 octets 0.
 *
 * The window. A vat program that was written for the chip (SPC3) reads and writes registers by their addresses.
 * dp_window_read and dp_window_write give it those from 000H to 015H, in the order of an Intel or of a Motorola
 * processor. Behind a cell that does something stands one of the other calls (enum dp_cell), and a program may use
 * both. The events have the chip's bits. As on the chip a read of a command cell acts: whoever reads all cells to have
 * a look has handed over inputs, taken outputs, given a diagnosis and judged sets. What is not as on the chip, and may
 * have to be changed in such a program:
 * - A command cell answers what its call answers, and not the chip's codes of buffers and states. So 0 is success at
 *   09H and 0DH, where the chip names the next buffer and 0 says that there is none, and 0BH answers 0, 1 or 2 as
 *   dp_take_outputs does. 0 and 1 of the four judging cells mean the same as there; the chip's 3, not allowed, is
 *   refusal 6 here, and a refusal is below 0.
 * - There is no mask and no interrupt line. Int-Req-Reg and Int-Reg both show every event that is set, and events are
 *   cleared through Int-Ack-Reg and never set through Int-Req-Reg.
 * - All other registers are read as 0 and written without effect: status, mask, mode, the states of the buffers.
 * - What lay in the chip's RAM above 015H is not in the window. dp_start is given the lengths, dp_read and dp_write
 *   have the octets of the buffers, and count and flags of the diagnosis are those of the last dp_new_diagnosis that
 *   was not refused.
 * - The exchange of data begins with a good configuration and does not wait for the first inputs.
 *
 * Answers. Every call answers an int64_t: 0 or a value as told below, or, refused, the number of the refusal negated.
 * So an answer below 0 is a refusal, and a refused call has changed nothing. If a call could be refused for several
 * reasons it is refused by the lowest number.
 */
#ifndef DP_H
#define DP_H

#include <stdint.h>

#ifdef __cplusplus
extern "C" {
#endif

/* Limits. */
enum {
    DP_MEMORY_MIN = 1536,  /* least length of the memory, enough for six lengths of at most 64 and no channel */
    DP_MEMORY_MAX = 16384, /* greatest length of the memory, enough for all lengths and channels: they end at 12,160 */
    DP_MEMORY_STEP = 8,    /* its length is a multiple of this */
    DP_STATE_PART = 512,   /* how many octets of it the station needs beside its buffers */
    DP_ADDRESS_MAX = 126,  /* station addresses are 0 to this */
    DP_LENGTH_MAX = 244,   /* greatest length of outputs, inputs, parameters, configuration, diagnosis, Get_Cfg */
    DP_PARAMETERS_MIN = 7, /* least length of parameters; of configuration, Get_Cfg it is 1, of outputs and inputs 0 */
    DP_DIAGNOSIS_MIN = 6,  /* least length and count of diagnosis; its first index to read and write */
    DP_CHANNELS = 16,      /* how many channels there are */
    DP_CHANNEL_MIN = 4,    /* least length of a channel's indication and response, where it is set up */
    DP_CHANNEL_MAX = 240,  /* greatest length of them */
    DP_NO_OCTET = 256,     /* dp_send: no octet is left */
    DP_NO_EVENT = 16       /* dp_pending: no event is set */
};

/* How many octets dp_start is given for the channels: of each, from channel 0 on, the indication's length and then the
   response's. */
#define DP_CHANNEL_LENGTHS (2 * DP_CHANNELS)

/* How much of the memory a buffer of a length takes: as many octets, rounded up to a multiple of 8. */
#define DP_ROOM(length) (((length) + 7) / 8 * 8)

/* The same of both buffers of a channel. */
#define DP_CHANNEL_ROOM(indication, response) (DP_ROOM(indication) + DP_ROOM(response))

/* The shortest memory for the six lengths that dp_start takes, in its order. channels: what the channels' buffers take,
   so DP_CHANNEL_ROOM of each that is set up, all of it added up, or 0. With constants it is one, and can stand
   in the declaration of the memory: uint8_t memory[DP_MEMORY_FOR(2, 2, 9, 8, 8, 2, 0)]. */
#define DP_MEMORY_FOR(outputs, inputs, parameters, configuration, diagnosis, get_cfg, channels) \
    DP_MEMORY_AT_LEAST(DP_STATE_PART + 4 * DP_ROOM(outputs) + 3 * DP_ROOM(inputs) + 3 * DP_ROOM(parameters) + \
                       3 * DP_ROOM(configuration) + 2 * DP_ROOM(diagnosis) + DP_ROOM(get_cfg) + (channels))
#define DP_MEMORY_AT_LEAST(length) ((length) < DP_MEMORY_MIN ? (int)DP_MEMORY_MIN : (length))

/* Refusals, by who causes them. A call that is refused answers the number negated: -DP_REFUSED_DAMAGED is -5. */
enum dp_refusal {
    /* the starter */
    DP_REFUSED_MEMORY_LENGTH = 1, /* the memory is too short or too long, or its length is no multiple of 8 */
    DP_REFUSED_ADDRESS = 2,       /* the address is above 126 */
    DP_REFUSED_LENGTH = 3,        /* one of the six lengths, a channel's or how many of these there are is outside its
                                     range, outputs and inputs are both 0, or one length of a channel is 0 alone */
    DP_REFUSED_ROOM = 4,          /* the buffers, those of the channels among them, would end beyond the memory */
    /* whoever damaged the memory */
    DP_REFUSED_DAMAGED = 5, /* the memory holds no station: never started, overwritten, or its length is wrong */
    /* the vat program */
    DP_REFUSED_JUDGING = 6, /* no set is open, or configuration is judged before good parameters */
    DP_REFUSED_RANGE = 7,   /* a kind, flags, a count, an index or a judgement is out of range */
    DP_REFUSED_ABSENT = 8,  /* no set shown, or index not below its count; kind 5 while a diagnosis is delayed */
    DP_REFUSED_DELAYED = 9, /* new diagnosis while one is delayed */
    DP_REFUSED_CELL = 10    /* an address of the window above 015H */
};

/* Events: numbers of bits in the event word, the most urgent first, as dp_pending tells them. The other bits are never
   set. */
enum dp_event {
    DP_EVENT_DATA_EXCH = 1,      /* DATA_EXCH was entered or left */
    DP_EVENT_WATCHDOG = 3,       /* the watchdog expired */
    DP_EVENT_CONTROL = 8,        /* Global_Control brought a new control octet; the same one acts without the event */
    DP_EVENT_CONFIGURATION = 10, /* a configuration set is open; cleared by judging it or when it is dropped */
    DP_EVENT_PARAMETERS = 11,    /* a parameter set is open; likewise */
    DP_EVENT_DIAGNOSIS = 12,     /* the diagnosis buffers changed: a new diagnosis is in effect */
    DP_EVENT_OUTPUTS = 13        /* outputs were published: by Data_Exchange, sync or unsync, or zeros by the station */
};

/* The bit of an event in the event word and in the mask of dp_acknowledge. */
#define DP_EVENT_BIT(event) ((uint16_t)(1u << (event)))

/* Kinds of octets for dp_read; dp_write takes the last two. Outputs or inputs of length 0 have no octets: each index of
   the kind is then refused by 7. */
enum dp_kind {
    DP_KIND_OUTPUTS = 1,       /* the outputs that the last take brought */
    DP_KIND_PARAMETERS = 2,    /* the parameter set that is shown */
    DP_KIND_CONFIGURATION = 3, /* the configuration set that is shown */
    DP_KIND_INPUTS = 4,        /* the inputs that are handed over next */
    DP_KIND_DIAGNOSIS = 5      /* the vat program's diagnosis buffer, from index 6 on */
};

/* Flags of dp_new_diagnosis, to be added up. */
enum dp_diagnosis_flag {
    DP_DIAGNOSIS_EXT = 1,     /* Ext_Diag: the octets from 6 on report a fault */
    DP_DIAGNOSIS_STAT = 2,    /* Stat_Diag: the master is to go on asking for diagnosis */
    DP_DIAGNOSIS_OVERFLOW = 4 /* more diagnosis than there is room for */
};

/* Judgements. */
enum dp_judgement { DP_BAD = 0, DP_GOOD = 1 };

/* Orders of the window: Motorola's exchanges 00H with 01H and 02H with 03H, and no others. */
enum dp_order {
    DP_INTEL = 0,
    DP_MOTOROLA = 1 /* and so is every other value but 0. In it the first four addresses of dp_cell change in pairs */
};

/* Cells of the window by Intel's addresses, under the chip's names, and the calls behind them. Behind all other reads
   and writes, up to the last address, there is none: they answer 0 and change nothing. */
enum dp_cell {
    DP_CELL_INT_REQ_LOW = 0x00,       /* Int-Req-Reg, read: bits 7 to 0 of dp_events */
    DP_CELL_INT_REQ_HIGH = 0x01,      /* Int-Req-Reg, read: bits 15 to 8 */
    DP_CELL_INT_LOW = 0x02,           /* Int-Reg, read: bits 7 to 0 of dp_events, as at 00H */
    DP_CELL_INT_HIGH = 0x03,          /* Int-Reg, read: bits 15 to 8 */
    DP_CELL_INT_ACK_LOW = 0x02,       /* Int-Ack-Reg, written: dp_acknowledge of bits 7 to 0 */
    DP_CELL_INT_ACK_HIGH = 0x03,      /* Int-Ack-Reg, written: of bits 15 to 8 */
    DP_CELL_NEW_DIN_BUFFER = 0x09,    /* New_DIN_Buffer_Cmd, read: dp_hand_over_inputs */
    DP_CELL_NEXT_DOUT_BUFFER = 0x0B,  /* Next_DOUT_Buffer_Cmd, read: dp_take_outputs */
    DP_CELL_NEW_DIAG_BUFFER = 0x0D,   /* New_DIAG_Puffer_Cmd, read: dp_new_diagnosis, count and flags as they are */
    DP_CELL_USER_PRM_DATA_OK = 0x0E,  /* User_Prm_Data_OK, read: dp_judge_parameters, good */
    DP_CELL_USER_PRM_DATA_NOK = 0x0F, /* User_Prm_Data_NOK, read: dp_judge_parameters, bad */
    DP_CELL_USER_CFG_DATA_OK = 0x10,  /* User_Cfg_Data_OK, read: dp_judge_configuration, good */
    DP_CELL_USER_CFG_DATA_NOK = 0x11, /* User_Cfg_Data_NOK, read: dp_judge_configuration, bad */
    DP_CELL_LAST = 0x15               /* the last address */
};

/*
 * Start: sets a fresh station up in the memory, whatever was there before. It waits for a gap and then for Set_Prm.
 * Data_Exchange brings output_len octets and is answered with input_len (0 to 244 each, not both 0). A parameter set
 * has at most parameter_len octets (7 to 244; with 7 there is no octet 7, and the watchdog's base is always 10 ms), a
 * configuration set configuration_len (1 to 244), a diagnosis diagnosis_len (6 to 244). get_cfg are the get_cfg_len
 * octets (1 to 244) that Get_Cfg sends; they are copied. channels are DP_CHANNEL_LENGTHS octets, neither more nor
 * fewer: for channel 0 to 15 the length of its indication, then that of its response, both 4 to 240, or both 0 where it
 * is not set up. In this version nothing comes to a channel that is set up, and nothing goes out from it.
 * The station needs 512 octets of the memory and, with each length rounded up to a multiple of 8 (0 stays 0), four
 * times the outputs, three times the inputs, parameters and configuration, twice the diagnosis and once Get_Cfg's
 * octets, and behind these once each length of each channel; DP_MEMORY_FOR adds them up. So DP_MEMORY_MIN is room
 * enough where all six lengths are at most 64 and no channel is set up. All six 244 take 4,480 octets, and sixteen
 * channels of 240 and 240 take 7,680 more, so that DP_MEMORY_MAX always is room enough.
 * Answers 0. Refused by 1, 2, 3, 4.
 */
int64_t dp_start(uint8_t *memory, uint64_t memory_len, uint32_t address, uint16_t ident, uint32_t output_len,
                 uint32_t input_len, uint32_t parameter_len, uint32_t configuration_len, uint32_t diagnosis_len,
                 const uint8_t *get_cfg, uint64_t get_cfg_len, const uint8_t *channels, uint64_t channels_len);

/*
 * An octet came from the line. bad: 0 if it was well received, anything else if the receiver flags it (parity,
 * framing, overrun, or an octet lost before it). The octet that completes a telegram also draws the reply.
 * Answers 0. Refused by 5.
 */
int64_t dp_octet(uint8_t *memory, uint64_t memory_len, uint8_t octet, uint8_t bad);

/*
 * A gap on the line: it was quiet for so long that the next octet may begin a telegram. Each telegram needs one
 * before it. A reply that is being sent is not touched.
 * Answers 0. Refused by 5.
 */
int64_t dp_gap(uint8_t *memory, uint64_t memory_len);

/*
 * The next octet of the reply, for the transmitter.
 * Answers the octet, 0 to 255, or DP_NO_OCTET when none is left. Refused by 5.
 */
int64_t dp_send(uint8_t *memory, uint64_t memory_len);

/*
 * A tick, every 1 ms, whatever the watchdog's base is: the watchdog counts down by one. A timer of 10 ms would make
 * every watchdog ten times as long. Where leaving the master was put off, the tick carries that out and counts nothing.
 * Answers 0. Refused by 5.
 */
int64_t dp_tick(uint8_t *memory, uint64_t memory_len);

/*
 * Take outputs: the newest whole outputs are now the ones to be read, until the next take.
 * Answers 0 nothing new, and the same outputs stay; 1 new; 2 new, and they are zeros that the station published
 * itself. Outputs that sync holds back do not count until they are published. A station without outputs has none to be
 * read, but the same answers: 1 after a Data_Exchange, 2 after zeros of its own. Refused by 5.
 */
int64_t dp_take_outputs(uint8_t *memory, uint64_t memory_len);

/*
 * Reads the octet at an index of a kind (enum dp_kind). The index is from 0 on, for diagnosis from 6 on, and below the
 * length that dp_start was given for the kind. How many octets a set has is told by no call: the first index refused by
 * 8, or by 7 at that length, is its count.
 * Answers the octet, 0 to 255. Refused by 5; 7 kind or index; 8 no set is shown, it has fewer octets, or kind 5 while
 * a new diagnosis is delayed.
 */
int64_t dp_read(uint8_t *memory, uint64_t memory_len, uint32_t kind, uint32_t index);

/*
 * Writes an octet of the inputs or of the vat program's diagnosis buffer. After dp_hand_over_inputs or
 * dp_new_diagnosis another buffer stands there, with what was in it at an earlier turn: write all octets each time.
 * Answers 0. Refused by 5; 7 kind or index; 8 kind 5 while a new diagnosis is delayed.
 */
int64_t dp_write(uint8_t *memory, uint64_t memory_len, uint32_t kind, uint32_t index, uint8_t octet);

/*
 * Hand over inputs: all that was written goes out together, with the next Data_Exchange. In freeze it waits for the
 * master's next freeze or unfreeze, which brings the newest that was handed over before it. A station without inputs
 * has no use for it.
 * Answers 0. Refused by 5.
 */
int64_t dp_hand_over_inputs(uint8_t *memory, uint64_t memory_len);

/*
 * New diagnosis: the vat program's buffer becomes the station's. count: of all octets, the six of the station at the
 * front among them, 6 to diagnosis_len; flags: enum dp_diagnosis_flag, 0 to 7. The master is told by FC 0A until its
 * Slave_Diag, with Stat_Diag after it too; without inputs, in a reply of one octet 00. While a Slave_Diag reply is
 * being sent all of this is delayed until that has ended.
 * Answers 0. Refused by 5; 7 count or flags; 9 an earlier one is delayed.
 */
int64_t dp_new_diagnosis(uint8_t *memory, uint64_t memory_len, uint32_t count, uint32_t flags);

/*
 * Judges the parameter set that is shown (enum dp_judgement). Good parameters are what dp_judge_configuration waits
 * for; bad ones are a Prm_Fault, and the station waits for Set_Prm again. Reading a set and judging it belong into one
 * critical section: otherwise it could be dropped and another one shown after it was read, and that one be judged.
 * Answers 0 the set was judged; 1 it was not, since a newer one waited, which is now shown: judge that one. Refused by
 * 5; 6 no parameter set is open; 7 judgement.
 */
int64_t dp_judge_parameters(uint8_t *memory, uint64_t memory_len, uint32_t judgement);

/*
 * Judges the configuration set that is shown, likewise. With a good one the exchange of data begins; a bad one is a
 * Cfg_Fault.
 * Answers 0 or 1 as above. Refused by 5; 6 no configuration set is open, or the parameters were not judged good yet;
 * 7 judgement.
 */
int64_t dp_judge_configuration(uint8_t *memory, uint64_t memory_len, uint32_t judgement);

/*
 * The event word: bit n is set if event n (enum dp_event) is.
 * Answers the word, 0 to 65,535. Refused by 5.
 */
int64_t dp_events(uint8_t *memory, uint64_t memory_len);

/*
 * Acknowledge: clears the events whose bits are set in the mask, never 10 and 11. Acknowledge first and act then: an
 * event that is raised while you act is then not lost.
 * Answers 0. Refused by 5.
 */
int64_t dp_acknowledge(uint8_t *memory, uint64_t memory_len, uint16_t mask);

/*
 * Pending: the smallest number of an event that is set, so the most urgent one. Asking changes nothing: an event stays
 * ahead of those with greater numbers until it is ended, by dp_acknowledge; 10 and 11 end when their set is judged
 * and no newer one waited, or is dropped. 10 comes ahead of 11 although parameters are judged first (until they are good
 * dp_judge_configuration is refused by 6): a program that branches on the answer looks for 11 in dp_events when it gets
 * 10.
 * Answers the number, 0 to 15, or DP_NO_EVENT where none is set. Refused by 5.
 */
int64_t dp_pending(uint8_t *memory, uint64_t memory_len);

/*
 * Leave master: the station gives up its master, publishes zeros and waits for Set_Prm. While the line is busy this is
 * put off until it is idle, at most until the next tick, so for 1 ms: that drops a telegram that is not complete by
 * then, or a reply that is not sent.
 * Answers 0. Refused by 5.
 */
int64_t dp_leave_master(uint8_t *memory, uint64_t memory_len);

/*
 * Reads a cell of the window, in an order (enum dp_order): makes the call behind it (enum dp_cell). A new diagnosis
 * given so has the count and flags in force: those of the last dp_new_diagnosis that took effect, 6 and 0 if none did.
 * Reading a set and judging it belong into one critical section here too.
 * Answers an octet of the event word, 0 to 255; what the call answers; or 0 where there is none. Refused by 5; 6 or 9
 * as the call is; 10 address.
 */
int64_t dp_window_read(uint8_t *memory, uint64_t memory_len, uint32_t order, uint32_t address);

/*
 * Writes a cell of the window, in an order. Int-Ack-Reg acknowledges the events of its eight bits, never 10 and 11;
 * each half is written by itself. A write to any other cell changes nothing.
 * Answers 0. Refused by 5; 10 address.
 */
int64_t dp_window_write(uint8_t *memory, uint64_t memory_len, uint32_t order, uint32_t address, uint8_t octet);

#ifdef __cplusplus
}
#endif

#endif
