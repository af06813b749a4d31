/* Refusals in words, for people. */
#ifndef REFUSALS_H
#define REFUSALS_H

#include "dp.h"

#include <stdio.h>
#include <stdlib.h>
#include <string.h>

static inline const char *refusal_in_words(int64_t answer)
{
    switch (-answer) {
    case DP_REFUSED_MEMORY_LENGTH:
        return "the memory is not 1,536 to 16,384 octets long or its length is no multiple of 8";
    case DP_REFUSED_ADDRESS:
        return "the station address is above 126";
    case DP_REFUSED_LENGTH:
        return "a length, the Get_Cfg slice or a channel's length is outside its range, the channels are not 32 "
               "octets, or outputs and inputs are both 0";
    case DP_REFUSED_ROOM:
        return "the buffers, those of the channels among them, would end beyond the memory";
    case DP_REFUSED_DAMAGED:
        return "the memory is damaged or was never started";
    case DP_REFUSED_JUDGING:
        return "no set is open to be judged, or the parameters were not judged good yet";
    case DP_REFUSED_RANGE:
        return "a kind, flags, a count, an index or a judgement is out of range";
    case DP_REFUSED_ABSENT:
        return "no such octet is shown, or a new diagnosis is delayed";
    case DP_REFUSED_DELAYED:
        return "an earlier new diagnosis is still delayed";
    case DP_REFUSED_CELL:
        return "an address of the window is above 015H";
    default:
        return "a number that this program does not know";
    }
}

/* Says which call was refused and why, and ends the program. call: its text, of which the name is printed. */
static inline void stop_refused(const char *call, int64_t answer)
{
    fflush(stdout);
    fprintf(stderr, "%.*s was refused by %d: %s\n", (int)strcspn(call, "("), call, (int)-answer,
            refusal_in_words(answer));
    exit(EXIT_FAILURE);
}

#endif
