/*
 * Runs lists of calls on the station and holds every answer to the list's own. The format is that of
 * tests/vectors/README.md.
 *
 *   lists NAMES      NAMES is a file with the name of one NAME.in on each line; NAME.out lies beside it
 *
 * Every call gets the memory at another place than the call before, on each alignment in turn, with a pattern all around
 * it, and so does Start its two slices. A call that is refused, or that only looks, has to leave the memory as it was,
 * and no call may change a slice or an octet of a pattern. It needs no more of a C library than files, so that it runs
 * on a bare processor too.
 *
 * Exit 0: no difference; 1: a difference; 2: input that cannot be used.
 */
#include "dp.h"

#include <errno.h>
#include <stdbool.h>
#include <stdio.h>
#include <stdlib.h>
#include <string.h>

/* Start refuses all that is longer than DP_MEMORY_MAX; some lists lend it more. */
enum { LONGEST = 2 * DP_MEMORY_MAX, GUARD = 512, ALIGNMENTS = 8 };

/* The most numbers that a call takes in a list, and the most octets of a slice. */
enum { NUMBERS = 8, SLICE = 2 * DP_LENGTH_MAX };

/* The slices of Start, in the order of its line: what Get_Cfg sends, and the channels' lengths. */
enum { GET_CFG, CHANNELS, RESPONSE, SLICES };

/* A line holds the longest slices, two digits to an octet, and what stands before them. */
enum { LINE = 2 * SLICES * SLICE + 128 };

enum exit_status { SAME = 0, DIFFERENT = 1, UNUSABLE = 2 };

/* ---- What is lent ---- */

/* Octets lent for one call, from `at` on, in front of and behind a pattern. */
struct lending {
    uint8_t *octets;
    size_t size, at, length;
};

static uint8_t around_memory[GUARD + ALIGNMENTS + LONGEST + GUARD];
static struct lending memory = {around_memory, sizeof around_memory, 0, 0};

static uint8_t around_slices[SLICES][GUARD + ALIGNMENTS + SLICE + GUARD];
static struct lending slices[SLICES] = {{around_slices[GET_CFG], sizeof around_slices[GET_CFG], 0, 0},
                                        {around_slices[CHANNELS], sizeof around_slices[CHANNELS], 0, 0},
                                        {around_slices[RESPONSE], sizeof around_slices[RESPONSE], 0, 0}};

/* Octets that no stray zero, copy or shift repeats by chance. */
static uint8_t pattern[sizeof around_memory];

static void make_pattern(void)
{
    for (size_t place = 0; place < sizeof pattern; place++) {
        uint8_t octet = (uint8_t)((place * 151 >> 3) ^ 0x5A);
        pattern[place] = octet != 0 ? octet : 0xA5;
    }
}

/* Nothing is lent, and the pattern is everywhere. */
static void begin_lending(void)
{
    memcpy(around_memory, pattern, sizeof around_memory);
    for (size_t i = 0; i < SLICES; i++)
        memcpy(around_slices[i], pattern, sizeof around_slices[i]);
}

/* Lends octets on the next alignment, all of them the pattern; whatever was lent before is gone. Answers where. */
static uint8_t *lend(struct lending *l, size_t length)
{
    memcpy(l->octets + l->at, pattern + l->at, l->length);
    l->at = GUARD + (l->at + 1) % ALIGNMENTS;
    l->length = length;
    return l->octets + l->at;
}

/* Whether the pattern around is whole. */
static bool is_kept_to(const struct lending *l)
{
    size_t end = l->at + l->length;
    return memcmp(l->octets, pattern, l->at) == 0 && memcmp(l->octets + end, pattern + end, l->size - end) == 0;
}

/* ---- The calls ---- */

/* Octets that a slice is to have. */
struct octets {
    uint8_t octet[SLICE];
    size_t count;
};

struct arguments {
    uint32_t number[NUMBERS];
    struct octets slice[SLICES];
};

typedef int64_t run(uint8_t *lent, uint64_t lent_len, const struct arguments *a);

static int64_t run_start(uint8_t *lent, uint64_t lent_len, const struct arguments *a)
{
    const uint32_t *n = a->number;
    const struct lending *get_cfg = &slices[GET_CFG], *channels = &slices[CHANNELS];
    return dp_start(lent, lent_len, n[1], (uint16_t)n[2], n[3], n[4], n[5], n[6], n[7], get_cfg->octets + get_cfg->at,
                    get_cfg->length, channels->octets + channels->at, channels->length);
}

static int64_t run_octet(uint8_t *lent, uint64_t lent_len, const struct arguments *a)
{
    return dp_octet(lent, lent_len, (uint8_t)a->number[0], 0);
}

static int64_t run_bad(uint8_t *lent, uint64_t lent_len, const struct arguments *a)
{
    return dp_octet(lent, lent_len, (uint8_t)a->number[0], 1);
}

static int64_t run_read(uint8_t *lent, uint64_t lent_len, const struct arguments *a)
{
    return dp_read(lent, lent_len, a->number[0], a->number[1]);
}

static int64_t run_write(uint8_t *lent, uint64_t lent_len, const struct arguments *a)
{
    return dp_write(lent, lent_len, a->number[0], a->number[1], (uint8_t)a->number[2]);
}

static int64_t run_diag(uint8_t *lent, uint64_t lent_len, const struct arguments *a)
{
    return dp_new_diagnosis(lent, lent_len, a->number[0], a->number[1]);
}

static int64_t run_judgeprm(uint8_t *lent, uint64_t lent_len, const struct arguments *a)
{
    return dp_judge_parameters(lent, lent_len, a->number[0]);
}

static int64_t run_judgecfg(uint8_t *lent, uint64_t lent_len, const struct arguments *a)
{
    return dp_judge_configuration(lent, lent_len, a->number[0]);
}

static int64_t run_ack(uint8_t *lent, uint64_t lent_len, const struct arguments *a)
{
    return dp_acknowledge(lent, lent_len, (uint16_t)a->number[0]);
}

static int64_t run_winread(uint8_t *lent, uint64_t lent_len, const struct arguments *a)
{
    return dp_window_read(lent, lent_len, a->number[0], a->number[1]);
}

static int64_t run_winwrite(uint8_t *lent, uint64_t lent_len, const struct arguments *a)
{
    return dp_window_write(lent, lent_len, a->number[0], a->number[1], (uint8_t)a->number[2]);
}

static int64_t run_chread(uint8_t *lent, uint64_t lent_len, const struct arguments *a)
{
    return dp_channel_read(lent, lent_len, a->number[0], a->number[1]);
}

static int64_t run_chrespond(uint8_t *lent, uint64_t lent_len, const struct arguments *a)
{
    const struct lending *response = &slices[RESPONSE];
    return dp_channel_respond(lent, lent_len, a->number[0], response->octets + response->at, response->length);
}

/* Whether a call with these arguments only looks. */
typedef bool looks(const struct arguments *a);

static bool never(const struct arguments *a)
{
    (void)a;
    return false;
}

static bool always(const struct arguments *a)
{
    (void)a;
    return true;
}

/* All but the commands. */
static bool winread_looks(const struct arguments *a)
{
    uint32_t address = a->number[1];
    return address != 0x09 && address != 0x0B && (address < 0x0D || address > 0x11);
}

/* All but acknowledging. */
static bool winwrite_looks(const struct arguments *a)
{
    return a->number[1] != 0x02 && a->number[1] != 0x03;
}

/* form: what stands behind the name, one letter for each: n a number, w one of 16 bits, l a memory's length, o the order
   of a window access, x an octet, s and c the octets for Get_Cfg and for the channels in hexadecimal digits. A call
   with no arguments has `alone` instead of `run`. */
struct call {
    const char *name, *form;
    run *run;
    int64_t (*alone)(uint8_t *, uint64_t);
    looks *looks;
};

static const struct call calls[] = {
    {"start", "lnwnnnnnsc", run_start, NULL, never},
    {"octet", "x", run_octet, NULL, never},
    {"bad", "x", run_bad, NULL, never},
    {"gap", "", NULL, dp_gap, never},
    {"send", "", NULL, dp_send, never},
    {"tick", "", NULL, dp_tick, never},
    {"take", "", NULL, dp_take_outputs, never},
    {"read", "nn", run_read, NULL, always},
    {"write", "nnx", run_write, NULL, never},
    {"handover", "", NULL, dp_hand_over_inputs, never},
    {"diag", "nn", run_diag, NULL, never},
    {"judgeprm", "n", run_judgeprm, NULL, never},
    {"judgecfg", "n", run_judgecfg, NULL, never},
    {"events", "", NULL, dp_events, always},
    {"ack", "n", run_ack, NULL, never},
    {"pending", "", NULL, dp_pending, always},
    {"leave", "", NULL, dp_leave_master, never},
    {"chread", "nn", run_chread, NULL, always},
    {"chrespond", "nr", run_chrespond, NULL, never},
    {"winread", "on", run_winread, NULL, winread_looks},
    {"winwrite", "onx", run_winwrite, NULL, winwrite_looks},
};

/* ---- A list's lines ---- */

static const char blanks[] = " \t";

/* A file that is read, and where. */
struct source {
    FILE *file;
    char name[256];
    unsigned line;
};

static void stop(const struct source *from, const char *what, const char *word)
{
    fflush(stdout);
    if (from->line > 0)
        fprintf(stderr, "%s:%u: %s%s\n", from->name, from->line, what, word);
    else
        fprintf(stderr, "%s: %s%s\n", from->name, what, word);
    exit(UNUSABLE);
}

static struct source opened(const char *name)
{
    struct source from = {NULL, "", 0};
    if (strlen(name) >= sizeof from.name) {
        fprintf(stderr, "%s: the name is too long\n", name);
        exit(UNUSABLE);
    }
    strcpy(from.name, name);
    from.file = fopen(name, "r");
    if (from.file == NULL)
        stop(&from, "cannot be opened", "");
    return from;
}

/* The next line without its end, or false behind the last one. */
static bool next_line(struct source *from, char *line)
{
    if (fgets(line, LINE, from->file) == NULL)
        return false;
    from->line++;
    size_t count = strcspn(line, "\n");
    if (line[count] == '\0' && !feof(from->file))
        stop(from, "the line is too long, or has an octet 0", "");
    if (count > 0 && line[count - 1] == '\r')
        count--;
    line[count] = '\0';
    return true;
}

/* The next line that is no remark. */
static bool next_call(struct source *from, char *line)
{
    while (next_line(from, line)) {
        char first = line[strspn(line, blanks)];
        if (first != '\0' && first != '#')
            return true;
    }
    return false;
}

static uint32_t number(const struct source *from, const char *word, uint32_t most)
{
    uint64_t value = 0;
    size_t digits = strspn(word, "0123456789");
    for (size_t i = 0; i < digits && value <= most; i++)
        value = 10 * value + (uint64_t)(word[i] - '0');
    if (digits == 0 || word[digits] != '\0' || value > most)
        stop(from, "no decimal number that fits here: ", word);
    return (uint32_t)value;
}

/* The octets of a word of hexadecimal digits; `-` for none. */
static void read_octets(const struct source *from, const char *word, struct octets *into)
{
    size_t digits = strspn(word, "0123456789ABCDEFabcdef");
    into->count = 0;
    if (strcmp(word, "-") == 0)
        return;
    if (word[digits] != '\0' || digits % 2 != 0 || digits / 2 > SLICE)
        stop(from, "not two hexadecimal digits for each octet, or too many: ", word);
    for (; into->count < digits / 2; into->count++) {
        const char pair[] = {word[2 * into->count], word[2 * into->count + 1], '\0'};
        into->octet[into->count] = (uint8_t)strtoul(pair, NULL, 16);
    }
}

static uint8_t one_octet(const struct source *from, const char *word)
{
    struct octets octets;
    read_octets(from, word, &octets);
    if (octets.count != 1)
        stop(from, "not one octet: ", word);
    return octets.octet[0];
}

/* The order of a window access: 0 for Intel, and for Motorola other values in turn, which all have to act alike. */
static uint32_t order(const struct source *from, const char *word)
{
    static const uint32_t motorola[] = {1, 2, 0x100, 0x10000, 0x80000000, UINT32_MAX};
    static size_t turn;
    if (strcmp(word, "i") == 0)
        return 0;
    if (strcmp(word, "m") != 0)
        stop(from, "neither i for Intel nor m for Motorola: ", word);
    return motorola[turn++ % (sizeof motorola / sizeof motorola[0])];
}

static void argument(const struct source *from, char kind, const char *word, uint32_t *value, struct arguments *a)
{
    if (kind == 's' || kind == 'c' || kind == 'r')
        read_octets(from, word, &a->slice[kind == 's' ? GET_CFG : kind == 'c' ? CHANNELS : RESPONSE]);
    else if (kind == 'o')
        *value = order(from, word);
    else if (kind == 'x')
        *value = one_octet(from, word);
    else
        *value = number(from, word, kind == 'n' ? UINT32_MAX : kind == 'w' ? UINT16_MAX : LONGEST);
}

static const struct call *call_named(const struct source *from, const char *word)
{
    for (size_t i = 0; i < sizeof calls / sizeof calls[0]; i++) {
        if (strcmp(word, calls[i].name) == 0)
            return &calls[i];
    }
    stop(from, "no call: ", word);
    return NULL;
}

/* The call that a line asks for and its arguments. The line is taken apart. */
static const struct call *parsed(const struct source *from, char *line, struct arguments *a)
{
    const struct call *call = call_named(from, strtok(line, blanks));
    for (size_t i = 0; call->form[i] != '\0'; i++) {
        const char *word = strtok(NULL, blanks);
        if (word == NULL)
            stop(from, "too few words for ", call->name);
        argument(from, call->form[i], word, &a->number[i < NUMBERS ? i : 0], a);
    }
    if (strtok(NULL, blanks) != NULL)
        stop(from, "too many words for ", call->name);
    return call;
}

/* The answer on the next line of a .out file. */
static int64_t next_answer(struct source *from)
{
    char line[LINE], *end;
    if (!next_line(from, line))
        stop(from, "has fewer answers than its list has calls", "");
    errno = 0;
    int64_t answer = strtoll(line, &end, 10);
    if (end == line || *end != '\0' || errno != 0)
        stop(from, "no answer: ", line);
    return answer;
}

/* ---- Running ---- */

/* The station's memory between calls; zeros, in which no station was started, before the first Start. */
static uint8_t kept[LONGEST];
static size_t kept_len;

static void lend_slices(const struct arguments *a)
{
    for (size_t i = 0; i < SLICES; i++)
        memcpy(lend(&slices[i], a->slice[i].count), a->slice[i].octet, a->slice[i].count);
}

static bool has_changed(const struct lending *l, const struct octets *octets)
{
    return memcmp(l->octets + l->at, octets->octet, octets->count) != 0;
}

/* What a call did that it must not do, or NULL. was: how the memory was. */
static const char *misdeed(const struct call *call, const struct arguments *a, int64_t answer, const uint8_t *was)
{
    if (!is_kept_to(&memory) || !is_kept_to(&slices[GET_CFG]) || !is_kept_to(&slices[CHANNELS]) || !is_kept_to(&slices[RESPONSE]))
        return "changed an octet outside the memory";
    if (has_changed(&slices[GET_CFG], &a->slice[GET_CFG]))
        return "changed the octets for Get_Cfg";
    if (has_changed(&slices[RESPONSE], &a->slice[RESPONSE]))
        return "changed the response";
    if (has_changed(&slices[CHANNELS], &a->slice[CHANNELS]))
        return "changed the channels' lengths";
    if ((answer < 0 || call->looks(a)) && memcmp(memory.octets + memory.at, was, memory.length) != 0)
        return "changed the memory, which it has to leave as it was";
    return NULL;
}

/* A Start on a memory of another length gets one of its own, which holds the pattern; it becomes the station's if Start
   answers 0. Every other call gets the station's. */
static int64_t answered(const struct call *call, const struct arguments *a, const char **wrong)
{
    static uint8_t was[LONGEST];
    bool elsewhere = call->run == run_start && a->number[0] != kept_len;
    size_t length = elsewhere ? a->number[0] : kept_len;
    uint8_t *lent = lend(&memory, length);
    if (!elsewhere)
        memcpy(lent, kept, length);
    lend_slices(a);
    memcpy(was, lent, length);
    int64_t answer = call->run != NULL ? call->run(lent, length, a) : call->alone(lent, length);
    *wrong = misdeed(call, a, answer, was);
    if (answer >= 0) {
        kept_len = length;
        memcpy(kept, lent, length);
    }
    return answer;
}

/* Whether one call is answered as it has to be. */
static bool holds(const struct source *from, char *line, int64_t expected)
{
    struct arguments a = {{0}, {{{0}, 0}}};
    char text[LINE];
    const char *wrong;
    strcpy(text, line);
    int64_t answer = answered(parsed(from, line, &a), &a, &wrong);
    if (answer != expected)
        fprintf(stderr, "%s:%u: %s answers %lld and not %lld\n", from->name, from->line, text, (long long)answer,
                (long long)expected);
    else if (wrong != NULL)
        fprintf(stderr, "%s:%u: %s answers %lld and %s\n", from->name, from->line, text, (long long)answer, wrong);
    return answer == expected && wrong == NULL;
}

/* NAME.in and NAME.out. A list ends at its first difference: the station is then not where the list has it. */
static bool list_holds(const char *name, unsigned *answers)
{
    char line[LINE], partner[LINE + 1];
    bool same = true;
    struct source from = opened(name);
    const char *end = strrchr(name, '.');
    if (end == NULL || strcmp(end, ".in") != 0)
        stop(&from, "its name does not end in .in", "");
    snprintf(partner, sizeof partner, "%.*s.out", (int)(end - name), name);
    struct source out = opened(partner);
    kept_len = DP_MEMORY_MIN;
    memset(kept, 0, sizeof kept);
    begin_lending();
    while (same && next_call(&from, line)) {
        same = holds(&from, line, next_answer(&out));
        *answers += same;
    }
    if (out.line == 0)
        stop(&from, "has no call", "");
    if (same && next_line(&out, line))
        stop(&out, "has more answers than its list has calls", "");
    fclose(from.file);
    fclose(out.file);
    return same;
}

/* Start without channels, by these lengths of the memory and of both slices. */
static int64_t started_by(uint8_t *m, uint64_t memory_len, uint64_t get_cfg_len, uint64_t channels_len)
{
    uint8_t *get_cfg = lend(&slices[GET_CFG], 1), *channels = lend(&slices[CHANNELS], DP_CHANNEL_LENGTHS);
    memset(channels, 0, DP_CHANNEL_LENGTHS);
    return dp_start(m, memory_len, 5, 1, 1, 1, 7, 1, 6, get_cfg, get_cfg_len, channels, channels_len);
}

/* A length has 64 bits: with more than 32 of them in use it is too long, whatever the lower ones say. */
static bool lengths_are_whole(void)
{
    const uint64_t beyond = UINT64_C(1) << 32;
    uint8_t *m = lend(&memory, DP_MEMORY_MIN);
    bool whole = started_by(m, beyond + DP_MEMORY_MIN, 1, DP_CHANNEL_LENGTHS) == -DP_REFUSED_MEMORY_LENGTH;
    whole = whole && started_by(m, DP_MEMORY_MIN, beyond + 1, DP_CHANNEL_LENGTHS) == -DP_REFUSED_LENGTH;
    whole = whole && started_by(m, DP_MEMORY_MIN, 1, beyond + DP_CHANNEL_LENGTHS) == -DP_REFUSED_LENGTH;
    whole = whole && started_by(m, DP_MEMORY_MIN, 1, DP_CHANNEL_LENGTHS) == 0;
    whole = whole && dp_gap(m, beyond + DP_MEMORY_MIN) == -DP_REFUSED_DAMAGED;
    if (!whole)
        fprintf(stderr, "a length of more than 32 bits is not taken for what it is\n");
    return whole;
}

int main(int argc, char **argv)
{
    unsigned lists = 0, answers = 0, differences = 0;
    char name[LINE];
    if (argc != 2) {
        fprintf(stderr, "usage: lists NAMES\n");
        return UNUSABLE;
    }
    struct source names = opened(argv[1]);
    make_pattern();
    while (next_line(&names, name)) {
        if (name[0] == '\0')
            stop(&names, "an empty line, and no name", "");
        lists++;
        differences += !list_holds(name, &answers);
    }
    if (lists == 0)
        stop(&names, "names no list", "");
    differences += !lengths_are_whole();
    printf("%u lists, %u answers, %u differences\n", lists, answers, differences);
    return differences == 0 ? SAME : DIFFERENT;
}
