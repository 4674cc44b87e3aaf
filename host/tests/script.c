#include "script.h"
#include "devices.h"
#include <stdarg.h>
#include <stdio.h>
#include <stdlib.h>
#include <string.h>

enum { MOST_LINE = 1024, MOST_WORDS = 1026, MOST_UNITS = 1024, TEXT_ROOM = 64 * 1024, MOST_TEXT = 640 };

/* ---- Words ----------------------------------------------------------------------------------------------------------------------- */

typedef struct word {
    const char *at;
    size_t length;
} word;

typedef struct line {
    uint32_t number;
    word whole;
    word words[MOST_WORDS];
    size_t count;
} line;

static bool is_word(word one, const char *name)
{
    return one.length == strlen(name) && memcmp(one.at, name, one.length) == 0;
}

static void part_line(line *one)
{
    const char *end = one->whole.at + one->whole.length;
    const char *at = one->whole.at;
    one->count = 0;
    for (;;) {
        const char *blank = memchr(at, ' ', (size_t)(end - at));
        const char *stop = blank != NULL ? blank : end;
        one->words[one->count].at = at;
        one->words[one->count].length = (size_t)(stop - at);
        one->count++;
        if (blank == NULL) {
            return;
        }
        at = blank + 1;
    }
}

static int digit_of(char c)
{
    return c >= '0' && c <= '9' ? c - '0' : c >= 'A' && c <= 'F' ? c - 'A' + 10 : c >= 'a' && c <= 'f' ? c - 'a' + 10 : -1;
}

static bool number_of(word one, uint32_t *number)
{
    size_t at;
    *number = 0;
    if (one.length < 1 || one.length > 8) {
        return false;
    }
    for (at = 0; at < one.length; at++) {
        int digit = digit_of(one.at[at]);
        if (digit < 0) {
            return false;
        }
        *number = *number << 4 | (uint32_t)digit;
    }
    return true;
}

static bool subchannel_of(word one, uint32_t *number)
{
    bool good = number_of(one, number);
    *number += good && one.length <= 4 ? 0x10000u : 0;
    return good;
}

static bool times_of(word one, uint32_t most)
{
    size_t at;
    uint32_t number = 0;
    if (one.length < 1 || one.length > 8) {
        return false;
    }
    for (at = 0; at < one.length; at++) {
        if (one.at[at] < '0' || one.at[at] > '9') {
            return false;
        }
        number = number * 10 + (uint32_t)(one.at[at] - '0');
    }
    return number >= 1 && number <= most;
}

static bool bytes_of(word one, uint8_t *bytes, size_t *count)
{
    size_t at;
    if (one.length < 2 || one.length > 512 || one.length % 2 != 0) {
        return false;
    }
    for (at = 0; at < one.length; at += 2) {
        int high = digit_of(one.at[at]);
        int low = digit_of(one.at[at + 1]);
        if (high < 0 || low < 0) {
            return false;
        }
        bytes[at / 2] = (uint8_t)(high << 4 | low);
    }
    *count = one.length / 2;
    return true;
}

/* UTF-8 as Unicode has it: no code twice, no surrogate, none past 10FFFF. */
static bool is_utf8(word one)
{
    size_t at = 0;
    while (at < one.length) {
        uint8_t lead = (uint8_t)one.at[at];
        size_t more = lead < 0x80 ? 0 : lead < 0xE0 ? 1 : lead < 0xF0 ? 2 : 3;
        size_t next;
        if ((lead >= 0x80 && lead < 0xC2) || lead >= 0xF5 || at + more >= one.length) {
            return false;
        }
        for (next = 1; next <= more; next++) {
            if (((uint8_t)one.at[at + next] & 0xC0) != 0x80) {
                return false;
            }
        }
        if (more > 1) {
            uint8_t second = (uint8_t)one.at[at + 1];
            if ((lead == 0xE0 && second < 0xA0) || (lead == 0xED && second >= 0xA0) || (lead == 0xF0 && second < 0x90) ||
                (lead == 0xF4 && second >= 0x90)) {
                return false;
            }
        }
        at += 1 + more;
    }
    return true;
}

/* ---- A player -------------------------------------------------------------------------------------------------------------------- */

typedef struct player {
    const play_how *how;
    play_came *came;
    fm_machine machine;
    fm_storage storage;
    uint8_t *before;            /* what storage held before the line, where memory is refused */
    fm_unit *units;
    uint32_t unit_count;
    uint32_t prefixes[16];
    uint32_t blocks;
    bool begun;
    bool acted;
    bool started;
    bool raced;
} player;

/* A rule of lines that is broken; 0 where none is. */
typedef uint32_t rule;
enum { GOOD = 0, UNKNOWN_WORD, WRONG_COUNT, BAD_WORD, SETTING_AFTER_ACTION, BREAKS_CONFIGURATION, STORAGE_NOT_FIRST, MISPLACED_RACE };

static void fail(const char *what, int32_t number)
{
    fprintf(stderr, "%s: %d\n", what, (int)number);
    abort();
}

static int32_t must(const char *what, int32_t number)
{
    if (number < 0) {
        fail(what, number);
    }
    return number;
}

static void remember(player *here)
{
    if (here->how->again != NULL && here->started) {
        memcpy(here->before, here->storage.bytes, here->storage.size);
    }
}

static bool again(player *here)
{
    if (here->how->again == NULL || !here->how->again()) {
        return false;
    }
    if (here->started && memcmp(here->before, here->storage.bytes, here->storage.size) != 0) {
        here->came->changed = true;
    }
    return true;
}

/* Makes a call, and makes it again where it was refused for want of memory and that is wanted. */
#define CALL(number, call)                                  \
    do {                                                    \
        (number) = (call);                                  \
    } while ((number) == FM_NO_MEMORY && again(here))

static void print(player *here, const char *form, ...)
{
    va_list arguments;
    size_t room = TEXT_ROOM - here->came->length;
    int written;
    va_start(arguments, form);
    written = vsnprintf(here->came->text + here->came->length, room, form, arguments);
    va_end(arguments);
    if (written < 0 || (size_t)written >= room) {
        fail("no room for what is printed", 0);
    }
    here->came->length += (size_t)written;
}

static void print_refused(player *here, int32_t number)
{
    static const struct {
        int32_t number;
        const char *text;
    } table[] = {
        { FM_NO_MEMORY, "1" }, { FM_WIRE_FULL, "2" }, { FM_NOT_SENT, "3" }, { FM_NO_SUCH_SUBCHANNEL, "4" }, { FM_NO_SUCH_PATH, "5" },
        { FM_NO_SUCH_UNIT, "6" }, { FM_NOT_NOW, "7" }, { FM_ADDRESSING, "10 addressing" }, { FM_PROTECTION, "10 protection" },
        { FM_SPECIFICATION, "10 specification" }, { FM_OPERAND, "11" },
    };
    size_t at;
    for (at = 0; at < sizeof table / sizeof table[0]; at++) {
        if (table[at].number == number) {
            print(here, "refused %s\n", table[at].text);
            return;
        }
    }
    fail("a number that no script is refused with", number);
}

/* ---- Setting up ------------------------------------------------------------------------------------------------------------------ */

static rule rule_of(int32_t number)
{
    if (number >= 0) {
        return GOOD;
    }
    if (number < -0x200 && number > -0x300) {
        return BREAKS_CONFIGURATION;
    }
    fail("a setting", number);
    return GOOD;
}

static bool numbers_of(const line *one, size_t first, uint32_t *numbers)
{
    size_t at;
    for (at = first; at < one->count; at++) {
        if (!number_of(one->words[at], &numbers[at - first])) {
            return false;
        }
    }
    return true;
}

static rule set_storage(player *here, uint32_t blocks)
{
    if (here->blocks != 0 || blocks < 0x10 || blocks > 0x1000) {
        return BREAKS_CONFIGURATION;
    }
    here->blocks = blocks;
    return GOOD;
}

static rule set_unit(player *here, const line *one)
{
    char kind[16] = { 0 };
    fm_device device;
    uint32_t unit;
    int32_t number;
    if (one->count != 3) {
        return WRONG_COUNT;
    }
    memcpy(kind, one->words[2].at, one->words[2].length < 15 ? one->words[2].length : 15);
    if (!number_of(one->words[1], &unit) || !is_word(one->words[2], kind) || !device_of(kind, &device)) {
        return BAD_WORD;
    }
    if (here->acted) {
        free(device.self);
        return SETTING_AFTER_ACTION;
    }
    CALL(number, fm_add_unit(&here->machine, unit));
    if (number < 0) {
        free(device.self);
        return rule_of(number);
    }
    here->units[here->unit_count++].device = device;
    return GOOD;
}

static rule set_share(player *here, const line *one)
{
    uint32_t units[MOST_WORDS];
    int32_t number;
    if (one->count < 3) {
        return WRONG_COUNT;
    }
    if (!numbers_of(one, 1, units)) {
        return BAD_WORD;
    }
    if (here->acted) {
        return SETTING_AFTER_ACTION;
    }
    CALL(number, fm_share(&here->machine, units, one->count - 1));
    return rule_of(number);
}

static rule set_subchannel(player *here, const line *one)
{
    uint32_t paths[MOST_WORDS];
    uint32_t name, device, unit;
    int32_t number;
    if (one->count < 4) {
        return WRONG_COUNT;
    }
    if (!subchannel_of(one->words[1], &name) || !number_of(one->words[2], &device) || !number_of(one->words[3], &unit) ||
        !numbers_of(one, 4, paths)) {
        return BAD_WORD;
    }
    if (here->acted) {
        return SETTING_AFTER_ACTION;
    }
    CALL(number, fm_add_subchannel(&here->machine, name, device, unit, one->count > 4 ? paths : NULL, one->count - 4));
    return rule_of(number);
}

/* A line with one number. */
static rule set_number(player *here, const line *one)
{
    uint32_t value;
    int32_t number;
    if (one->count != 2) {
        return WRONG_COUNT;
    }
    if (!number_of(one->words[1], &value)) {
        return BAD_WORD;
    }
    if (here->acted) {
        return SETTING_AFTER_ACTION;
    }
    if (is_word(one->words[0], "storage")) {
        return set_storage(here, value);
    }
    if (is_word(one->words[0], "sets")) {
        CALL(number, fm_set_sets(&here->machine, value));
    } else {
        CALL(number, fm_add_path(&here->machine, value));
    }
    return rule_of(number);
}

/* Whether a line sets up, and the rule that it breaks. */
static bool sets_up(player *here, const line *one, rule *broken)
{
    word first = one->words[0];
    if (is_word(first, "storage") || is_word(first, "sets") || is_word(first, "path")) {
        *broken = set_number(here, one);
    } else if (is_word(first, "unit")) {
        *broken = set_unit(here, one);
    } else if (is_word(first, "share")) {
        *broken = set_share(here, one);
    } else if (is_word(first, "sub")) {
        *broken = set_subchannel(here, one);
    } else {
        return false;
    }
    return true;
}

static void *zeros(size_t size)
{
    void *got = calloc(size, 1);
    if (got == NULL) {
        fail("no memory for storage", 0);
    }
    return got;
}

static void start(player *here)
{
    int32_t number;
    if (here->started) {
        return;
    }
    CALL(number, fm_start(&here->machine, here->blocks, here->how->history));
    must("fm_start", number);
    here->started = true;
    here->storage.size = (size_t)here->blocks * 4096;
    here->storage.bytes = zeros(here->storage.size);
    if (here->how->lends_keys) {
        here->storage.blocks = here->blocks;
        here->storage.keys = zeros(here->blocks);
    }
    if (here->how->again != NULL) {
        here->before = zeros(here->storage.size);
    }
    remember(here);
}

/* ---- Turns of devices, looks and races ------------------------------------------------------------------------------------------- */

/* Hands in the answer of a unit, which waits where there is no room for it. */
static int32_t hand_in(player *here, uint32_t number)
{
    fm_unit *unit = &here->units[number];
    int32_t answered;
    CALL(answered, fm_report(&here->machine, FM_LENT(&here->storage), number, &unit->call, &unit->answer,
                             unit->count != 0 ? unit->bytes : NULL, unit->count));
    unit->waits = answered == FM_WIRE_FULL || answered == FM_NO_MEMORY;
    return answered;
}

static int32_t turn_device(player *here, uint32_t number)
{
    fm_unit *unit;
    int32_t due;
    int32_t answered;
    if (number < here->unit_count && here->units[number].waits) {
        return hand_in(here, number);
    }
    unit = &here->units[number < here->unit_count ? number : 0];
    due = fm_work(&here->machine, number, &unit->call, unit->bytes, sizeof unit->bytes);
    switch (due) {
    case FM_CALL_DUE:
        if (!fm_call_device(unit)) {
            fail("a device gave too much", 0);
        }
        return hand_in(here, number);
    case FM_REPORT_DUE:
        CALL(answered, fm_turn_unit(&here->machine, FM_LENT(&here->storage), number));
        return answered;
    default:
        return due < 0 ? due : FM_NOT_NOW;
    }
}

static rule act_device(player *here, const line *one)
{
    uint32_t unit;
    int32_t number;
    if (one->count != 2) {
        return WRONG_COUNT;
    }
    if (!number_of(one->words[1], &unit)) {
        return BAD_WORD;
    }
    start(here);
    number = turn_device(here, unit);
    here->came->calls++;
    here->came->turns++;
    print(here, "%u ", (unsigned)one->number);
    if (number < 0) {
        print_refused(here, number);
    } else {
        print(here, "done\n");
    }
    return GOOD;
}

static rule act_glance(player *here, const line *one)
{
    uint32_t subchannel;
    uint64_t made = 0;
    uint64_t cleared = 0;
    int32_t number;
    if (one->count != 2) {
        return WRONG_COUNT;
    }
    if (!subchannel_of(one->words[1], &subchannel)) {
        return BAD_WORD;
    }
    start(here);
    number = fm_serials(&here->machine, subchannel, &made, &cleared);
    here->came->calls++;
    print(here, "%u ", (unsigned)one->number);
    if (number < 0) {
        print_refused(here, number);
    } else {
        print(here, "made %llu cleared %llu\n", (unsigned long long)made, (unsigned long long)cleared);
    }
    return GOOD;
}

static rule act_race(player *here, const line *one, bool is_last)
{
    uint32_t subchannel;
    if (one->count != 5) {
        return WRONG_COUNT;
    }
    if (!times_of(one->words[1], 16) || !times_of(one->words[2], 10000) || !is_word(one->words[3], "tsch") ||
        !subchannel_of(one->words[4], &subchannel)) {
        return BAD_WORD;
    }
    if (!here->how->races || !is_last) {
        return MISPLACED_RACE;
    }
    here->came->races++;
    return GOOD;
}

/* ---- Actions as lines ------------------------------------------------------------------------------------------------------------ */

static rule act_by_line(player *here, const line *one)
{
    uint8_t text[MOST_TEXT];
    size_t written = 0;
    int32_t number;
    uint32_t unit;
    start(here);
    CALL(number, fm_line(&here->machine, FM_LENT(&here->storage), (const uint8_t *)one->whole.at, one->whole.length, text, sizeof text,
                         &written));
    if (number < -0x300 && written == 0) {
        return (rule)(-number - 0x300);
    }
    if (written == 0 || written > sizeof text) {
        fail("fm_line wrote no text", number);
    }
    here->came->lines++;
    print(here, "%u %.*s\n", (unsigned)one->number, (int)written, (const char *)text);
    if (number >= 0 && is_word(one->words[0], "restart") && number_of(one->words[1], &unit)) {
        here->units[unit].device.restart(here->units[unit].device.self);
    }
    return GOOD;
}

/* ---- Actions by calls of their own ----------------------------------------------------------------------------------------------- */

#define HERE &here->machine, FM_LENT(&here->storage)

/* Whether an operand is on its boundary and in storage, so that it may be given by value. */
static bool is_fine(const player *here, uint32_t address, uint32_t count, uint32_t boundary)
{
    return here->how->by == BY_VALUE && address % boundary == 0 && (uint64_t)address + count <= here->storage.size;
}

static uint8_t *real(player *here, uint32_t cpu, uint32_t address)
{
    uint32_t prefix = here->prefixes[cpu];
    uint32_t area = address & ~0x1FFFu;
    uint32_t absolute = area == 0 ? prefix + address : area == prefix ? address - prefix : address;
    return here->storage.bytes + absolute;
}

static void load(player *here, uint32_t cpu, uint32_t address, uint8_t *block, uint32_t count)
{
    uint32_t at;
    for (at = 0; at < count; at++) {
        block[at] = *real(here, cpu, address + at);
    }
}

static void store(player *here, uint32_t cpu, uint32_t address, const uint8_t *block, uint32_t count)
{
    uint32_t at;
    for (at = 0; at < count; at++) {
        *real(here, cpu, address + at) = block[at];
    }
}

static uint32_t word_of(const uint8_t *at)
{
    return (uint32_t)at[0] << 24 | (uint32_t)at[1] << 16 | (uint32_t)at[2] << 8 | at[3];
}

static void bytes_of_word(uint32_t number, uint8_t *at)
{
    at[0] = (uint8_t)(number >> 24);
    at[1] = (uint8_t)(number >> 16);
    at[2] = (uint8_t)(number >> 8);
    at[3] = (uint8_t)number;
}

static void print_code(player *here, int32_t code, const uint8_t *words)
{
    if (words == NULL) {
        print(here, "cc %d\n", (int)code);
    } else {
        print(here, "cc %d %08X %08X %08X\n", (int)code, (unsigned)word_of(words), (unsigned)word_of(words + 4),
              (unsigned)word_of(words + 8));
    }
}

static void print_paths(player *here, const uint8_t *bits)
{
    uint32_t chpid;
    bool some = false;
    print(here, "paths");
    for (chpid = 0; chpid < 256; chpid++) {
        if ((bits[chpid / 8] >> (7 - chpid % 8) & 1) != 0) {
            print(here, " %02X", (unsigned)chpid);
            some = true;
        }
    }
    print(here, some ? "\n" : " -\n");
}

/* The greatest number that an event of a kind answers. */
static int32_t most_of_kind(uint32_t kind)
{
    switch (kind) {
    case FM_TOLD_CODE:
    case FM_TOLD_STATUS:
    case FM_TOLD_PATH_RESET:
        return 3;
    case FM_TOLD_OFFERED:
    case FM_TOLD_RESET_SENT:
    case FM_TOLD_HALT_SENT:
        return (int32_t)kind - FM_TOLD_OFFERED + FM_OFFERED;
    case FM_TOLD_STATUS_MADE:
        return FM_STATUS_MADE;
    case FM_TOLD_INTERRUPTION:
    case FM_TOLD_CHANNEL_REPORT:
    case FM_TOLD_UP:
    case FM_TOLD_DOWN:
        return 1;
    default:
        return 0;
    }
}

/* What chsim prints of an event, from what fm_seen tells of it. `stored` is where STORE CHANNEL PATH STATUS stored. */
static void print_seen(player *here, int32_t number, uint32_t cpu, uint32_t stored)
{
    fm_told told;
    uint8_t bits[32];
    must("fm_seen", fm_seen(&here->machine, &told));
    if (number > most_of_kind(told.kind) ||
        (told.kind >= FM_TOLD_OFFERED && told.kind <= FM_TOLD_STATUS_MADE && number != most_of_kind(told.kind))) {
        fail("the number is none of what fm_seen tells", number);
    }
    switch (told.kind) {
    case FM_TOLD_DONE:
        print(here, "done\n");
        break;
    case FM_TOLD_STATUS:
        print(here, "cc %d %08X %08X %08X\n", (int)number, (unsigned)told.words[0], (unsigned)told.words[1], (unsigned)told.words[2]);
        break;
    case FM_TOLD_INTERRUPTION:
        if (number == 0) {
            print(here, "cc 0\n");
        } else {
            print(here, "cc %d %08X %08X %08X\n", (int)number, (unsigned)told.words[0], (unsigned)told.words[1], (unsigned)told.words[2]);
        }
        break;
    case FM_TOLD_CODE:
    case FM_TOLD_PATH_RESET:
        print(here, "cc %d\n", (int)number);
        break;
    case FM_TOLD_CHANNEL_REPORT:
        print(here, "cc %d %08X\n", (int)number, (unsigned)told.words[0]);
        break;
    case FM_TOLD_PATHS:
        load(here, cpu, stored, bits, sizeof bits);
        print_paths(here, bits);
        break;
    case FM_TOLD_OFFERED:
    case FM_TOLD_RESET_SENT:
    case FM_TOLD_HALT_SENT:
        print(here, "%s %u\n", number == FM_OFFERED ? "offer" : number == FM_RESET_SENT ? "reset" : "halt", (unsigned)told.path);
        break;
    case FM_TOLD_STATUS_MADE:
        print(here, "status\n");
        break;
    case FM_TOLD_IDLE:
        print(here, "idle\n");
        break;
    case FM_TOLD_UP:
    case FM_TOLD_DOWN:
        print(here, number == 1 ? "took *\n" : "ignored *\n");
        break;
    default:
        fail("fm_seen tells nothing", (int32_t)told.kind);
    }
}

typedef struct numbers {
    uint32_t a, b, c;
} numbers;

static bool two(const line *one, size_t first, bool subchannel, numbers *got)
{
    return one->count == first + 2 && (subchannel ? subchannel_of(one->words[first], &got->a) : number_of(one->words[first], &got->a)) &&
           number_of(one->words[first + 1], &got->b);
}

static bool single(const line *one, size_t first, bool subchannel, numbers *got)
{
    return one->count == first + 1 && (subchannel ? subchannel_of(one->words[first], &got->a) : number_of(one->words[first], &got->a));
}

static void print_answer(player *here, const line *one, int32_t number, uint32_t cpu, uint32_t stored)
{
    here->came->calls++;
    print(here, "%u ", (unsigned)one->number);
    if (number < 0) {
        print_refused(here, number);
    } else {
        print_seen(here, number, cpu, stored);
    }
}

/* The same where the operand was given by value, with three words that are printed, or null. */
static void print_given(player *here, const line *one, int32_t number, const uint8_t *words)
{
    here->came->calls++;
    here->came->values++;
    print(here, "%u ", (unsigned)one->number);
    if (number < 0) {
        print_refused(here, number);
    } else {
        print_code(here, number, words);
    }
}

/* An instruction with a subchannel and the address of an operand. */
static bool act_operand(player *here, const line *one, size_t first, uint32_t cpu)
{
    word name = one->words[first];
    numbers got;
    int32_t number;
    uint8_t block[64];
    if (!two(one, first + 1, true, &got)) {
        return false;
    }
    if (is_word(name, "ssch")) {
        if (is_fine(here, got.b, 12, 4)) {
            load(here, cpu, got.b, block, 12);
            CALL(number, fm_ssch_orb(&here->machine, cpu, got.a, block, 12));
            print_given(here, one, number, NULL);
            return true;
        }
        CALL(number, fm_ssch(HERE, cpu, got.a, got.b));
    } else if (is_word(name, "msch")) {
        if (is_fine(here, got.b, 52, 4)) {
            load(here, cpu, got.b, block, 52);
            CALL(number, fm_msch_schib(&here->machine, cpu, got.a, block, 52));
            print_given(here, one, number, NULL);
            return true;
        }
        CALL(number, fm_msch(HERE, cpu, got.a, got.b));
    } else if (is_word(name, "stsch")) {
        if (is_fine(here, got.b, 52, 4)) {
            CALL(number, fm_stsch_schib(&here->machine, cpu, got.a, block, 52));
            if (number == 0) {
                store(here, cpu, got.b, block, 52);
            }
            print_given(here, one, number, number == 0 ? block + 28 : NULL);
            return true;
        }
        CALL(number, fm_stsch(HERE, cpu, got.a, got.b));
    } else if (is_word(name, "tsch")) {
        if (is_fine(here, got.b, 64, 4)) {
            CALL(number, fm_tsch_irb(&here->machine, cpu, got.a, block, 64));
            if (number == 0 || number == 1) {
                store(here, cpu, got.b, block, 64);
            }
            print_given(here, one, number, number == 0 || number == 1 ? block : NULL);
            return true;
        }
        CALL(number, fm_tsch(HERE, cpu, got.a, got.b));
    } else {
        return false;
    }
    print_answer(here, one, number, cpu, 0);
    return true;
}

/* An instruction with a subchannel alone. */
static bool act_plain(player *here, const line *one, size_t first, uint32_t cpu)
{
    word name = one->words[first];
    numbers got;
    int32_t number;
    if (!single(one, first + 1, true, &got)) {
        return false;
    }
    if (is_word(name, "rsch")) {
        CALL(number, fm_rsch(HERE, cpu, got.a));
    } else if (is_word(name, "hsch")) {
        CALL(number, fm_hsch(HERE, cpu, got.a));
    } else if (is_word(name, "csch")) {
        CALL(number, fm_csch(HERE, cpu, got.a));
    } else if (is_word(name, "xsch")) {
        CALL(number, fm_xsch(HERE, cpu, got.a));
    } else {
        return false;
    }
    print_answer(here, one, number, cpu, 0);
    return true;
}

static bool act_enable(player *here, const line *one, size_t first, uint32_t cpu)
{
    numbers got;
    int32_t number;
    if (!is_word(one->words[first], "enable") || one->count != first + 4 || !subchannel_of(one->words[first + 1], &got.a) ||
        !number_of(one->words[first + 2], &got.b) || !number_of(one->words[first + 3], &got.c) || got.b > 7 || got.c > 1) {
        return false;
    }
    CALL(number, fm_enable(HERE, cpu, got.a, got.b, got.c));
    print_answer(here, one, number, cpu, 0);
    return true;
}

static void act_tpi(player *here, const line *one, uint32_t cpu, numbers got)
{
    uint32_t address = got.b != 0 ? got.b : 184;
    uint32_t count = got.b != 0 ? 8 : 12;
    uint32_t code[3];
    uint8_t bytes[12];
    int32_t number;
    if (!is_fine(here, address, count, 4)) {
        CALL(number, fm_tpi(HERE, cpu, got.a, got.b));
        print_answer(here, one, number, cpu, 0);
        return;
    }
    CALL(number, fm_tpi_code(&here->machine, cpu, got.a, code, 3));
    if (number == 1) {
        bytes_of_word(code[0], bytes);
        bytes_of_word(code[1], bytes + 4);
        bytes_of_word(code[2], bytes + 8);
        store(here, cpu, address, bytes, count);
    }
    print_given(here, one, number, number == 1 ? bytes : NULL);
}

static void act_stcrw(player *here, const line *one, uint32_t cpu, uint32_t address)
{
    uint32_t report;
    uint8_t bytes[4];
    int32_t number;
    if (!is_fine(here, address, 4, 4)) {
        CALL(number, fm_stcrw(HERE, cpu, address));
        print_answer(here, one, number, cpu, 0);
        return;
    }
    CALL(number, fm_stcrw_word(&here->machine, cpu, &report, 1));
    here->came->calls++;
    here->came->values++;
    must("fm_stcrw_word", number);
    bytes_of_word(report, bytes);
    store(here, cpu, address, bytes, 4);
    print(here, "%u cc %d %08X\n", (unsigned)one->number, (int)number, (unsigned)report);
}

static void act_stcps(player *here, const line *one, uint32_t cpu, uint32_t address)
{
    uint8_t bits[32];
    int32_t number;
    if (!is_fine(here, address, 32, 32)) {
        CALL(number, fm_stcps(HERE, cpu, address));
        print_answer(here, one, number, cpu, address);
        return;
    }
    CALL(number, fm_stcps_bytes(&here->machine, cpu, bits, sizeof bits));
    here->came->calls++;
    here->came->values++;
    if (number != 0) {
        fail("fm_stcps_bytes", number);
    }
    store(here, cpu, address, bits, sizeof bits);
    print(here, "%u ", (unsigned)one->number);
    print_paths(here, bits);
}

/* An instruction without a subchannel. */
static bool act_other(player *here, const line *one, size_t first, uint32_t cpu)
{
    word name = one->words[first];
    numbers got;
    int32_t number;
    if (is_word(name, "tpi") && two(one, first + 1, false, &got) && got.a <= 0xFF) {
        act_tpi(here, one, cpu, got);
    } else if (is_word(name, "rchp") && single(one, first + 1, false, &got)) {
        CALL(number, fm_rchp(HERE, cpu, got.a));
        print_answer(here, one, number, cpu, 0);
    } else if (is_word(name, "stcrw") && single(one, first + 1, false, &got)) {
        act_stcrw(here, one, cpu, got.a);
    } else if (is_word(name, "stcps") && single(one, first + 1, false, &got)) {
        act_stcps(here, one, cpu, got.a);
    } else {
        return false;
    }
    return true;
}

static bool act_instruction(player *here, const line *one)
{
    uint32_t cpu = 0;
    size_t first = 0;
    if (is_word(one->words[0], "cpu")) {
        if (one->count < 3 || !number_of(one->words[1], &cpu) || cpu > 15) {
            return false;
        }
        first = 2;
    }
    return act_operand(here, one, first, cpu) || act_plain(here, one, first, cpu) || act_enable(here, one, first, cpu) ||
           act_other(here, one, first, cpu);
}

static bool act_put(player *here, const line *one)
{
    uint8_t bytes[256];
    size_t count;
    uint32_t address;
    int32_t number;
    if (!is_word(one->words[0], "put") || one->count != 3 || !number_of(one->words[1], &address) ||
        !bytes_of(one->words[2], bytes, &count)) {
        return false;
    }
    CALL(number, fm_put(HERE, address, bytes, count));
    print_answer(here, one, number, 0, 0);
    return true;
}

/* The guest reads: that is no call. */
static bool act_show(player *here, const line *one)
{
    numbers got;
    uint32_t at;
    if (!is_word(one->words[0], "show") || !two(one, 1, false, &got) || got.b < 1 || got.b > 0x40) {
        return false;
    }
    here->came->calls++;
    print(here, "%u ", (unsigned)one->number);
    if ((uint64_t)got.a + got.b > here->storage.size) {
        print_refused(here, FM_ADDRESSING);
        return true;
    }
    for (at = 0; at < got.b; at++) {
        print(here, "%02X", here->storage.bytes[got.a + at]);
    }
    print(here, "\n");
    return true;
}

static bool act_storage(player *here, const line *one)
{
    numbers got;
    int32_t number;
    if (act_put(here, one) || act_show(here, one)) {
        return true;
    }
    if (!two(one, 1, false, &got)) {
        return false;
    }
    if (is_word(one->words[0], "key") && got.b <= 0xFF && got.b % 2 == 0) {
        CALL(number, fm_set_key(HERE, got.a, got.b));
    } else if (is_word(one->words[0], "prefix") && got.a <= 15) {
        CALL(number, fm_set_prefix(HERE, got.a, got.b));
        if (number >= 0) {
            here->prefixes[got.a] = got.b;
        }
    } else {
        return false;
    }
    print_answer(here, one, number, 0, 0);
    return true;
}

/* Two numbers, the first of which names a subchannel, or a unit; a side may follow. */
static bool act_signal(player *here, const line *one)
{
    word name = one->words[0];
    numbers got = { 0, 0, 0 };
    int32_t number;
    if (is_word(name, "up") && two(one, 1, true, &got)) {
        CALL(number, fm_up(HERE, got.a, got.b));
    } else if (is_word(name, "down") && two(one, 1, true, &got)) {
        CALL(number, fm_down(HERE, got.a, got.b));
    } else if (is_word(name, "ask") && two(one, 1, false, &got)) {
        CALL(number, fm_unit_ask(HERE, got.a, got.b));
    } else if (is_word(name, "attn") || is_word(name, "notice")) {
        if (one->count == 4) {
            if (!number_of(one->words[1], &got.a) || !number_of(one->words[2], &got.b) || !number_of(one->words[3], &got.c) || got.c > 1) {
                return false;
            }
        } else if (!two(one, 1, false, &got)) {
            return false;
        }
        if (is_word(name, "attn")) {
            CALL(number, fm_unit_attention(HERE, got.a, got.b, got.c));
        } else {
            CALL(number, fm_unit_notice(HERE, got.a, got.b, got.c));
        }
    } else {
        return false;
    }
    print_answer(here, one, number, 0, 0);
    return true;
}

/* A word with one number or none. */
static bool act_short(player *here, const line *one)
{
    word name = one->words[0];
    numbers got;
    int32_t number;
    if (is_word(name, "sysreset") && one->count == 1) {
        CALL(number, fm_system_reset(HERE));
    } else if (is_word(name, "choose") && single(one, 1, true, &got)) {
        CALL(number, fm_choose(HERE, got.a));
    } else if (!single(one, 1, false, &got)) {
        return false;
    } else if (is_word(name, "leave")) {
        CALL(number, fm_unit_leave(HERE, got.a));
    } else if (is_word(name, "restart")) {
        CALL(number, fm_unit_restart(HERE, got.a));
        if (number >= 0) {
            here->units[got.a].device.restart(here->units[got.a].device.self);
        }
    } else if (is_word(name, "pathdown")) {
        CALL(number, fm_path_down(HERE, got.a));
    } else if (is_word(name, "pathup")) {
        CALL(number, fm_path_up(HERE, got.a));
    } else if (is_word(name, "pathreset")) {
        CALL(number, fm_path_reset(HERE, got.a));
    } else {
        return false;
    }
    print_answer(here, one, number, 0, 0);
    return true;
}

static bool act_by_call(player *here, const line *one)
{
    start(here);
    return act_instruction(here, one) || act_storage(here, one) || act_signal(here, one) || act_short(here, one);
}

/* ---- Lines ----------------------------------------------------------------------------------------------------------------------- */

static rule act(player *here, const line *one, bool is_last)
{
    rule broken;
    if (is_word(one->words[0], "dev")) {
        broken = act_device(here, one);
    } else if (is_word(one->words[0], "glance")) {
        broken = act_glance(here, one);
    } else if (is_word(one->words[0], "race")) {
        broken = act_race(here, one, is_last);
    } else if (here->how->by != BY_LINES && act_by_call(here, one)) {
        broken = GOOD;
    } else {
        broken = act_by_line(here, one);
    }
    here->acted = here->acted || broken == GOOD;
    return broken;
}

static bool has_words(word one)
{
    return one.length != 0 && one.at[0] != '#';
}

static bool some_have_words(const char *at, const char *end)
{
    while (at < end) {
        const char *feed = memchr(at, '\n', (size_t)(end - at));
        word one = { at, (size_t)((feed != NULL ? feed : end) - at) };
        if (has_words(one)) {
            return true;
        }
        at += one.length + 1;
    }
    return false;
}

static rule take_line(player *here, line *one, const char *end)
{
    bool worded = has_words(one->whole);
    const char *later = one->whole.at + one->whole.length + 1;
    rule broken;
    if (worded && !here->begun && !(one->whole.length >= 7 && memcmp(one->whole.at, "storage", 7) == 0 &&
                                    (one->whole.length == 7 || one->whole.at[7] == ' '))) {
        return STORAGE_NOT_FIRST;
    }
    if (one->whole.length > MOST_LINE || !is_utf8(one->whole)) {
        return BAD_WORD;
    }
    if (!worded) {
        return GOOD;
    }
    part_line(one);
    remember(here);
    if (!sets_up(here, one, &broken)) {
        broken = act(here, one, !some_have_words(later, end));
    }
    here->begun = here->begun || broken == GOOD;
    return broken;
}

static void take_lines(player *here, const char *text, size_t length)
{
    static line one;
    const char *end = text + length;
    const char *at = text;
    one.number = 0;
    while (at <= end) {
        const char *feed = memchr(at, '\n', (size_t)(end - at));
        rule broken;
        if (feed == NULL && at == end && one.number != 0) {
            break;
        }
        one.number++;
        one.whole.at = at;
        one.whole.length = (size_t)((feed != NULL ? feed : end) - at);
        broken = take_line(here, &one, end);
        if (broken != GOOD) {
            here->came->length = 0;
            print(here, "bad line %u rule %u\n", (unsigned)one.number, (unsigned)broken);
            return;
        }
        at = feed != NULL ? feed + 1 : end + 1;
    }
    if (!here->begun) {
        here->came->length = 0;
        print(here, "bad line 1 rule 6\n");
    }
}

void play_script(const char *text, size_t length, const play_how *how, play_came *came)
{
    player here_now;
    player *here = &here_now;
    int32_t number;
    uint32_t unit;
    memset(here, 0, sizeof *here);
    memset(came, 0, sizeof *came);
    here->how = how;
    here->came = came;
    came->text = zeros(TEXT_ROOM);
    here->units = zeros(MOST_UNITS * sizeof(fm_unit));
    CALL(number, fm_new(&here->machine));
    must("fm_new", number);
    take_lines(here, text, length);
    must("fm_free", fm_free(&here->machine));
    for (unit = 0; unit < here->unit_count; unit++) {
        free(here->units[unit].device.self);
    }
    free(here->units);
    free(here->storage.bytes);
    free(here->storage.keys);
    free(here->before);
}
