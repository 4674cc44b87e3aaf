/* Cycles of a write of four bytes: START SUBCHANNEL, turns until nothing is due, TEST SUBCHANNEL, the device in C, no history.
 *
 *     cycle calls|loop COUNT
 *
 * `calls` makes the calls of filuvamoth.h itself, and no turn that it knows to be idle; `loop` has fm_run of filuvamoth_run.h. Nothing is
 * printed where all went well. Instructions are counted by valgrind --tool=callgrind, as the difference of two counts.
 */
#include "filuvamoth_run.h"
#include <stdio.h>
#include <stdlib.h>
#include <string.h>

enum { BLOCKS = 16, WORD = 0x00010000, PATH = 0x10, UNIT = 0 };

static uint8_t guest[BLOCKS * 4096];
static const fm_storage storage = { guest, sizeof guest, NULL, 0 };
static fm_machine machine;
static uint8_t taken[64];
static uint32_t taken_count;

static void must(const char *what, bool good)
{
    if (!good) {
        fprintf(stderr, "%s\n", what);
        exit(1);
    }
}

/* ---- The device ------------------------------------------------------------------------------------------------------------------ */

static uint32_t initial(void *self, uint32_t code, uint32_t side, uint32_t path)
{
    (void)self;
    (void)side;
    (void)path;
    taken_count = 0;
    return code == 0x01 ? 0 : FM_UNIT_CHECK;
}

static uint32_t absorb(void *self, const uint8_t *bytes, uint32_t count)
{
    uint32_t left = (uint32_t)sizeof taken - taken_count;
    uint32_t part = count < left ? count : left;
    (void)self;
    memcpy(taken + taken_count, bytes, part);
    taken_count += part;
    return part;
}

static uint32_t supply(void *self, uint8_t *bytes, uint32_t most)
{
    (void)self;
    (void)bytes;
    (void)most;
    return 0;
}

static uint32_t finish(void *self, bool *more)
{
    (void)self;
    (void)more;
    return FM_CHANNEL_END | FM_DEVICE_END;
}

/* ---- The machine ----------------------------------------------------------------------------------------------------------------- */

static void set_up(void)
{
    static const uint32_t paths[1] = { PATH };
    static const uint8_t orb[12] = { 0, 0, 0, 0, 0x00, 0x80, 0xFF, 0x00, 0x00, 0x00, 0x10, 0x00 };
    static const uint8_t ccw[8] = { 0x01, 0x20, 0x00, 0x04, 0x00, 0x00, 0x20, 0x00 };
    static const uint8_t data[4] = { 0xC1, 0xC2, 0xC3, 0xC4 };
    must("fm_new", fm_new(&machine) == 0);
    must("fm_add_path", fm_add_path(&machine, PATH) == 0);
    must("fm_add_unit", fm_add_unit(&machine, UNIT) == 0);
    must("fm_add_subchannel", fm_add_subchannel(&machine, WORD, 0x0100, UNIT, paths, 1) == 0);
    must("fm_start", fm_start(&machine, BLOCKS, FM_KEEP_NONE) == 0);
    must("fm_enable", fm_enable(&machine, FM_LENT(&storage), 0, WORD, 0, 0) == 0);
    memcpy(guest + 0x500, orb, sizeof orb);
    memcpy(guest + 0x1000, ccw, sizeof ccw);
    memcpy(guest + 0x2000, data, sizeof data);
}

/* ---- Turns by calls -------------------------------------------------------------------------------------------------------------- */

/* The device is called, where that is due, and its answer handed in; what was due is answered. */
static int32_t serve(void)
{
    fm_call call;
    uint8_t bytes[256];
    fm_answer answer = { FM_ENDED, 0, 0, 0 };
    int32_t due = fm_work(&machine, UNIT, &call, bytes, sizeof bytes);
    if (due != FM_CALL_DUE) {
        return due;
    }
    switch (call.kind) {
    case FM_CALL_INITIAL:
        answer.status = initial(NULL, call.code, call.from_side, call.from_path);
        answer.kind = answer.status == 0 ? FM_BEGINS : FM_ENDED;
        break;
    case FM_CALL_ABSORB:
        answer.kind = FM_ABSORBED;
        answer.count = absorb(NULL, bytes, call.count);
        break;
    default:
        answer.status = FM_CHANNEL_END | FM_DEVICE_END;
        break;
    }
    must("fm_report", fm_report(&machine, FM_LENT(&storage), UNIT, &call, &answer, NULL, 0) == 0);
    return due;
}

/* The unit is turned until it has nothing to do, then the subchannel: what one of them sent, the other takes. Behind a signal that the
 * unit took fm_work is asked, and not another turn. */
static void turn_by_calls(void)
{
    bool moved;
    do {
        bool again = true;
        moved = fm_turn_subchannel(&machine, FM_LENT(&storage), WORD) == FM_TURNED;
        while (again && fm_turn_unit(&machine, FM_LENT(&storage), UNIT) != FM_NOTHING_DUE) {
            int32_t due = serve();
            moved = true;
            again = due == FM_SIGNAL_DUE || due == FM_REPORT_DUE;
        }
    } while (moved);
}

/* ---- Cycles ---------------------------------------------------------------------------------------------------------------------- */

int main(int argc, char **argv)
{
    static const uint32_t words[1] = { WORD };
    static fm_unit unit;
    fm_host host = { &machine, &storage, &unit, 1, words, 1 };
    bool calls = argc == 3 && strcmp(argv[1], "calls") == 0;
    long count = argc == 3 ? strtol(argv[2], NULL, 10) : 0;
    long at;
    must("cycle calls|loop COUNT", count > 0 && (calls || strcmp(argv[1], "loop") == 0));
    unit.device.initial = initial;
    unit.device.absorb = absorb;
    unit.device.supply = supply;
    unit.device.finish = finish;
    set_up();
    for (at = 0; at < count; at++) {
        must("fm_ssch", fm_ssch(&machine, FM_LENT(&storage), 0, WORD, 0x500) == 0);
        if (calls) {
            turn_by_calls();
        } else {
            must("fm_run", fm_run(&host, 1000) > 0);
        }
        must("fm_tsch", fm_tsch(&machine, FM_LENT(&storage), 0, WORD, 0x600) == 0);
        must("status", guest[0x608] == 0x0C && guest[0x609] == 0);
        must("data", taken_count == 4 && memcmp(taken, guest + 0x2000, 4) == 0);
    }
    must("fm_free", fm_free(&machine) == 0);
    return 0;
}
