/* The first worked example as calls: one write of four bytes, from START SUBCHANNEL to its cleared status. examples/first-write.chs is
 * the same as a script.
 *
 *     cc -std=c99 -I.. first_write.c -L.. -lfiluvamoth -o first_write
 */
#include "filuvamoth.h"
#include "filuvamoth_names.h"
#include <stdio.h>
#include <stdlib.h>
#include <string.h>

enum { SUBCHANNEL = 0x00010000, PATH = 0x10, UNIT = 0, CPU = 0, BLOCKS = 16 };

/* The guest's main storage, which each call is lent. */
static uint8_t guest[BLOCKS * 4096];
static const fm_storage storage = { guest, sizeof guest, FM_NO_KEYS };

/* The device: it takes up to 64 bytes of a write. */
static uint8_t line[64];
static uint32_t line_length;

/* A refusal in this example is a mistake in it. */
static int32_t must(const char *what, int32_t number)
{
    if (number < 0) {
        fprintf(stderr, "%s is refused, %d: %s\n", what, (int)number, fm_name(number));
        exit(1);
    }
    return number;
}

/* One channel path, one unit, one subchannel. */
static void set_up(fm_machine *machine)
{
    static const uint32_t paths[1] = { PATH };
    must("fm_new", fm_new(machine));
    must("fm_add_path", fm_add_path(machine, PATH));
    must("fm_add_unit", fm_add_unit(machine, UNIT));
    must("fm_add_subchannel", fm_add_subchannel(machine, SUBCHANNEL, 0x0100, UNIT, paths, 1));
    must("fm_start", fm_start(machine, BLOCKS, FM_KEEP_NONE));
    must("fm_enable", fm_enable(machine, FM_LENT(&storage), CPU, SUBCHANNEL, 0, 0));
}

/* What the guest's program stores: an ORB, a channel program of one CCW, and the data. */
static void store_program(void)
{
    static const uint8_t orb[12] = { 0, 0, 0, 0, 0x00, 0x80, 0xFF, 0x00, 0x00, 0x00, 0x10, 0x00 };
    static const uint8_t ccw[8] = { 0x01, 0x20, 0x00, 0x04, 0x00, 0x00, 0x20, 0x00 };
    static const uint8_t data[4] = { 0xC1, 0xC2, 0xC3, 0xC4 };
    memcpy(guest + 0x500, orb, sizeof orb);
    memcpy(guest + 0x1000, ccw, sizeof ccw);
    memcpy(guest + 0x2000, data, sizeof data);
}

/* What the device answers to a call. Code 01 is a write; any other is refused with unit check. */
static fm_answer answer_of(const fm_call *call, const uint8_t *bytes)
{
    fm_answer answer = { FM_ENDED, 0, 0, 0 };
    switch (call->kind) {
    case FM_CALL_INITIAL:
        line_length = 0;
        answer.kind = call->code == 0x01 ? FM_BEGINS : FM_ENDED;
        answer.status = FM_UNIT_CHECK;
        break;
    case FM_CALL_ABSORB:
        answer.kind = FM_ABSORBED;
        answer.count = call->count < sizeof line - line_length ? call->count : (uint32_t)sizeof line - line_length;
        memcpy(line + line_length, bytes, answer.count);
        line_length += answer.count;
        break;
    default:
        answer.status = FM_CHANNEL_END | FM_DEVICE_END;
        break;
    }
    return answer;
}

/* The device is called for what it is asked for, and its answer is handed in. */
static void serve(fm_machine *machine)
{
    static const char *const names[5] = { "for nothing", "for an initial status", "to take bytes", "to give bytes", "for a final status" };
    fm_call call;
    fm_answer answer;
    uint8_t bytes[256];
    must("fm_work", fm_work(machine, UNIT, &call, bytes, sizeof bytes));
    answer = answer_of(&call, bytes);
    must("fm_report", fm_report(machine, FM_LENT(&storage), UNIT, &call, &answer, NULL, 0));
    printf("the device is asked %s\n", names[call.kind]);
}

/* Turns the unit and the subchannel until neither has anything to do. */
static void turn_until_quiet(fm_machine *machine)
{
    bool moved;
    do {
        int32_t by_unit = must("fm_turn_unit", fm_turn_unit(machine, FM_LENT(&storage), UNIT));
        int32_t by_subchannel;
        if (by_unit == FM_DEVICE_CALLED) {
            serve(machine);
        } else if (by_unit == FM_TURNED) {
            printf("the unit takes a signal\n");
        }
        by_subchannel = must("fm_turn_subchannel", fm_turn_subchannel(machine, FM_LENT(&storage), SUBCHANNEL));
        if (by_subchannel == FM_TURNED) {
            fm_told told;
            must("fm_seen", fm_seen(machine, &told));
            printf(told.kind == FM_TOLD_OFFERED ? "the program is offered to the unit\n" : "the subchannel takes a signal\n");
        }
        moved = by_unit != FM_NOTHING_DUE || by_subchannel != FM_NOTHING_DUE;
    } while (moved);
}

/* TEST SUBCHANNEL, with what it answers. */
static int32_t test_subchannel(fm_machine *machine)
{
    fm_told told;
    int32_t code = must("fm_tsch", fm_tsch(machine, FM_LENT(&storage), CPU, SUBCHANNEL, 0x600));
    must("fm_seen", fm_seen(machine, &told));
    printf("TEST SUBCHANNEL: code %d, %08X %08X %08X\n", (int)code, (unsigned)told.words[0], (unsigned)told.words[1],
           (unsigned)told.words[2]);
    return code;
}

int main(void)
{
    fm_machine machine = FM_MACHINE_INIT;
    bool good;
    if (fm_version() >> 16 != FM_ABI) {
        fprintf(stderr, "this header is of another interface than the library\n");
        return 1;
    }
    set_up(&machine);
    store_program();
    printf("START SUBCHANNEL: code %d\n", (int)must("fm_ssch", fm_ssch(&machine, FM_LENT(&storage), CPU, SUBCHANNEL, 0x500)));
    turn_until_quiet(&machine);
    good = test_subchannel(&machine) == 0;
    good = test_subchannel(&machine) == 1 && good;
    printf("the device has %u bytes: %02X%02X%02X%02X\n", (unsigned)line_length, line[0], line[1], line[2], line[3]);
    must("fm_free", fm_free(&machine));
    return good ? 0 : 1;
}
