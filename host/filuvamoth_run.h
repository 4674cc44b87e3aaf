/* filuvamoth_run.h: devices as callbacks, and a loop that turns units and subchannels until nothing is due.
 *
 * This is C over the calls of filuvamoth.h, in this header alone. Nothing of it is proved. The library still refuses each answer that no
 * device may give, so a mistake here or in a device may stop a program, and breaks no promise of filuvamoth.h.
 */
#ifndef FILUVAMOTH_RUN_H
#define FILUVAMOTH_RUN_H

#include "filuvamoth.h"

/* ---- A device ------------------------------------------------------------------------------------------------------------------ */

/* What a device answers to each call of its unit. A callback may not call the library with the machine that calls it. */
typedef struct fm_device {
    /* A command of this code begins, which came by this side and path: 0; channel end alone where it needs no data; unit check alone
     * where it is refused, as a read backward is always. */
    uint32_t (*initial)(void *self, uint32_t code, uint32_t side, uint32_t path);
    /* Bytes of a write: how many of them are taken, from the first on. */
    uint32_t (*absorb)(void *self, const uint8_t *bytes, uint32_t count);
    /* Bytes of a read, at most so many, are written to `bytes`: how many. 0 where there are no more. */
    uint32_t (*supply)(void *self, uint8_t *bytes, uint32_t most);
    /* The command ends: its status, with device end, without channel end where that was the initial status. `*more` is false; it is
     * set where a read was cut short and the device had more bytes. */
    uint32_t (*finish)(void *self, bool *more);
    /* The device is put back to its opening, by fm_restart. Null where it keeps nothing. */
    void (*restart)(void *self);
    void *self;
} fm_device;

/* A unit: its device, and the answer that is still to be handed in, where there was no room for it. `{ .device = .. }` is a unit at its
 * opening: all else is zero. */
typedef struct fm_unit {
    fm_device device;
    bool waits;
    fm_call call;
    fm_answer answer;
    size_t count;
    uint8_t bytes[256];
} fm_unit;

/* A machine, the storage that is lent to it, its units by number, and the subchannels that are turned. */
typedef struct fm_host {
    fm_machine *machine;
    const fm_storage *storage;
    fm_unit *units;
    uint32_t unit_count;
    const uint32_t *subchannels;
    size_t subchannel_count;
} fm_host;

/* ---- One turn ------------------------------------------------------------------------------------------------------------------ */

/* Whether a refusal may be gone after another turn. */
static inline bool fm_is_for_now(int32_t number)
{
    return number == FM_WIRE_FULL;
}

/* Calls the device; false where it gave more bytes than it was asked for. */
static inline bool fm_call_device(fm_unit *unit)
{
    const fm_device *device = &unit->device;
    fm_answer answer = { FM_ENDED, 0, 0, 0 };
    bool more = false;
    unit->count = 0;
    switch (unit->call.kind) {
    case FM_CALL_INITIAL:
        answer.status = device->initial(device->self, unit->call.code, unit->call.from_side, unit->call.from_path);
        answer.kind = answer.status == 0 ? FM_BEGINS : FM_ENDED;
        break;
    case FM_CALL_ABSORB:
        answer.kind = FM_ABSORBED;
        answer.count = device->absorb(device->self, unit->bytes, unit->call.count);
        break;
    case FM_CALL_SUPPLY:
        answer.kind = FM_SUPPLIED;
        unit->count = device->supply(device->self, unit->bytes, unit->call.count);
        break;
    default:
        answer.status = device->finish(device->self, &more);
        answer.more = more ? 1 : 0;
        break;
    }
    unit->answer = answer;
    return unit->count <= sizeof unit->bytes;
}

/* Hands in the answer of a unit, which waits on where it is refused for want of room or of memory. */
static inline int32_t fm_hand_in(const fm_host *host, uint32_t number)
{
    fm_unit *unit = &host->units[number];
    int32_t answered = fm_report(host->machine, FM_LENT(host->storage), number, &unit->call, &unit->answer,
                                 unit->bytes, unit->count);
    unit->waits = answered == FM_WIRE_FULL || answered == FM_NO_MEMORY;
    return answered < 0 ? answered : FM_TURNED;
}

/* The device of a unit is called, where that is due, and its answer handed in: FM_TURNED, FM_NOTHING_DUE or a refusal. */
static inline int32_t fm_serve(const fm_host *host, uint32_t number)
{
    fm_unit *unit = &host->units[number];
    int32_t due = fm_work(host->machine, number, &unit->call, unit->bytes, sizeof unit->bytes);
    if (due != FM_CALL_DUE) {
        return due < 0 ? due : FM_NOTHING_DUE;
    }
    return fm_call_device(unit) ? fm_hand_in(host, number) : FM_BAD_ARGUMENT;
}

/* Hands in the answer that waits. One that came too late, after a reset say, is dropped. */
static inline int32_t fm_try_again(const fm_host *host, uint32_t number)
{
    int32_t answered = fm_hand_in(host, number);
    return answered == FM_NOT_NOW ? FM_TURNED : answered;
}

/* A turn of a unit and its device: FM_TURNED, FM_NOTHING_DUE or a refusal. FM_NOT_NOW: the device gave an answer against the law of
 * devices, and is called again by the next turn. */
static inline int32_t fm_run_unit(const fm_host *host, uint32_t number)
{
    int32_t turned;
    if (host->units[number].waits) {
        int32_t tried = fm_try_again(host, number);
        if (!fm_is_for_now(tried)) {
            return tried;
        }
    }
    turned = fm_turn_unit(host->machine, FM_LENT(host->storage), number);
    if (turned != FM_DEVICE_CALLED) {
        return turned;
    }
    return host->units[number].waits ? FM_WIRE_FULL : fm_serve(host, number);
}

/* ---- Until nothing is due ------------------------------------------------------------------------------------------------------ */

/* Adds a turn to those that were done; a refusal that may be gone later adds none. */
static inline int32_t fm_count_turn(int32_t turned, uint32_t *turns)
{
    if (turned > 0) {
        *turns += 1;
    }
    return fm_is_for_now(turned) ? FM_NOTHING_DUE : turned;
}

/* One turn of each unit and each subchannel, in order, as long as fewer than `most` were done. 0, or a refusal. */
static inline int32_t fm_run_round(const fm_host *host, uint32_t most, uint32_t *turns)
{
    uint32_t unit;
    size_t at;
    for (unit = 0; unit < host->unit_count && *turns < most; unit++) {
        int32_t turned = fm_count_turn(fm_run_unit(host, unit), turns);
        if (turned < 0) {
            return turned;
        }
    }
    for (at = 0; at < host->subchannel_count && *turns < most; at++) {
        int32_t turned = fm_count_turn(fm_turn_subchannel(host->machine, FM_LENT(host->storage), host->subchannels[at]), turns);
        if (turned < 0) {
            return turned;
        }
    }
    return 0;
}

/* Turns units and subchannels until nothing is due, or `most` turns were done, at most 2^31 - 1: how many were done. `most` of them say
 * that more may be due: a program may go on for ever. A refusal that no further turn helps ends it: what was done before stays done. */
static inline int32_t fm_run(const fm_host *host, uint32_t most)
{
    uint32_t turns = 0;
    uint32_t before;
    do {
        int32_t refused;
        before = turns;
        refused = fm_run_round(host, most, &turns);
        if (refused < 0) {
            return refused;
        }
    } while (turns != before && turns < most);
    return (int32_t)turns;
}

/* Restarts a unit, and puts its device back to its opening where that is accepted. 0, or a refusal. */
static inline int32_t fm_restart(const fm_host *host, uint32_t number)
{
    int32_t answered = fm_unit_restart(host->machine, FM_LENT(host->storage), number);
    if (answered >= 0 && host->units[number].device.restart != NULL) {
        host->units[number].device.restart(host->units[number].device.self);
    }
    return answered;
}

#endif
