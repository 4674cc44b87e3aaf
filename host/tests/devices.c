#include "devices.h"
#include <stdlib.h>
#include <string.h>

enum { REJECTED = 0x80, NO_SUCH_BLOCK = 0x20, END = FM_CHANNEL_END | FM_DEVICE_END };

static uint32_t least(uint32_t one, uint32_t other)
{
    return one < other ? one : other;
}

/* ---- A store of blocks ----------------------------------------------------------------------------------------------------------- */

enum { B_WRITE = 0x01, B_READ = 0x02, B_NOTHING = 0x03, B_SENSE = 0x04, B_SEEK = 0x07, B_RECALIBRATE = 0x0B, B_SEARCH = 0x31 };

static uint32_t block_initial(void *self, uint32_t code, uint32_t side, uint32_t path)
{
    block_device *store = self;
    (void)side;
    (void)path;
    store->moved = 0;
    store->command = (uint8_t)code;
    switch (code) {
    case B_RECALIBRATE:
        store->current = 0;
        return FM_CHANNEL_END;
    case B_NOTHING:
        return FM_CHANNEL_END;
    case B_WRITE:
    case B_READ:
    case B_SENSE:
    case B_SEEK:
    case B_SEARCH:
        return 0;
    default:
        store->command = 0;
        store->sense = REJECTED;
        return FM_UNIT_CHECK;
    }
}

static uint32_t block_supply(void *self, uint8_t *bytes, uint32_t most)
{
    block_device *store = self;
    uint32_t part = 0;
    if (store->command == B_READ) {
        part = least(most, 64 - store->moved);
        memcpy(bytes, store->blocks[store->current] + store->moved, part);
    } else if (store->command == B_SENSE) {
        part = least(most, 1 - store->moved);
        if (part != 0) {
            bytes[0] = store->sense;
            store->sense = 0;
        }
    }
    store->moved += part;
    return part;
}

static uint32_t block_absorb(void *self, const uint8_t *bytes, uint32_t count)
{
    block_device *store = self;
    uint32_t part = 0;
    if (store->command == B_WRITE) {
        part = least(count, 64 - store->moved);
        memcpy(store->blocks[store->current] + store->moved, bytes, part);
    } else if (store->command == B_SEEK || store->command == B_SEARCH) {
        part = least(count, 2 - store->moved);
        memcpy(store->number + store->moved, bytes, part);
    }
    store->moved += part;
    return part;
}

static uint32_t block_finish(void *self, bool *more)
{
    block_device *store = self;
    uint32_t number = 256u * store->number[0] + store->number[1];
    uint32_t status = END;
    switch (store->command) {
    case B_READ:
        *more = store->moved < 64;
        break;
    case B_NOTHING:
    case B_RECALIBRATE:
        status = FM_DEVICE_END;
        break;
    case B_SEEK:
        if (store->moved == 2 && number < 32) {
            store->current = number;
        } else {
            store->sense = NO_SUCH_BLOCK;
            status |= FM_UNIT_CHECK;
        }
        break;
    case B_SEARCH:
        if (store->moved == 2 && number == store->current) {
            status |= FM_STATUS_MODIFIER;
        }
        break;
    default:
        break;
    }
    store->command = 0;
    store->moved = 0;
    return status;
}

static void block_restart(void *self)
{
    memset(self, 0, sizeof(block_device));
}

/* ---- A console ------------------------------------------------------------------------------------------------------------------- */

enum { C_WRITE = 0x01, C_NOTHING = 0x03, C_SENSE = 0x04, C_READ = 0x0A };

static uint32_t console_initial(void *self, uint32_t code, uint32_t side, uint32_t path)
{
    console_device *console = self;
    (void)side;
    (void)path;
    console->given = 0;
    console->command = (uint8_t)code;
    switch (code) {
    case C_WRITE:
        console->length = 0;
        return 0;
    case C_NOTHING:
        return FM_CHANNEL_END;
    case C_SENSE:
    case C_READ:
        return 0;
    default:
        console->command = 0;
        console->sense = REJECTED;
        return FM_UNIT_CHECK;
    }
}

static uint32_t console_supply(void *self, uint8_t *bytes, uint32_t most)
{
    console_device *console = self;
    uint32_t part = 0;
    if (console->command == C_READ) {
        part = least(most, console->length - console->given);
        memcpy(bytes, console->line + console->given, part);
    } else if (console->command == C_SENSE) {
        part = least(most, 1 - console->given);
        if (part != 0) {
            bytes[0] = console->sense;
            console->sense = 0;
        }
    }
    console->given += part;
    return part;
}

static uint32_t console_absorb(void *self, const uint8_t *bytes, uint32_t count)
{
    console_device *console = self;
    uint32_t part = console->command == C_WRITE ? least(count, (uint32_t)sizeof console->line - console->length) : 0;
    memcpy(console->line + console->length, bytes, part);
    console->length += part;
    return part;
}

static uint32_t console_finish(void *self, bool *more)
{
    console_device *console = self;
    uint32_t status = console->command == C_NOTHING ? FM_DEVICE_END : END;
    *more = console->command == C_READ && console->given < console->length;
    console->command = 0;
    console->given = 0;
    return status;
}

static void console_restart(void *self)
{
    memset(self, 0, sizeof(console_device));
}

/* ---- One that rejects every command ---------------------------------------------------------------------------------------------- */

static uint32_t reject_initial(void *self, uint32_t code, uint32_t side, uint32_t path)
{
    reject_device *device = self;
    (void)code;
    (void)side;
    (void)path;
    device->sense = REJECTED;
    return FM_UNIT_CHECK;
}

static uint32_t reject_supply(void *self, uint8_t *bytes, uint32_t most)
{
    (void)self;
    (void)bytes;
    (void)most;
    return 0;
}

static uint32_t reject_absorb(void *self, const uint8_t *bytes, uint32_t count)
{
    (void)self;
    (void)bytes;
    (void)count;
    return 0;
}

static uint32_t reject_finish(void *self, bool *more)
{
    (void)self;
    (void)more;
    return END;
}

static void reject_restart(void *self)
{
    memset(self, 0, sizeof(reject_device));
}

/* ---- Of a kind ------------------------------------------------------------------------------------------------------------------- */

bool device_of(const char *kind, fm_device *device)
{
    static const fm_device block = { block_initial, block_absorb, block_supply, block_finish, block_restart, NULL };
    static const fm_device console = { console_initial, console_absorb, console_supply, console_finish, console_restart, NULL };
    static const fm_device reject = { reject_initial, reject_absorb, reject_supply, reject_finish, reject_restart, NULL };
    size_t size;
    if (strcmp(kind, "block") == 0) {
        *device = block;
        size = sizeof(block_device);
    } else if (strcmp(kind, "console") == 0) {
        *device = console;
        size = sizeof(console_device);
    } else if (strcmp(kind, "reject") == 0) {
        *device = reject;
        size = sizeof(reject_device);
    } else {
        return false;
    }
    device->self = calloc(1, size);
    if (device->self == NULL) {
        abort();
    }
    return true;
}
