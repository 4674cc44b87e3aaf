/* The devices of scripts, ported to C: a store of 32 blocks of 64 bytes, a console with a line of 126 bytes, and one that rejects every
 * command. docs/REFERENCE.md says what each does. */
#ifndef DEVICES_H
#define DEVICES_H

#include "filuvamoth_run.h"

typedef struct block_device {
    uint8_t blocks[32][64];
    uint8_t number[2];      /* the block number that a command brings */
    uint32_t current;
    uint32_t moved;
    uint8_t sense;
    uint8_t command;        /* its code, 0 where none is at hand */
} block_device;

typedef struct console_device {
    uint8_t line[126];
    uint32_t length;
    uint32_t given;
    uint8_t sense;
    uint8_t command;
} console_device;

typedef struct reject_device {
    uint8_t sense;
} reject_device;

/* The device at its opening; false where there is no such kind: "block", "console" or "reject". Its state is allocated by calloc. */
bool device_of(const char *kind, fm_device *device);

#endif
