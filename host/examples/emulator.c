/* The I/O side of a small emulator: a guest of 256 MiB, a store of one block of 512 bytes behind two channel paths, a program that is
 * ended by an interruption, and one whose path is lost in its middle.
 *
 *     cc -std=c99 -I.. emulator.c -L.. -lfiluvamoth -o emulator
 */
#include "filuvamoth_names.h"
#include "filuvamoth_run.h"
#include <stdio.h>
#include <stdlib.h>
#include <string.h>

enum { SUBCHANNEL = 0x00010000, DEVICE_NUMBER = 0x0190, FIRST_PATH = 0x10, SECOND_PATH = 0x11, CPU = 0, BLOCK = 4096, BLOCKS = 65536 };

/* Where the guest's I/O code has its blocks: above the 16 MiB that CCWs of format 0 reach. */
enum { ORB = 0x2000000, PROGRAM = 0x2000100, OUT = 0x4000000, BACK = 0x5000000, IRB = 0x2000200, DATA_BYTES = 512 };

/* ---- The device: a block of 512 bytes -------------------------------------------------------------------------------------------- */

typedef struct block_store {
    uint8_t block[DATA_BYTES];
    uint32_t moved;
    uint32_t command;
} block_store;

/* 01 writes the block and 02 reads it; every other code is refused. */
static uint32_t store_initial(void *self, uint32_t code, uint32_t side, uint32_t path)
{
    block_store *store = self;
    (void)side;
    (void)path;
    store->moved = 0;
    store->command = code;
    return code == 0x01 || code == 0x02 ? 0 : FM_UNIT_CHECK;
}

static uint32_t store_part(const block_store *store, uint32_t most)
{
    uint32_t left = DATA_BYTES - store->moved;
    return most < left ? most : left;
}

static uint32_t store_absorb(void *self, const uint8_t *bytes, uint32_t count)
{
    block_store *store = self;
    uint32_t part = store_part(store, count);
    memcpy(store->block + store->moved, bytes, part);
    store->moved += part;
    return part;
}

static uint32_t store_supply(void *self, uint8_t *bytes, uint32_t most)
{
    block_store *store = self;
    uint32_t part = store_part(store, most);
    memcpy(bytes, store->block + store->moved, part);
    store->moved += part;
    return part;
}

static uint32_t store_finish(void *self, bool *more)
{
    block_store *store = self;
    *more = store->command == 0x02 && store->moved < DATA_BYTES;
    return FM_CHANNEL_END | FM_DEVICE_END;
}

/* ---- The emulator ---------------------------------------------------------------------------------------------------------------- */

static const uint32_t subchannels[1] = { SUBCHANNEL };

typedef struct emulator {
    fm_machine machine;
    fm_storage storage;
    fm_unit unit;
    fm_host host;
    block_store store;
    uint32_t subclasses;        /* the byte of control register 6, of which the CPU takes interruptions */
} emulator;

static int32_t must(const char *what, int32_t number)
{
    if (number < 0) {
        fprintf(stderr, "%s is refused, %d: %s\n", what, (int)number, fm_name(number));
        exit(1);
    }
    return number;
}

/* Two channel paths lead to the unit. What Linux wants is said, and stays without effect here. */
static void set_up(emulator *here)
{
    static const uint32_t paths[2] = { FIRST_PATH, SECOND_PATH };
    fm_machine *machine = &here->machine;
    must("fm_new", fm_new(machine));
    must("fm_set_concurrent_sense", fm_set_concurrent_sense(machine, 1));
    must("fm_set_path_return", fm_set_path_return(machine, 1));
    must("fm_add_path", fm_add_path(machine, FIRST_PATH));
    must("fm_add_path", fm_add_path(machine, SECOND_PATH));
    must("fm_add_unit", fm_add_unit(machine, 0));
    must("fm_add_subchannel", fm_add_subchannel(machine, SUBCHANNEL, DEVICE_NUMBER, 0, paths, 2));
    must("fm_start", fm_start(machine, BLOCKS, FM_KEEP_NONE));
}

/* The guest's storage and keys, the machine, and the device. false where there is no memory. */
static bool open_emulator(emulator *here)
{
    static const fm_device device = { store_initial, store_absorb, store_supply, store_finish, NULL, NULL };
    memset(here, 0, sizeof *here);
    here->storage.size = (size_t)BLOCKS * BLOCK;
    here->storage.blocks = BLOCKS;
    here->storage.bytes = calloc(here->storage.size, 1);
    here->storage.keys = calloc(BLOCKS, 1);
    if (here->storage.bytes == NULL || here->storage.keys == NULL) {
        return false;
    }
    here->unit.device = device;
    here->unit.device.self = &here->store;
    here->host.machine = &here->machine;
    here->host.storage = &here->storage;
    here->host.units = &here->unit;
    here->host.unit_count = 1;
    here->host.subchannels = subchannels;
    here->host.subchannel_count = 1;
    set_up(here);
    return true;
}

static void close_emulator(emulator *here)
{
    must("fm_free", fm_free(&here->machine));
    free(here->storage.bytes);
    free(here->storage.keys);
}

/* An I/O interruption, where the CPU is enabled for one that waits: its code is stored at real 184, and the CPU would change its PSW. */
static bool take_interruption(emulator *here)
{
    fm_told told;
    if ((must("fm_requests", fm_requests(&here->machine)) & (int32_t)here->subclasses) == 0) {
        return false;
    }
    must("fm_tpi", fm_tpi(&here->machine, FM_LENT(&here->storage), CPU, here->subclasses, 0));
    must("fm_seen", fm_seen(&here->machine, &told));
    printf("interruption: subchannel %08X, parameter %08X\n", (unsigned)told.words[0], (unsigned)told.words[1]);
    return true;
}

/* ---- The guest's I/O code -------------------------------------------------------------------------------------------------------- */

/* Words in storage have their leftmost byte first. */
static void store_word(emulator *here, uint32_t address, uint32_t word)
{
    uint8_t *at = here->storage.bytes + address;
    at[0] = (uint8_t)(word >> 24);
    at[1] = (uint8_t)(word >> 16);
    at[2] = (uint8_t)(word >> 8);
    at[3] = (uint8_t)word;
}

static uint32_t load_word(const emulator *here, uint32_t address)
{
    const uint8_t *at = here->storage.bytes + address;
    return (uint32_t)at[0] << 24 | (uint32_t)at[1] << 16 | (uint32_t)at[2] << 8 | at[3];
}

/* The subchannel is enabled for interruption subclass 3. Its SCHIB stands at a logical address, so it is handed over by value. */
static void enable(emulator *here)
{
    uint8_t schib[52];
    must("fm_stsch_schib", fm_stsch_schib(&here->machine, CPU, SUBCHANNEL, schib, sizeof schib));
    schib[4] = (uint8_t)((schib[4] & 0xC7) | 3 << 3);
    schib[5] |= 0x80;
    must("fm_msch_schib", fm_msch_schib(&here->machine, CPU, SUBCHANNEL, schib, sizeof schib));
    here->subclasses = 0x80 >> 3;
}

/* An ORB of format 1 for all paths; a write, to which a read is chained. */
static void store_program(emulator *here)
{
    uint32_t at;
    store_word(here, ORB, 0x600D0001);
    store_word(here, ORB + 4, 0x0080FF00);
    store_word(here, ORB + 8, PROGRAM);
    store_word(here, PROGRAM, 0x01400000 | DATA_BYTES);
    store_word(here, PROGRAM + 4, OUT);
    store_word(here, PROGRAM + 8, 0x02000000 | DATA_BYTES);
    store_word(here, PROGRAM + 12, BACK);
    for (at = 0; at < DATA_BYTES; at++) {
        here->storage.bytes[OUT + at] = (uint8_t)(at * 7);
        here->storage.bytes[BACK + at] = 0;
    }
}

static void start(emulator *here)
{
    int32_t code = must("fm_ssch", fm_ssch(&here->machine, FM_LENT(&here->storage), CPU, SUBCHANNEL, ORB));
    printf("START SUBCHANNEL: code %d\n", (int)code);
}

/* TEST SUBCHANNEL stores its IRB in the guest's storage: the subchannel status of word 2. */
static uint32_t test(emulator *here)
{
    int32_t code = must("fm_tsch", fm_tsch(&here->machine, FM_LENT(&here->storage), CPU, SUBCHANNEL, IRB));
    uint32_t word = load_word(here, IRB + 8);
    printf("TEST SUBCHANNEL: code %d, %08X %08X %08X\n", (int)code, (unsigned)load_word(here, IRB),
           (unsigned)load_word(here, IRB + 4), (unsigned)word);
    return word >> 16 & 0xFF;
}

/* All channel reports that wait. */
static void load_reports(emulator *here)
{
    while (must("fm_report_count", fm_report_count(&here->machine)) > 0) {
        uint32_t report;
        must("fm_stcrw_word", fm_stcrw_word(&here->machine, CPU, &report, 1));
        printf("channel report: %08X\n", (unsigned)report);
    }
}

static bool has_data(const emulator *here)
{
    return memcmp(here->storage.bytes + OUT, here->storage.bytes + BACK, DATA_BYTES) == 0;
}

/* ---- What happens ---------------------------------------------------------------------------------------------------------------- */

/* A program that ends well. */
static bool run_once(emulator *here)
{
    store_program(here);
    start(here);
    printf("%d turns\n", (int)must("fm_run", fm_run(&here->host, 1000)));
    return take_interruption(here) && test(here) == 0 && has_data(here);
}

/* A program whose path goes down after eight turns, and which the guest starts once more. */
static bool lose_path(emulator *here)
{
    uint32_t lost;
    store_program(here);
    start(here);
    must("fm_run", fm_run(&here->host, 8));
    must("fm_path_down", fm_path_down(&here->machine, FM_LENT(&here->storage), SECOND_PATH));
    printf("the path %02X is down after 8 turns\n", SECOND_PATH);
    must("fm_run", fm_run(&here->host, 1000));
    lost = take_interruption(here) ? test(here) : 0;
    load_reports(here);
    if ((lost & 0x02) == 0) {
        return false;
    }
    printf("interface-control check: once more\n");
    return run_once(here);
}

int main(void)
{
    static emulator here;
    bool good;
    if (!open_emulator(&here)) {
        fprintf(stderr, "there is no memory for the guest\n");
        return 1;
    }
    enable(&here);
    good = run_once(&here) && lose_path(&here);
    must("fm_path_up", fm_path_up(&here.machine, FM_LENT(&here.storage), SECOND_PATH));
    load_reports(&here);
    printf(good ? "the data came back\n" : "the data did not come back\n");
    close_emulator(&here);
    return good ? 0 : 1;
}
