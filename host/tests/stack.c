/* How much stack each call takes, in bytes below the frame that makes it, while a write, a path that is lost and its reports are gone
 * through. What is printed is the most of each call.
 *
 *     stack
 */
#define _DEFAULT_SOURCE
#include "filuvamoth.h"
#include <pthread.h>
#include <stdio.h>
#include <stdlib.h>
#include <string.h>
#include <sys/mman.h>

enum { BLOCKS = 16, WORD = 0x00010000, PATH = 0x10, UNIT = 0, AREA = 1 << 20, PAINT = 0xA5, MARGIN = 512 };

static uint8_t guest[BLOCKS * 4096];
static const fm_storage storage = { guest, sizeof guest, NULL, 0 };
static fm_machine machine;
static uint8_t *area;
static uintptr_t top;

typedef struct most_of {
    const char *name;
    size_t most;
} most_of;

static most_of calls[128];
static size_t count;

/* All of the area below the caller is painted, but for the frame of this function. */
static void __attribute__((noinline)) paint(void)
{
    size_t size = (size_t)((uintptr_t)__builtin_frame_address(0) - MARGIN - (uintptr_t)area);
    size_t at;
    for (at = 0; at < size; at++) {
        ((volatile uint8_t *)area)[at] = PAINT;
    }
}

static void __attribute__((noinline)) note(const char *name)
{
    size_t unused = 0;
    size_t used;
    size_t at = 0;
    while (area[unused] == PAINT) {
        unused++;
    }
    used = (size_t)(top - (uintptr_t)(area + unused));
    while (at < count && strncmp(calls[at].name, name, strcspn(name, "(")) != 0) {
        at++;
    }
    if (at == count) {
        calls[count++].name = name;
    }
    if (used > calls[at].most) {
        calls[at].most = used;
    }
}

/* Makes a call, and stops where it is refused. */
#define MEASURE(call)                                       \
    do {                                                    \
        int32_t came_;                                      \
        paint();                                            \
        came_ = (call);                                     \
        note(#call);                                        \
        if (came_ < 0) {                                    \
            fprintf(stderr, "%s: %d\n", #call, (int)came_); \
            exit(1);                                        \
        }                                                   \
    } while (0)

#define LENT FM_LENT(&storage)

static void set_up(void)
{
    static const uint32_t paths[2] = { PATH, PATH + 1 };
    static const uint32_t units[2] = { 0, 1 };
    MEASURE(fm_new(&machine));
    MEASURE(fm_set_sets(&machine, 1));
    MEASURE(fm_set_concurrent_sense(&machine, 1));
    MEASURE(fm_set_path_return(&machine, 1));
    MEASURE(fm_add_path(&machine, PATH));
    MEASURE(fm_add_path(&machine, PATH + 1));
    MEASURE(fm_add_unit(&machine, 0));
    MEASURE(fm_add_unit(&machine, 1));
    MEASURE(fm_share(&machine, units, 2));
    MEASURE(fm_add_subchannel(&machine, WORD, 0x0100, UNIT, paths, 2));
    MEASURE(fm_start(&machine, BLOCKS, FM_KEEP_ALL));
    MEASURE(fm_enable(&machine, LENT, 0, WORD, 0, 1));
}

/* What waits on the wires. */
static void look_at_wires(void)
{
    fm_wires_view wires;
    fm_signal_view signal;
    uint32_t path;
    MEASURE(fm_wires(&machine, WORD, &wires));
    for (path = 0; path < 8; path++) {
        if (wires.down[path] != 0) {
            MEASURE(fm_signal_down(&machine, WORD, path, 0, &signal));
        }
        if (wires.up[path] != 0) {
            MEASURE(fm_signal_up(&machine, WORD, path, 0, &signal));
        }
    }
}

static void turns(void)
{
    fm_call call;
    uint8_t bytes[256];
    uint8_t supplied[256] = { 0 };
    uint32_t at;
    for (at = 0; at < 20; at++) {
        MEASURE(fm_turn_subchannel(&machine, LENT, WORD));
        look_at_wires();
        MEASURE(fm_turn_unit(&machine, LENT, UNIT));
        look_at_wires();
        MEASURE(fm_work(&machine, UNIT, &call, bytes, sizeof bytes));
        if (call.kind != FM_CALL_NONE) {
            fm_answer answer = { FM_ENDED, FM_CHANNEL_END | FM_DEVICE_END, 0, 0 };
            answer.kind = call.kind == FM_CALL_INITIAL ? FM_BEGINS
                          : call.kind == FM_CALL_ABSORB ? FM_ABSORBED
                          : call.kind == FM_CALL_SUPPLY ? FM_SUPPLIED
                                                        : FM_ENDED;
            answer.count = call.kind == FM_CALL_ABSORB ? call.count : 0;
            MEASURE(fm_report(&machine, LENT, UNIT, &call, &answer, supplied, call.kind == FM_CALL_SUPPLY ? call.count : 0));
        }
    }
}

static void start(uint8_t command)
{
    static const uint8_t orb[12] = { 0, 0, 0, 0, 0x00, 0x80, 0xFF, 0x00, 0x00, 0x00, 0x10, 0x00 };
    const uint8_t ccw[8] = { command, 0x20, 0x01, 0x00, 0, 0, 0x20, 0x00 };
    memcpy(guest + 0x500, orb, sizeof orb);
    memcpy(guest + 0x1000, ccw, sizeof ccw);
    MEASURE(fm_ssch(&machine, LENT, 0, WORD, 0x500));
}

static void *run(void *argument)
{
    static const char line[] = "stsch 0 700";
    uint8_t block[64];
    uint8_t text[640];
    uint32_t words[3];
    uint64_t made, cleared;
    size_t written;
    fm_told told;
    fm_hold_view hold;
    fm_programs_view programs;
    fm_unit_view unit;
    (void)argument;
    top = (uintptr_t)__builtin_frame_address(0);
    set_up();
    start(0x01);
    turns();
    MEASURE(fm_tpi(&machine, LENT, 0, 0xFF, 0));
    MEASURE(fm_tsch(&machine, LENT, 0, WORD, 0x600));
    MEASURE(fm_seen(&machine, &told));
    start(0x02);
    turns();
    MEASURE(fm_tpi_code(&machine, 0, 0xFF, words, 3));
    MEASURE(fm_tsch_irb(&machine, 0, WORD, block, 64));
    MEASURE(fm_ssch_orb(&machine, 0, WORD, guest + 0x500, 12));
    MEASURE(fm_choose(&machine, LENT, WORD));
    MEASURE(fm_hsch(&machine, LENT, 0, WORD));
    MEASURE(fm_path_down(&machine, LENT, PATH));
    MEASURE(fm_path_down(&machine, LENT, PATH + 1));
    turns();
    MEASURE(fm_path_up(&machine, LENT, PATH));
    MEASURE(fm_stcrw(&machine, LENT, 0, 0x700));
    MEASURE(fm_stcrw_word(&machine, 0, words, 1));
    MEASURE(fm_csch(&machine, LENT, 0, WORD));
    turns();
    MEASURE(fm_rsch(&machine, LENT, 0, WORD));
    MEASURE(fm_xsch(&machine, LENT, 0, WORD));
    MEASURE(fm_stsch(&machine, LENT, 0, WORD, 0x700));
    MEASURE(fm_msch(&machine, LENT, 0, WORD, 0x700));
    MEASURE(fm_stsch_schib(&machine, 0, WORD, block, 52));
    MEASURE(fm_msch_schib(&machine, 0, WORD, block, 52));
    MEASURE(fm_rchp(&machine, LENT, 0, PATH));
    MEASURE(fm_path_reset(&machine, LENT, PATH));
    MEASURE(fm_stcps(&machine, LENT, 0, 0x700));
    MEASURE(fm_stcps_bytes(&machine, 0, block, 32));
    MEASURE(fm_unit_restart(&machine, LENT, UNIT));
    turns();
    MEASURE(fm_put(&machine, LENT, 0x700, block, 64));
    MEASURE(fm_set_key(&machine, LENT, 0x700, 0x10));
    MEASURE(fm_set_prefix(&machine, LENT, 1, 0x2000));
    MEASURE(fm_line(&machine, LENT, (const uint8_t *)line, sizeof line - 1, text, sizeof text, &written));
    MEASURE(fm_requests(&machine));
    MEASURE(fm_report_count(&machine));
    MEASURE(fm_schib(&machine, WORD, block, 52));
    MEASURE(fm_irb(&machine, WORD, block, 64));
    MEASURE(fm_serials(&machine, WORD, &made, &cleared));
    MEASURE(fm_path(&machine, PATH));
    MEASURE(fm_hold(&machine, WORD, &hold));
    MEASURE(fm_programs(&machine, WORD, &programs));
    MEASURE(fm_unit_state(&machine, UNIT, &unit));
    MEASURE(fm_system_reset(&machine, LENT));
    MEASURE(fm_free(&machine));
    return NULL;
}

int main(void)
{
    pthread_attr_t attributes;
    pthread_t thread;
    size_t at;
    area = mmap(NULL, AREA, PROT_READ | PROT_WRITE, MAP_PRIVATE | MAP_ANONYMOUS, -1, 0);
    if (area == MAP_FAILED || pthread_attr_init(&attributes) != 0 || pthread_attr_setstack(&attributes, area, AREA) != 0 ||
        pthread_create(&thread, &attributes, run, NULL) != 0 || pthread_join(thread, NULL) != 0) {
        fprintf(stderr, "no thread\n");
        return 2;
    }
    for (at = 0; at < count; at++) {
        printf("%.*s %lu\n", (int)strcspn(calls[at].name, "("), calls[at].name, (unsigned long)calls[at].most);
    }
    return 0;
}
