/* Four CPUs of a guest, each a thread of the host: one machine, one storage, and a mutex that guards both. Each CPU has a subchannel of
 * its own, by which it writes to a unit of its own.
 *
 *     cc -std=c99 -pthread -I.. threads.c -L.. -lfiluvamoth -o threads
 */
#define _POSIX_C_SOURCE 200112L
#include "filuvamoth.h"
#include <pthread.h>
#include <stdio.h>
#include <stdlib.h>
#include <string.h>

enum { CPUS = 4, PROGRAMS = 2000, BLOCKS = 16, FIRST_SUBCHANNEL = 0x00010000, FIRST_PATH = 0x10 };

static uint8_t guest[BLOCKS * 4096];
static const fm_storage storage = { guest, sizeof guest, FM_NO_KEYS };
static fm_machine machine;

/* It is held by whoever calls the library, and by a CPU that stores into the guest's storage or loads from there. */
static pthread_mutex_t lock = PTHREAD_MUTEX_INITIALIZER;

/* A CPU, its unit's device, and how many of its programs ended well. */
typedef struct cpu {
    uint32_t number;
    uint8_t taken[4];
    uint32_t taken_count;
    uint32_t good;
} cpu;

static void fail(const char *what, int32_t number)
{
    fprintf(stderr, "%s is refused: %d\n", what, (int)number);
    exit(1);
}

static int32_t must(const char *what, int32_t number)
{
    if (number < 0) {
        fail(what, number);
    }
    return number;
}

static uint32_t subchannel_of(const cpu *one)
{
    return FIRST_SUBCHANNEL + one->number;
}

/* Where a CPU has its blocks: its ORB first, then its program, its data and its IRB. */
static uint32_t area_of(const cpu *one)
{
    return 0x2000 + 0x1000 * one->number;
}

static void set_up(void)
{
    uint32_t number;
    must("fm_new", fm_new(&machine));
    for (number = 0; number < CPUS; number++) {
        uint32_t path = FIRST_PATH + number;
        must("fm_add_path", fm_add_path(&machine, path));
        must("fm_add_unit", fm_add_unit(&machine, number));
        must("fm_add_subchannel", fm_add_subchannel(&machine, FIRST_SUBCHANNEL + number, 0x0100 + number, number, &path, 1));
    }
    must("fm_start", fm_start(&machine, BLOCKS, FM_KEEP_NONE));
    for (number = 0; number < CPUS; number++) {
        must("fm_enable", fm_enable(&machine, FM_LENT(&storage), number, FIRST_SUBCHANNEL + number, number, 0));
    }
}

/* A CPU stores an ORB, a write of four bytes, and the bytes, which tell the program. */
static void store_program(const cpu *one, uint32_t program)
{
    uint32_t area = area_of(one);
    uint8_t *at = guest + area;
    const uint8_t orb[12] = { 0, 0, 0, 0, 0, 0x80, 0xFF, 0, 0, 0, (uint8_t)(area >> 8), 0x10 };
    const uint8_t ccw[8] = { 0x01, 0x20, 0, 4, 0, 0, (uint8_t)(area >> 8), 0x20 };
    const uint8_t data[4] = { (uint8_t)one->number, 0, (uint8_t)(program >> 8), (uint8_t)program };
    memcpy(at, orb, sizeof orb);
    memcpy(at + 0x10, ccw, sizeof ccw);
    memcpy(at + 0x20, data, sizeof data);
}

static fm_answer answer_of(cpu *one, const fm_call *call, const uint8_t *bytes)
{
    fm_answer answer = { FM_ENDED, FM_CHANNEL_END | FM_DEVICE_END, 0, 0 };
    if (call->kind == FM_CALL_INITIAL) {
        one->taken_count = 0;
        answer.kind = FM_BEGINS;
    } else if (call->kind == FM_CALL_ABSORB) {
        answer.kind = FM_ABSORBED;
        answer.count = call->count < 4 - one->taken_count ? call->count : 4 - one->taken_count;
        memcpy(one->taken + one->taken_count, bytes, answer.count);
        one->taken_count += answer.count;
    }
    return answer;
}

/* A turn of a CPU's unit, with the lock held. The device is called with the lock held too, since it is short; a long one is called
 * without, and its answer is still good afterwards, or refused. */
static void turn_unit(cpu *one)
{
    if (must("fm_turn_unit", fm_turn_unit(&machine, FM_LENT(&storage), one->number)) == FM_DEVICE_CALLED) {
        fm_call call;
        fm_answer answer;
        uint8_t bytes[256];
        must("fm_work", fm_work(&machine, one->number, &call, bytes, sizeof bytes));
        answer = answer_of(one, &call, bytes);
        must("fm_report", fm_report(&machine, FM_LENT(&storage), one->number, &call, &answer, NULL, 0));
    }
}

/* A turn of the unit and of the subchannel: whether its status is pending. */
static bool turn(cpu *one)
{
    uint64_t made = 0;
    uint64_t cleared = 0;
    pthread_mutex_lock(&lock);
    turn_unit(one);
    must("fm_turn_subchannel", fm_turn_subchannel(&machine, FM_LENT(&storage), subchannel_of(one)));
    must("fm_serials", fm_serials(&machine, subchannel_of(one), &made, &cleared));
    pthread_mutex_unlock(&lock);
    return cleared < made;
}

static bool start(cpu *one, uint32_t program)
{
    int32_t code;
    pthread_mutex_lock(&lock);
    store_program(one, program);
    code = must("fm_ssch", fm_ssch(&machine, FM_LENT(&storage), one->number, subchannel_of(one), area_of(one)));
    pthread_mutex_unlock(&lock);
    return code == 0;
}

/* Whether the status that is cleared is that of a write which ended well, and the device has its bytes. */
static bool test(cpu *one, uint32_t program)
{
    int32_t code;
    bool good;
    pthread_mutex_lock(&lock);
    code = must("fm_tsch", fm_tsch(&machine, FM_LENT(&storage), one->number, subchannel_of(one), area_of(one) + 0x40));
    good = code == 0 && guest[area_of(one) + 0x48] == (FM_CHANNEL_END | FM_DEVICE_END) && guest[area_of(one) + 0x49] == 0;
    pthread_mutex_unlock(&lock);
    return good && one->taken[0] == one->number && one->taken[2] == (uint8_t)(program >> 8) && one->taken[3] == (uint8_t)program;
}

static void *run(void *argument)
{
    cpu *one = argument;
    uint32_t program;
    for (program = 0; program < PROGRAMS; program++) {
        if (!start(one, program)) {
            continue;
        }
        while (!turn(one)) {
        }
        if (test(one, program)) {
            one->good++;
        }
    }
    return NULL;
}

int main(void)
{
    static cpu cpus[CPUS];
    pthread_t threads[CPUS];
    uint32_t number;
    bool good = true;
    set_up();
    for (number = 0; number < CPUS; number++) {
        cpus[number].number = number;
        if (pthread_create(&threads[number], NULL, run, &cpus[number]) != 0) {
            fail("a thread", FM_NO_MEMORY);
        }
    }
    for (number = 0; number < CPUS; number++) {
        pthread_join(threads[number], NULL);
        printf("CPU %u: %u of %d programs ended well\n", (unsigned)number, (unsigned)cpus[number].good, PROGRAMS);
        good = good && cpus[number].good == PROGRAMS;
    }
    must("fm_free", fm_free(&machine));
    return good ? 0 : 1;
}
