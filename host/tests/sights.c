/* What looks tell of holds, programs, units and wires, beside what docs/TUTORIAL.md says of the same lines in lessons 1, 4 and 5, and
 * docs/REFERENCE.md of attentions and of a unit that was restarted.
 *
 *     sights
 */
#include "filuvamoth_names.h"
#include <inttypes.h>
#include <stdio.h>
#include <string.h>

enum { WORD = 0x00010000, UNIT = 0 };

static uint8_t guest[16 * 4096];
static const fm_storage storage = { guest, sizeof guest, FM_NO_KEYS };
static fm_machine machine;
static unsigned checks;
static unsigned otherwise;

static void expect_at(int line, const char *what, uint64_t got, uint64_t wanted)
{
    checks++;
    if (got != wanted) {
        otherwise++;
        printf("sights.c:%d: %s is %" PRIu64 ", not %" PRIu64 "\n", line, what, got, wanted);
    }
}

#define EXPECT(got, wanted) expect_at(__LINE__, #got, (uint64_t)(got), (uint64_t)(wanted))

/* ---- Lines ----------------------------------------------------------------------------------------------------------------------- */

/* A device that takes all bytes, supplies zeros, and ends well. */
static void call_device(void)
{
    fm_call call;
    fm_answer answer = { FM_ENDED, FM_CHANNEL_END | FM_DEVICE_END, 0, 0 };
    uint8_t bytes[256] = { 0 };
    EXPECT(fm_work(&machine, UNIT, &call, bytes, sizeof bytes), FM_CALL_DUE);
    if (call.kind == FM_CALL_INITIAL) {
        answer.kind = FM_BEGINS;
    } else if (call.kind == FM_CALL_ABSORB) {
        answer.kind = FM_ABSORBED;
        answer.count = call.count;
    } else if (call.kind == FM_CALL_SUPPLY) {
        answer.kind = FM_SUPPLIED;
    }
    EXPECT(fm_report(&machine, FM_LENT(&storage), UNIT, &call, &answer, bytes, answer.kind == FM_SUPPLIED ? call.count : 0), 0);
}

/* A line of a script, and `dev`. */
static void play(const char *line)
{
    uint8_t text[800];
    size_t written;
    if (strcmp(line, "dev 0") == 0) {
        call_device();
    } else if (fm_line(&machine, FM_LENT(&storage), (const uint8_t *)line, strlen(line), text, sizeof text, &written) < 0) {
        otherwise++;
        printf("%s: %.*s\n", line, (int)written, (const char *)text);
    }
}

/* A machine that is set up by these lines, and runs. */
static void set_up(const char *const *lines)
{
    memset(guest, 0, sizeof guest);
    EXPECT(fm_new(&machine), 0);
    for (; *lines != NULL; lines++) {
        EXPECT(fm_set_up_line(&machine, (const uint8_t *)*lines, strlen(*lines)), 0);
    }
    EXPECT(fm_start(&machine, 0, FM_KEEP_NONE), 0);
}

static const char *const one_path[] = { "storage 10", "path 10", "unit 0 block", "sub 0 0100 0 10", NULL };
static const char *const two_paths[] = { "storage 10", "path 10", "path 11", "unit 0 block", "sub 0 0100 0 10 11", NULL };

/* ---- Lessons --------------------------------------------------------------------------------------------------------------------- */

/* What stands after a line. Of each wire the kind of the one signal that waits there; 0 is none. */
typedef struct row {
    const char *line;
    uint32_t phase;
    uint64_t number;
    uint32_t path;
    uint64_t waiting, holding, suspended;
    uint32_t place;
    uint64_t held_by, floor;
    uint32_t progress;
    uint32_t down[2], up[2];
} row;

enum { NONE = FM_NO_PATH };

static void look_at_wire(const row *wanted, uint32_t path)
{
    fm_wires_view wires;
    fm_signal_view signal;
    int32_t down = fm_signal_down(&machine, WORD, path, 0, &signal);
    EXPECT(down == 0 ? signal.kind : 0, wanted->down[path]);
    int32_t up = fm_signal_up(&machine, WORD, path, 0, &signal);
    EXPECT(up == 0 ? signal.kind : 0, wanted->up[path]);
    EXPECT(fm_wires(&machine, WORD, &wires), 0);
    EXPECT(wires.down[path], wanted->down[path] != 0);
    EXPECT(wires.up[path], wanted->up[path] != 0);
}

static void look(const row *wanted, uint32_t paths)
{
    fm_hold_view hold;
    fm_programs_view programs;
    fm_unit_view unit;
    uint32_t path;
    unsigned before = otherwise;
    EXPECT(fm_hold(&machine, WORD, &hold), 0);
    EXPECT(hold.phase, wanted->phase);
    EXPECT(hold.number, wanted->number);
    EXPECT(hold.path, wanted->path);
    EXPECT(fm_programs(&machine, WORD, &programs), 0);
    EXPECT(programs.waiting, wanted->waiting);
    EXPECT(programs.holding, wanted->holding);
    EXPECT(programs.suspended, wanted->suspended);
    EXPECT(fm_unit_state(&machine, UNIT, &unit), 0);
    EXPECT(unit.place, wanted->place);
    EXPECT(unit.number, wanted->held_by);
    EXPECT(unit.floors[0], wanted->floor);
    EXPECT(unit.floors[1], 0);
    EXPECT(unit.progress, wanted->progress);
    for (path = 0; path < paths; path++) {
        look_at_wire(wanted, path);
    }
    if (otherwise != before) {
        printf("after %s, in phase %s\n", wanted->line, fm_phase_name(hold.phase));
    }
}

static void play_rows(const row *rows, size_t count, uint32_t paths)
{
    size_t at;
    for (at = 0; at < count; at++) {
        play(rows[at].line);
        look(&rows[at], paths);
    }
}

#define COUNT(rows) (sizeof(rows) / sizeof(rows)[0])

/* Lines 7 to 31. */
static void lesson_1(void)
{
    static const row begin[] = {
        { "put 500 0000CAFE0080FF0000001000", FM_PHASE_FREE, 0, NONE, 0, 0, 0, FM_PLACE_IDLE, 0, 0, FM_PROGRESS_NONE, { 0 }, { 0 } },
        { "put 1000 0120000400002000", FM_PHASE_FREE, 0, NONE, 0, 0, 0, FM_PLACE_IDLE, 0, 0, FM_PROGRESS_NONE, { 0 }, { 0 } },
        { "put 2000 C1C2C3C4", FM_PHASE_FREE, 0, NONE, 0, 0, 0, FM_PLACE_IDLE, 0, 0, FM_PROGRESS_NONE, { 0 }, { 0 } },
        { "enable 0 0 0", FM_PHASE_FREE, 0, NONE, 0, 0, 0, FM_PLACE_IDLE, 0, 0, FM_PROGRESS_NONE, { 0 }, { 0 } },
        { "ssch 0 500", FM_PHASE_FREE, 0, NONE, 1, 0, 0, FM_PLACE_IDLE, 0, 0, FM_PROGRESS_NONE, { 0 }, { 0 } },
        { "choose 0", FM_PHASE_OFFER, 1, 0, 1, 0, 0, FM_PLACE_IDLE, 0, 0, FM_PROGRESS_NONE, { FM_SIGNAL_SELECT }, { 0 } },
        { "down 0 0", FM_PHASE_OFFER, 1, 0, 1, 0, 0, FM_PLACE_ON, 1, 1, FM_PROGRESS_NONE, { 0 }, { FM_SIGNAL_ACCEPT } },
        { "up 0 0", FM_PHASE_ON, 1, 0, 0, 1, 0, FM_PLACE_ON, 1, 1, FM_PROGRESS_NONE, { FM_SIGNAL_COMMAND }, { 0 } },
    };
    static const row move[] = {
        { "down 0 0", FM_PHASE_ON, 1, 0, 0, 1, 0, FM_PLACE_ON, 1, 1, FM_PROGRESS_NEW, { 0 }, { 0 } },
        { "dev 0", FM_PHASE_ON, 1, 0, 0, 1, 0, FM_PLACE_ON, 1, 1, FM_PROGRESS_WORKING, { 0 }, { FM_SIGNAL_DATA } },
        { "up 0 0", FM_PHASE_ON, 1, 0, 0, 1, 0, FM_PLACE_ON, 1, 1, FM_PROGRESS_WORKING, { FM_SIGNAL_GIVE }, { 0 } },
    };
    static const row end[] = {
        { "down 0 0", FM_PHASE_ON, 1, 0, 0, 1, 0, FM_PLACE_ON, 1, 1, FM_PROGRESS_WORKING, { 0 }, { 0 } },
        { "dev 0", FM_PHASE_ON, 1, 0, 0, 1, 0, FM_PLACE_ON, 1, 1, FM_PROGRESS_WORKING, { 0 }, { FM_SIGNAL_DATA } },
        { "up 0 0", FM_PHASE_ON, 1, 0, 0, 1, 0, FM_PLACE_ON, 1, 1, FM_PROGRESS_WORKING, { FM_SIGNAL_GIVE }, { 0 } },
        { "down 0 0", FM_PHASE_ON, 1, 0, 0, 1, 0, FM_PLACE_ON, 1, 1, FM_PROGRESS_WORKING, { 0 }, { 0 } },
        { "dev 0", FM_PHASE_ON, 1, 0, 0, 1, 0, FM_PLACE_ON, 1, 1, FM_PROGRESS_ENDED, { 0 }, { FM_SIGNAL_END } },
    };
    static const row let_go[] = {
        { "up 0 0", FM_PHASE_LETTING_GO, 1, 0, 0, 0, 0, FM_PLACE_ON, 1, 1, FM_PROGRESS_ENDED, { FM_SIGNAL_RELEASE }, { 0 } },
        { "tsch 0 600", FM_PHASE_LETTING_GO, 1, 0, 0, 0, 0, FM_PLACE_ON, 1, 1, FM_PROGRESS_ENDED, { FM_SIGNAL_RELEASE }, { 0 } },
        { "down 0 0", FM_PHASE_LETTING_GO, 1, 0, 0, 0, 0, FM_PLACE_IDLE, 0, 1, FM_PROGRESS_NONE, { 0 }, { FM_SIGNAL_RELEASED } },
        { "up 0 0", FM_PHASE_FREE, 0, NONE, 0, 0, 0, FM_PLACE_IDLE, 0, 1, FM_PROGRESS_NONE, { 0 }, { 0 } },
    };
    fm_hold_view hold;
    fm_programs_view programs;
    fm_unit_view unit;
    fm_signal_view signal;
    set_up(one_path);
    play_rows(begin, COUNT(begin), 1);
    EXPECT(fm_signal_down(&machine, WORD, 0, 0, &signal), 0);
    EXPECT(signal.number == 1 && signal.command == 1 && signal.code == 0x01 && signal.room == 0, 1);
    EXPECT(fm_hold(&machine, WORD, &hold), 0);
    EXPECT(hold.connection == 0 && hold.first_path == 0 && hold.single_path == 1, 1);
    play_rows(move, COUNT(move), 1);
    EXPECT(fm_unit_state(&machine, UNIT, &unit), 0);
    EXPECT(unit.side == 0 && unit.path == 0 && unit.command == 1 && unit.code == 0x01 && unit.command_path == 0, 1);
    EXPECT(fm_signal_down(&machine, WORD, 0, 0, &signal), 0);
    EXPECT(signal.number == 1 && signal.command == 1 && signal.sequence == 1 && signal.bytes == 4, 1);
    play_rows(end, COUNT(end), 1);
    EXPECT(fm_signal_up(&machine, WORD, 0, 0, &signal), 0);
    EXPECT(signal.number == 1 && signal.command == 1 && signal.status == 0x0C && signal.more == 0, 1);
    play_rows(let_go, COUNT(let_go), 1);
    EXPECT(fm_programs(&machine, WORD, &programs), 0);
    EXPECT(programs.starts == 1 && programs.offered == 1 && programs.drawn == 1, 1);
    EXPECT(fm_free(&machine), 0);
}

/* The suspension, from line 24 on: the program is offered again under number 2. */
static void lesson_4(void)
{
    static const char *const before[] = {
        "put 500 0000CAFE0880FF0000001000", "put 1000 0160000400002000", "put 1008 0222000400003000", "put 2000 C1C2C3C4",
        "enable 0 0 0", "ssch 0 500", "choose 0", "down 0 0", "up 0 0", "down 0 0", "dev 0", "up 0 0", "down 0 0", "dev 0", "up 0 0",
        "down 0 0", "dev 0",
    };
    static const row rows[] = {
        { "up 0 0", FM_PHASE_LETTING_GO, 1, 0, 0, 0, 1, FM_PLACE_ON, 1, 1, FM_PROGRESS_ENDED, { FM_SIGNAL_RELEASE }, { 0 } },
        { "tsch 0 600", FM_PHASE_LETTING_GO, 1, 0, 0, 0, 1, FM_PLACE_ON, 1, 1, FM_PROGRESS_ENDED, { FM_SIGNAL_RELEASE }, { 0 } },
        { "put 1009 20", FM_PHASE_LETTING_GO, 1, 0, 0, 0, 1, FM_PLACE_ON, 1, 1, FM_PROGRESS_ENDED, { FM_SIGNAL_RELEASE }, { 0 } },
        { "rsch 0", FM_PHASE_LETTING_GO, 1, 0, 0, 0, 1, FM_PLACE_ON, 1, 1, FM_PROGRESS_ENDED, { FM_SIGNAL_RELEASE }, { 0 } },
        { "down 0 0", FM_PHASE_LETTING_GO, 1, 0, 0, 0, 1, FM_PLACE_IDLE, 0, 1, FM_PROGRESS_NONE, { 0 }, { FM_SIGNAL_RELEASED } },
        { "up 0 0", FM_PHASE_FREE, 0, NONE, 0, 0, 1, FM_PLACE_IDLE, 0, 1, FM_PROGRESS_NONE, { 0 }, { 0 } },
        { "choose 0", FM_PHASE_OFFER, 2, 0, 0, 0, 1, FM_PLACE_IDLE, 0, 1, FM_PROGRESS_NONE, { FM_SIGNAL_SELECT }, { 0 } },
        { "down 0 0", FM_PHASE_OFFER, 2, 0, 0, 0, 1, FM_PLACE_ON, 2, 2, FM_PROGRESS_NONE, { 0 }, { FM_SIGNAL_ACCEPT } },
        { "up 0 0", FM_PHASE_ON, 2, 0, 0, 1, 0, FM_PLACE_ON, 2, 2, FM_PROGRESS_NONE, { FM_SIGNAL_COMMAND }, { 0 } },
        { "down 0 0", FM_PHASE_ON, 2, 0, 0, 1, 0, FM_PLACE_ON, 2, 2, FM_PROGRESS_NEW, { 0 }, { 0 } },
        { "dev 0", FM_PHASE_ON, 2, 0, 0, 1, 0, FM_PLACE_ON, 2, 2, FM_PROGRESS_WORKING, { 0 }, { 0 } },
        { "dev 0", FM_PHASE_ON, 2, 0, 0, 1, 0, FM_PLACE_ON, 2, 2, FM_PROGRESS_WORKING, { 0 }, { FM_SIGNAL_DATA } },
    };
    static const row took = { "up 0 0", FM_PHASE_ON, 2, 0, 0, 1, 0, FM_PLACE_ON, 2, 2, FM_PROGRESS_WORKING, { FM_SIGNAL_TOOK }, { 0 } };
    fm_programs_view programs;
    fm_signal_view signal;
    size_t at;
    set_up(one_path);
    for (at = 0; at < COUNT(before); at++) {
        play(before[at]);
    }
    play_rows(rows, COUNT(rows), 1);
    EXPECT(fm_signal_up(&machine, WORD, 0, 0, &signal), 0);
    EXPECT(signal.number == 2 && signal.command == 1 && signal.sequence == 1 && signal.bytes == 4 && signal.absorbed == 0, 1);
    play_rows(&took, 1, 1);
    EXPECT(fm_signal_down(&machine, WORD, 0, 0, &signal), 0);
    EXPECT(signal.number == 2 && signal.command == 1 && signal.sequence == 1 && signal.room == 0, 1);
    EXPECT(fm_programs(&machine, WORD, &programs), 0);
    EXPECT(programs.starts == 1 && programs.offered == 1 && programs.drawn == 2, 1);
    EXPECT(fm_free(&machine), 0);
}

/* The program leaves its path and comes back by the other, lines 17 to 25. */
static void lesson_5_away(void)
{
    static const char *const before[] = {
        "put 500 0000CAFE0080FF0000001000", "put 1000 0160000400002000", "put 1008 0220000400003000", "put 2000 C1C2C3C4",
        "enable 0 0 1", "ssch 0 500", "choose 0", "down 0 0", "up 0 0",
    };
    static const row rows[] = {
        { "down 0 0", FM_PHASE_ON, 1, 0, 0, 1, 0, FM_PLACE_ON, 1, 1, FM_PROGRESS_NEW, { 0, 0 }, { 0, 0 } },
        { "leave 0", FM_PHASE_ON, 1, 0, 0, 1, 0, FM_PLACE_AWAY, 1, 1, FM_PROGRESS_NEW, { 0, 0 }, { FM_SIGNAL_LEAVE, 0 } },
        { "up 0 0", FM_PHASE_AWAY, 1, NONE, 0, 1, 0, FM_PLACE_AWAY, 1, 1, FM_PROGRESS_NEW, { 0, 0 }, { 0, 0 } },
        { "pathdown 10", FM_PHASE_AWAY, 1, NONE, 0, 1, 0, FM_PLACE_AWAY, 1, 1, FM_PROGRESS_NEW, { 0, 0 }, { 0, 0 } },
        { "ask 0 1", FM_PHASE_AWAY, 1, NONE, 0, 1, 0, FM_PLACE_ASKS, 1, 1, FM_PROGRESS_NEW, { 0, 0 }, { 0, FM_SIGNAL_BACK } },
        { "up 0 1", FM_PHASE_ON, 1, 1, 0, 1, 0, FM_PLACE_ASKS, 1, 1, FM_PROGRESS_NEW, { 0, FM_SIGNAL_GRANT }, { 0, 0 } },
        { "down 0 1", FM_PHASE_ON, 1, 1, 0, 1, 0, FM_PLACE_ON, 1, 1, FM_PROGRESS_NEW, { 0, 0 }, { 0, 0 } },
    };
    fm_hold_view hold;
    fm_unit_view unit;
    size_t at;
    set_up(two_paths);
    for (at = 0; at < COUNT(before); at++) {
        play(before[at]);
    }
    play_rows(rows, COUNT(rows), 2);
    EXPECT(fm_hold(&machine, WORD, &hold), 0);
    EXPECT(hold.connection == 1 && hold.seen == 1 && hold.first_path == 0 && hold.single_path == 0, 1);
    EXPECT(fm_unit_state(&machine, UNIT, &unit), 0);
    EXPECT(unit.path == 1 && unit.connection == 1 && unit.command_path == 0 && unit.code == 0x01, 1);
}

/* The path is lost by which it came back, and the unit is reset, lines 26 to 45. */
static void lesson_5_lost(void)
{
    static const char *const before[] = { "dev 0", "up 0 1", "down 0 1", "dev 0", "up 0 1", "down 0 1", "dev 0", "up 0 1" };
    static const row rows[] = {
        { "down 0 1", FM_PHASE_ON, 1, 1, 0, 1, 0, FM_PLACE_ON, 1, 1, FM_PROGRESS_NEW, { 0, 0 }, { 0, 0 } },
        { "pathdown 11", FM_PHASE_RESET, 2, NONE, 0, 0, 0, FM_PLACE_ON, 1, 1, FM_PROGRESS_NEW, { 0, 0 }, { 0, 0 } },
        { "tsch 0 600", FM_PHASE_RESET, 2, NONE, 0, 0, 0, FM_PLACE_ON, 1, 1, FM_PROGRESS_NEW, { 0, 0 }, { 0, 0 } },
        { "choose 0", FM_PHASE_RESET, 2, NONE, 0, 0, 0, FM_PLACE_ON, 1, 1, FM_PROGRESS_NEW, { 0, 0 }, { 0, 0 } },
        { "pathup 10", FM_PHASE_RESET, 2, NONE, 0, 0, 0, FM_PLACE_ON, 1, 1, FM_PROGRESS_NEW, { 0, 0 }, { 0, 0 } },
        { "choose 0", FM_PHASE_RESET, 2, NONE, 0, 0, 0, FM_PLACE_ON, 1, 1, FM_PROGRESS_NEW, { FM_SIGNAL_RESET, 0 }, { 0, 0 } },
        { "down 0 0", FM_PHASE_RESET, 2, NONE, 0, 0, 0, FM_PLACE_IDLE, 0, 2, FM_PROGRESS_NONE, { 0, 0 }, { FM_SIGNAL_CLEARED, 0 } },
        { "up 0 0", FM_PHASE_FREE, 0, NONE, 0, 0, 0, FM_PLACE_IDLE, 0, 2, FM_PROGRESS_NONE, { 0, 0 }, { 0, 0 } },
        { "ssch 0 500", FM_PHASE_FREE, 0, NONE, 2, 0, 0, FM_PLACE_IDLE, 0, 2, FM_PROGRESS_NONE, { 0, 0 }, { 0, 0 } },
        { "choose 0", FM_PHASE_OFFER, 3, 0, 2, 0, 0, FM_PLACE_IDLE, 0, 2, FM_PROGRESS_NONE, { FM_SIGNAL_SELECT, 0 }, { 0, 0 } },
    };
    fm_hold_view hold;
    fm_unit_view unit;
    fm_programs_view programs;
    size_t at;
    for (at = 0; at < COUNT(before); at++) {
        play(before[at]);
    }
    play_rows(rows, 5, 2);
    EXPECT(fm_hold(&machine, WORD, &hold), 0);
    EXPECT(hold.reset_path, FM_NO_PATH);
    EXPECT(fm_unit_state(&machine, UNIT, &unit), 0);
    EXPECT(unit.command == 2 && unit.code == 0x02 && unit.command_path == 1, 1);
    play_rows(rows + 5, 1, 2);
    EXPECT(fm_hold(&machine, WORD, &hold), 0);
    EXPECT(hold.reset_path, 0);
    play_rows(rows + 6, 4, 2);
    EXPECT(fm_programs(&machine, WORD, &programs), 0);
    EXPECT(programs.starts == 2 && programs.offered == 2 && programs.drawn == 3, 1);
    EXPECT(fm_free(&machine), 0);
}

/* ---- A unit by itself ------------------------------------------------------------------------------------------------------------ */

/* A unit is restarted and tells so until the wire is full, as in examples/full-wire.chs; then its side 0 is reset. */
static void restarted(void)
{
    fm_hold_view hold;
    fm_unit_view unit;
    fm_wires_view wires;
    fm_signal_view signal;
    uint32_t at;
    set_up(one_path);
    play("restart 0");
    for (at = 0; at < 8; at++) {
        EXPECT(fm_wires(&machine, WORD, &wires), 0);
        EXPECT(wires.up[0], at);
        EXPECT(fm_signal_up(&machine, WORD, 0, at, &signal), FM_NOT_SENT);
        play("notice 0 0");
        EXPECT(fm_signal_up(&machine, WORD, 0, at, &signal), 0);
        EXPECT(signal.kind == FM_SIGNAL_NOTICE && signal.restarts == 1 && signal.number == 0, 1);
    }
    EXPECT(fm_wires(&machine, WORD, &wires), 0);
    EXPECT(wires.up[0], 8);
    EXPECT(fm_unit_notice(&machine, FM_LENT(&storage), UNIT, 0, 0), FM_WIRE_FULL);
    EXPECT(fm_signal_up(&machine, WORD, 0, 8, &signal), FM_NOT_SENT);
    EXPECT(fm_unit_state(&machine, UNIT, &unit), 0);
    EXPECT(unit.restarts == 1 && unit.fresh[0] == 1 && unit.fresh[1] == 1, 1);
    EXPECT(fm_hold(&machine, WORD, &hold), 0);
    EXPECT(hold.restarts == 0 && hold.phase == FM_PHASE_FREE, 1);
    play("up 0 0");
    EXPECT(fm_wires(&machine, WORD, &wires), 0);
    EXPECT(wires.up[0], 7);
    EXPECT(fm_hold(&machine, WORD, &hold), 0);
    EXPECT(hold.restarts == 1 && hold.phase == FM_PHASE_RESET, 1);
    play("choose 0");
    EXPECT(fm_signal_down(&machine, WORD, 0, 0, &signal), 0);
    EXPECT(signal.kind == FM_SIGNAL_RESET && signal.restarts == 1 && signal.number == hold.number, 1);
    play("up 0 0");
    play("down 0 0");
    EXPECT(fm_unit_state(&machine, UNIT, &unit), 0);
    EXPECT(unit.restarts == 1 && unit.fresh[0] == 0 && unit.fresh[1] == 1 && unit.floors[0] == hold.number, 1);
    EXPECT(fm_free(&machine), 0);
}

/* An attention is sent, taken and answered. */
static void attention(void)
{
    fm_unit_view unit;
    fm_signal_view signal;
    set_up(one_path);
    play("enable 0 0 0");
    play("attn 0 0");
    EXPECT(fm_unit_state(&machine, UNIT, &unit), 0);
    EXPECT(unit.attention == 1 && unit.attention_side == 0 && unit.place == FM_PLACE_IDLE, 1);
    EXPECT(fm_signal_up(&machine, WORD, 0, 0, &signal), 0);
    EXPECT(signal.kind == FM_SIGNAL_ATTN && signal.number == 1 && signal.status == FM_ATTENTION, 1);
    play("up 0 0");
    EXPECT(fm_signal_down(&machine, WORD, 0, 0, &signal), 0);
    EXPECT(signal.kind == FM_SIGNAL_GOT && signal.number == 1 && signal.status == 0, 1);
    play("down 0 0");
    EXPECT(fm_unit_state(&machine, UNIT, &unit), 0);
    EXPECT(unit.attention, 0);
    EXPECT(fm_free(&machine), 0);
}

/* ---- What is not there ----------------------------------------------------------------------------------------------------------- */

static void refusals(void)
{
    fm_hold_view hold;
    fm_hold_view same;
    fm_programs_view programs;
    fm_unit_view unit;
    fm_wires_view wires;
    fm_signal_view signal;
    memset(&hold, 0x5A, sizeof hold);
    same = hold;
    set_up(one_path);
    EXPECT(fm_hold(&machine, WORD + 1, &hold) == FM_NO_SUCH_SUBCHANNEL, 1);
    EXPECT(memcmp(&hold, &same, sizeof hold), 0);
    EXPECT(fm_programs(&machine, 0, &programs) == FM_NO_SUCH_SUBCHANNEL, 1);
    EXPECT(fm_wires(&machine, WORD + 1, &wires) == FM_NO_SUCH_SUBCHANNEL, 1);
    EXPECT(fm_signal_down(&machine, WORD + 1, 0, 0, &signal) == FM_NO_SUCH_SUBCHANNEL, 1);
    EXPECT(fm_signal_up(&machine, 0x00030000, 9, 9, &signal) == FM_NO_SUCH_SUBCHANNEL, 1);
    EXPECT(fm_unit_state(&machine, UNIT + 1, &unit) == FM_NO_SUCH_UNIT, 1);
    EXPECT(fm_unit_state(&machine, UINT32_MAX, &unit) == FM_NO_SUCH_UNIT, 1);
    EXPECT(fm_signal_down(&machine, WORD, 1, 0, &signal) == FM_NO_SUCH_PATH, 1);
    EXPECT(fm_signal_up(&machine, WORD, 8, 0, &signal) == FM_NO_SUCH_PATH, 1);
    EXPECT(fm_signal_up(&machine, WORD, UINT32_MAX, 0, &signal) == FM_NO_SUCH_PATH, 1);
    EXPECT(fm_signal_down(&machine, WORD, 0, 0, &signal) == FM_NOT_SENT, 1);
    EXPECT(fm_signal_up(&machine, WORD, 0, UINT32_MAX, &signal) == FM_NOT_SENT, 1);
    EXPECT(strcmp(fm_signal_name(FM_SIGNAL_ATTN), "Attn") == 0 && strcmp(fm_signal_name(0), "no signal") == 0, 1);
    EXPECT(strcmp(fm_phase_name(FM_PHASE_LETTING_GO), "letting go") == 0 && strcmp(fm_phase_name(6), "no phase") == 0, 1);
    EXPECT(fm_free(&machine), 0);
}

int main(void)
{
    lesson_1();
    lesson_4();
    lesson_5_away();
    lesson_5_lost();
    restarted();
    attention();
    refusals();
    printf("checks %u otherwise %u\n", checks, otherwise);
    return otherwise == 0 ? 0 : 1;
}
