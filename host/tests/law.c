/* What the calls refuse: closed handles, other stages, wrong lengths and numbers, storage of another size, answers that no device may
 * give; and what they take: null pointers beside a count of 0, keys of any byte. filuvamoth.h says what is wanted here.
 *
 *     law
 */
#include "filuvamoth.h"
#include <stdio.h>
#include <stdlib.h>
#include <string.h>

enum { BLOCKS = 16, WORD = 0x00010000, PATH = 0x10, OTHER = 0x11, UNIT = 0 };

static uint8_t guest[BLOCKS * 4096];
static uint8_t keys[BLOCKS];
static const fm_storage storage = { guest, sizeof guest, NULL, 0 };
static unsigned checks;
static unsigned otherwise;

static void expect_at(int line, const char *what, int64_t got, int64_t wanted)
{
    checks++;
    if (got != wanted) {
        otherwise++;
        printf("law.c:%d: %s is %lld, not %lld\n", line, what, (long long)got, (long long)wanted);
    }
}

#define EXPECT(got, wanted) expect_at(__LINE__, #got, (int64_t)(got), (int64_t)(wanted))

/* ---- Every call on a handle ------------------------------------------------------------------------------------------------------ */

/* What a look tells by a struct stays as it was. */
static void try_views(fm_machine *machine, int32_t refused)
{
    static const struct views {
        fm_hold_view hold;
        fm_programs_view programs;
        fm_unit_view unit;
        fm_wires_view wires;
        fm_signal_view signal;
    } before;
    struct views views = before;
    EXPECT(fm_hold(machine, WORD, &views.hold), refused);
    EXPECT(fm_programs(machine, WORD, &views.programs), refused);
    EXPECT(fm_unit_state(machine, UNIT, &views.unit), refused);
    EXPECT(fm_wires(machine, WORD, &views.wires), refused);
    EXPECT(fm_signal_down(machine, WORD, 0, 0, &views.signal), refused);
    EXPECT(fm_signal_up(machine, WORD, 0, 0, &views.signal), refused);
    EXPECT(views.hold.path == 0 && views.programs.starts == 0 && views.unit.path == 0 && views.signal.kind == 0, 1);
}

/* Each call but fm_version, fm_new and fm_free, with good arguments: what it answers. What is told stays as it was. */
static void try_all(fm_machine *machine, int32_t of_setting, int32_t of_event)
{
    static const uint32_t paths[1] = { PATH };
    static const uint32_t units[2] = { 0, 1 };
    static const uint8_t line[] = "sysreset";
    uint8_t block[64];
    uint8_t text[64];
    uint32_t words[3] = { 0x5A5A5A5A, 0x5A5A5A5A, 0x5A5A5A5A };
    uint64_t made = 77;
    uint64_t cleared = 78;
    size_t written = 79;
    fm_call call;
    fm_call call_before;
    fm_told told;
    fm_told told_before;
    static const fm_answer answer = { FM_ENDED, FM_DEVICE_END, 0, 0 };
    memset(block, 0x5A, sizeof block);
    memset(text, 0x5A, sizeof text);
    memset(&call, 0, sizeof call);
    memset(&told, 0, sizeof told);
    call.count = 9;
    told.kind = 9;
    call_before = call;
    told_before = told;
    EXPECT(fm_set_sets(machine, 2), of_setting);
    EXPECT(fm_add_path(machine, PATH), of_setting);
    EXPECT(fm_add_unit(machine, 0), of_setting);
    EXPECT(fm_share(machine, units, 2), of_setting);
    EXPECT(fm_add_subchannel(machine, WORD, 0x100, 0, paths, 1), of_setting);
    EXPECT(fm_set_concurrent_sense(machine, 1), of_setting);
    EXPECT(fm_set_path_return(machine, 1), of_setting);
    EXPECT(fm_set_up_line(machine, (const uint8_t *)"path 10", 7), of_setting);
    EXPECT(fm_start(machine, BLOCKS, FM_KEEP_NONE), of_setting);
    EXPECT(fm_history_count(machine, &made), of_event);
    EXPECT(fm_forget(machine), of_event);
    EXPECT(fm_ssch(machine, FM_LENT(&storage), 0, WORD, 0x500), of_event);
    EXPECT(fm_tsch(machine, FM_LENT(&storage), 0, WORD, 0x600), of_event);
    EXPECT(fm_stsch(machine, FM_LENT(&storage), 0, WORD, 0x600), of_event);
    EXPECT(fm_msch(machine, FM_LENT(&storage), 0, WORD, 0x600), of_event);
    EXPECT(fm_rsch(machine, FM_LENT(&storage), 0, WORD), of_event);
    EXPECT(fm_hsch(machine, FM_LENT(&storage), 0, WORD), of_event);
    EXPECT(fm_csch(machine, FM_LENT(&storage), 0, WORD), of_event);
    EXPECT(fm_xsch(machine, FM_LENT(&storage), 0, WORD), of_event);
    EXPECT(fm_tpi(machine, FM_LENT(&storage), 0, 0xFF, 0), of_event);
    EXPECT(fm_rchp(machine, FM_LENT(&storage), 0, PATH), of_event);
    EXPECT(fm_stcrw(machine, FM_LENT(&storage), 0, 0x600), of_event);
    EXPECT(fm_stcps(machine, FM_LENT(&storage), 0, 0x600), of_event);
    EXPECT(fm_enable(machine, FM_LENT(&storage), 0, WORD, 0, 0), of_event);
    EXPECT(fm_ssch_orb(machine, 0, WORD, block, 12), of_event);
    EXPECT(fm_msch_schib(machine, 0, WORD, block, 52), of_event);
    EXPECT(fm_stsch_schib(machine, 0, WORD, block, 52), of_event);
    EXPECT(fm_tsch_irb(machine, 0, WORD, block, 64), of_event);
    EXPECT(fm_tpi_code(machine, 0, 0xFF, words, 3), of_event);
    EXPECT(fm_stcrw_word(machine, 0, words, 1), of_event);
    EXPECT(fm_stcps_bytes(machine, 0, block, 32), of_event);
    EXPECT(fm_turn_subchannel(machine, FM_LENT(&storage), WORD), of_event);
    EXPECT(fm_turn_unit(machine, FM_LENT(&storage), UNIT), of_event);
    EXPECT(fm_choose(machine, FM_LENT(&storage), WORD), of_event);
    EXPECT(fm_up(machine, FM_LENT(&storage), WORD, 0), of_event);
    EXPECT(fm_down(machine, FM_LENT(&storage), WORD, 0), of_event);
    EXPECT(fm_work(machine, UNIT, &call, block, sizeof block), of_event);
    EXPECT(fm_report(machine, FM_LENT(&storage), UNIT, &call, &answer, NULL, 0), of_event);
    EXPECT(fm_unit_leave(machine, FM_LENT(&storage), UNIT), of_event);
    EXPECT(fm_unit_ask(machine, FM_LENT(&storage), UNIT, 0), of_event);
    EXPECT(fm_unit_attention(machine, FM_LENT(&storage), UNIT, 0, 0), of_event);
    EXPECT(fm_unit_notice(machine, FM_LENT(&storage), UNIT, 0, 0), of_event);
    EXPECT(fm_unit_restart(machine, FM_LENT(&storage), UNIT), of_event);
    EXPECT(fm_path_down(machine, FM_LENT(&storage), PATH), of_event);
    EXPECT(fm_path_up(machine, FM_LENT(&storage), PATH), of_event);
    EXPECT(fm_path_reset(machine, FM_LENT(&storage), PATH), of_event);
    EXPECT(fm_system_reset(machine, FM_LENT(&storage)), of_event);
    EXPECT(fm_put(machine, FM_LENT(&storage), 0x500, line, 4), of_event);
    EXPECT(fm_set_key(machine, FM_LENT(&storage), 0x500, 0x10), of_event);
    EXPECT(fm_set_prefix(machine, FM_LENT(&storage), 0, 0x2000), of_event);
    EXPECT(fm_requests(machine), of_event);
    EXPECT(fm_report_count(machine), of_event);
    EXPECT(fm_schib(machine, WORD, block, 52), of_event);
    EXPECT(fm_irb(machine, WORD, block, 64), of_event);
    EXPECT(fm_serials(machine, WORD, &made, &cleared), of_event);
    EXPECT(fm_path(machine, PATH), of_event);
    EXPECT(fm_seen(machine, &told), of_event);
    try_views(machine, of_event);
    EXPECT(fm_line(machine, FM_LENT(&storage), line, sizeof line - 1, text, sizeof text, &written), of_event);
    /* Nothing was told, and nothing stored. */
    EXPECT(made, 77);
    EXPECT(cleared, 78);
    EXPECT(written, 0);
    EXPECT(memcmp(&call, &call_before, sizeof call), 0);
    EXPECT(memcmp(&told, &told_before, sizeof told), 0);
    EXPECT(words[0] == 0x5A5A5A5A && words[1] == 0x5A5A5A5A && words[2] == 0x5A5A5A5A, 1);
    EXPECT(block[0] == 0x5A && memcmp(block, block + 1, sizeof block - 1) == 0, 1);
    EXPECT(text[0] == 0x5A && memcmp(text, text + 1, sizeof text - 1) == 0, 1);
    EXPECT(guest[0] == 0 && memcmp(guest, guest + 1, sizeof guest - 1) == 0, 1);
}

static void handles(void)
{
    fm_machine machine = FM_MACHINE_INIT;
    void *held;
    EXPECT(fm_version() >> 16, FM_ABI);
    EXPECT(fm_free(&machine), FM_CLOSED);
    try_all(&machine, FM_CLOSED, FM_CLOSED);
    EXPECT(machine.held == NULL && !machine.open, 1);
    EXPECT(fm_new(&machine), 0);
    EXPECT(machine.held != NULL && machine.open, 1);
    held = machine.held;
    EXPECT(fm_new(&machine), FM_ALREADY_OPEN);
    EXPECT(machine.held == held && machine.open, 1);
    EXPECT(fm_free(&machine), 0);
    EXPECT(machine.held == NULL && !machine.open, 1);
    EXPECT(fm_free(&machine), FM_CLOSED);
    try_all(&machine, FM_CLOSED, FM_CLOSED);
    EXPECT(fm_new(&machine), 0);
    EXPECT(fm_free(&machine), 0);
}

/* ---- Settings -------------------------------------------------------------------------------------------------------------------- */

/* Calls that are for a machine that runs, on one that does not. Settings are good there, so they are tried apart. */
static void before_start(void)
{
    fm_machine machine = FM_MACHINE_INIT;
    uint8_t block[64] = { 0 };
    uint64_t made = 1;
    uint64_t cleared = 2;
    fm_told told;
    EXPECT(fm_new(&machine), 0);
    EXPECT(fm_ssch(&machine, FM_LENT(&storage), 0, WORD, 0x500), FM_AT_OTHER_STAGE);
    EXPECT(fm_tsch_irb(&machine, 0, WORD, block, 64), FM_AT_OTHER_STAGE);
    EXPECT(fm_turn_unit(&machine, FM_LENT(&storage), 0), FM_AT_OTHER_STAGE);
    EXPECT(fm_requests(&machine), FM_AT_OTHER_STAGE);
    EXPECT(fm_serials(&machine, WORD, &made, &cleared), FM_AT_OTHER_STAGE);
    EXPECT(made == 1 && cleared == 2, 1);
    EXPECT(fm_seen(&machine, &told), FM_AT_OTHER_STAGE);
    try_views(&machine, FM_AT_OTHER_STAGE);
    EXPECT(fm_free(&machine), 0);
}

static void settings(void)
{
    static const uint32_t nine[9] = { 0, 1, 2, 3, 4, 5, 6, 7, 8 };
    static const uint32_t twice[2] = { 0, 0 };
    static const uint32_t both[2] = { 0, 1 };
    fm_machine machine = FM_MACHINE_INIT;
    uint32_t at;
    EXPECT(fm_new(&machine), 0);
    EXPECT(fm_set_sets(&machine, 0), FM_RULE_SETS);
    EXPECT(fm_set_sets(&machine, 5), FM_RULE_SETS);
    EXPECT(fm_set_sets(&machine, 2), 0);
    EXPECT(fm_set_sets(&machine, 2), FM_RULE_SETS);
    for (at = 0; at < 9; at++) {
        EXPECT(fm_add_path(&machine, at), 0);
    }
    EXPECT(fm_add_path(&machine, 8), FM_RULE_CHANNEL_PATH);
    EXPECT(fm_add_path(&machine, 256), FM_RULE_CHANNEL_PATH);
    EXPECT(fm_add_unit(&machine, 1), FM_RULE_UNIT_NUMBER);
    EXPECT(fm_add_unit(&machine, 0), 0);
    EXPECT(fm_add_unit(&machine, 0), FM_RULE_UNIT_NUMBER);
    EXPECT(fm_add_unit(&machine, 1), 0);
    EXPECT(fm_share(&machine, twice, 2), FM_RULE_SHARED_UNIT);
    EXPECT(fm_share(&machine, nine, 3), FM_RULE_SHARED_UNIT);
    EXPECT(fm_share(&machine, both, 2), 0);
    EXPECT(fm_share(&machine, both, 2), FM_RULE_SHARED_UNIT);
    EXPECT(fm_add_subchannel(&machine, WORD + 1, 0x100, 0, nine, 1), FM_RULE_SUBCHANNEL_NAME);
    EXPECT(fm_add_subchannel(&machine, WORD, 0x10000, 0, nine, 1), FM_RULE_SUBCHANNEL_NAME);
    EXPECT(fm_add_subchannel(&machine, WORD, 0x100, 2, nine, 1), FM_RULE_UNIT_OF_SUBCHANNEL);
    EXPECT(fm_add_subchannel(&machine, WORD, 0x100, 0, NULL, 0), FM_RULE_PATHS_OF_SUBCHANNEL);
    EXPECT(fm_add_subchannel(&machine, WORD, 0x100, 0, nine, 9), FM_RULE_PATHS_OF_SUBCHANNEL);
    EXPECT(fm_add_subchannel(&machine, WORD, 0x100, 0, twice, 2), FM_RULE_PATHS_OF_SUBCHANNEL);
    EXPECT(fm_add_subchannel(&machine, WORD, 0x100, 0, nine, 8), 0);
    EXPECT(fm_add_subchannel(&machine, 0x00030000, 0x100, 1, nine, 8), 0);
    EXPECT(fm_set_sets(&machine, 3), FM_RULE_SETS);
    EXPECT(fm_start(&machine, 15, FM_KEEP_NONE), FM_BAD_ARGUMENT);
    EXPECT(fm_start(&machine, 524289, FM_KEEP_NONE), FM_BAD_ARGUMENT);
    EXPECT(fm_start(&machine, BLOCKS, 2), FM_BAD_ARGUMENT);
    EXPECT(fm_start(&machine, BLOCKS, FM_KEEP_ALL), 0);
    EXPECT(fm_start(&machine, BLOCKS, FM_KEEP_ALL), FM_AT_OTHER_STAGE);
    EXPECT(fm_add_path(&machine, 9), FM_AT_OTHER_STAGE);
    EXPECT(fm_add_unit(&machine, 2), FM_AT_OTHER_STAGE);
    EXPECT(fm_share(&machine, both, 2), FM_AT_OTHER_STAGE);
    EXPECT(fm_add_subchannel(&machine, WORD + 1, 0x100, 1, nine, 1), FM_AT_OTHER_STAGE);
    EXPECT(fm_set_sets(&machine, 2), FM_AT_OTHER_STAGE);
    EXPECT(fm_set_concurrent_sense(&machine, 0), FM_AT_OTHER_STAGE);
    EXPECT(fm_set_path_return(&machine, 0), FM_AT_OTHER_STAGE);
    EXPECT(fm_free(&machine), 0);
}

static int32_t set_up(fm_machine *machine, const char *line)
{
    return fm_set_up_line(machine, (const uint8_t *)line, strlen(line));
}

/* The lines of a script that set a machine up, and what is no such line. */
static void lines_of_the_setup(void)
{
    fm_machine machine = FM_MACHINE_INIT;
    uint8_t schib[52];
    EXPECT(fm_new(&machine), 0);
    EXPECT(fm_start(&machine, 0, FM_KEEP_NONE), FM_BAD_ARGUMENT);
    EXPECT(set_up(&machine, "storage 10"), 0);
    EXPECT(set_up(&machine, "storage 10"), FM_RULE_STORAGE_SIZE);
    EXPECT(set_up(&machine, "path 10\npath 11"), 0);
    EXPECT(set_up(&machine, "path 10"), FM_RULE_CHANNEL_PATH);
    EXPECT(set_up(&machine, "unit 0 console"), 0);
    EXPECT(set_up(&machine, "unit 0 block"), FM_RULE_UNIT_NUMBER);
    EXPECT(set_up(&machine, "sub 0 190 0 11"), FM_RULE_PATHS_OF_SUBCHANNEL);
    EXPECT(set_up(&machine, "sub 0 190 0 10"), 0);
    EXPECT(set_up(&machine, "choose 0"), FM_LINE_UNKNOWN_WORD);
    EXPECT(set_up(&machine, ""), FM_LINE_UNKNOWN_WORD);
    EXPECT(fm_set_up_line(&machine, NULL, 0), FM_LINE_UNKNOWN_WORD);
    EXPECT(set_up(&machine, "sets"), FM_LINE_WRONG_COUNT);
    EXPECT(set_up(&machine, "path 1G"), FM_LINE_BAD_WORD);
    EXPECT(fm_start(&machine, 0, FM_KEEP_NONE), 0);
    EXPECT(set_up(&machine, "path 11"), FM_AT_OTHER_STAGE);
    EXPECT(fm_stsch_schib(&machine, 0, WORD, schib, sizeof schib), 0);
    EXPECT(schib[6] * 256 + schib[7], 0x190);
    EXPECT(fm_choose(&machine, FM_LENT(&storage), WORD), 0);
    EXPECT(fm_free(&machine), 0);
}

/* Byte 27 of a subchannel's block, which has the concurrent-sense bit, after MODIFY SUBCHANNEL by a block in which that is one. */
static uint8_t sense_after_modify(fm_machine *machine, uint32_t word)
{
    uint8_t schib[52];
    EXPECT(fm_stsch_schib(machine, 0, word, schib, sizeof schib), 0);
    EXPECT(schib[27], 0);
    schib[27] |= 0x01;
    EXPECT(fm_msch_schib(machine, 0, word, schib, sizeof schib), 0);
    EXPECT(fm_stsch_schib(machine, 0, word, schib, sizeof schib), 0);
    return schib[27];
}

/* What the two settings for Linux change, of which that for a subchannel holds for those that are added after it:
 * docs/DEVIATIONS.md says what each word is with them and without. Enabling leaves the bit; a reset of the subsystem takes it away. */
static void choices(uint32_t chosen, uint8_t sense, uint32_t report)
{
    static const uint32_t paths[1] = { PATH };
    fm_machine machine = FM_MACHINE_INIT;
    uint8_t schib[52];
    uint32_t word[1];
    EXPECT(fm_new(&machine), 0);
    EXPECT(fm_set_concurrent_sense(&machine, chosen), 0);
    EXPECT(fm_set_path_return(&machine, chosen), 0);
    EXPECT(fm_add_path(&machine, PATH), 0);
    EXPECT(fm_add_unit(&machine, 0), 0);
    EXPECT(fm_add_unit(&machine, 1), 0);
    EXPECT(fm_add_subchannel(&machine, WORD, 0x100, 0, paths, 1), 0);
    EXPECT(fm_set_concurrent_sense(&machine, sense ? 0 : 1), 0);
    EXPECT(fm_add_subchannel(&machine, WORD + 1, 0x101, 1, paths, 1), 0);
    EXPECT(fm_start(&machine, BLOCKS, FM_KEEP_NONE), 0);
    EXPECT(sense_after_modify(&machine, WORD), sense);
    EXPECT(sense_after_modify(&machine, WORD + 1), 1 - sense);
    EXPECT(fm_enable(&machine, FM_LENT(&storage), 0, WORD, 3, 0), 0);
    EXPECT(fm_stsch_schib(&machine, 0, WORD, schib, sizeof schib), 0);
    EXPECT(schib[27], sense);
    EXPECT(fm_path_down(&machine, FM_LENT(&storage), PATH), 0);
    EXPECT(fm_path_up(&machine, FM_LENT(&storage), PATH), 0);
    EXPECT(fm_stcrw_word(&machine, 0, word, 1), 0);
    EXPECT(word[0], 0x04060000 | PATH);
    EXPECT(fm_stcrw_word(&machine, 0, word, 1), 0);
    EXPECT(word[0], report | PATH);
    EXPECT(fm_system_reset(&machine, FM_LENT(&storage)), 0);
    EXPECT(fm_stsch_schib(&machine, 0, WORD, schib, sizeof schib), 0);
    EXPECT(schib[27], 0);
    EXPECT(fm_free(&machine), 0);
}

/* ---- A machine that runs --------------------------------------------------------------------------------------------------------- */

/* Two paths, two units, two subchannels, of which the first is enabled; storage is cleared but for F00, where it was. */
static void open_machine(fm_machine *machine)
{
    static const uint32_t both[2] = { PATH, OTHER };
    memset(machine, 0, sizeof *machine);
    memset(guest, 0, sizeof guest);
    EXPECT(fm_new(machine), 0);
    EXPECT(fm_add_path(machine, PATH), 0);
    EXPECT(fm_add_path(machine, OTHER), 0);
    EXPECT(fm_add_unit(machine, 0), 0);
    EXPECT(fm_add_unit(machine, 1), 0);
    EXPECT(fm_add_subchannel(machine, WORD, 0x100, 0, both, 1), 0);
    EXPECT(fm_add_subchannel(machine, WORD + 1, 0x101, 1, both, 2), 0);
    EXPECT(fm_start(machine, BLOCKS, FM_KEEP_NONE), 0);
    EXPECT(fm_enable(machine, FM_LENT(&storage), 0, WORD, 3, 0), 0);
}

/* The ORB at 500, the write of four bytes at 1000, or what command is given; data at 2000. */
static void store_program(uint8_t command, uint8_t count)
{
    static const uint8_t orb[12] = { 0, 0, 0, 0, 0x00, 0x80, 0xFF, 0x00, 0x00, 0x00, 0x10, 0x00 };
    const uint8_t ccw[8] = { command, 0x20, 0, count, 0, 0, 0x20, 0 };
    static const uint8_t data[4] = { 0xC1, 0xC2, 0xC3, 0xC4 };
    memcpy(guest + 0x500, orb, sizeof orb);
    memcpy(guest + 0x1000, ccw, sizeof ccw);
    memcpy(guest + 0x2000, data, sizeof data);
}

static void sizes(void)
{
    fm_machine machine;
    uint8_t schib[52];
    uint8_t after[52];
    size_t written = 7;
    uint8_t text[16];
    open_machine(&machine);
    EXPECT(fm_schib(&machine, WORD, schib, sizeof schib), 0);
    EXPECT(fm_csch(&machine, guest, sizeof guest - 1, NULL, 0, 0, WORD), FM_OTHER_SIZE);
    EXPECT(fm_csch(&machine, guest, sizeof guest - 4096, NULL, 0, 0, WORD), FM_OTHER_SIZE);
    EXPECT(fm_csch(&machine, NULL, 0, NULL, 0, 0, WORD), FM_OTHER_SIZE);
    EXPECT(fm_csch(&machine, guest, sizeof guest, keys, BLOCKS - 1, 0, WORD), FM_OTHER_SIZE);
    EXPECT(fm_csch(&machine, guest, sizeof guest, keys, 1, 0, WORD), FM_OTHER_SIZE);
    EXPECT(fm_path_down(&machine, NULL, 0, NULL, 0, PATH), FM_OTHER_SIZE);
    EXPECT(fm_line(&machine, NULL, 0, NULL, 0, (const uint8_t *)"csch 0", 6, text, sizeof text, &written), FM_OTHER_SIZE);
    EXPECT(written == 10 && memcmp(text, "other size", 10) == 0, 1);
    EXPECT(fm_schib(&machine, WORD, after, sizeof after), 0);
    EXPECT(memcmp(schib, after, sizeof schib), 0);
    EXPECT(fm_csch(&machine, guest, sizeof guest, keys, BLOCKS, 0, WORD), 0);
    EXPECT(fm_schib(&machine, WORD, after, sizeof after), 0);
    EXPECT(memcmp(schib, after, sizeof schib) != 0, 1);
    EXPECT(fm_free(&machine), 0);
}

static void arguments(void)
{
    fm_machine machine;
    uint8_t block[65] = { 0 };
    uint8_t many[257] = { 0 };
    uint32_t words[4] = { 0 };
    uint64_t made = 5;
    uint64_t cleared = 6;
    static const fm_call call = { 0, 0, 0, 0, 0, 0, 0, 0, 0 };
    static const fm_call other_side = { 0, 0, 0, 0, 2, 0, 0, 0, 0 };
    static const fm_answer none = { 0, 0, 0, 0 };
    static const fm_answer fifth = { 5, 0, 0, 0 };
    static const fm_answer wide = { FM_ENDED, 0x100, 0, 0 };
    static const fm_answer deep = { FM_ABSORBED, 0, 0x10000, 0 };
    static const fm_answer supplied = { FM_SUPPLIED, 0, 0, 0 };
    open_machine(&machine);
    EXPECT(fm_ssch(&machine, FM_LENT(&storage), 16, WORD, 0x500), FM_BAD_ARGUMENT);
    EXPECT(fm_rchp(&machine, FM_LENT(&storage), 16, PATH), FM_BAD_ARGUMENT);
    EXPECT(fm_enable(&machine, FM_LENT(&storage), 16, WORD, 0, 0), FM_BAD_ARGUMENT);
    EXPECT(fm_enable(&machine, FM_LENT(&storage), 0, WORD, 256, 0), FM_BAD_ARGUMENT);
    EXPECT(fm_tpi(&machine, FM_LENT(&storage), 0, 0x100, 0), FM_BAD_ARGUMENT);
    EXPECT(fm_tpi(&machine, FM_LENT(&storage), 16, 0xFF, 0), FM_BAD_ARGUMENT);
    EXPECT(fm_tpi_code(&machine, 0, 0x100, words, 3), FM_BAD_ARGUMENT);
    EXPECT(fm_tpi_code(&machine, 16, 0xFF, words, 3), FM_BAD_ARGUMENT);
    EXPECT(fm_tpi_code(&machine, 0, 0xFF, words, 2), FM_BAD_ARGUMENT);
    EXPECT(fm_tpi_code(&machine, 0, 0xFF, words, 4), FM_BAD_ARGUMENT);
    EXPECT(fm_tpi_code(&machine, 0, 0xFF, NULL, 0), FM_BAD_ARGUMENT);
    EXPECT(fm_stcrw_word(&machine, 0, words, 2), FM_BAD_ARGUMENT);
    EXPECT(fm_stcrw_word(&machine, 0, NULL, 0), FM_BAD_ARGUMENT);
    EXPECT(fm_stcps_bytes(&machine, 0, block, 31), FM_BAD_ARGUMENT);
    EXPECT(fm_stcps_bytes(&machine, 0, block, 33), FM_BAD_ARGUMENT);
    EXPECT(fm_ssch_orb(&machine, 0, WORD, block, 11), FM_BAD_ARGUMENT);
    EXPECT(fm_ssch_orb(&machine, 0, WORD, block, 13), FM_BAD_ARGUMENT);
    EXPECT(fm_ssch_orb(&machine, 0, WORD, NULL, 0), FM_BAD_ARGUMENT);
    EXPECT(fm_ssch_orb(&machine, 16, WORD, block, 12), FM_BAD_ARGUMENT);
    EXPECT(fm_msch_schib(&machine, 0, WORD, block, 51), FM_BAD_ARGUMENT);
    EXPECT(fm_msch_schib(&machine, 0, WORD, block, 53), FM_BAD_ARGUMENT);
    EXPECT(fm_stsch_schib(&machine, 0, WORD, block, 51), FM_BAD_ARGUMENT);
    EXPECT(fm_stsch_schib(&machine, 0, WORD, NULL, 0), FM_BAD_ARGUMENT);
    EXPECT(fm_tsch_irb(&machine, 0, WORD, block, 63), FM_BAD_ARGUMENT);
    EXPECT(fm_tsch_irb(&machine, 0, WORD, block, 65), FM_BAD_ARGUMENT);
    EXPECT(fm_put(&machine, FM_LENT(&storage), 0, many, 257), FM_BAD_ARGUMENT);
    EXPECT(fm_put(&machine, FM_LENT(&storage), 0, many, 256), 0);
    EXPECT(fm_put(&machine, FM_LENT(&storage), sizeof guest - 255, many, 256), FM_ADDRESSING);
    EXPECT(fm_set_key(&machine, FM_LENT(&storage), 0, 256), FM_BAD_ARGUMENT);
    EXPECT(fm_set_key(&machine, FM_LENT(&storage), sizeof guest, 0), FM_ADDRESSING);
    EXPECT(fm_set_prefix(&machine, FM_LENT(&storage), 16, 0), FM_BAD_ARGUMENT);
    EXPECT(fm_set_prefix(&machine, FM_LENT(&storage), 0, 0x1000), FM_SPECIFICATION);
    EXPECT(fm_set_prefix(&machine, FM_LENT(&storage), 0, sizeof guest), FM_ADDRESSING);
    EXPECT(fm_unit_attention(&machine, FM_LENT(&storage), 0, 0, 2), FM_BAD_ARGUMENT);
    EXPECT(fm_unit_notice(&machine, FM_LENT(&storage), 0, 0, 2), FM_BAD_ARGUMENT);
    EXPECT(fm_path(&machine, 256), FM_BAD_ARGUMENT);
    EXPECT(fm_report(&machine, FM_LENT(&storage), 0, &call, &none, NULL, 0), FM_BAD_ARGUMENT);
    EXPECT(fm_report(&machine, FM_LENT(&storage), 0, &call, &fifth, NULL, 0), FM_BAD_ARGUMENT);
    EXPECT(fm_report(&machine, FM_LENT(&storage), 0, &call, &wide, NULL, 0), FM_BAD_ARGUMENT);
    EXPECT(fm_report(&machine, FM_LENT(&storage), 0, &call, &deep, NULL, 0), FM_BAD_ARGUMENT);
    EXPECT(fm_report(&machine, FM_LENT(&storage), 0, &call, &supplied, many, 257), FM_BAD_ARGUMENT);
    EXPECT(fm_report(&machine, FM_LENT(&storage), 0, &other_side, &supplied, many, 1), FM_BAD_ARGUMENT);
    EXPECT(fm_report(&machine, FM_LENT(&storage), 0, &call, &supplied, many, 256), FM_NOT_NOW);
    EXPECT(fm_report(&machine, FM_LENT(&storage), 2, &call, &supplied, many, 1), FM_NO_SUCH_UNIT);
    /* What is not there. */
    EXPECT(fm_choose(&machine, FM_LENT(&storage), WORD + 2), FM_NO_SUCH_SUBCHANNEL);
    EXPECT(fm_turn_subchannel(&machine, FM_LENT(&storage), WORD + 2), FM_NO_SUCH_SUBCHANNEL);
    EXPECT(fm_up(&machine, FM_LENT(&storage), WORD + 2, 0), FM_NO_SUCH_SUBCHANNEL);
    EXPECT(fm_up(&machine, FM_LENT(&storage), WORD, 1), FM_NO_SUCH_PATH);
    EXPECT(fm_up(&machine, FM_LENT(&storage), WORD, 0), FM_NOT_SENT);
    EXPECT(fm_down(&machine, FM_LENT(&storage), WORD, 0), FM_NOT_SENT);
    EXPECT(fm_turn_unit(&machine, FM_LENT(&storage), 2), FM_NO_SUCH_UNIT);
    EXPECT(fm_unit_leave(&machine, FM_LENT(&storage), 2), FM_NO_SUCH_UNIT);
    EXPECT(fm_unit_leave(&machine, FM_LENT(&storage), 0), FM_NOT_NOW);
    EXPECT(fm_unit_restart(&machine, FM_LENT(&storage), 2), FM_NO_SUCH_UNIT);
    EXPECT(fm_path_down(&machine, FM_LENT(&storage), 0x12), FM_NO_SUCH_PATH);
    EXPECT(fm_path_up(&machine, FM_LENT(&storage), PATH), FM_NOT_NOW);
    EXPECT(fm_path_reset(&machine, FM_LENT(&storage), PATH), FM_NOT_NOW);
    EXPECT(fm_schib(&machine, WORD + 2, block, 52), FM_NO_SUCH_SUBCHANNEL);
    EXPECT(fm_irb(&machine, WORD + 2, block, 64), FM_NO_SUCH_SUBCHANNEL);
    EXPECT(fm_serials(&machine, WORD + 2, &made, &cleared), FM_NO_SUCH_SUBCHANNEL);
    EXPECT(made == 5 && cleared == 6, 1);
    EXPECT(fm_path(&machine, PATH), FM_PATH_UP);
    EXPECT(fm_path(&machine, 0x12), FM_PATH_DOWN);
    /* Instructions: codes and program interruptions (SA22-7832, chapter 14). */
    EXPECT(fm_ssch(&machine, FM_LENT(&storage), 0, WORD, 0x502), FM_SPECIFICATION);
    EXPECT(fm_ssch(&machine, FM_LENT(&storage), 0, WORD, sizeof guest), FM_ADDRESSING);
    EXPECT(fm_ssch(&machine, FM_LENT(&storage), 0, 0x00050000, 0x500), FM_OPERAND);
    EXPECT(fm_program_interruption(FM_OPERAND), 0x15);
    EXPECT(fm_program_interruption(FM_ADDRESSING), 5);
    EXPECT(fm_program_interruption(FM_NOT_NOW), 0);
    EXPECT(fm_program_interruption(0), 0);
    EXPECT(fm_program_interruption(FM_RULE_SETS), 0);
    EXPECT(fm_ssch(&machine, FM_LENT(&storage), 0, WORD + 2, 0x500), 3);
    EXPECT(fm_tsch(&machine, FM_LENT(&storage), 0, WORD + 2, 0x600), 3);
    EXPECT(fm_tsch(&machine, FM_LENT(&storage), 0, WORD, 0x600), 1);
    EXPECT(fm_tpi(&machine, FM_LENT(&storage), 0, 0xFF, 0), 0);
    EXPECT(fm_stcrw(&machine, FM_LENT(&storage), 0, 0x600), 1);
    EXPECT(fm_stcps(&machine, FM_LENT(&storage), 0, 0x600), 0);
    EXPECT(fm_free(&machine), 0);
}

/* ---- Null pointers beside a count of 0, and rooms that are too short --------------------------------------------------------------- */

static void rooms(void)
{
    fm_machine machine;
    uint8_t block[64];
    uint8_t other[64];
    uint8_t text[64];
    size_t written = 99;
    fm_call call;
    open_machine(&machine);
    EXPECT(fm_schib(&machine, WORD, NULL, 0), 0);
    EXPECT(fm_irb(&machine, WORD, NULL, 0), 0);
    EXPECT(fm_work(&machine, UNIT, &call, NULL, 0), FM_RESTS);
    EXPECT(call.kind, FM_CALL_NONE);
    EXPECT(fm_line(&machine, FM_LENT(&storage), NULL, 0, text, sizeof text, &written), FM_LINE_UNKNOWN_WORD);
    EXPECT(written, 0);
    written = 99;
    EXPECT(fm_line(&machine, FM_LENT(&storage), (const uint8_t *)"put 500 C1", 10, NULL, 0, &written), 0);
    EXPECT(written, 0);
    EXPECT(guest[0x500], 0xC1);
    EXPECT(fm_put(&machine, FM_LENT(&storage), 0x501, NULL, 0), 0);
    /* What has no room is left out, and what is behind the room stays. */
    EXPECT(fm_schib(&machine, WORD, block, 52), 0);
    memset(other, 0x5A, sizeof other);
    EXPECT(fm_schib(&machine, WORD, other, 51), 0);
    EXPECT(memcmp(block, other, 51) == 0 && other[51] == 0x5A, 1);
    memset(other, 0x5A, sizeof other);
    EXPECT(fm_schib(&machine, WORD, other, 64), 0);
    EXPECT(memcmp(block, other, 52) == 0 && other[52] == 0x5A && other[63] == 0x5A, 1);
    memset(text, 0x5A, sizeof text);
    EXPECT(fm_line(&machine, FM_LENT(&storage), (const uint8_t *)"up 0 0", 6, text, 4, &written), FM_NOT_SENT);
    EXPECT(written == 4 && memcmp(text, "refu\x5A", 5) == 0, 1);
    EXPECT(fm_line(&machine, FM_LENT(&storage), (const uint8_t *)"up 0 0", 6, text, sizeof text, &written), FM_NOT_SENT);
    EXPECT(written == 9 && memcmp(text, "refused 3", 9) == 0, 1);
    /* The first line of a text alone. */
    EXPECT(fm_line(&machine, FM_LENT(&storage), (const uint8_t *)"put 500 C2\nput 500 C3", 21, text, sizeof text, &written), 0);
    EXPECT(written == 4 && memcmp(text, "done", 4) == 0 && guest[0x500] == 0xC2, 1);
    EXPECT(fm_line(&machine, FM_LENT(&storage), (const uint8_t *)"dev 0", 5, text, sizeof text, &written), FM_LINE_UNKNOWN_WORD);
    EXPECT(fm_line(&machine, FM_LENT(&storage), (const uint8_t *)"glance 0", 8, text, sizeof text, &written), FM_LINE_UNKNOWN_WORD);
    EXPECT(fm_line(&machine, FM_LENT(&storage), (const uint8_t *)"path 10", 7, text, sizeof text, &written), FM_LINE_UNKNOWN_WORD);
    EXPECT(fm_line(&machine, FM_LENT(&storage), (const uint8_t *)"race 1 1 tsch 0", 15, text, sizeof text, &written), FM_LINE_UNKNOWN_WORD);
    EXPECT(fm_line(&machine, FM_LENT(&storage), (const uint8_t *)"# up 0 0", 8, text, sizeof text, &written), FM_LINE_UNKNOWN_WORD);
    EXPECT(fm_line(&machine, FM_LENT(&storage), (const uint8_t *)"up 0", 4, text, sizeof text, &written), FM_LINE_WRONG_COUNT);
    EXPECT(fm_line(&machine, FM_LENT(&storage), (const uint8_t *)"up 0 x", 6, text, sizeof text, &written), FM_LINE_BAD_WORD);
    EXPECT(written, 0);
    EXPECT(fm_free(&machine), 0);
}

/* ---- What is seen ---------------------------------------------------------------------------------------------------------------- */

static void seen(void)
{
    static const uint32_t path[1] = { PATH };
    fm_machine machine = FM_MACHINE_INIT;
    fm_told told;
    uint8_t block[64];
    uint32_t words[3];
    uint64_t made = 9, cleared = 9;
    memset(guest, 0, sizeof guest);
    EXPECT(fm_new(&machine), 0);
    EXPECT(fm_add_path(&machine, PATH), 0);
    EXPECT(fm_add_unit(&machine, 0), 0);
    EXPECT(fm_add_subchannel(&machine, WORD, 0x100, 0, path, 1), 0);
    EXPECT(fm_start(&machine, BLOCKS, FM_KEEP_ALL), 0);
    EXPECT(fm_seen(&machine, &told), 0);
    EXPECT(told.kind, FM_TOLD_NOTHING);
    EXPECT(fm_set_prefix(&machine, FM_LENT(&storage), 0, 0), 0);
    EXPECT(fm_seen(&machine, &told), 0);
    EXPECT(told.kind, FM_TOLD_DONE);
    EXPECT(fm_enable(&machine, FM_LENT(&storage), 0, WORD, 3, 0), 0);
    EXPECT(fm_seen(&machine, &told), 0);
    EXPECT(told.kind, FM_TOLD_CODE);
    /* A history keeps what was accepted last, whatever is refused. */
    EXPECT(fm_up(&machine, FM_LENT(&storage), WORD, 0), FM_NOT_SENT);
    EXPECT(fm_seen(&machine, &told), 0);
    EXPECT(told.kind, FM_TOLD_CODE);
    /* A halt of a subchannel without a program makes status: halt-idle.out of the examples has its words. */
    EXPECT(fm_hsch(&machine, FM_LENT(&storage), 0, WORD), 0);
    EXPECT(fm_turn_subchannel(&machine, FM_LENT(&storage), WORD), FM_TURNED);
    EXPECT(fm_requests(&machine), 0x10);
    EXPECT(fm_serials(&machine, WORD, &made, &cleared), 0);
    EXPECT(made == 1 && cleared == 0, 1);
    EXPECT(fm_tpi_code(&machine, 0, 0xEF, words, 3), 0);
    EXPECT(fm_tpi_code(&machine, 0, 0x10, words, 3), 1);
    EXPECT(words[0], WORD);
    EXPECT(fm_seen(&machine, &told), 0);
    EXPECT(told.kind == FM_TOLD_INTERRUPTION && told.words[0] == WORD, 1);
    EXPECT(fm_requests(&machine), 0);
    EXPECT(fm_irb(&machine, WORD, block, sizeof block), 0);
    EXPECT(block[2] == 0x20 && block[3] == 0x01, 1);
    EXPECT(fm_tsch_irb(&machine, 0, WORD, block, sizeof block), 0);
    EXPECT(block[2] == 0x20 && block[3] == 0x01, 1);
    EXPECT(fm_seen(&machine, &told), 0);
    EXPECT(told.kind, FM_TOLD_STATUS);
    EXPECT(told.words[0], 0x00002001);
    EXPECT(told.made == 1 && told.cleared == 1, 1);
    EXPECT(fm_rchp(&machine, FM_LENT(&storage), 0, PATH), 0);
    EXPECT(fm_path_reset(&machine, FM_LENT(&storage), PATH), 0);
    EXPECT(fm_report_count(&machine), 1);
    /* reset-path.out of the examples has the report. */
    EXPECT(fm_stcrw_word(&machine, 0, words, 1), 0);
    EXPECT(words[0], 0x44020010);
    EXPECT(fm_stcrw_word(&machine, 0, words, 1), 1);
    EXPECT(words[0], 0);
    EXPECT(fm_free(&machine), 0);
}

/* ---- Prefixes -------------------------------------------------------------------------------------------------------------------- */

static uint32_t word_at(uint32_t address)
{
    const uint8_t *at = guest + address;
    return (uint32_t)at[0] << 24 | (uint32_t)at[1] << 16 | (uint32_t)at[2] << 8 | at[3];
}

/* CPU 1 has its first 8,192 bytes at 4000: each instruction fetches its operand from there, and stores it there. */
static void prefixes(void)
{
    enum { AREA = 0x4000, CPU = 1 };
    fm_machine machine;
    uint32_t at;
    open_machine(&machine);
    EXPECT(fm_set_prefix(&machine, FM_LENT(&storage), CPU, AREA), 0);
    memset(guest, 0, sizeof guest);
    EXPECT(fm_enable(&machine, FM_LENT(&storage), CPU, WORD, 5, 1), 0);
    /* Word 1 of a SCHIB (docs/SHEETS.md) with subclass 5, E, D, V and the device number 0100; nothing at F00 itself. */
    EXPECT(word_at(AREA + 0xF04), 0x28850100);
    EXPECT(word_at(0xF04), 0);
    EXPECT(fm_stsch(&machine, FM_LENT(&storage), CPU, WORD, 0x700), 0);
    EXPECT(word_at(AREA + 0x704), 0x28850100);
    EXPECT(word_at(0x704), 0);
    guest[AREA + 0x704] = 0x10;
    EXPECT(fm_msch(&machine, FM_LENT(&storage), CPU, WORD, 0x700), 0);
    EXPECT(fm_stsch(&machine, FM_LENT(&storage), 0, WORD, 0x700), 0);
    EXPECT(word_at(0x704), 0x10850100);
    store_program(0x01, 4);
    memcpy(guest + AREA + 0x500, guest + 0x500, 12);
    memset(guest + 0x500, 0xFF, 12);
    EXPECT(fm_ssch(&machine, FM_LENT(&storage), CPU, WORD, 0x500), 0);
    EXPECT(fm_hsch(&machine, FM_LENT(&storage), CPU, WORD), 0);
    for (at = 0; at < 4; at++) {
        fm_turn_subchannel(&machine, FM_LENT(&storage), WORD);
    }
    EXPECT(fm_requests(&machine), 0x80 >> 2);
    EXPECT(fm_tpi(&machine, FM_LENT(&storage), CPU, 0xFF, 0x740), 1);
    EXPECT(word_at(AREA + 0x740), WORD);
    EXPECT(word_at(0x740), 0);
    EXPECT(fm_tsch(&machine, FM_LENT(&storage), CPU, WORD, 0x600), 0);
    EXPECT(word_at(AREA + 0x600) & 1, 1);
    EXPECT(word_at(0x600), 0);
    EXPECT(fm_path_down(&machine, FM_LENT(&storage), OTHER), 0);
    EXPECT(fm_stcrw(&machine, FM_LENT(&storage), CPU, 0x780), 0);
    EXPECT(word_at(AREA + 0x780), 0x04060000 | OTHER);
    EXPECT(word_at(0x780), 0);
    EXPECT(fm_path(&machine, OTHER), FM_PATH_DOWN);
    EXPECT(fm_path(&machine, PATH), FM_PATH_UP);
    memset(guest + AREA + 0x7A0, 0xFF, 32);
    EXPECT(fm_stcps(&machine, FM_LENT(&storage), CPU, 0x7A0), 0);
    EXPECT(word_at(AREA + 0x7A0), 0);
    EXPECT(fm_free(&machine), 0);
}

/* ---- Keys ------------------------------------------------------------------------------------------------------------------------ */

/* Keys that are lent count, and their bit 7 does not; without them those in the machine do. A block of key 3 with fetch protection is
 * read by a program of access key 4: a protection check. */
static uint32_t write_with_key(fm_machine *machine, const fm_storage *lent)
{
    uint32_t at;
    fm_told told;
    store_program(0x01, 4);
    guest[0x504] = 0x40;
    EXPECT(fm_ssch(machine, FM_LENT(lent), 0, WORD, 0x500), 0);
    for (at = 0; at < 20; at++) {
        fm_call call;
        uint8_t bytes[256];
        int32_t due;
        fm_turn_unit(machine, FM_LENT(lent), UNIT);
        due = fm_work(machine, UNIT, &call, bytes, sizeof bytes);
        if (due == FM_CALL_DUE) {
            fm_answer answer = { FM_ENDED, FM_CHANNEL_END | FM_DEVICE_END, 0, 0 };
            answer.kind = call.kind == FM_CALL_INITIAL ? FM_BEGINS : call.kind == FM_CALL_ABSORB ? FM_ABSORBED : FM_ENDED;
            answer.count = call.kind == FM_CALL_ABSORB ? call.count : 0;
            EXPECT(fm_report(machine, FM_LENT(lent), UNIT, &call, &answer, NULL, 0), 0);
        }
        fm_turn_subchannel(machine, FM_LENT(lent), WORD);
    }
    EXPECT(fm_tsch(machine, FM_LENT(lent), 0, WORD, 0x600), 0);
    EXPECT(fm_seen(machine, &told), 0);
    return told.words[2] >> 16;
}

static void keys_lent(void)
{
    fm_machine machine;
    fm_storage with = { guest, sizeof guest, keys, BLOCKS };
    open_machine(&machine);
    memset(keys, 0x40, sizeof keys);
    EXPECT(write_with_key(&machine, &with), 0x0C00);
    keys[2] = 0x38;
    EXPECT(write_with_key(&machine, &with), 0x0C10);
    EXPECT(keys[2], 0x38);
    keys[2] = 0x30;
    EXPECT(write_with_key(&machine, &with), 0x0C00);
    keys[2] = 0x49;
    EXPECT(write_with_key(&machine, &with), 0x0C00);
    EXPECT(keys[2], 0x49);
    keys[2] = 0xFF;
    EXPECT(write_with_key(&machine, &with), 0x0C10);
    EXPECT(keys[2], 0xFF);
    /* The machine's own keys are zero, which a program of key 4 may fetch. */
    EXPECT(write_with_key(&machine, &storage), 0x0C00);
    EXPECT(fm_set_key(&machine, FM_LENT(&storage), 0x2FFF, 0x39), 0);
    EXPECT(write_with_key(&machine, &storage), 0x0C10);
    EXPECT(keys[2], 0xFF);
    EXPECT(fm_set_key(&machine, FM_LENT(&with), 0x2000, 0x41), 0);
    EXPECT(keys[2], 0x40);
    EXPECT(write_with_key(&machine, &with), 0x0C00);
    EXPECT(write_with_key(&machine, &storage), 0x0C10);
    EXPECT(fm_free(&machine), 0);
}

/* ---- Devices against their law --------------------------------------------------------------------------------------------------- */

/* Turns until the device is to be called for this. */
static fm_call turn_until(fm_machine *machine, uint32_t kind)
{
    fm_call call;
    uint8_t bytes[256];
    uint32_t at;
    memset(&call, 0, sizeof call);
    for (at = 0; at < 40; at++) {
        if (fm_work(machine, UNIT, &call, bytes, sizeof bytes) == FM_CALL_DUE) {
            break;
        }
        fm_turn_unit(machine, FM_LENT(&storage), UNIT);
        fm_turn_subchannel(machine, FM_LENT(&storage), WORD);
    }
    EXPECT(call.kind, kind);
    return call;
}

static int32_t answer_by(fm_machine *machine, const fm_call *call, uint32_t kind, uint32_t status, uint32_t count)
{
    fm_answer answer = { 0, 0, 0, 0 };
    uint8_t supplied[256] = { 0 };
    answer.kind = kind;
    answer.status = status;
    answer.count = count;
    return fm_report(machine, FM_LENT(&storage), UNIT, call, &answer, supplied, kind == FM_SUPPLIED ? count : 0);
}

/* Each answer is refused FM_NOT_NOW, storage, serials and what is asked for stay, and the lawful one is taken once. */
static void refuse(fm_machine *machine, const fm_call *call, uint32_t kind, uint32_t status, uint32_t count)
{
    static uint8_t before[sizeof guest];
    fm_call after;
    uint8_t bytes[256];
    uint64_t made = 0, cleared = 0, made_after = 1, cleared_after = 1;
    memcpy(before, guest, sizeof guest);
    EXPECT(fm_serials(machine, WORD, &made, &cleared), 0);
    EXPECT(answer_by(machine, call, kind, status, count), FM_NOT_NOW);
    EXPECT(fm_serials(machine, WORD, &made_after, &cleared_after), 0);
    EXPECT(made == made_after && cleared == cleared_after, 1);
    EXPECT(memcmp(before, guest, sizeof guest), 0);
    EXPECT(fm_work(machine, UNIT, &after, bytes, sizeof bytes), FM_CALL_DUE);
    EXPECT(after.kind, call->kind);
}

static void start(fm_machine *machine, uint8_t command, uint8_t count)
{
    open_machine(machine);
    store_program(command, count);
    EXPECT(fm_ssch(machine, FM_LENT(&storage), 0, WORD, 0x500), 0);
}

static void end(fm_machine *machine, uint32_t wanted)
{
    fm_told told;
    uint32_t at;
    for (at = 0; at < 20; at++) {
        fm_turn_unit(machine, FM_LENT(&storage), UNIT);
        fm_turn_subchannel(machine, FM_LENT(&storage), WORD);
    }
    EXPECT(fm_tsch(machine, FM_LENT(&storage), 0, WORD, 0x600), 0);
    EXPECT(fm_seen(machine, &told), 0);
    EXPECT(told.words[2], wanted);
    EXPECT(fm_free(machine), 0);
}

/* An answer with the numbers of another call. */
static void refuse_stale(fm_machine *machine, fm_call call, uint32_t kind, uint32_t status, uint32_t count)
{
    fm_call other = call;
    other.number++;
    EXPECT(answer_by(machine, &other, kind, status, count), FM_NOT_NOW);
    other = call;
    other.command++;
    EXPECT(answer_by(machine, &other, kind, status, count), FM_NOT_NOW);
    other = call;
    other.sequence++;
    EXPECT(answer_by(machine, &other, kind, status, count), FM_NOT_NOW);
    other = call;
    other.side = 1 - call.side;
    EXPECT(answer_by(machine, &other, kind, status, count), FM_NOT_NOW);
}

static void devices_that_write(void)
{
    fm_machine machine;
    fm_call call;
    uint32_t status;
    start(&machine, 0x01, 4);
    call = turn_until(&machine, FM_CALL_INITIAL);
    EXPECT(call.code, 0x01);
    EXPECT(call.from_side == 0 && call.from_path == 0, 1);
    for (status = 0; status < 256; status++) {
        if (status != FM_CHANNEL_END && status != FM_UNIT_CHECK) {
            refuse(&machine, &call, FM_ENDED, status, 0);
        }
    }
    refuse(&machine, &call, FM_ABSORBED, 0, 0);
    refuse(&machine, &call, FM_ABSORBED, 0, 4);
    refuse(&machine, &call, FM_SUPPLIED, 0, 0);
    refuse(&machine, &call, FM_SUPPLIED, 0, 4);
    refuse_stale(&machine, call, FM_BEGINS, 0, 0);
    EXPECT(answer_by(&machine, &call, FM_BEGINS, 0, 0), 0);
    EXPECT(answer_by(&machine, &call, FM_BEGINS, 0, 0), FM_NOT_NOW);
    call = turn_until(&machine, FM_CALL_ABSORB);
    EXPECT(call.count, 4);
    EXPECT(fm_path(&machine, PATH), FM_PATH_ENGAGED);
    EXPECT(fm_path(&machine, OTHER), FM_PATH_UP);
    refuse(&machine, &call, FM_ENDED, FM_CHANNEL_END | FM_DEVICE_END, 0);
    refuse(&machine, &call, FM_ABSORBED, 0, 5);
    refuse(&machine, &call, FM_ABSORBED, 0, 0xFFFF);
    refuse(&machine, &call, FM_BEGINS, 0, 0);
    refuse(&machine, &call, FM_SUPPLIED, 0, 4);
    refuse_stale(&machine, call, FM_ABSORBED, 0, 4);
    EXPECT(answer_by(&machine, &call, FM_ABSORBED, 0, 4), 0);
    EXPECT(answer_by(&machine, &call, FM_ABSORBED, 0, 4), FM_NOT_NOW);
    call = turn_until(&machine, FM_CALL_FINISH);
    for (status = 0; status < 256; status++) {
        if ((status & FM_DEVICE_END) == 0) {
            refuse(&machine, &call, FM_ENDED, status, 0);
        }
    }
    refuse(&machine, &call, FM_BEGINS, 0, 0);
    refuse(&machine, &call, FM_ABSORBED, 0, 0);
    refuse_stale(&machine, call, FM_ENDED, FM_CHANNEL_END | FM_DEVICE_END, 0);
    EXPECT(answer_by(&machine, &call, FM_ENDED, FM_CHANNEL_END | FM_DEVICE_END, 0), 0);
    EXPECT(answer_by(&machine, &call, FM_ENDED, FM_CHANNEL_END | FM_DEVICE_END, 0), FM_NOT_NOW);
    end(&machine, 0x0C000000);
}

static void devices_that_read(void)
{
    fm_machine machine;
    fm_call call;
    start(&machine, 0x02, 4);
    call = turn_until(&machine, FM_CALL_INITIAL);
    EXPECT(answer_by(&machine, &call, FM_BEGINS, 0, 0), 0);
    call = turn_until(&machine, FM_CALL_SUPPLY);
    EXPECT(call.count, 4);
    refuse(&machine, &call, FM_ENDED, FM_CHANNEL_END | FM_DEVICE_END, 0);
    refuse(&machine, &call, FM_SUPPLIED, 0, 5);
    refuse(&machine, &call, FM_SUPPLIED, 0, 256);
    refuse(&machine, &call, FM_ABSORBED, 0, 4);
    refuse(&machine, &call, FM_BEGINS, 0, 0);
    refuse_stale(&machine, call, FM_SUPPLIED, 0, 4);
    EXPECT(answer_by(&machine, &call, FM_SUPPLIED, 0, 4), 0);
    EXPECT(answer_by(&machine, &call, FM_SUPPLIED, 0, 4), FM_NOT_NOW);
    call = turn_until(&machine, FM_CALL_FINISH);
    refuse(&machine, &call, FM_SUPPLIED, 0, 0);
    EXPECT(answer_by(&machine, &call, FM_ENDED, FM_CHANNEL_END | FM_DEVICE_END, 0), 0);
    end(&machine, 0x0C000000);
    /* A device has no read backward; one that begins it is asked for no bytes. */
    start(&machine, 0x0C, 4);
    call = turn_until(&machine, FM_CALL_INITIAL);
    EXPECT(call.code, 0x0C);
    EXPECT(answer_by(&machine, &call, FM_ENDED, FM_UNIT_CHECK, 0), 0);
    end(&machine, 0x02000004);
    start(&machine, 0x0C, 4);
    call = turn_until(&machine, FM_CALL_INITIAL);
    EXPECT(answer_by(&machine, &call, FM_BEGINS, 0, 0), 0);
    call = turn_until(&machine, FM_CALL_FINISH);
    EXPECT(fm_free(&machine), 0);
    /* A control command whose channel end was the initial status has device end alone at last. */
    start(&machine, 0x03, 1);
    call = turn_until(&machine, FM_CALL_INITIAL);
    EXPECT(answer_by(&machine, &call, FM_ENDED, FM_CHANNEL_END, 0), 0);
    call = turn_until(&machine, FM_CALL_FINISH);
    EXPECT(answer_by(&machine, &call, FM_ENDED, FM_DEVICE_END, 0), 0);
    EXPECT(fm_free(&machine), 0);
}

/* What else a unit is to do: a signal, a program that is away from its path, with a path to ask for and without. */
static void units_away(void)
{
    fm_machine machine;
    fm_call call;
    uint8_t bytes[256];
    start(&machine, 0x01, 4);
    EXPECT(fm_work(&machine, UNIT, &call, bytes, sizeof bytes), FM_RESTS);
    EXPECT(fm_choose(&machine, FM_LENT(&storage), WORD), FM_OFFERED);
    EXPECT(fm_work(&machine, UNIT, &call, bytes, sizeof bytes), FM_SIGNAL_DUE);
    EXPECT(call.kind, FM_CALL_NONE);
    turn_until(&machine, FM_CALL_INITIAL);
    EXPECT(fm_unit_leave(&machine, FM_LENT(&storage), UNIT), 0);
    EXPECT(fm_turn_subchannel(&machine, FM_LENT(&storage), WORD), FM_TURNED);
    memset(&call, 0xFF, sizeof call);
    EXPECT(fm_work(&machine, UNIT, &call, bytes, sizeof bytes), FM_AWAY);
    EXPECT(call.kind == FM_CALL_NONE && call.from_path == 0 && call.number == 0, 1);
    EXPECT(fm_turn_unit(&machine, FM_LENT(&storage), UNIT), FM_NOTHING_DUE);
    EXPECT(fm_path_down(&machine, FM_LENT(&storage), PATH), 0);
    EXPECT(fm_work(&machine, UNIT, &call, bytes, sizeof bytes), FM_AWAY_WAITS);
    EXPECT(fm_unit_ask(&machine, FM_LENT(&storage), UNIT, 1), FM_NO_SUCH_PATH);
    EXPECT(fm_free(&machine), 0);
    start(&machine, 0x01, 4);
    turn_until(&machine, FM_CALL_INITIAL);
    EXPECT(fm_unit_leave(&machine, FM_LENT(&storage), UNIT), 0);
    EXPECT(fm_unit_leave(&machine, FM_LENT(&storage), UNIT), FM_NOT_NOW);
    EXPECT(fm_unit_ask(&machine, FM_LENT(&storage), UNIT, 0), 0);
    call = turn_until(&machine, FM_CALL_INITIAL);
    EXPECT(answer_by(&machine, &call, FM_ENDED, FM_UNIT_CHECK, 0), 0);
    end(&machine, 0x02000004);
}

/* A call that a reset made stale. */
/* A write with its history kept; the device takes all. */
static void write_with_history(fm_machine *machine)
{
    static const uint32_t path[1] = { PATH };
    fm_call call;
    uint8_t block[32];
    memset(machine, 0, sizeof *machine);
    memset(guest, 0, sizeof guest);
    EXPECT(fm_new(machine), 0);
    EXPECT(fm_add_path(machine, PATH), 0);
    EXPECT(fm_add_unit(machine, 0), 0);
    EXPECT(fm_add_subchannel(machine, WORD, 0x100, 0, path, 1), 0);
    EXPECT(fm_start(machine, BLOCKS, FM_KEEP_ALL), 0);
    store_program(0x01, 4);
    memcpy(block, guest + 0x500, 12);
    EXPECT(fm_put(machine, FM_LENT(&storage), 0x500, block, 12), 0);
    memcpy(block, guest + 0x1000, 8);
    EXPECT(fm_put(machine, FM_LENT(&storage), 0x1000, block, 8), 0);
    memcpy(block, guest + 0x2000, 4);
    EXPECT(fm_put(machine, FM_LENT(&storage), 0x2000, block, 4), 0);
    EXPECT(fm_set_key(machine, FM_LENT(&storage), 0x2000, 0x18), 0);
    EXPECT(fm_enable(machine, FM_LENT(&storage), 0, WORD, 3, 0), 0);
    EXPECT(fm_ssch(machine, FM_LENT(&storage), 0, WORD, 0x500), 0);
    call = turn_until(machine, FM_CALL_INITIAL);
    EXPECT(answer_by(machine, &call, FM_BEGINS, 0, 0), 0);
    call = turn_until(machine, FM_CALL_ABSORB);
    EXPECT(answer_by(machine, &call, FM_ABSORBED, 0, 4), 0);
    call = turn_until(machine, FM_CALL_FINISH);
    EXPECT(answer_by(machine, &call, FM_ENDED, FM_CHANNEL_END | FM_DEVICE_END, 0), 0);
}

/* Another machine that is set up alike performs the lines of a history, and answers as its replies say. */
static void replay(fm_machine *from)
{
    static uint8_t other[sizeof guest];
    static const fm_storage its = { other, sizeof other, NULL, 0 };
    static const uint32_t path[1] = { PATH };
    fm_machine to = FM_MACHINE_INIT;
    uint8_t line[640];
    uint8_t reply[800];
    uint8_t text[800];
    size_t length;
    size_t replied;
    size_t written;
    uint64_t count = 0;
    uint64_t at;
    memset(other, 0, sizeof other);
    EXPECT(fm_new(&to), 0);
    EXPECT(fm_add_path(&to, PATH), 0);
    EXPECT(fm_add_unit(&to, 0), 0);
    EXPECT(fm_add_subchannel(&to, WORD, 0x100, 0, path, 1), 0);
    EXPECT(fm_start(&to, BLOCKS, FM_KEEP_NONE), 0);
    EXPECT(fm_history_count(from, &count), 0);
    EXPECT(count > 15, 1);
    for (at = 0; at < count; at++) {
        EXPECT(fm_history_line(from, at, line, sizeof line, &length), 0);
        EXPECT(fm_history_reply(from, at, reply, sizeof reply, &replied), 0);
        EXPECT(length > 0 && replied > 0, 1);
        EXPECT(fm_line(&to, FM_LENT(&its), line, length, text, sizeof text, &written) >= 0, 1);
        EXPECT(written == replied && memcmp(text, reply, written) == 0, 1);
    }
    EXPECT(memcmp(guest, other, sizeof guest), 0);
    EXPECT(fm_history_line(from, count, line, sizeof line, &length), FM_BAD_ARGUMENT);
    EXPECT(length, 0);
    EXPECT(fm_history_reply(from, UINT64_MAX, reply, sizeof reply, &replied), FM_BAD_ARGUMENT);
    EXPECT(replied, 0);
    EXPECT(fm_free(&to), 0);
}

/* A history is told line by line, performed again, and let go. */
static void histories(void)
{
    fm_machine machine;
    uint64_t count = 9;
    size_t written;
    uint8_t text[8];
    write_with_history(&machine);
    replay(&machine);
    EXPECT(fm_history_line(&machine, 0, text, 3, &written), 0);
    EXPECT(written == 3 && memcmp(text, "put", 3) == 0, 1);
    EXPECT(fm_forget(&machine), 0);
    EXPECT(fm_history_count(&machine, &count), 0);
    EXPECT(count, 0);
    EXPECT(fm_history_line(&machine, 0, text, sizeof text, &written), FM_BAD_ARGUMENT);
    end(&machine, 0x0C000000);
    open_machine(&machine);
    EXPECT(fm_history_count(&machine, &count), 0);
    EXPECT(count, 1);
    EXPECT(fm_free(&machine), 0);
}

static void devices_too_late(void)
{
    fm_machine machine;
    fm_call call;
    fm_call none;
    uint8_t bytes[256];
    start(&machine, 0x01, 4);
    call = turn_until(&machine, FM_CALL_INITIAL);
    EXPECT(fm_unit_restart(&machine, FM_LENT(&storage), UNIT), 0);
    EXPECT(answer_by(&machine, &call, FM_BEGINS, 0, 0), FM_NOT_NOW);
    EXPECT(fm_work(&machine, UNIT, &none, bytes, sizeof bytes) != FM_CALL_DUE, 1);
    EXPECT(none.kind, FM_CALL_NONE);
    EXPECT(fm_free(&machine), 0);
}

int main(void)
{
    handles();
    before_start();
    settings();
    lines_of_the_setup();
    choices(0, 0x00, 0x04010000);
    choices(1, 0x01, 0x04020000);
    choices(0x80000000, 0x01, 0x04020000);
    sizes();
    arguments();
    rooms();
    seen();
    prefixes();
    keys_lent();
    devices_that_write();
    devices_that_read();
    units_away();
    histories();
    devices_too_late();
    printf("checks %u otherwise %u\n", checks, otherwise);
    return otherwise == 0 ? 0 : 1;
}
