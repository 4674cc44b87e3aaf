/* Performs recorded runs through the C library, line by line, and compares each answer with the recorded one.
 *
 *     recorded NAME.run..
 *
 * The first lines of a run set up; each later one is an event, ` = `, and what is to be answered. `put` is what the guest's CPU stores and
 * `show` what it loads, by itself and by no call; `dev UNIT ANSWER` hands in what the device answered to the call at hand; each other
 * line goes to fm_line.
 */
#include "stored.h"

enum { MOST_WORDS = 64, MOST_TEXT = 640 };

typedef struct run {
    const char *name;
    unsigned number;
    fm_machine machine;
    fm_storage storage;
    uint32_t blocks;
    char *words[MOST_WORDS];
    unsigned count;
    char text[MOST_TEXT + 1];
} run;

static void stop(const run *here, const char *what, int32_t number)
{
    fprintf(stderr, "%s:%u: %s: %d\n", here->name, here->number, what, (int)number);
    exit(2);
}

static void part(run *here, char *line)
{
    char *word = strtok(line, " ");
    here->count = 0;
    while (word != NULL && here->count < MOST_WORDS) {
        here->words[here->count++] = word;
        word = strtok(NULL, " ");
    }
}

static bool has(const run *here, unsigned at, const char *word)
{
    return at < here->count && strcmp(here->words[at], word) == 0;
}

static uint32_t number_at(const run *here, unsigned at)
{
    char *end;
    unsigned long number;
    if (at >= here->count) {
        stop(here, "a word is missing", (int32_t)at);
    }
    number = strtoul(here->words[at], &end, 16);
    if (*end != 0 || number > 0xFFFFFFFFul) {
        stop(here, "no number", (int32_t)at);
    }
    return (uint32_t)number;
}

static size_t bytes_at(const run *here, unsigned at, uint8_t *bytes)
{
    size_t length, next;
    if (at >= here->count || (length = strlen(here->words[at])) % 2 != 0 || length > 512) {
        stop(here, "no bytes", (int32_t)at);
    }
    length = strlen(here->words[at]);
    for (next = 0; next < length; next += 2) {
        char pair[3] = { here->words[at][next], here->words[at][next + 1], 0 };
        bytes[next / 2] = (uint8_t)strtoul(pair, NULL, 16);
    }
    return length / 2;
}

static void must(const run *here, const char *what, int32_t number)
{
    if (number < 0) {
        stop(here, what, number);
    }
}

/* ---- Setting up ------------------------------------------------------------------------------------------------------------------ */

static void set_up(run *here)
{
    fm_machine *machine = &here->machine;
    uint32_t paths[8];
    unsigned at;
    if (has(here, 0, "storage")) {
        here->blocks = number_at(here, 1);
    } else if (has(here, 0, "path")) {
        must(here, "fm_add_path", fm_add_path(machine, number_at(here, 1)));
    } else if (has(here, 0, "unit") && has(here, 2, "outside")) {
        must(here, "fm_add_unit", fm_add_unit(machine, number_at(here, 1)));
    } else if (has(here, 0, "sub") && here->count >= 5 && here->count <= 12) {
        for (at = 4; at < here->count; at++) {
            paths[at - 4] = number_at(here, at);
        }
        must(here, "fm_add_subchannel",
             fm_add_subchannel(machine, 0x10000 + number_at(here, 1), number_at(here, 2), number_at(here, 3), paths, here->count - 4));
    } else {
        stop(here, "it sets nothing up", 0);
    }
}

static void start(run *here)
{
    must(here, "fm_start", fm_start(&here->machine, here->blocks, FM_KEEP_NONE));
    here->storage.size = (size_t)here->blocks * 4096;
    here->storage.blocks = here->blocks;
    here->storage.bytes = calloc(here->storage.size, 1);
    here->storage.keys = calloc(here->blocks, 1);
    if (here->storage.bytes == NULL || here->storage.keys == NULL) {
        stop(here, "there is no memory for storage", (int32_t)here->blocks);
    }
}

/* ---- Events ---------------------------------------------------------------------------------------------------------------------- */

static const char *refusal(int32_t number)
{
    switch (number) {
    case FM_WIRE_FULL: return "refused 2";
    case FM_NO_SUCH_UNIT: return "refused 6";
    case FM_NOT_NOW: return "refused 7";
    default: return "refused otherwise";
    }
}

/* What the device of a unit answered to the call at hand. */
static int32_t hand_in(run *here)
{
    uint32_t unit = number_at(here, 1);
    fm_answer answer = { 0, 0, 0, 0 };
    uint8_t supplied[256];
    uint8_t asked[256];
    size_t count = 0;
    fm_call call;
    int32_t due = fm_work(&here->machine, unit, &call, asked, sizeof asked);
    if (has(here, 2, "again")) {
        return due == FM_REPORT_DUE ? fm_turn_unit(&here->machine, FM_LENT(&here->storage), unit) : due < 0 ? due : FM_NOT_NOW;
    }
    if (due != FM_CALL_DUE) {
        return due < 0 ? due : FM_NOT_NOW;
    }
    if (has(here, 2, "begins")) {
        answer.kind = FM_BEGINS;
    } else if (has(here, 2, "absorbed")) {
        answer.kind = FM_ABSORBED;
        answer.count = number_at(here, 3);
    } else if (has(here, 2, "supplied")) {
        answer.kind = FM_SUPPLIED;
        count = has(here, 3, "-") ? 0 : bytes_at(here, 3, supplied);
    } else if (has(here, 2, "ended")) {
        answer.kind = FM_ENDED;
        answer.status = number_at(here, 3);
        answer.more = has(here, 4, "more");
    } else {
        stop(here, "no answer", 0);
    }
    return fm_report(&here->machine, FM_LENT(&here->storage), unit, &call, &answer, supplied, count);
}

/* What comes of an event: its text stands in `text`. The line is whole, and its words are parted. */
static void perform(run *here, const char *whole, size_t length)
{
    if (has(here, 0, "dev")) {
        int32_t number = hand_in(here);
        strcpy(here->text, number >= 0 ? "done" : refusal(number));
    } else if (has(here, 0, "put")) {
        uint8_t bytes[256];
        uint32_t address = number_at(here, 1);
        size_t count = bytes_at(here, 2, bytes);
        if (address + count > here->storage.size) {
            stop(here, "it stores outside", 0);
        }
        memcpy(here->storage.bytes + address, bytes, count);
        strcpy(here->text, "done");
    } else if (has(here, 0, "show")) {
        uint32_t address = number_at(here, 1);
        uint32_t count = number_at(here, 2);
        uint32_t at;
        if ((uint64_t)address + count > here->storage.size || count > MOST_TEXT / 2) {
            stop(here, "it loads outside", 0);
        }
        for (at = 0; at < count; at++) {
            sprintf(here->text + 2 * at, "%02X", here->storage.bytes[address + at]);
        }
    } else {
        size_t written = 0;
        int32_t number = fm_line(&here->machine, FM_LENT(&here->storage), (const uint8_t *)whole, length, (uint8_t *)here->text, MOST_TEXT,
                                 &written);
        if (written == 0) {
            stop(here, "fm_line wrote no text", number);
        }
        here->text[written] = 0;
    }
}

/* ---- Runs ------------------------------------------------------------------------------------------------------------------------ */

static unsigned play(const char *name)
{
    static run here_now;
    run *here = &here_now;
    size_t length;
    char *text = read_file(name, &length);
    char *line = text;
    bool started = false;
    unsigned otherwise = 0;
    memset(here, 0, sizeof *here);
    here->name = name;
    must(here, "fm_new", fm_new(&here->machine));
    while (*line != 0) {
        char *feed = strchr(line, '\n');
        char *mark;
        char *next = feed != NULL ? feed + 1 : line + strlen(line);
        char parted[2048] = { 0 };
        if (feed != NULL) {
            *feed = 0;
        }
        here->number++;
        mark = strstr(line, " = ");
        strncpy(parted, line, mark != NULL ? (size_t)(mark - line) : sizeof parted - 1);
        part(here, parted);
        if (mark == NULL && started) {
            stop(here, "nothing is recorded of it", 0);
        } else if (mark == NULL) {
            set_up(here);
        } else {
            if (!started) {
                start(here);
                started = true;
            }
            perform(here, line, (size_t)(mark - line));
            if (strcmp(here->text, mark + 3) != 0) {
                otherwise++;
                printf("%s:%u: %s\n  but came %s\n", name, here->number, line, here->text);
            }
        }
        line = next;
    }
    must(here, "fm_free", fm_free(&here->machine));
    free(here->storage.bytes);
    free(here->storage.keys);
    free(text);
    printf("%s lines %u otherwise %u\n", name, here->number, otherwise);
    return otherwise;
}

int main(int argc, char **argv)
{
    unsigned otherwise = 0;
    int at;
    for (at = 1; at < argc; at++) {
        otherwise += play(argv[at]);
    }
    return otherwise == 0 ? 0 : 1;
}
