/* Plays scripts through the C library, and compares what comes with what is stored.
 *
 *     play [-b lines|calls|value] [-k] [-h] SCRIPT.chs.. [-c LIST..]
 *
 * -b how actions are performed; -k keys are lent; -h a history is kept. SCRIPT.out has what is stored. Each line of a LIST is
 * `SCRIPT -> WANTED`, where ` / ` parts the lines of a script, and WANTED is `script ok` or `bad line L rule N`.
 */
#include "stored.h"

typedef struct tally {
    int argc;
    char **argv;
    play_how how;
    unsigned scripts, listed, otherwise, races, lines, calls, turns, values;
} tally;

/* What was performed of a bad script counts nowhere. */
static void add(tally *all, const play_came *came)
{
    if (came->length >= 9 && memcmp(came->text, "bad line ", 9) == 0) {
        return;
    }
    all->races += came->races;
    all->lines += came->lines;
    all->calls += came->calls;
    all->turns += came->turns;
    all->values += came->values;
}

static void play_file(tally *all, const char *name)
{
    size_t length, wanted_length;
    char *text = read_file(name, &length);
    char *wanted = read_stored(name, &wanted_length);
    play_came came;
    all->how.races = true;
    play_script(text, length, &all->how, &came);
    all->scripts++;
    add(all, &came);
    if (!is_as_wanted(came.text, came.length, wanted, length_without_races(wanted, wanted_length, came.races))) {
        all->otherwise++;
        printf("%s: otherwise than stored\n%.*s", name, (int)came.length, came.text);
    }
    free(came.text);
    free(text);
    free(wanted);
}

/* A script in a line: ` / ` parts its lines. */
static size_t unfold(char *text, size_t length)
{
    size_t from = 0;
    size_t to = 0;
    while (from < length) {
        if (length - from >= 3 && memcmp(text + from, " / ", 3) == 0) {
            text[to++] = '\n';
            from += 3;
        } else {
            text[to++] = text[from++];
        }
    }
    return to;
}

static void play_row(tally *all, const char *name, char *row, size_t length)
{
    char *mark = NULL;
    char *at;
    play_came came;
    size_t wanted_length;
    bool good;
    for (at = row; at + 4 <= row + length; at++) {
        if (memcmp(at, " -> ", 4) == 0) {
            mark = at;
        }
    }
    if (mark == NULL) {
        fprintf(stderr, "%s: no row: %.*s\n", name, (int)length, row);
        exit(2);
    }
    wanted_length = (size_t)(row + length - mark - 4);
    all->how.races = false;
    play_script(row, unfold(row, (size_t)(mark - row)), &all->how, &came);
    all->listed++;
    add(all, &came);
    good = came.length < 9 || memcmp(came.text, "bad line ", 9) != 0;
    if (good ? wanted_length != 9 || memcmp(mark + 4, "script ok", 9) != 0
             : !is_as_wanted(came.text, came.length - 1, mark + 4, wanted_length)) {
        all->otherwise++;
        printf("%s: otherwise than wanted: %.*s\n", name, (int)came.length, came.text);
    }
    free(came.text);
}

static void play_list(tally *all, const char *name)
{
    size_t length;
    char *text = read_file(name, &length);
    char *at = text;
    while (at < text + length) {
        char *feed = memchr(at, '\n', (size_t)(text + length - at));
        char *end = feed != NULL ? feed : text + length;
        play_row(all, name, at, (size_t)(end - at));
        at = end + 1;
    }
    free(text);
}

static void play_all(tally *all)
{
    bool lists = false;
    int at;
    for (at = 0; at < all->argc; at++) {
        if (strcmp(all->argv[at], "-c") == 0) {
            lists = true;
        } else if (lists) {
            play_list(all, all->argv[at]);
        } else {
            play_file(all, all->argv[at]);
        }
    }
}

int main(int argc, char **argv)
{
    tally all;
    int at = 1;
    memset(&all, 0, sizeof all);
    while (at < argc && argv[at][0] == '-' && argv[at][1] != 'c') {
        const char *option = argv[at++];
        if (strcmp(option, "-k") == 0) {
            all.how.lends_keys = true;
        } else if (strcmp(option, "-h") == 0) {
            all.how.history = FM_KEEP_ALL;
        } else if (strcmp(option, "-b") == 0 && at < argc) {
            const char *by = argv[at++];
            all.how.by = strcmp(by, "value") == 0 ? BY_VALUE : strcmp(by, "calls") == 0 ? BY_CALLS : BY_LINES;
        } else {
            fprintf(stderr, "no such option: %s\n", option);
            return 2;
        }
    }
    all.argc = argc - at;
    all.argv = argv + at;
    play_all(&all);
    printf("scripts %u listed %u otherwise %u races %u lines %u calls %u turns %u values %u\n", all.scripts, all.listed, all.otherwise,
           all.races, all.lines, all.calls, all.turns, all.values);
    return all.otherwise == 0 ? 0 : 1;
}
