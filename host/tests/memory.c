/* Each allocation of the library is refused in turn: the call that asked for it answers FM_NO_MEMORY and has changed nothing, made again
 * it succeeds, the rest of the script goes as is stored, and nothing is left allocated.
 *
 *     memory SCRIPT.chs..
 *
 * Linked with --wrap for malloc, realloc, calloc and free: the programs of this folder ask by calloc alone, which is never refused, so
 * what is refused is the library's.
 */
#include "stored.h"

void *__real_malloc(size_t size);
void *__real_realloc(void *old, size_t size);
void *__real_calloc(size_t count, size_t size);
void __real_free(void *old);
void *__wrap_malloc(size_t size);
void *__wrap_realloc(void *old, size_t size);
void *__wrap_calloc(size_t count, size_t size);
void __wrap_free(void *old);

static long until_refused = -1;     /* how many are granted before one is refused; less than 0: none is refused */
static long living;
static unsigned refused;
static unsigned seen;

static bool is_refused(void)
{
    if (until_refused == 0) {
        until_refused = -1;
        refused++;
        return true;
    }
    until_refused -= until_refused > 0;
    return false;
}

void *__wrap_malloc(size_t size)
{
    void *got = is_refused() ? NULL : __real_malloc(size);
    living += got != NULL;
    return got;
}

void *__wrap_realloc(void *old, size_t size)
{
    void *got = is_refused() ? NULL : __real_realloc(old, size);
    living += old == NULL && got != NULL;
    return got;
}

void *__wrap_calloc(size_t count, size_t size)
{
    void *got = __real_calloc(count, size);
    living += got != NULL;
    return got;
}

void __wrap_free(void *old)
{
    living -= old != NULL;
    __real_free(old);
}

/* A call answered FM_NO_MEMORY: it is made again. */
static bool again(void)
{
    seen++;
    return seen <= refused;
}

/* Plays a script with its allocation of this number refused: whether there is one. */
static bool play_refusing(const char *name, const play_how *how, long number, unsigned *otherwise)
{
    size_t length, wanted_length;
    long before = living;
    char *text = read_file(name, &length);
    char *wanted = read_stored(name, &wanted_length);
    play_came came;
    bool good;
    refused = 0;
    seen = 0;
    until_refused = number;
    play_script(text, length, how, &came);
    until_refused = -1;
    good = is_as_wanted(came.text, came.length, wanted, length_without_races(wanted, wanted_length, came.races));
    free(came.text);
    free(text);
    free(wanted);
    if (!good || seen != refused || came.changed || living != before) {
        (*otherwise)++;
        printf("%s: allocation %ld refused: as stored %d, answered %u of %u, changed %d, left %ld\n", name, number, good, seen, refused,
               came.changed, living - before);
    }
    return refused != 0;
}

int main(int argc, char **argv)
{
    static const play_by by[2] = { BY_LINES, BY_CALLS };
    unsigned otherwise = 0;
    unsigned places = 0;
    unsigned scripts = 0;
    int at;
    for (at = 1; at < argc; at++) {
        unsigned how_at;
        for (how_at = 0; how_at < 4; how_at++) {
            play_how how = { BY_LINES, true, false, FM_KEEP_NONE, again };
            long number = 0;
            how.by = by[how_at / 2];
            how.history = how_at % 2;
            while (play_refusing(argv[at], &how, number, &otherwise)) {
                number++;
                places++;
            }
            scripts++;
        }
    }
    printf("scripts %u places %u otherwise %u\n", scripts, places, otherwise);
    return otherwise == 0 && places != 0 ? 0 : 1;
}
