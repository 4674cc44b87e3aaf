/* Plays a script (docs/SCRIPTS.md) through the calls of filuvamoth.h, with the devices of scripts in C. What chsim prints for it is made
 * line by line; rules of lines that no call knows are looked at here. */
#ifndef SCRIPT_H
#define SCRIPT_H

#include "filuvamoth_run.h"

/* How the actions are performed: as lines by fm_line; each by its own call; or so with its operand by value, where it has one. */
typedef enum play_by { BY_LINES, BY_CALLS, BY_VALUE } play_by;

typedef struct play_how {
    play_by by;
    bool races;             /* a race line is allowed last, as under chsim race; it is counted and left out */
    bool lends_keys;        /* keys are lent to each call, else they are in the machine */
    uint32_t history;
    /* Where it is not null: a call was refused for want of memory; the call is made again where this answers true. */
    bool (*again)(void);
} play_how;

typedef struct play_came {
    char *text;             /* what is printed, allocated by calloc; "took *" stands for took and any name */
    size_t length;
    uint32_t races;         /* how many race lines were left out */
    uint32_t lines;         /* how many actions were performed by fm_line, */
    uint32_t calls;         /* and how many by a call of their own, */
    uint32_t turns;         /* of these, how many turns of devices, */
    uint32_t values;        /* and how many with their operand by value */
    bool changed;           /* a call that was refused for want of memory changed storage */
} play_came;

/* Plays a text. The answers of calls that set up and free are the script's or abort the program. */
void play_script(const char *text, size_t length, const play_how *how, play_came *came);

#endif
