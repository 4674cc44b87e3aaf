/* Stored scripts and outputs, and their comparison. */
#ifndef STORED_H
#define STORED_H

#include "script.h"
#include <stdio.h>
#include <stdlib.h>
#include <string.h>

/* A whole file, with a zero behind it, allocated by calloc. */
static inline char *read_file(const char *name, size_t *length)
{
    FILE *file = fopen(name, "rb");
    long size;
    char *text;
    if (file == NULL || fseek(file, 0, SEEK_END) != 0 || (size = ftell(file)) < 0 || fseek(file, 0, SEEK_SET) != 0) {
        fprintf(stderr, "%s is not to be read\n", name);
        exit(2);
    }
    text = calloc((size_t)size + 1, 1);
    if (text == NULL || fread(text, 1, (size_t)size, file) != (size_t)size) {
        fprintf(stderr, "%s is not to be read\n", name);
        exit(2);
    }
    fclose(file);
    *length = (size_t)size;
    return text;
}

/* What is stored beside a script: NAME.out of NAME.chs. */
static inline char *read_stored(const char *script, size_t *length)
{
    char name[4096];
    size_t base = strlen(script);
    if (base < 4 || base >= sizeof name || strcmp(script + base - 4, ".chs") != 0) {
        fprintf(stderr, "%s is no script\n", script);
        exit(2);
    }
    memcpy(name, script, base - 4);
    strcpy(name + base - 4, ".out");
    return read_file(name, length);
}

/* How many bytes are to be compared: without the line of a race, which is the last. */
static inline size_t length_without_races(const char *wanted, size_t length, uint32_t races)
{
    static const char end[] = " audit ok\n";
    if (races == 0) {
        return length;
    }
    if (length < sizeof end - 1 || memcmp(wanted + length - (sizeof end - 1), end, sizeof end - 1) != 0) {
        return length;
    }
    length--;
    while (length > 0 && wanted[length - 1] != '\n') {
        length--;
    }
    return length;
}

/* Whether a text is what is wanted; a * in it stands for the rest of a line, which is not empty. */
static inline bool is_as_wanted(const char *came, size_t length, const char *wanted, size_t wanted_length)
{
    size_t at = 0;
    size_t in = 0;
    while (at < length && in < wanted_length) {
        if (came[at] == '*') {
            size_t from = in;
            while (in < wanted_length && wanted[in] >= 'a' && wanted[in] <= 'z') {
                in++;
            }
            if (in == from) {
                return false;
            }
            at++;
        } else if (came[at++] != wanted[in++]) {
            return false;
        }
    }
    return at == length && in == wanted_length;
}

#endif
