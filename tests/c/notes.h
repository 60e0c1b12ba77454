/* Notes from files, and what one caller lends. tests/archive makes the notes. */
#ifndef NOTES_H
#define NOTES_H

#include <stdio.h>
#include <stdlib.h>
#include <string.h>

#include "rstlinks.h"

typedef struct {
    const char *name;
    uint8_t *document;
    size_t length;
} note;

/* An area of just that many bytes. */
static inline void *area(size_t length) {
    void *made = malloc(length);
    if (made == NULL && length != 0) {
        perror("malloc");
        exit(2);
    }
    return made;
}

static inline note load(const char *name) {
    static uint8_t room[2 * RST_DOCUMENT_MAX];
    FILE *file = fopen(name, "rb");
    if (file == NULL) {
        perror(name);
        exit(2);
    }
    size_t length = fread(room, 1, sizeof room, file);
    fclose(file);
    note read = {name, area(length), length};
    if (length != 0) {
        memcpy(read.document, room, length);
    }
    return read;
}

/* The notes of the files with these names. */
static inline note *load_all(char **names, size_t count) {
    note *notes = area(count * sizeof *notes);
    for (size_t i = 0; i < count; i++) {
        notes[i] = load(names[i]);
    }
    return notes;
}

static inline void drop_all(note *notes, size_t count) {
    for (size_t i = 0; i < count; i++) {
        free(notes[i].document);
    }
    free(notes);
}

/* Fills an area with bytes that are not all alike. */
static inline void scribble(void *start, size_t length) {
    uint8_t *bytes = start;
    for (size_t i = 0; i < length; i++) {
        bytes[i] = (uint8_t)(0x5B + 37 * i);
    }
}

/* Whether an area holds what scribble() wrote. */
static inline int scribbled(const void *start, size_t length) {
    const uint8_t *bytes = start;
    for (size_t i = 0; i < length; i++) {
        if (bytes[i] != (uint8_t)(0x5B + 37 * i)) {
            return 0;
        }
    }
    return 1;
}

static inline int all_zero(const void *start, size_t length) {
    const uint8_t *bytes = start;
    for (size_t i = 0; i < length; i++) {
        if (bytes[i] != 0) {
            return 0;
        }
    }
    return 1;
}

#endif
