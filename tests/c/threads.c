/* Threads that call at the same time, each with areas of its own, and one alone:
 *
 *     threads NOTE..
 *
 * One thread reads all notes: every answer and every byte of the output and of both
 * buffers goes into a sum for each note. Then THREADS of them read all notes at once,
 * ROUNDS times, each beginning with another note, and each sum must be the same. The
 * documents are shared. */
#include <pthread.h>

#include "notes.h"

enum { THREADS = 4, ROUNDS = 3, PLACES = 300, OUTPUT = 1 << 16 };

typedef struct {
    uint32_t numbers[RST_NUMBERS_MIN];
    uint8_t bytes[RST_BYTES_MIN], output[OUTPUT];
    uint8_t first[RST_STRING_MAX], second[RST_STRING_MAX];
    size_t calls;
} areas;

static note *notes;
static size_t notes_len;
static uint64_t *alone;
static pthread_barrier_t start;

typedef struct {
    pthread_t thread;
    size_t from, differ;
    areas *lent;
} worker;

/* FNV-1a. */
static void add(uint64_t *sum, const void *start, size_t length) {
    const uint8_t *p = start;
    for (size_t i = 0; i < length; i++) {
        *sum = (*sum ^ p[i]) * 0x100000001B3;
    }
}

/* The sum of all that the calls on a note give. */
static uint64_t sum_of(const note *n, areas *lent) {
    uint64_t sum = 0xCBF29CE484222325;
    for (uint32_t render = 0; render <= 1; render++) {
        scribble(lent->output, OUTPUT);
        rst_outcome r = rst_document(n->document, n->length, render, lent->numbers, RST_NUMBERS_MIN,
                                     lent->bytes, RST_BYTES_MIN, lent->output, OUTPUT);
        lent->calls++;
        add(&sum, &r, sizeof r);
        add(&sum, lent->output, OUTPUT);
        add(&sum, lent->numbers, sizeof lent->numbers);
        add(&sum, lent->bytes, RST_BYTES_MIN);
    }
    size_t place = 0;
    for (int calls = 0; calls < PLACES; calls++) {
        rst_link r = rst_take_link(n->document, n->length, place, lent->first, RST_STRING_MAX,
                                   lent->second, RST_STRING_MAX);
        lent->calls++;
        add(&sum, &r, sizeof r);
        if (r.number != RST_ACCEPTED) {
            break;
        }
        add(&sum, lent->first, r.first);
        add(&sum, lent->second, r.second);
        place += r.skipped + r.consumed;
    }
    return sum;
}

static void *run(void *given) {
    worker *w = given;
    pthread_barrier_wait(&start);
    for (size_t i = 0; i < ROUNDS * notes_len; i++) {
        size_t n = (w->from + i) % notes_len;
        w->differ += sum_of(&notes[n], w->lent) != alone[n];
    }
    return NULL;
}

int main(int count, char **words) {
    static worker workers[THREADS];
    size_t calls = 0, differ = 0;
    notes_len = (size_t)count - 1;
    notes = load_all(words + 1, notes_len);
    alone = area(notes_len * sizeof *alone);
    areas *lent = area(sizeof *lent);
    lent->calls = 0;
    for (size_t i = 0; i < notes_len; i++) {
        alone[i] = sum_of(&notes[i], lent);
    }
    free(lent);
    pthread_barrier_init(&start, NULL, THREADS);
    for (size_t t = 0; t < THREADS; t++) {
        workers[t].from = t * notes_len / THREADS;
        workers[t].lent = area(sizeof *workers[t].lent);
        workers[t].lent->calls = 0;
        if (pthread_create(&workers[t].thread, NULL, run, &workers[t]) != 0) {
            fprintf(stderr, "no thread\n");
            return 2;
        }
    }
    for (size_t t = 0; t < THREADS; t++) {
        pthread_join(workers[t].thread, NULL);
        calls += workers[t].lent->calls;
        differ += workers[t].differ;
        free(workers[t].lent);
    }
    pthread_barrier_destroy(&start);
    free(alone);
    drop_all(notes, notes_len);
    printf("threads %d, notes %zu, calls %zu, differ %zu\n", THREADS, notes_len, calls, differ);
    return differ != 0;
}
