/* How deep the calls reach into the stack:
 *
 *     stack NOTE..
 *
 * A thread whose stack is an area of this program fills it with one byte, makes a
 * call, and looks for the lowest byte that is another one. This is done with two
 * fillings for each note, call, option and place. Printed are the deepest of each
 * call, in bytes below the frame of its caller; memcpy and memset are among them.
 * The status is 1 where one is more than the header states. */
#include <pthread.h>

#include "notes.h"

enum { STACK = 1 << 17, PLACES = 60 };

/* Below the frame of a function, its own part. */
enum { OWN = 512 };

static _Alignas(65536) uint8_t stack[STACK];
static uint32_t numbers[RST_NUMBERS_MIN];
static uint8_t bytes[RST_BYTES_MIN], output[RST_OUTPUT_MAX], first[RST_STRING_MAX],
    second[RST_STRING_MAX];
static size_t deepest_document, deepest_link;

typedef struct {
    note *notes;
    size_t count;
} task;

/* Fills the stack up to the frame. No call is made here, nor by the compiler. */
__attribute__((noinline)) static void fill(uint8_t with) {
    volatile uint8_t *end = (uint8_t *)__builtin_frame_address(0) - OWN;
    for (volatile uint8_t *p = stack; p < end; p++) {
        *p = with;
    }
}

/* The lowest byte of the stack that is not as it was filled. */
__attribute__((noinline)) static uint8_t *lowest(uint8_t filled) {
    uint8_t *p = stack;
    while (*p == filled) {
        p++;
    }
    return p;
}

__attribute__((noinline)) static uint8_t *call_document(const note *n, uint32_t render) {
    rst_document(n->document, n->length, render, numbers, RST_NUMBERS_MIN, bytes, RST_BYTES_MIN,
                 output, RST_OUTPUT_MAX);
    return __builtin_frame_address(0);
}

__attribute__((noinline)) static uint8_t *call_link(const note *n, size_t *place) {
    rst_link r = rst_take_link(n->document, n->length, *place, first, RST_STRING_MAX, second,
                               RST_STRING_MAX);
    *place = r.number == RST_ACCEPTED ? *place + r.skipped + r.consumed : SIZE_MAX;
    return __builtin_frame_address(0);
}

static void note_depth(size_t *deepest, const uint8_t *frame, uint8_t filled) {
    size_t depth = (size_t)(frame - lowest(filled));
    if (*deepest < depth) {
        *deepest = depth;
    }
}

static void *measure(void *given) {
    static const uint8_t fillings[] = {0xA5, 0x5A};
    const task *work = given;
    for (size_t i = 0; i < work->count; i++) {
        const note *n = &work->notes[i];
        for (size_t f = 0; f < sizeof fillings; f++) {
            for (uint32_t render = 0; render <= 1; render++) {
                fill(fillings[f]);
                note_depth(&deepest_document, call_document(n, render), fillings[f]);
            }
            size_t place = 0;
            for (int calls = 0; calls < PLACES && place != SIZE_MAX; calls++) {
                fill(fillings[f]);
                note_depth(&deepest_link, call_link(n, &place), fillings[f]);
            }
        }
    }
    return NULL;
}

int main(int count, char **words) {
    size_t notes_len = (size_t)count - 1;
    task work = {load_all(words + 1, notes_len), notes_len};
    pthread_attr_t attributes;
    pthread_t thread;
    if (pthread_attr_init(&attributes) != 0 ||
        pthread_attr_setstack(&attributes, stack, STACK) != 0 ||
        pthread_create(&thread, &attributes, measure, &work) != 0 ||
        pthread_join(thread, NULL) != 0) {
        fprintf(stderr, "no thread\n");
        return 2;
    }
    pthread_attr_destroy(&attributes);
    drop_all(work.notes, notes_len);
    printf("rst_document %zu of %d bytes, rst_take_link %zu of %d\n", deepest_document,
           RST_DOCUMENT_STACK, deepest_link, RST_TAKE_LINK_STACK);
    return deepest_document > RST_DOCUMENT_STACK || deepest_link > RST_TAKE_LINK_STACK;
}
