/* Calls over areas that are malloc'd to the byte, so that a tool that watches
 * memory sees an access beyond them:
 *
 *     lent NOTE..          the calls; prints how many, and which numbers were met
 *     lent --beyond NOTE   one call with a length that is one too large: the tool
 *                          must tell it
 *
 * Each note is read with both options and with one that there is not, with areas
 * and outputs that just suffice and with ones too short by one; and by the
 * single-link call from place to place in the same way. What must hold behind each
 * call is tested: work areas zero, refused outputs and buffers as they were. */
#include "notes.h"

enum { NUMBERS = 10 };

static size_t calls, faults, document_met[NUMBERS], link_met[NUMBERS];

static void expect(int right, const char *what, const note *n) {
    if (!right) {
        printf("%s: %s\n", n->name, what);
        faults++;
    }
}

/* The document call with areas of these lengths. */
static rst_outcome document(const note *n, uint32_t render, size_t numbers_len, size_t bytes_len,
                            size_t output_len) {
    uint32_t *numbers = area(numbers_len * sizeof *numbers);
    uint8_t *bytes = area(bytes_len), *output = area(output_len);
    scribble(numbers, numbers_len * sizeof *numbers);
    scribble(bytes, bytes_len);
    scribble(output, output_len);
    rst_outcome r = rst_document(n->document, n->length, render, numbers, numbers_len, bytes,
                                 bytes_len, output, output_len);
    calls++;
    expect(r.number < NUMBERS, "a number that there is not", n);
    document_met[r.number % NUMBERS]++;
    expect(all_zero(numbers, numbers_len * sizeof *numbers), "work numbers are not zero", n);
    expect(all_zero(bytes, bytes_len), "work bytes are not zero", n);
    if (r.number == RST_ACCEPTED) {
        expect(r.bytes <= output_len, "more bytes than were lent", n);
    } else {
        expect(scribbled(output, output_len), "a refused output was written", n);
    }
    free(numbers);
    free(bytes);
    free(output);
    return r;
}

static void documents(const note *n) {
    for (uint32_t render = 0; render <= 1; render++) {
        rst_outcome r = document(n, render, RST_NUMBERS_MIN, RST_BYTES_MIN, 0);
        if (r.number == RST_TOO_SHORT) {
            uint32_t size = r.bytes;
            r = document(n, render, RST_NUMBERS_MIN, RST_BYTES_MIN, size - 1);
            expect(r.number == RST_TOO_SHORT && r.bytes == size, "one byte less is not refused", n);
            r = document(n, render, RST_NUMBERS_MIN, RST_BYTES_MIN, size);
            expect(r.number == RST_ACCEPTED && r.bytes == size, "the size asked for is not enough", n);
        }
        if (n->length <= RST_DOCUMENT_MAX) {
            r = document(n, render, RST_NUMBERS_MIN - 1, RST_BYTES_MIN, 0);
            expect(r.number == RST_WORK_TOO_SHORT, "too few numbers are not refused", n);
            r = document(n, render, RST_NUMBERS_MIN, RST_BYTES_MIN - 1, 0);
            expect(r.number == RST_WORK_TOO_SHORT, "too few bytes are not refused", n);
            r = document(n, render, 0, 0, 0);
            expect(r.number == RST_WORK_TOO_SHORT, "no areas are not refused", n);
        }
    }
    rst_outcome r = document(n, 2, RST_NUMBERS_MIN, RST_BYTES_MIN, n->length);
    expect(r.number == RST_NO_SUCH_RENDER, "option 2 is not refused", n);
}

/* The single-link call with buffers of these lengths. */
static rst_link link_at(const note *n, size_t place, size_t first_len, size_t second_len) {
    uint8_t *first = area(first_len), *second = area(second_len);
    scribble(first, first_len);
    scribble(second, second_len);
    rst_link r = rst_take_link(n->document, n->length, place, first, first_len, second, second_len);
    calls++;
    expect(r.number < NUMBERS, "a number that there is not", n);
    link_met[r.number % NUMBERS]++;
    if (r.number != RST_ACCEPTED) {
        expect(scribbled(first, first_len) && scribbled(second, second_len),
               "a refused buffer was written", n);
    }
    free(first);
    free(second);
    return r;
}

/* At each link, and at the first places; of a long note at a few. */
static void links(const note *n) {
    size_t place = 0, most = n->length < 4000 ? 40 : 4;
    for (size_t count = 0; count < most; count++) {
        static uint8_t first[RST_STRING_MAX], second[RST_STRING_MAX];
        rst_link r = rst_take_link(n->document, n->length, place, first, RST_STRING_MAX, second,
                                   RST_STRING_MAX);
        calls++;
        link_met[r.number % NUMBERS]++;
        link_at(n, place, 0, 0);
        if (r.number != RST_ACCEPTED) {
            break;
        }
        rst_link again = link_at(n, place, r.first, r.second);
        expect(memcmp(&r, &again, sizeof r) == 0, "buffers that suffice give another answer", n);
        if (r.first != 0) {
            again = link_at(n, place, r.first - 1, r.second);
            expect(again.number == RST_TOO_SHORT && again.bytes == r.first, "first not refused", n);
        }
        if (r.second != 0) {
            again = link_at(n, place, r.first, r.second - 1);
            expect(again.number == RST_TOO_SHORT && again.bytes == r.second, "second not refused", n);
        }
        place += r.skipped + r.consumed;
    }
    link_at(n, n->length, 0, 0);
    link_at(n, n->length + 1, 0, 0);
    link_at(n, SIZE_MAX, 0, 0);
    for (size_t i = 0; i < n->length && i < most; i++) {
        link_at(n, i, 0, 0);
    }
}

/* Areas of length 0 may have any pointer. */
static void nothing_lent(void) {
    note none = {"nothing lent", NULL, 0};
    rst_outcome r = rst_document(NULL, 0, 0, NULL, 0, NULL, 0, NULL, 0);
    expect(r.number == RST_WORK_TOO_SHORT, "no areas are not refused", &none);
    rst_link link = rst_take_link(NULL, 0, 0, NULL, 0, NULL, 0);
    expect(link.number == RST_NO_LINK, "a link in no document", &none);
    r = document(&none, 1, RST_NUMBERS_MIN, RST_BYTES_MIN, 0);
    expect(r.number == RST_ACCEPTED && r.links == 0, "no document is not accepted", &none);
    calls += 2;
}

static void print_met(const char *call, const size_t *met) {
    printf("%s met:", call);
    for (int i = 0; i < NUMBERS; i++) {
        if (met[i] != 0) {
            printf(" %d", i);
        }
    }
    printf("\n");
}

int main(int count, char **words) {
    if (count == 3 && strcmp(words[1], "--beyond") == 0) {
        note n = load(words[2]);
        uint32_t *numbers = area(RST_NUMBERS_MIN * sizeof *numbers);
        uint8_t *bytes = area(RST_BYTES_MIN);
        rst_document(n.document, n.length, 0, numbers, RST_NUMBERS_MIN, bytes, RST_BYTES_MIN + 1,
                     NULL, 0);
        free(numbers);
        free(bytes);
        free(n.document);
        return 0;
    }
    size_t notes_len = (size_t)count - 1;
    note *notes = load_all(words + 1, notes_len);
    nothing_lent();
    for (size_t i = 0; i < notes_len; i++) {
        documents(&notes[i]);
        links(&notes[i]);
    }
    drop_all(notes, notes_len);
    print_met("rst_document", document_met);
    print_met("rst_take_link", link_met);
    printf("notes %zu, calls %zu, faults %zu\n", notes_len, calls, faults);
    return faults != 0;
}
