/* Prints the links of notes: place, bytes consumed, text, destination; and then the
 * links as they stand: place, kind, both strings.
 *
 *     links RENDER NOTE..
 *
 * The notes are read one after the other with the same work areas. The output is
 * short at first; where the reader says that it is too short, as many bytes as it
 * asks for are lent. A refused note is told with its number and value; the status
 * is 1 where there is one. */
#include <inttypes.h>
#include <stdio.h>
#include <stdlib.h>

#include "rstlinks.h"

/* What one thread lends. */
typedef struct {
    uint32_t numbers[RST_NUMBERS_MIN];
    uint8_t bytes[RST_BYTES_MIN];
    uint8_t *output;
    size_t output_len;
} areas;

/* Reads a file up to one byte more than the longest document: then the reader
 * sees that it is too long. */
static size_t load(const char *name, uint8_t *document) {
    FILE *file = fopen(name, "rb");
    if (file == NULL) {
        perror(name);
        exit(2);
    }
    size_t length = fread(document, 1, RST_DOCUMENT_MAX + 1, file);
    if (ferror(file)) {
        perror(name);
        exit(2);
    }
    fclose(file);
    return length;
}

/* An output of that length, in the place of the one before. */
static void lend(areas *lent, size_t length) {
    free(lent->output);
    lent->output = malloc(length);
    lent->output_len = length;
    if (lent->output == NULL) {
        perror("output");
        exit(2);
    }
}

/* The document call, with a longer output where it is needed. */
static rst_outcome read_note(areas *lent, const uint8_t *document, size_t length, uint32_t render) {
    for (;;) {
        rst_outcome outcome =
            rst_document(document, length, render, lent->numbers, RST_NUMBERS_MIN, lent->bytes,
                         RST_BYTES_MIN, lent->output, lent->output_len);
        if (outcome.number != RST_TOO_SHORT) {
            return outcome;
        }
        printf("output %zu too short, needed %" PRIu32 "\n", lent->output_len, outcome.bytes);
        lend(lent, outcome.bytes);
    }
}

/* A record's 8 bytes as one number. */
static uint64_t head_of(const uint8_t *record) {
    uint64_t head = 0;
    for (size_t i = 0; i < RST_RECORD_HEAD; i++) {
        head = head << 8 | record[i];
    }
    return head;
}

static size_t field(uint64_t head, int shift) { return head >> shift & 0x7FFF; }

static void print_string(const uint8_t *string, size_t length) {
    printf(" \"");
    fwrite(string, 1, length, stdout);
    printf("\"");
}

/* A line for each record. */
static void print_links(const uint8_t *record, uint32_t links) {
    size_t end = 0;
    for (uint32_t i = 0; i < links; i++) {
        uint64_t head = head_of(record);
        size_t place = end + field(head, 49), consumed = field(head, 34);
        size_t text = field(head, 19), destination = field(head, 4);
        record += RST_RECORD_HEAD;
        printf("%zu %zu", place, consumed);
        print_string(record, text);
        print_string(record + text, destination);
        printf("\n");
        record += text + destination;
        end = place + consumed;
    }
}

/* A line for each link as it stands, and one for the place behind which there is none. */
static void print_standing(const uint8_t *document, size_t length) {
    static const char *const kinds[] = {
        [RST_TEXT2DEST] = "Text2Dest",     [RST_TEXTLABEL2DEST] = "TextLabel2Dest",
        [RST_TEXT2LABEL] = "Text2Label",   [RST_LABEL2DEST] = "Label2Dest",
        [RST_LABEL2LABEL] = "Label2Label",
    };
    static uint8_t first[RST_STRING_MAX], second[RST_STRING_MAX];
    size_t place = 0;
    for (;;) {
        rst_link link =
            rst_take_link(document, length, place, first, RST_STRING_MAX, second, RST_STRING_MAX);
        if (link.number != RST_ACCEPTED) {
            printf("%zu %s\n", place, link.number == RST_NO_LINK ? "no link" : "refused");
            return;
        }
        printf("%zu %s", place + link.skipped, kinds[link.kind]);
        print_string(first, link.first);
        print_string(second, link.second);
        printf("\n");
        place += link.skipped + link.consumed;
    }
}

/* Reads a note, prints its links or its refusal, and says whether it was read. */
static int show(areas *lent, uint32_t render, const char *name) {
    static uint8_t document[RST_DOCUMENT_MAX + 1];
    size_t length = load(name, document);
    printf("note %s\n", name);
    lend(lent, 256);
    rst_outcome outcome = read_note(lent, document, length, render);
    if (outcome.number != RST_ACCEPTED) {
        printf("refused %" PRIu32 ", bytes %" PRIu32 "\n", outcome.number, outcome.bytes);
        return 0;
    }
    printf("links %" PRIu32 ", bytes %" PRIu32 "\n", outcome.links, outcome.bytes);
    print_links(lent->output, outcome.links);
    printf("as they stand\n");
    print_standing(document, length);
    return 1;
}

/* Reads a word as a number of 32 bits, and says whether it is one. */
static int number(const char *word, uint32_t *value) {
    char *end;
    unsigned long long read = strtoull(word, &end, 10);
    *value = (uint32_t)read;
    return *word >= '0' && *word <= '9' && *end == '\0' && read <= UINT32_MAX;
}

int main(int count, char **words) {
    static areas lent;
    int status = 0;
    uint32_t render;
    if (count < 3 || !number(words[1], &render)) {
        fprintf(stderr, "usage: links RENDER NOTE..\n");
        return 2;
    }
    for (int i = 2; i < count; i++) {
        if (!show(&lent, render, words[i])) {
            status = 1;
        }
    }
    free(lent.output);
    return status;
}
