/* rstlinks: the links of a note in reStructuredText, as packed records.
 *
 * rst_document() reads a whole note and writes one record for each of its
 * links. rst_take_link() finds one link from a place on, unresolved.
 *
 * Link with librstlinks_c.a, which is for x86-64 Linux and C's calling convention
 * there. It has these two functions and no variables, and needs no other functions
 * but memcpy and memset.
 *
 * What a caller relies on
 *
 * - Everything is the caller's. A call reads and writes what it is lent and
 *   nothing else, keeps no pointer, takes no memory from the heap and has no
 *   state of its own. So threads may call at the same time, each with areas of
 *   its own; the document may be shared, since it is only read.
 * - A call always returns. It has no conditions on lengths, places, options or
 *   contents: what cannot be done is refused by a number (below). Some documents
 *   take a time that grows with the square of their length (docs/BENCHMARKS.md).
 * - A pointer and the length behind it, counted in elements, are one area. It
 *   must be the caller's for all of that length, and `numbers` aligned for
 *   uint32_t; the others may start anywhere. An area of length 0 may have any
 *   pointer, NULL too.
 * - The areas of one call must not overlap, the document among them.
 * - The work areas may hold anything before rst_document(). Behind it every
 *   element of both is 0, whatever their lengths and whatever was returned. Bytes
 *   that are 0 already are only read: so a tool that tells of memory that was
 *   never written (valgrind) speaks of areas straight from malloc(). Lend static
 *   ones, or calloc()'s, and the same ones again: that is quickest, too.
 * - Refused, the output (or both string buffers) keeps every byte. Accepted, it
 *   begins with what was asked for, and all bytes behind that keep their values.
 * - The same arguments give the same answer and the same bytes.
 * - A call takes no more stack than RST_DOCUMENT_STACK or RST_TAKE_LINK_STACK.
 *
 * Documents
 *
 * At most RST_DOCUMENT_MAX bytes of UTF-8, of characters up to U+024F (so a byte
 * order mark is refused). No ending zero is read; a line ends in LF or CR LF.
 *
 * Records
 *
 * One after the other, with no header and no padding. A record is 8 bytes, most
 * significant bit first, and then two strings:
 *
 *   15 bits   skipped: bytes between the end of the previous record's consumed
 *             part (of the document's start, for the first) and this link
 *   15 bits   consumed: bytes of the document that this link takes
 *   15 bits   length of the text
 *   15 bits   length of the destination
 *    4 bits   zero
 *   bytes     the text, then the destination
 *
 * So with the 8 bytes as one big-endian number h, the fields are h >> 49,
 * h >> 34 & 0x7FFF, h >> 19 & 0x7FFF and h >> 4 & 0x7FFF. A link's place is the
 * sum of skipped and consumed of all records before it, and its own skipped. The
 * strings are UTF-8 and not ended by zero; either may be empty.
 *
 * Example
 *
 * The links of a note of NOTE_LEN bytes (the README has the whole program):
 *
 *   static uint32_t numbers[RST_NUMBERS_MIN];
 *   static uint8_t bytes[RST_BYTES_MIN], output[RST_OUTPUT_ENOUGH(NOTE_LEN)];
 *
 *   rst_outcome r = rst_document(note, NOTE_LEN, 0, numbers, RST_NUMBERS_MIN,
 *                                bytes, RST_BYTES_MIN, output, sizeof output);
 *   if (r.number != RST_ACCEPTED) {
 *       return 1;
 *   }
 *   const uint8_t *at = output;
 *   size_t end = 0;
 *   for (uint32_t i = 0; i < r.links; i++) {
 *       uint64_t head = 0;
 *       for (int k = 0; k < RST_RECORD_HEAD; k++) {
 *           head = head << 8 | *at++;
 *       }
 *       size_t place = end + (head >> 49), consumed = head >> 34 & 0x7FFF;
 *       int text = head >> 19 & 0x7FFF, destination = head >> 4 & 0x7FFF;
 *       // here the text stands at `at`, the destination at `at + text`
 *       at += text + destination;
 *       end = place + consumed;
 *   }
 *
 * Appended notes
 *
 * Where a note, and the same note with a line feed and a tail behind it, are both
 * accepted with one option, the second has every link of the first, in the same
 * order, each with the same place, consumed bytes, text and destination. Its
 * other links start in the tail, or are references that had no destination in
 * the first. This is so where the first note does not end in a carriage return,
 * the tail holds no backtick and begins with neither space nor tab, and the
 * second note defines no name twice. A name is defined by each embedded link
 * with one underscore behind it, which is case 2 below, and by each block of
 * cases 4 and 5, anonymous ones numbered _1, _2, ..; a block that is consumed
 * as part of the link before it defines none.
 */
#ifndef RSTLINKS_H
#define RSTLINKS_H

#include <stddef.h>
#include <stdint.h>

#ifdef __cplusplus
extern "C" {
#endif

/* The longest document, in bytes. */
#define RST_DOCUMENT_MAX 16384

/* The least work areas of rst_document(), which suffice for every document:
 * numbers (elements, not bytes) and bytes. */
#define RST_NUMBERS_MIN 4096
#define RST_BYTES_MIN 49152

/* The most links that are collected in a document, and the most definitions of
 * names. */
#define RST_LINKS_MAX 256
#define RST_DEFINITIONS_MAX 256

/* Bytes of a record before its text. */
#define RST_RECORD_HEAD 8

/* An output that suffices for every document of so many bytes: no string of a
 * record is longer than the document. The second is that of the longest, some
 * 8 MiB. To lend less, lend as many bytes as the document has, and where 7 is
 * returned as many as it says; a call with output_len 0 asks for the size alone. */
#define RST_OUTPUT_ENOUGH(document_len) \
    (RST_LINKS_MAX * (RST_RECORD_HEAD + 2 * (size_t)(document_len)))
#define RST_OUTPUT_MAX 8390656

/* A buffer that suffices for either string of rst_take_link(). */
#define RST_STRING_MAX 16384

/* Bytes of stack that a call takes at most, on every document: the longest way
 * through the archive's code. A thread needs so much beside what its own functions,
 * memcpy and memset take. */
#define RST_DOCUMENT_STACK 20480
#define RST_TAKE_LINK_STACK 20480

/* What is returned as number. Both calls check in the order in which their
 * refusals stand here, from the top; RST_TOO_MANY_LINKS and
 * RST_TOO_MANY_DEFINITIONS come as reading meets them, the first where one link
 * meets both.
 *
 *                                   rst_document()     rst_take_link()
 * 0 RST_ACCEPTED                    links, bytes       all but bytes
 * 1 RST_NO_SUCH_RENDER              -                  never
 * 2 RST_DOCUMENT_TOO_LONG           -                  -
 * 3 RST_WORK_TOO_SHORT              -                  never
 * 4 RST_NO_CHARACTER                bytes: the place   bytes: the place
 * 8 RST_NO_PLACE                    never              -
 * 9 RST_NO_LINK                     never              -
 * 5 RST_TOO_MANY_LINKS              -                  never
 * 6 RST_TOO_MANY_DEFINITIONS        -                  never
 * 7 RST_TOO_SHORT                   bytes: the size    bytes: the size
 *
 * Besides the number, the fields that the table names are set; all others are 0. */
enum {
    RST_ACCEPTED = 0,
    /* render is neither 0 nor 1. */
    RST_NO_SUCH_RENDER = 1,
    /* The document has more than RST_DOCUMENT_MAX bytes. */
    RST_DOCUMENT_TOO_LONG = 2,
    /* Fewer than RST_NUMBERS_MIN numbers or RST_BYTES_MIN bytes were lent. */
    RST_WORK_TOO_SHORT = 3,
    /* The document is not all characters up to U+024F; bytes is the place, from
     * 0, of the first byte that starts none. */
    RST_NO_CHARACTER = 4,
    /* A 257th link is collected; references that name nothing count too. */
    RST_TOO_MANY_LINKS = 5,
    /* A 257th definition; those that are replaced later count too. */
    RST_TOO_MANY_DEFINITIONS = 6,
    /* The output, or one of the string buffers, is too short; bytes is the size
     * that it must have. */
    RST_TOO_SHORT = 7,
    /* The place is past the document or inside a character. */
    RST_NO_PLACE = 8,
    /* There is no link from the place to the end of the document. */
    RST_NO_LINK = 9
};

/* What rst_document() returns. */
typedef struct {
    uint32_t number; /* 0, or why the document was refused */
    uint32_t links;  /* accepted: how many records were written; else 0 */
    uint32_t bytes;  /* accepted: how many bytes they take; else as said above */
} rst_outcome;

/* Reads the document and writes the records of its links to the front of the
 * output, in the order of their places.
 *
 * Links are those that hold their destination themselves, and references that
 * reach a destination of the document, through aliases too; a reference that
 * reaches none is left out. The strings are as a reader would see them, their
 * escapes resolved; a reference without a text shows its destination as its text.
 * With render 1 every block that gives a name a destination is a link as well, its
 * text the block's own bytes as they stand; with render 0 it is none. A block
 * directly behind a link, on its line, belongs to that link and is none. A document
 * without links is accepted, with 0 links and 0 bytes.
 *
 * numbers and bytes are the work areas, at least RST_NUMBERS_MIN and
 * RST_BYTES_MIN elements long. They come back zero. Refusals: 1 to 7. */
rst_outcome rst_document(const uint8_t *document, size_t document_len, uint32_t render,
                         uint32_t *numbers, size_t numbers_len, uint8_t *bytes, size_t bytes_len,
                         uint8_t *output, size_t output_len);

/* The five cases of a link as it stands in the document, and their two strings.
 * The name or label of an anonymous link is a single '_'. */
enum {
    /* `text <destination>`__ : text, destination. */
    RST_TEXT2DEST = 1,
    /* `text <destination>`_ : text, destination; defines the text as a name. */
    RST_TEXTLABEL2DEST = 2,
    /* A reference, such as label_ or `label`_ : text, label. */
    RST_TEXT2LABEL = 3,
    /* A block .. _name: destination : name, destination. */
    RST_LABEL2DEST = 4,
    /* A block .. _name: target_ : name, target. */
    RST_LABEL2LABEL = 5
};

/* What rst_take_link() returns. */
typedef struct {
    uint32_t number;   /* 0, or why there is no answer */
    uint32_t bytes;    /* refused with 4 or 7: the place or the size; else 0 */
    uint32_t kind;     /* 1 to 5, the case; 0 where refused, and so are all below */
    uint32_t skipped;  /* bytes from the place to the link */
    uint32_t consumed; /* bytes that the link takes; the next may follow there */
    uint32_t first;    /* length of the first string: text or name */
    uint32_t second;   /* length of the second: destination, label or target */
} rst_link;

/* Finds the first link of the document from a place on, which counts as the start
 * of the input, and writes its two strings to the fronts of the two buffers.
 * Nothing is resolved. To go on, call again at place + skipped + consumed, until 9
 * is returned. Each call checks the whole document and knows nothing of those
 * before it, so to read all links this way takes a time that grows with the square
 * of the length: rst_document() reads them all in one call, and is the one to use
 * for that.
 *
 * The place may be any number; the document's length is a place, with no link.
 * Refusals: 2, 4, 8, 9, 7; for 7, the size is that of the first string where its
 * buffer is too short, else that of the second. */
rst_link rst_take_link(const uint8_t *document, size_t document_len, size_t place,
                       uint8_t *first, size_t first_len, uint8_t *second, size_t second_len);

#ifdef __cplusplus
}
#endif

#endif
