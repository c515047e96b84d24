/* Answers a file of event records from a book, and writes the book and the usage report after them, using the proved library:
 *
 *     after BOOK NEXT REPORT < EVENTS > ANSWERS
 *
 * The report begins with zeros and is written as a line `content times seconds` for each asset. Events are read in blocks, so there may
 * be any number; calls on successive blocks of whole records print the same and end with the same book and the same report as one call
 * on all of them (crates/embed_laws/specs/Pieces.antt). The exit status is 0; 20 to 27 if the book is refused with that number; 1 if a
 * file cannot be read or written. `tools/book.py after` and `report` build and call it. */
#include <inttypes.h>
#include <stdio.h>
#include <stdlib.h>

#include "rights.h"

enum { BLOCK = 5000 }; /* records in a block */

static uint8_t image[RIGHTS_LONGEST_IMAGE + 1], records[BLOCK * RIGHTS_RECORD], out[RIGHTS_ROOM(sizeof records)];
static struct rights_line lines[RIGHTS_LINES];

static void fail(const char *name)
{
    perror(name);
    exit(1);
}

static FILE *opened(const char *name, const char *how)
{
    FILE *file = fopen(name, how);
    if (!file)
        fail(name);
    return file;
}

int main(int count, char **words)
{
    if (count != 4) {
        fprintf(stderr, "usage: after BOOK NEXT REPORT < EVENTS > ANSWERS\n");
        return 1;
    }
    FILE *book = opened(words[1], "rb");
    uint64_t image_length = fread(image, 1, sizeof image, book); /* a longer file is refused like this part of it */
    if (ferror(book))
        fail(words[1]);
    size_t line_count;
    uint8_t refused = rights_zeros(image, image_length, lines, &line_count);
    if (refused != RIGHTS_OK)
        return refused;

    size_t length;
    do {
        uint64_t written = 0;
        length = fread(records, 1, sizeof records, stdin); /* less than the block only at the end */
        if (ferror(stdin))
            fail("the events");
        uint8_t code = rights_answer(image, sizeof image, &image_length, records, length, out, sizeof out, &written, lines, line_count);
        if (code != RIGHTS_OK)
            return code;
        if (fwrite(out, 1, written, stdout) != written)
            fail("the answers");
    } while (length == sizeof records);
    if (fflush(stdout) != 0)
        fail("the answers");

    FILE *next = opened(words[2], "wb");
    if (fwrite(image, 1, image_length, next) != image_length || fclose(next) != 0)
        fail(words[2]);
    FILE *report = opened(words[3], "w");
    for (size_t i = 0; i < line_count; i++)
        fprintf(report, "%" PRIu64 " %" PRIu64 " %" PRIu64 "\n", lines[i].content, lines[i].times, lines[i].seconds);
    if (ferror(report) || fclose(report) != 0)
        fail(words[3]);
    return 0;
}
