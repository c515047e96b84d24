/* Answers events with the proved library, each block of them with a list of lines of its own, many in one process:
 *
 *     lend_lists < BLOCKS > ANSWERS
 *
 * A block is an image, a list and event records, each behind its length in 32 bits, big-endian: of the list the number of lines,
 * of 24 bytes each (content, times, seconds). The answer is the result of rights_answer, and the text, the image and the list
 * that it left, in the same form. A block of whole records is answered once more by rights_answer_one, event by event. The exit
 * status is 1, with a word on standard error, where the two differ or a call left something that it must not.
 * oracle/list_fuzz.py builds and calls it. */
#include <stdio.h>
#include <stdlib.h>
#include <string.h>

#include "rights.h"

enum { IMAGE = 16384, RECORDS = 65536, TEXT = 2 * RECORDS, LINES = 256, BEYOND = 8, MARK = 0xA5 };

struct held {                          /* what a call may change; the bytes beyond are not lent */
    uint64_t length, written;
    uint8_t image[IMAGE + BEYOND], text[TEXT + BEYOND];
    struct rights_line lines[LINES + BEYOND];
};

static struct held start, block, ones;
static uint8_t records[RECORDS];
static size_t room;                    /* lent for the image: for the longest, or for what is none */

static void fail(const char *why)
{
    fflush(stdout);
    fprintf(stderr, "lend_lists: %s\n", why);
    exit(1);
}

static void take(uint8_t *to, size_t length, size_t room)
{
    if (length > room)
        fail("a block is too long");
    if (fread(to, 1, length, stdin) != length)
        fail("the last block is cut");
}

static uint64_t number(const uint8_t *from, size_t width)
{
    uint64_t value = 0;
    for (size_t i = 0; i < width; i++)
        value = value << 8 | from[i];
    return value;
}

static void put(uint64_t value, size_t width)
{
    for (size_t i = width; i-- > 0;)
        putchar((int)(value >> 8 * i & 255));
}

static size_t take_length(void)
{
    uint8_t bytes[4];
    take(bytes, 4, 4);
    return (size_t)number(bytes, 4);
}

/* The image, the list and the records of the next block; how many lines the list has, and how many bytes the records. */
static void take_block(size_t *lines, size_t *length)
{
    memset(&start, MARK, sizeof start);
    start.length = take_length();
    take(start.image, start.length, IMAGE);
    room = start.length > RIGHTS_LONGEST_IMAGE ? start.length : RIGHTS_LONGEST_IMAGE;
    *lines = take_length();
    if (*lines > LINES)
        fail("a list is too long");
    for (size_t i = 0; i < *lines; i++) {
        uint8_t bytes[24];
        take(bytes, 24, 24);
        start.lines[i] = (struct rights_line){number(bytes, 8), number(bytes + 8, 8), number(bytes + 16, 8)};
    }
    *length = take_length();
    take(records, *length, RECORDS);
}

/* The block once more, an event at a time. Refused images are left to the call for the whole block. */
static void answer_singly(size_t lines, size_t length)
{
    ones = start;
    ones.written = 0;
    for (const uint8_t *r = records; r < records + length; r += RIGHTS_RECORD) {
        uint8_t code, entry;
        uint32_t until;
        uint8_t result = rights_answer_one(ones.image, room, &ones.length, r[0], number(r + 1, 8), r[9],
                                           (uint16_t)number(r + 10, 2), r[12], (uint32_t)number(r + 13, 4),
                                           &code, &entry, &until, ones.lines, lines);
        if (result != RIGHTS_OK)
            fail("an event of an accepted image is refused");
        char line[40];
        int size = snprintf(line, sizeof line, "%u %u %lu\n", code, entry, (unsigned long)until);
        memcpy(ones.text + ones.written, line, (size_t)size);
        ones.written += (uint64_t)size;
    }
    if (ones.length != block.length || ones.written != block.written || memcmp(ones.image, block.image, sizeof ones.image) != 0
        || memcmp(ones.text, block.text, sizeof ones.text) != 0 || memcmp(ones.lines, block.lines, sizeof ones.lines) != 0)
        fail("an event at a time the answers, the image or the list are others");
}

int main(void)
{
    int next;
    while ((next = getchar()) != EOF) {
        ungetc(next, stdin);
        size_t lines, length;
        take_block(&lines, &length);
        block = start;
        uint8_t result = rights_answer(block.image, room, &block.length, records, length, block.text, TEXT, &block.written,
                                       block.lines, lines);
        if (result != RIGHTS_OK && memcmp(&block, &start, sizeof block) != 0)
            fail("a refused call changed something");
        if (result == RIGHTS_OK) {
            if (block.length > room || memcmp(block.image + room, start.image + room, sizeof block.image - room) != 0)
                fail("bytes behind the image's room were written");
            if (memcmp(block.text + block.written, start.text + block.written, sizeof block.text - block.written) != 0)
                fail("bytes behind the text were written");
            if (memcmp(block.lines + lines, start.lines + lines, sizeof block.lines - lines * sizeof *block.lines) != 0)
                fail("lines behind the list were written");
            if (length > 0 && length % RIGHTS_RECORD == 0)
                answer_singly(lines, length);
        } else {
            block.written = 0;
        }
        put(result, 4);
        put(block.written, 4);
        fwrite(block.text, 1, block.written, stdout);
        put(block.length, 4);
        fwrite(block.image, 1, block.length, stdout);
        for (size_t i = 0; i < lines; i++) {
            put(block.lines[i].content, 8);
            put(block.lines[i].times, 8);
            put(block.lines[i].seconds, 8);
        }
    }
    return fflush(stdout) == 0 ? 0 : 1;
}
