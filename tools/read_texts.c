/* Reads XML rights objects with the proved library, many in one process:
 *
 *     read_texts [TIMES] < TEXTS > ANSWERS
 *
 * A text is its length in 32 bits, big-endian, and its bytes. An answer is the code, the number of elements and the length of
 * the image, each in 32 bits, and the image. Every whole text that a read delivered is answered before the next read, so a
 * program at the other end of two pipes may wait. With TIMES each text is read so often, and standard error has a line for
 * each: the nanoseconds of one reading. The exit status is 1, with a word on standard error, where a call left something that
 * it must not. oracle/text_fuzz.py, bench/texts.py and tests/dates.py build and call it. */
#define _POSIX_C_SOURCE 200809L
#include <stdio.h>
#include <stdlib.h>
#include <string.h>
#include <time.h>
#include <unistd.h>

#include "rights.h"

enum { ROOM = RIGHTS_LONGEST_IMAGE, BEYOND = 64, MARK = 0xA5 };

static uint8_t *input;                 /* what is read and not answered yet: from `at` to `end` */
static size_t at, end, room;
static uint8_t image[ROOM + BEYOND];   /* the bytes beyond the room must stay as they are */

static void fail(const char *why)
{
    fflush(stdout);
    fprintf(stderr, "read_texts: %s\n", why);
    exit(1);
}

/* Whether so many bytes can be had from `at` on. */
static int have(size_t wanted)
{
    while (end - at < wanted) {
        if (fflush(stdout) != 0)
            fail("the answers cannot be written");
        memmove(input, input + at, end - at);
        end -= at;
        at = 0;
        if (room < wanted + 65536) {
            room = wanted + 65536;
            input = realloc(input, room);
            if (!input)
                fail("there is not enough memory");
        }
        ssize_t got = read(0, input + end, room - end);
        if (got < 0)
            fail("the texts cannot be read");
        if (got == 0)
            return 0;
        end += (size_t)got;
    }
    return 1;
}

static uint32_t number(const uint8_t *from)
{
    return (uint32_t)from[0] << 24 | (uint32_t)from[1] << 16 | (uint32_t)from[2] << 8 | from[3];
}

static void put(uint64_t value)
{
    uint8_t bytes[4] = {(uint8_t)(value >> 24), (uint8_t)(value >> 16), (uint8_t)(value >> 8), (uint8_t)value};
    fwrite(bytes, 1, 4, stdout);
}

static void check_marks(size_t from, const char *why)
{
    for (size_t i = from; i < sizeof image; i++)
        if (image[i] != MARK)
            fail(why);
}

static double seconds(void)
{
    struct timespec now;
    clock_gettime(CLOCK_MONOTONIC, &now);
    return (double)now.tv_sec + (double)now.tv_nsec / 1e9;
}

/* Reads a text once and checks that a refusal changed nothing. */
static uint8_t answer(const uint8_t *text, size_t length, size_t image_room, uint64_t *image_length, uint64_t *elements)
{
    memset(image, MARK, sizeof image);
    *image_length = *elements = UINT64_MAX;
    uint8_t code = rights_from_xml(text, length, image, image_room, image_length, elements);
    if (code == RIGHTS_OK) {
        if (*image_length > image_room)
            fail("an image is longer than its room");
        check_marks(*image_length, "bytes behind the image were written");
    } else {
        if (*image_length != UINT64_MAX || *elements != UINT64_MAX)
            fail("a refusal wrote a number");
        check_marks(0, "a refusal wrote into the image");
        *image_length = *elements = 0;
    }
    return code;
}

int main(int count, char **words)
{
    long times = count > 1 ? strtol(words[1], NULL, 10) : 0;
    while (have(4)) {
        size_t length = number(input + at);
        if (!have(4 + length))
            fail("the last text is cut");
        const uint8_t *text = input + at + 4;
        uint64_t image_length, elements;
        uint8_t code = answer(text, length, ROOM, &image_length, &elements);
        if (code == RIGHTS_OK && times == 0) {
            uint64_t no_length, no_elements;
            if (answer(text, length, image_length - 1, &no_length, &no_elements) != RIGHTS_SHORT_OUT)
                fail("an image went into a room that is a byte too short");
            answer(text, length, image_length, &image_length, &elements);
        }
        if (times > 0) {
            double began = seconds();
            for (long i = 0; i < times; i++)
                rights_from_xml(text, length, image, ROOM, &image_length, &elements);
            fprintf(stderr, "%.0f\n", (seconds() - began) * 1e9 / (double)times);
        }
        put(code);
        put(code == RIGHTS_OK ? elements : 0);
        put(code == RIGHTS_OK ? image_length : 0);
        if (code == RIGHTS_OK)
            fwrite(image, 1, image_length, stdout);
        at += 4 + length;
    }
    if (end != at)
        fail("the last text is cut");
    if (fflush(stdout) != 0)
        fail("the answers cannot be written");
    return 0;
}
