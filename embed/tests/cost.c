/* What a call costs: microseconds, and bytes of stack.
 *
 *     cost rights.rbk player number operation asset kind time cases.bin
 *
 * calls each function on the book many times over, on a copy of the image for each call that changes it, and prints a
 * line for each. Of rights_from_xml it prints the time of one stored text on average, and the most stack of any. The stack is
 * measured by filling it with a pattern and looking how far down the pattern is overwritten. */
#define _POSIX_C_SOURCE 200809L
#include <pthread.h>
#include <stdio.h>
#include <stdlib.h>
#include <string.h>
#include <time.h>

#include "../rights.h"

enum { TIMES = 20000, STACK = 8 << 20, PAINT = 0xa5, TEXTS = 1 << 20 };

static uint8_t image[RIGHTS_LONGEST_IMAGE + 1], copy[RIGHTS_LONGEST_IMAGE + 1], record[RIGHTS_RECORD], out[RIGHTS_LINE];
static size_t length;
static uint32_t event[6], numbers[RIGHTS_ENTRY_NUMBERS];
static uint8_t code, entry;
static uint32_t until;
static uint64_t written, copy_length, elements;
static struct rights_line lines[RIGHTS_LINES];
static size_t line_count;
static uint8_t texts[TEXTS]; /* each with its length in 4 bytes in front */
static size_t texts_length, at, text_length;

static void fail(const char *what)
{
    fprintf(stderr, "cost: %s\n", what);
    exit(1);
}

static uint8_t nothing(void)
{
    memcpy(copy, image, length);
    return 0;
}

static uint8_t check(void)
{
    return rights_check(image, length);
}

static uint8_t answer(void)
{
    memcpy(copy, image, length);
    copy_length = length;
    return rights_answer(copy, sizeof copy, &copy_length, record, sizeof record, out, sizeof out, &written, lines,
                         line_count);
}

static uint8_t answer_one(void)
{
    memcpy(copy, image, length);
    copy_length = length;
    return rights_answer_one(copy, sizeof copy, &copy_length, (uint8_t)event[0], event[1], (uint8_t)event[2],
                             (uint16_t)event[3], (uint8_t)event[4], event[5], &code, &entry, &until, lines, line_count);
}

static uint8_t make(void)
{
    return rights_record((uint8_t)event[0], event[1], (uint8_t)event[2], (uint16_t)event[3], (uint8_t)event[4],
                         event[5], record, sizeof record);
}

static uint8_t book(void)
{
    return rights_book(image, length, numbers, RIGHTS_ENTRY_NUMBERS);
}

static uint8_t asset(void)
{
    return rights_asset(image, length, 0, numbers, RIGHTS_ENTRY_NUMBERS);
}

static uint8_t one_entry(void)
{
    return rights_entry(image, length, 0, numbers, RIGHTS_ENTRY_NUMBERS);
}

static uint8_t left(void)
{
    return rights_left(image, length, 0, event[5], numbers, RIGHTS_ENTRY_NUMBERS);
}

static uint8_t grounds(void)
{
    return rights_grounds(image, length, 0, (uint8_t)event[0], event[5], numbers, RIGHTS_ENTRY_NUMBERS);
}

static uint8_t player(void)
{
    return rights_player(image, length, 0, numbers, RIGHTS_ENTRY_NUMBERS);
}

/* The text whose length stands at `at`. */
static uint8_t from_xml(void)
{
    rights_from_xml(texts + at + 4, text_length, copy, sizeof copy, &copy_length, &elements);
    return 0;
}

/* Steps to the next text; whether there is one. */
static int next_text(int first)
{
    at = first ? 0 : at + 4 + text_length;
    if (at + 4 > texts_length)
        return 0;
    text_length = (size_t)texts[at] << 24 | (size_t)texts[at + 1] << 16 | (size_t)texts[at + 2] << 8 | texts[at + 3];
    return 1;
}

static const struct {
    const char *name;
    uint8_t (*call)(void);
} calls[] = {
    {"(a copy of the image)", nothing}, {"rights_check", check},   {"rights_record", make},
    {"rights_answer", answer},          {"rights_answer_one", answer_one},
    {"rights_book", book},              {"rights_asset", asset},   {"rights_entry", one_entry},
    {"rights_left", left},              {"rights_grounds", grounds}, {"rights_player", player},
};

static uint8_t (*now)(void);

static void *thread(void *nothing_more)
{
    (void)nothing_more;
    now();
    return NULL;
}

/* The thread's own use of its stack is counted too: some 2 to 3 KB. */
static size_t stack_of(uint8_t (*call)(void))
{
    static uint8_t *stack;
    static size_t free_bytes; /* what is above them was used before */
    pthread_attr_t attributes;
    pthread_t id;
    if (!stack && posix_memalign((void **)&stack, 4096, STACK) != 0)
        fail("no memory");
    memset(stack + free_bytes, PAINT, STACK - free_bytes);
    now = call;
    if (pthread_attr_init(&attributes) || pthread_attr_setstack(&attributes, stack, STACK)
        || pthread_create(&id, &attributes, thread, NULL) || pthread_join(id, NULL))
        fail("no thread");
    free_bytes = 0;
    while (free_bytes < STACK && stack[free_bytes] == PAINT)
        free_bytes++;
    return STACK - free_bytes;
}

static double seconds(void)
{
    struct timespec t;
    clock_gettime(CLOCK_MONOTONIC, &t);
    return (double)t.tv_sec + (double)t.tv_nsec / 1e9;
}

int main(int count, char **words)
{
    FILE *f = count == 9 ? fopen(words[1], "rb") : NULL, *stored = count == 9 ? fopen(words[8], "rb") : NULL;
    if (!f || !stored)
        fail("usage: cost rights.rbk player number operation asset kind time cases.bin");
    length = fread(image, 1, sizeof image, f);
    texts_length = fread(texts, 1, sizeof texts, stored);
    for (int i = 0; i < 6; i++)
        event[i] = (uint32_t)strtoul(words[i + 2], NULL, 10);
    if (make() || check() || rights_zeros(image, length, lines, &line_count))
        fail("the book is refused");
    for (size_t i = 0; i < sizeof calls / sizeof *calls; i++) {
        double best = 1e9;
        for (int round = 0; round < 5; round++) {
            double from = seconds();
            for (int n = 0; n < TIMES; n++)
                if (calls[i].call())
                    fail(calls[i].name);
            double took = (seconds() - from) / TIMES;
            best = took < best ? took : best;
        }
        printf("%-24s %8.3f us %8zu bytes of stack\n", calls[i].name, best * 1e6, stack_of(calls[i].call));
    }
    size_t most = 0, how_many = 0;
    double from = seconds();
    for (int more = next_text(1); more; more = next_text(0)) {
        from_xml();
        how_many++;
    }
    double took = (seconds() - from) / (double)how_many;
    for (int more = next_text(1); more; more = next_text(0)) {
        size_t used = stack_of(from_xml);
        most = used > most ? used : most;
    }
    printf("%-24s %8.3f us %8zu bytes of stack\n", "rights_from_xml", took * 1e6, most);
    printf("answer: %u %u %u\n", code, entry, until);
    return 0;
}
