/* Answers a file of event records from a book, and saves the book and the usage report after them:
 *
 *     example BOOK EVENTS SAVED
 *
 * BOOK is the image of a book, and then the lines of the report begin with zeros: a first start. Or it is a saved file, image and lines
 * together (docs/FORMAT.md), and then it goes on with both. SAVED becomes a saved file, which may be BOOK itself if that is one; after
 * that the answers are printed. The order is the one in docs/EMBEDDING.md: all bytes go to a file beside SAVED, are synced, the file is
 * renamed and the folder synced, and only then do the answers go out. A kill or a power cut at any moment leaves the old saved file or
 * the new one, whole. Nothing else is replaced: if SAVED is there and is neither empty nor the saved file BOOK, it is refused and stays,
 * so that a first start that is repeated does not begin everything anew.
 *
 * If anything fails before the answers, it says what, prints no answer, leaves SAVED as it was and exits with status 1.
 * If the printing itself fails, the status is 1 too, and the new saved file stays: a player that sends its last event again
 * gets the answer that the book has stored. Status 2: the command line is wrong. Run one at a time on a saved file: of two that begin
 * with the same one, the later loses what the other took. docs/EMBEDDING.md shows how to link it. */
#define _POSIX_C_SOURCE 200809L
#include <errno.h>
#include <fcntl.h>
#include <libgen.h>
#include <stdio.h>
#include <stdlib.h>
#include <string.h>
#include <sys/stat.h>
#include <unistd.h>

#include "rights.h"

/* A saved file: mark, version, length of the image and number of lines; the image; the lines; the check sum. */
enum {
    MARK = 3,
    VERSION = 1,
    HEAD = 13,
    LINE = 24,
    SUM = 4,
    LONGEST_SAVED = HEAD + RIGHTS_LONGEST_IMAGE + LINE * RIGHTS_LINES + SUM
};

static const char NO_SAVED_FILE[] = "this is no saved file";

/* Where the server stands: the image, in a buffer that has room for any next one, and the lines of the report. */
struct state {
    uint8_t *image;
    size_t room;
    uint64_t length;
    struct rights_line lines[RIGHTS_LINES];
    size_t line_count;
};

static void fail(const char *name, const char *why)
{
    fprintf(stderr, "example: %s: %s\n", name, why);
    exit(1);
}

static void *allocate(size_t bytes)
{
    /* one byte more, so that the pointer is not NULL even for length 0 */
    void *memory = bytes < SIZE_MAX ? malloc(bytes + 1) : NULL;
    if (!memory)
        fail("memory", "there is not enough");
    return memory;
}

/* All bytes of a file, or of a pipe, in a buffer that has room for HEAD bytes and the longest image at least. */
static uint8_t *read_file(const char *name, size_t *buffer_room, size_t *length)
{
    int file = open(name, O_RDONLY);
    struct stat about;
    if (file < 0 || fstat(file, &about) != 0)
        fail(name, strerror(errno));
    if (S_ISDIR(about.st_mode))
        fail(name, "is a folder");
    size_t room = 65536, used = 0;
    uint8_t *bytes = allocate(room);
    for (;;) {
        ssize_t got = read(file, bytes + used, room - used);
        if (got < 0 && errno == EINTR)
            continue;
        if (got < 0)
            fail(name, strerror(errno));
        if (got == 0)
            break;
        used += (size_t)got;
        if (used == room) {
            uint8_t *more = room <= SIZE_MAX / 2 ? realloc(bytes, room * 2) : NULL;
            if (!more)
                fail("memory", "there is not enough");
            bytes = more;
            room *= 2;
        }
    }
    close(file);
    *buffer_room = room;
    *length = used;
    return bytes;
}

/* ---- The bytes of a saved file */

static uint64_t number_at(const uint8_t *bytes, int width)
{
    uint64_t number = 0;
    for (int i = 0; i < width; i++)
        number = number << 8 | bytes[i];
    return number;
}

/* Puts a number, big-endian, and returns the place behind it. */
static uint8_t *put(uint8_t *to, uint64_t number, int width)
{
    for (int i = 0; i < width; i++)
        to[i] = (uint8_t)(number >> 8 * (width - 1 - i));
    return to + width;
}

/* CRC-32, the one of Ethernet and zlib. */
static uint32_t sum_of(const uint8_t *bytes, size_t length)
{
    uint32_t sum = UINT32_MAX;
    for (size_t i = 0; i < length; i++) {
        sum ^= bytes[i];
        for (int bit = 0; bit < 8; bit++)
            sum = sum >> 1 ^ (sum & 1 ? UINT32_C(0xedb88320) : 0);
    }
    return ~sum;
}

static int has_mark(const uint8_t *bytes, size_t length)
{
    return length >= MARK && memcmp(bytes, "RBS", MARK) == 0;
}

/* What is wrong with the bytes as a saved file, or NULL. Each length is judged before they are added, so no sum of them wraps. */
static const char *fault_of(const uint8_t *bytes, size_t length)
{
    if (!has_mark(bytes, length))
        return NO_SAVED_FILE;
    if (length < HEAD + SUM)
        return "the saved file is damaged: it is cut short";
    if (number_at(bytes + 3, 2) != VERSION)
        return "the saved file is damaged, or of a later version than 1";
    uint64_t image_length = number_at(bytes + 5, 4), line_count = number_at(bytes + 9, 4);
    if (image_length > RIGHTS_LONGEST_IMAGE || line_count > RIGHTS_LINES
        || length != HEAD + image_length + LINE * line_count + SUM)
        return "the saved file is damaged: its length is not the one that it tells";
    if (number_at(bytes + length - SUM, SUM) != sum_of(bytes, length - SUM))
        return "the saved file is damaged: its check sum is wrong";
    return NULL;
}

/* Makes a saved file of the state, in LONGEST_SAVED bytes. Returns its length. */
static size_t make_saved(const struct state *now, uint8_t *bytes)
{
    memcpy(bytes, "RBS", MARK);
    uint8_t *to = put(bytes + MARK, VERSION, 2);
    to = put(to, now->length, 4);
    to = put(to, now->line_count, 4);
    memcpy(to, now->image, (size_t)now->length);
    to += now->length;
    for (size_t i = 0; i < now->line_count; i++) {
        to = put(to, now->lines[i].content, 8);
        to = put(to, now->lines[i].times, 8);
        to = put(to, now->lines[i].seconds, 8);
    }
    return (size_t)(put(to, sum_of(bytes, (size_t)(to - bytes)), SUM) - bytes);
}

/* ---- Where to start from */

static void refuse_image(const char *name, uint8_t code)
{
    char why[40];
    snprintf(why, sizeof why, "the image is refused: %d", code);
    fail(name, why);
}

/* The image and the lines of a saved file. The library judges both, the lines by an event of player 255: it changes nothing, and is
 * answered 30 if they do not fit the book, otherwise 2. A server that went on with such lines would answer nothing but 30. */
static void go_on(const char *name, size_t length, struct state *now)
{
    const char *fault = fault_of(now->image, length);
    if (fault)
        fail(name, fault);
    now->length = number_at(now->image + 5, 4);
    now->line_count = (size_t)number_at(now->image + 9, 4);
    now->image += HEAD;
    now->room -= HEAD;
    const uint8_t *from = now->image + now->length;
    for (size_t i = 0; i < now->line_count; i++, from += LINE) {
        now->lines[i].content = number_at(from, 8);
        now->lines[i].times = number_at(from + 8, 8);
        now->lines[i].seconds = number_at(from + 16, 8);
    }
    uint8_t code, entry;
    uint32_t until;
    uint8_t refused = rights_answer_one(now->image, now->room, &now->length, 255, 0, 0, 0, 0, 0, &code, &entry, &until,
                                        now->lines, now->line_count);
    if (refused != RIGHTS_OK)
        refuse_image(name, refused);
    if (code == RIGHTS_BAD_LIST)
        fail(name, "the lines of the saved file do not fit its book");
}

/* A saved file, or the image of a book, with lines of zeros. */
static void start(const char *name, struct state *now)
{
    size_t length;
    now->image = read_file(name, &now->room, &length);
    now->length = length;
    if (has_mark(now->image, length)) {
        go_on(name, length, now);
        return;
    }
    uint8_t refused = rights_zeros(now->image, length, now->lines, &now->line_count);
    if (refused != RIGHTS_OK)
        refuse_image(name, refused);
}

/* ---- Saving */

static int write_all(int file, const uint8_t *bytes, size_t length)
{
    while (length > 0) {
        ssize_t wrote = write(file, bytes, length);
        if (wrote < 0 && errno == EINTR)
            continue;
        if (wrote < 0)
            return -1;
        bytes += wrote;
        length -= (size_t)wrote;
    }
    return 0;
}

/* Syncs the folder of a file, so that the new name is there after a power cut. */
static int sync_folder(const char *name)
{
    char *copy = allocate(strlen(name));
    strcpy(copy, name);
    int folder = open(dirname(copy), O_RDONLY);
    int done = folder < 0 ? -1 : fsync(folder);
    if (folder >= 0)
        close(folder);
    free(copy);
    return done;
}

/* Fails if something is there that is not ours to replace: anything but an empty file, or the saved file without fault from which this
 * run began. Returns who may read and write the new file: no more than what was there. */
static mode_t keep_others(const char *name, const char *book)
{
    struct stat about, began;
    if (lstat(name, &about) != 0) {
        if (errno != ENOENT)
            fail(name, strerror(errno));
        return 0666;
    }
    const char *fault = NULL;
    if (!S_ISREG(about.st_mode))
        fault = "this is a folder, a link or a device";
    else if (about.st_size > LONGEST_SAVED)
        fault = NO_SAVED_FILE;
    else if (about.st_size > 0) {
        size_t room, length;
        uint8_t *bytes = read_file(name, &room, &length);
        fault = fault_of(bytes, length);
        free(bytes);
        if (!fault && (stat(book, &began) != 0 || began.st_dev != about.st_dev || began.st_ino != about.st_ino))
            fault = "this saved file is not the one that this run goes on from";
    }
    if (fault) {
        fprintf(stderr, "example: %s: is there and is not replaced: %s\n", name, fault);
        exit(1);
    }
    return about.st_mode & 0666;
}

/* The name of the file beside: `.NAME.saving` in the same folder. Nobody gives a file of theirs such a name, so one that is there is
 * what a killed run left, and is removed. */
static char *name_beside(const char *name)
{
    const char *slash = strrchr(name, '/');
    size_t folder = slash ? (size_t)(slash + 1 - name) : 0, room = strlen(name) + sizeof "..saving";
    char *beside = allocate(room);
    snprintf(beside, room, "%.*s.%s.saving", (int)folder, name, name + folder);
    return beside;
}

/* Write beside, sync, rename. What was there under the name stays until the new file is complete. */
static void save(const char *name, const char *book, const uint8_t *bytes, size_t length)
{
    mode_t mode = keep_others(name, book);
    char *beside = name_beside(name);
    unlink(beside);
    int file = open(beside, O_WRONLY | O_CREAT | O_EXCL, mode);
    if (file < 0)
        fail(beside, strerror(errno));
    int broken = write_all(file, bytes, length) != 0 || fsync(file) != 0;
    int why = errno;
    if (close(file) != 0 && !broken) {
        broken = 1;
        why = errno;
    }
    if (!broken && rename(beside, name) != 0) {
        broken = 1;
        why = errno;
    }
    if (broken) {
        unlink(beside);
        fail(name, strerror(why));
    }
    if (sync_folder(name) != 0)
        fail(name, strerror(errno));
    free(beside);
}

int main(int count, char **words)
{
    static struct state now;
    static uint8_t saved[LONGEST_SAVED];
    if (count != 4) {
        fprintf(stderr, "usage: example BOOK EVENTS SAVED\n");
        return 2;
    }
    start(words[1], &now);
    size_t records_room, records_length;
    uint8_t *records = read_file(words[2], &records_room, &records_length);
    size_t room = RIGHTS_ROOM(records_length);
    uint8_t *out = allocate(room);
    uint64_t written = 0;
    uint8_t refused = rights_answer(now.image, now.room, &now.length, records, records_length, out, room, &written,
                                    now.lines, now.line_count);
    if (refused != RIGHTS_OK)
        refuse_image(words[1], refused);
    save(words[3], words[1], saved, make_saved(&now, saved));
    if (write_all(STDOUT_FILENO, out, (size_t)written) != 0)
        fail("standard output", strerror(errno));
    free(out);
    free(records);
    return 0;
}
