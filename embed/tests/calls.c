/* Calls the library on the stored files and prints what the programs of crates/test_days, test_images and test_texts print for them:
 *
 *     calls days N days.bin     the answers of each day, N records per call (0: all of them), the image and the list of lines handed from
 *                               call to call from zeros, and the lines that are not zeros after it
 *     calls ones days.bin       the same with rights_answer_one, one event per call (a last record cut short goes through rights_answer)
 *     calls lists lists.bin     the answer to each stored record, and the lines that it changes in the list that it is lent
 *     calls images cases.bin    the number of a refusal, or 0 and the image that a call without records leaves
 *     calls texts cases.bin     the number of a refusal, or 0, the number of elements and the image of the text's book
 *     calls seen days.bin       what the calls that read an image say of each day's book, before, during and after the day
 *     calls seen-images cases.bin    the same for each stored image; embed/tests/seen.py prints these and the lists from the second program
 *
 * It also checks what every call promises: bytes after the text and after the next image stay, lines after the list stay, a length above
 * the image's room is refused, a refused call changes no byte of any buffer, no line and no length, rights_grounds reads no player.
 * It exits with status 1 at the first violation. */
#include <stdio.h>
#include <stdlib.h>
#include <string.h>

#include "../rights.h"

enum { LONGEST = 70000, ROOM = 110000, LISTED = 256, SPARE = 5, BEHIND = 64, FILL = 0xa5 };

/* Each has more bytes than are ever lent, so that a write past the end is noticed. */
static uint8_t image[LONGEST + SPARE + BEHIND], image_before[LONGEST + SPARE + BEHIND];
static uint8_t records[LONGEST + BEHIND];
static uint8_t out[ROOM + BEHIND], out_before[ROOM + BEHIND];
static struct rights_line lines[LISTED + SPARE], lines_before[LISTED + SPARE]; /* of which line_count are lent */
static size_t line_count;
static const uint64_t UNWRITTEN = 0x1122334455667788u;

static void fail(const char *what)
{
    fflush(stdout);
    fprintf(stderr, "calls: %s\n", what);
    exit(1);
}

static int read_length(FILE *f, int bytes, size_t *length)
{
    *length = 0;
    for (int i = 0; i < bytes; i++) {
        int b = fgetc(f);
        if (b == EOF)
            return 0;
        *length = *length << 8 | (size_t)b;
    }
    return 1;
}

static void fill(FILE *f, uint8_t *buffer, size_t length)
{
    if (length > LONGEST || RIGHTS_ROOM(length) > ROOM || fread(buffer, 1, length, f) != length)
        fail("a stored file is cut short or has too long a part");
}

/* The list of zeros of the book in the image; none at all if that is refused. */
static void start_list(size_t image_length)
{
    memset(lines, FILL, sizeof lines);
    line_count = 0;
    if (rights_zeros(image, image_length, lines, &line_count) != rights_check(image, image_length))
        fail("the list of zeros and the check do not agree on an image");
}

/* The length of the next image: longer than this one if that is of an older version. That of a refused one is not known. */
static size_t next_length_of(size_t image_length)
{
    uint32_t book[RIGHTS_BOOK_NUMBERS];
    if (rights_book(image, image_length, book, RIGHTS_BOOK_NUMBERS) != RIGHTS_OK)
        return image_length;
    return 535 + 5 * book[RIGHTS_BOOK_ASSETS] + 71 * book[RIGHTS_BOOK_ENTRIES];
}

/* One call; everything it must not touch is compared before and after. Returns the code, the next image's length and the
 * text's. */
static uint8_t call(size_t image_room, size_t *image_length, const uint8_t *from, size_t length, size_t room,
                    uint64_t *written)
{
    size_t all_out = room + BEHIND, all_image = image_room + BEHIND;
    uint64_t next_length = *image_length;
    memset(out, FILL, all_out);
    memcpy(out_before, out, all_out);
    memcpy(image_before, image, all_image);
    memcpy(lines_before, lines, sizeof lines);
    *written = UNWRITTEN;
    uint8_t code = rights_answer(image, image_room, &next_length, from, length, out, room, written, lines, line_count);
    size_t listed = code == RIGHTS_OK ? line_count : 0;
    size_t text = code == RIGHTS_OK ? (size_t)*written : 0;
    size_t book = code == RIGHTS_OK ? (size_t)next_length : 0;
    if (text > room || book > image_room)
        fail("more text than room, or a longer image");
    if (memcmp(out + text, out_before + text, all_out - text) != 0)
        fail("a byte behind the text was touched");
    if (memcmp(image + book, image_before + book, all_image - book) != 0)
        fail("a byte of a refused image, or one behind an image, was touched");
    if (memcmp(lines + listed, lines_before + listed, sizeof lines - listed * sizeof *lines) != 0)
        fail("a line behind the list, or one of a refused call, was touched");
    if (code != RIGHTS_OK && (*written != UNWRITTEN || next_length != *image_length))
        fail("a refused call set a length");
    *image_length = (size_t)next_length;
    if (*image_length > image_room) {
        if (code != RIGHTS_IMAGE_LENGTH)
            fail("a length above the room was not refused");
    } else if (rights_check(image, *image_length) != (code == RIGHTS_SHORT_OUT ? RIGHTS_OK : code))
        fail("the check and the answer do not agree on an image");
    return code;
}

/* One call with just enough room for the text and some to spare for the image, after some with a byte too little. */
static uint8_t call_again(size_t *image_length, const uint8_t *from, size_t length, uint64_t *written)
{
    size_t room = RIGHTS_ROOM(length);
    uint8_t refused = rights_check(image, *image_length);
    if (*image_length > 0)
        call(*image_length - 1, image_length, from, length, room, written);
    if (room > 0
        && call(*image_length, image_length, from, length, room - 1, written) != (refused ? refused : RIGHTS_SHORT_OUT))
        fail("a buffer that is a byte too short was not refused");
    size_t next = next_length_of(*image_length);
    if (next > *image_length && call(next - 1, image_length, from, length, room, written) != RIGHTS_SHORT_OUT)
        fail("a buffer that is a byte too short for the next image was not refused");
    return call(next + SPARE, image_length, from, length, room, written);
}

/* The lines of the list that are not as they were. */
static void print_changes(const struct rights_line *was)
{
    for (size_t i = 0; i < line_count; i++)
        if (memcmp(&lines[i], &was[i], sizeof *lines) != 0)
            printf("used %llu %llu %llu\n", (unsigned long long)lines[i].content, (unsigned long long)lines[i].times,
                   (unsigned long long)lines[i].seconds);
}

static void days(FILE *f, size_t each)
{
    size_t image_length, length;
    for (int day = 1; read_length(f, 4, &image_length); day++) {
        uint64_t written;
        fill(f, image, image_length);
        if (!read_length(f, 4, &length))
            fail("a stored file is cut short");
        fill(f, records, length);
        printf("day %d\n", day);
        start_list(image_length);
        static struct rights_line zeros[LISTED + SPARE];
        memcpy(zeros, lines, sizeof lines);
        size_t at = 0, step = each ? each * RIGHTS_RECORD : length + 1;
        do {
            size_t part = length - at < step ? length - at : step;
            uint8_t code = call_again(&image_length, records + at, part, &written);
            if (code != RIGHTS_OK) {
                printf("%d\n", code);
                break;
            }
            fwrite(out, 1, (size_t)written, stdout);
            at += part;
        } while (at < length);
        print_changes(zeros);
    }
}

static void images(FILE *f)
{
    size_t length;
    while (read_length(f, 2, &length)) {
        uint64_t written;
        fill(f, image, length);
        uint8_t code = call(next_length_of(length), &length, records, 0, 0, &written);
        printf("%d", code);
        if (code == RIGHTS_OK) {
            if (written != 0)
                fail("text for no records");
            putchar(' ');
            for (size_t i = 0; i < length; i++)
                printf("%02x", image[i]);
        }
        putchar('\n');
    }
}

/* One call on the text in records; everything it must not touch is compared before and after. */
static uint8_t read_text(size_t text_length, size_t image_room, uint64_t *image_length, uint64_t *elements)
{
    size_t all_image = image_room + BEHIND;
    memset(image, FILL, all_image);
    memcpy(image_before, image, all_image);
    memcpy(out_before, records, text_length + BEHIND);
    *image_length = *elements = UNWRITTEN;
    uint8_t code = rights_from_xml(records, text_length, image, image_room, image_length, elements);
    size_t book = code == RIGHTS_OK ? (size_t)*image_length : 0;
    if (book > image_room)
        fail("an image that is longer than its room");
    if (memcmp(image + book, image_before + book, all_image - book) != 0)
        fail("a byte behind the image of a text, or of the buffer of a refused text, was touched");
    if (memcmp(records, out_before, text_length + BEHIND) != 0)
        fail("a text was touched");
    if (code != RIGHTS_OK && (*image_length != UNWRITTEN || *elements != UNWRITTEN))
        fail("a refused text set a number");
    if (code == RIGHTS_OK && rights_check(image, book) != RIGHTS_OK)
        fail("the image of a text is refused");
    return code;
}

static void texts(FILE *f)
{
    size_t length;
    while (read_length(f, 4, &length)) {
        uint64_t image_length, elements, no_length, no_elements;
        fill(f, records, length);
        uint8_t code = read_text(length, RIGHTS_LONGEST_IMAGE, &image_length, &elements);
        if (code == RIGHTS_OK && read_text(length, image_length - 1, &no_length, &no_elements) != RIGHTS_SHORT_OUT)
            fail("a buffer that is a byte too short for the image of a text was not refused");
        if (code != RIGHTS_OK && read_text(length, 0, &no_length, &no_elements) != code)
            fail("a refused text gets another code without room for an image");
        if (code == RIGHTS_OK && read_text(length, image_length, &no_length, &no_elements) != RIGHTS_OK)
            fail("a buffer that is just long enough for the image of a text was refused");
        printf("%d", code);
        if (code == RIGHTS_OK) {
            printf(" %u ", (unsigned)elements);
            for (size_t i = 0; i < image_length; i++)
                printf("%02x", image[i]);
        }
        putchar('\n');
    }
}

static uint64_t number_at(const uint8_t *bytes, int width)
{
    uint64_t n = 0;
    for (int i = 0; i < width; i++)
        n = n << 8 | bytes[i];
    return n;
}

/* The numbers of a record give the record back, and a buffer that is a byte too short stays as it was. */
static void encode(const uint8_t *from)
{
    uint8_t made[RIGHTS_RECORD + BEHIND];
    for (size_t room = 0; room <= RIGHTS_RECORD + 1; room++) {
        memset(made, FILL, sizeof made);
        uint8_t code = rights_record(from[RIGHTS_RECORD_PLAYER], number_at(from + RIGHTS_RECORD_NUMBER, 8),
                                     from[RIGHTS_RECORD_OPERATION],
                                     (uint16_t)number_at(from + RIGHTS_RECORD_ASSET, 2), from[RIGHTS_RECORD_KIND],
                                     (uint32_t)number_at(from + RIGHTS_RECORD_TIME, 4), made, room);
        size_t used = code == RIGHTS_OK ? RIGHTS_RECORD : 0;
        if (code != (room < RIGHTS_RECORD ? RIGHTS_SHORT_OUT : RIGHTS_OK))
            fail("a record's room is misjudged");
        if (memcmp(made, from, used) != 0)
            fail("the numbers of a record do not make it again");
        for (size_t i = used; i < sizeof made; i++)
            if (made[i] != FILL)
                fail("a byte behind a record, or of a buffer that is too short, was touched");
    }
}

/* One event as numbers. The call on its record, with copies of the image and the list, has to print the same numbers and leave
 * the same image and the same list. */
static uint8_t one(size_t image_room, size_t *image_length, const uint8_t *from)
{
    static uint8_t by_text[LONGEST + SPARE + BEHIND];
    static struct rights_line by_text_lines[LISTED + SPARE];
    size_t all_image = image_room + BEHIND;
    uint64_t next_length = *image_length, text_length = *image_length;
    uint8_t code = FILL, entry = FILL;
    uint32_t until = 0xa5a5a5a5u;
    uint64_t written;
    encode(from);
    memcpy(by_text, image, all_image);
    memcpy(by_text_lines, lines, sizeof lines);
    memcpy(lines_before, lines, sizeof lines);
    memcpy(image_before, image, all_image);
    uint64_t number = RIGHTS_NUMBER(number_at(from + 1, 4), number_at(from + 5, 4));
    uint8_t refused = rights_answer_one(image, image_room, &next_length, from[0], number, from[9],
                                        (uint16_t)number_at(from + 10, 2), from[12], (uint32_t)number_at(from + 13, 4),
                                        &code, &entry, &until, lines, line_count);
    if (refused != rights_answer(by_text, image_room, &text_length, from, RIGHTS_RECORD, out, RIGHTS_LINE, &written, by_text_lines,
                                 line_count))
        fail("the two calls do not agree on an image");
    if (memcmp(image, by_text, all_image) != 0 || next_length != text_length)
        fail("the two calls leave different images");
    if (memcmp(lines, by_text_lines, sizeof lines) != 0)
        fail("the two calls leave different lists");
    size_t listed = refused ? 0 : line_count;
    if (memcmp(lines + listed, lines_before + listed, sizeof lines - listed * sizeof *lines) != 0)
        fail("a line behind the list, or one of a refused call, was touched");
    if (*image_length > image_room && refused != RIGHTS_IMAGE_LENGTH)
        fail("a length above the room was not refused");
    if (refused) {
        if (memcmp(image, image_before, all_image) != 0)
            fail("a byte of a refused image was touched");
        if (code != FILL || entry != FILL || until != 0xa5a5a5a5u || next_length != *image_length)
            fail("a refused call set a number");
        return refused;
    }
    if (next_length > image_room || memcmp(image + next_length, image_before + next_length, all_image - next_length) != 0)
        fail("a byte behind an image was touched");
    *image_length = (size_t)next_length;
    char line[RIGHTS_LINE + 1];
    int length = snprintf(line, sizeof line, "%u %u %u\n", code, entry, until);
    if ((uint64_t)length != written || memcmp(line, out, (size_t)length) != 0)
        fail("the two calls answer differently");
    fputs(line, stdout);
    return RIGHTS_OK;
}

static void ones(FILE *f)
{
    size_t image_length, length;
    for (int day = 1; read_length(f, 4, &image_length); day++) {
        uint64_t written;
        fill(f, image, image_length);
        if (!read_length(f, 4, &length))
            fail("a stored file is cut short");
        fill(f, records, length);
        printf("day %d\n", day);
        start_list(image_length);
        static struct rights_line zeros[LISTED + SPARE];
        memcpy(zeros, lines, sizeof lines);
        uint8_t code = RIGHTS_OK;
        size_t at = 0;
        for (; at + RIGHTS_RECORD <= length && code == RIGHTS_OK; at += RIGHTS_RECORD) {
            if (image_length > 0)
                one(image_length - 1, &image_length, records + at);
            code = one(next_length_of(image_length) + SPARE, &image_length, records + at);
        }
        if (code == RIGHTS_OK && (at < length || length == 0)) {
            code = call(next_length_of(image_length), &image_length, records + at, length - at, RIGHTS_ROOM(length - at), &written);
            if (code == RIGHTS_OK)
                fwrite(out, 1, (size_t)written, stdout);
        }
        if (code != RIGHTS_OK)
            printf("%d\n", code);
        print_changes(zeros);
    }
}

/* The stored lists: a book (length 0: that of the case before), a record, whether a list follows (0: that of the case before) and its
 * lines, the first 64 of them, and the lines after it if they are others. Bytes that are no record, or more than one, are left out. */
static struct rights_line read_line(FILE *f)
{
    size_t content = 0, times = 0, seconds = 0;
    if (!read_length(f, 8, &content) || !read_length(f, 8, &times) || !read_length(f, 8, &seconds))
        fail("a stored file is cut short");
    return (struct rights_line){content, times, seconds};
}

static void read_lines(FILE *f, struct rights_line *to)
{
    memset(to, 0, line_count * sizeof *to);
    for (size_t i = 0; i < line_count && i < RIGHTS_LINES; i++)
        to[i] = read_line(f);
}

static void lists(FILE *f)
{
    static uint8_t stored_image[LONGEST];
    static struct rights_line stored[LISTED + SPARE], after[LISTED + SPARE];
    size_t length, stored_length = 0, record_length, follows;
    memset(stored, FILL, sizeof stored);
    while (read_length(f, 4, &length)) {
        uint64_t written;
        if (length > 0) {
            fill(f, stored_image, length);
            stored_length = length;
        }
        if (!read_length(f, 4, &record_length))
            fail("a stored file is cut short");
        fill(f, records, record_length);
        if (!read_length(f, 4, &follows) || (follows && !read_length(f, 4, &line_count)) || line_count > LISTED)
            fail("a stored file is cut short or has too long a list");
        if (follows) {
            memset(stored, FILL, sizeof stored);
            read_lines(f, stored);
        }
        memcpy(after, stored, sizeof stored);
        if (!read_length(f, 4, &follows))
            fail("a stored file is cut short");
        if (follows)
            read_lines(f, after);
        if (record_length == 0 || record_length > RIGHTS_RECORD)
            continue;
        size_t image_length = stored_length;
        memcpy(image, stored_image, stored_length);
        memcpy(lines, stored, sizeof stored);
        if (record_length == RIGHTS_RECORD) {
            if (one(next_length_of(image_length) + SPARE, &image_length, records) != RIGHTS_OK)
                fail("a stored book is refused");
        } else {
            if (call_again(&image_length, records, record_length, &written) != RIGHTS_OK)
                fail("a stored book is refused");
            fwrite(out, 1, (size_t)written, stdout);
        }
        if (memcmp(lines, after, sizeof lines) != 0)
            fail("a record left another list than the stored one");
        print_changes(stored);
    }
}

/* What a reading call gives, as a line; if it refuses, its code. It is called with every buffer size up to what it needs. */
enum { MOST = 32 };

static uint8_t reading(const char *name, size_t image_length, uint32_t at, uint32_t time, uint32_t *numbers, size_t room)
{
    switch (name[0]) {
    case 'b': return rights_book(image, image_length, numbers, room);
    case 'a': return rights_asset(image, image_length, at, numbers, room);
    case 'e': return rights_entry(image, image_length, at, numbers, room);
    case 'l': return rights_left(image, image_length, at, time, numbers, room);
    case 'g': return rights_grounds(image, image_length, at, (uint8_t)(at % RIGHTS_PLAYERS), time, numbers, room);
    default: return rights_player(image, image_length, at, numbers, room);
    }
}

static uint8_t look(const char *name, size_t image_length, uint32_t at, uint32_t time, size_t needs)
{
    uint32_t numbers[MOST];
    uint8_t last = RIGHTS_OK;
    memcpy(image_before, image, image_length + BEHIND);
    for (size_t room = 0; room <= needs + 1; room++) {
        for (size_t i = 0; i < MOST; i++)
            numbers[i] = 0xa5a5a5a5u;
        last = reading(name, image_length, at, time, numbers, room);
        if (last == RIGHTS_SHORT_OUT ? room >= needs : last == RIGHTS_OK && room < needs)
            fail("the room of a reading call is misjudged");
        for (size_t i = last == RIGHTS_OK ? needs : 0; i < MOST; i++)
            if (numbers[i] != 0xa5a5a5a5u)
                fail("a number behind those given, or of a refused call, was touched");
    }
    static const uint8_t players[] = {0, RIGHTS_PLAYERS - 1, RIGHTS_PLAYERS, 255};
    for (size_t p = 0; name[0] == 'g' && p < sizeof players; p++) {
        uint32_t others[RIGHTS_GROUNDS_NUMBERS];
        if (rights_grounds(image, image_length, at, players[p], time, others, needs) != last
            || (last == RIGHTS_OK && memcmp(others, numbers, sizeof others) != 0))
            fail("another player gets other grounds");
    }
    if (memcmp(image, image_before, image_length + BEHIND) != 0)
        fail("a reading call touched the image");
    printf("%s %u", name, at);
    if (name[0] == 'l' || name[0] == 'g')
        printf(" %u", time);
    if (last != RIGHTS_OK)
        printf(" refused %u", last);
    for (size_t i = 0; last == RIGHTS_OK && i < needs; i++)
        printf(" %u", numbers[i]);
    putchar('\n');
    return last;
}

/* Everything that can be asked of an image, including one position past each end. The times are the book's, some around the
 * ends of open uses, the latest that an event may have, and later ones. */
static void see(size_t image_length)
{
    uint32_t book[RIGHTS_BOOK_NUMBERS];
    look("book", image_length, 0, 0, RIGHTS_BOOK_NUMBERS);
    if (rights_book(image, image_length, book, RIGHTS_BOOK_NUMBERS) != RIGHTS_OK)
        memset(book, 0, sizeof book);
    uint32_t now = book[RIGHTS_BOOK_TIME];
    const uint32_t times[] = {0, now, now + 1, now + 30, now + 59, now + 60, now + 86400, 4000000000u, 4000000001u, 4294967295u};
    for (uint32_t i = 0; i <= book[RIGHTS_BOOK_ASSETS]; i++)
        look("asset", image_length, i, 0, RIGHTS_ASSET_NUMBERS);
    for (uint32_t i = 0; i <= book[RIGHTS_BOOK_ENTRIES]; i++) {
        look("entry", image_length, i, 0, RIGHTS_ENTRY_NUMBERS);
        for (size_t t = 0; t < sizeof times / sizeof *times; t++)
            look("left", image_length, i, times[t], RIGHTS_LEFT_NUMBERS);
        for (size_t t = 0; t < sizeof times / sizeof *times; t++)
            look("grounds", image_length, i, times[t], RIGHTS_GROUNDS_NUMBERS);
    }
    for (uint32_t i = 0; i <= RIGHTS_PLAYERS; i++)
        look("player", image_length, i, 0, RIGHTS_PLAYER_NUMBERS);
    look("entry", image_length, 256, 0, RIGHTS_ENTRY_NUMBERS);
    look("player", image_length, 4294967295u, 0, RIGHTS_PLAYER_NUMBERS);
}

/* Each day's book: before it, then after every 97 records, and at the end. */
static void seen_days(FILE *f)
{
    size_t image_length, length;
    for (int day = 1; read_length(f, 4, &image_length); day++) {
        uint64_t written;
        fill(f, image, image_length);
        if (!read_length(f, 4, &length))
            fail("a stored file is cut short");
        fill(f, records, length);
        printf("day %d\n", day);
        start_list(image_length);
        see(image_length);
        size_t step = 97 * RIGHTS_RECORD;
        for (size_t at = 0; at < length; at += step) {
            size_t part = length - at < step ? length - at : step;
            if (call(next_length_of(image_length), &image_length, records + at, part, RIGHTS_ROOM(part), &written) != RIGHTS_OK)
                break;
            see(image_length);
        }
    }
}

static void seen_images(FILE *f)
{
    size_t length;
    while (read_length(f, 2, &length)) {
        fill(f, image, length);
        see(length);
    }
}

int main(int count, char **words)
{
    const char *what = count > 1 ? words[1] : "";
    int of_days = count == 4 && strcmp(what, "days") == 0;
    FILE *f = of_days || count == 3 ? fopen(words[count - 1], "rb") : NULL;
    memset(image, FILL, sizeof image);
    if (f && of_days)
        days(f, (size_t)atoi(words[2]));
    else if (f && strcmp(what, "ones") == 0)
        ones(f);
    else if (f && strcmp(what, "lists") == 0)
        lists(f);
    else if (f && strcmp(what, "images") == 0)
        images(f);
    else if (f && strcmp(what, "texts") == 0)
        texts(f);
    else if (f && strcmp(what, "seen") == 0)
        seen_days(f);
    else if (f && strcmp(what, "seen-images") == 0)
        seen_images(f);
    else
        fail("usage: calls days N FILE, calls ones|lists|images|texts|seen|seen-images FILE");
    return 0;
}
