/* The rights server's core for C: the functions of the static library libembed.a.
 *
 * The library keeps no state between calls. The book is passed as its image, the bytes of rights.rbk: the caller keeps them,
 * lends them for the length of a call, and saves them when it likes. The calls that answer put the next image in place of the
 * one before. It may be longer, if that was written by an older server, so the buffer's room is passed apart from the image's length.
 * They are lent the list of lines of the usage report too, which the caller keeps, hands on from call to call, and bills from.
 * Image and lines are saved together, in one file: embed/example.c does it.
 * What the functions return and leave in the buffers is proved for every input; this header is not checked against that
 * proof, so its declarations change only with crates/embed_c/src/lib.rt. docs/EMBEDDING.md shows how to use it, docs/FORMAT.md has the
 * bytes of records, images and saved files.
 *
 * What the caller must ensure in every call:
 *  - each pointer points to as many elements as the room or length passed after it says (one if there is none),
 *    and is not NULL even if that is 0;
 *  - the buffers of one call do not overlap, and nothing else reads or writes them until it returns;
 *  - the stack has RIGHTS_STACK bytes left, for rights_from_xml RIGHTS_XML_STACK.
 * Calls on different buffers may run at the same time. The functions allocate nothing and call nothing but memcpy,
 * memmove and memset.
 *
 * The header needs C99 or later, or C++11 or later, and no other header before it. */
#ifndef RIGHTS_H
#define RIGHTS_H

#if !defined __cplusplus && (!defined __STDC_VERSION__ || __STDC_VERSION__ < 199901L)
#error "rights.h needs C99 or later"
#endif

#include <stddef.h>
#include <stdint.h>

#ifdef __cplusplus
extern "C" {
#endif

/* What a call returns. Document 01 has the rules for 20 to 27, in the order in which they are checked, and docs/FORMAT.md those
 * for XML texts.
 * If a call does not return 0, everything lent to it is unchanged. */
enum {
    RIGHTS_OK = 0,
    RIGHTS_IMAGE_LENGTH = 20,  /* the image is too short, its length is not what its header says, or it is more than the room */
    RIGHTS_IMAGE_MARK = 21,    /* it does not begin with RBK */
    RIGHTS_IMAGE_VERSION = 22, /* its version is none of 1 to 5 */
    RIGHTS_IMAGE_HEADER = 23,  /* more than 64 assets or entries, or a time that is too late */
    RIGHTS_IMAGE_ASSETS = 24,  /* a rule on assets is broken */
    RIGHTS_IMAGE_ENTRIES = 25, /* a rule on entries is broken */
    RIGHTS_IMAGE_PLAYERS = 26, /* a rule on players, the switch or what was taken last is broken */
    RIGHTS_IMAGE_METERS = 27,  /* a rule on what has been used, or on the marks, is broken */
    RIGHTS_SHORT_OUT = 30,     /* the buffer for a result is too short: the text, the numbers or the next image */
    RIGHTS_NOT_THERE = 31,     /* the book has no asset, entry or player at that position */
    RIGHTS_XML_FORM = 40,      /* the XML text is not well formed */
    RIGHTS_XML_CONTENT = 41,   /* an element, an attribute or a value in it is not accepted */
    RIGHTS_XML_TOO_MANY = 42   /* it has more than 256 elements, 64 assets or 64 entries */
};

/* The code in an answer. docs/ANSWERS.md says what to do about each. */
enum {
    RIGHTS_GRANTED = 0,
    /* turned away: the book is as it was, and the number is still free */
    RIGHTS_BAD_REQUEST = 1,    /* no such operation or kind, or a continue, stop or cancel that names an asset or a kind */
    RIGHTS_BAD_PLAYER = 2,     /* the player is above 15 */
    RIGHTS_OUT_OF_LINE = 3,    /* the number is neither the player's next nor counter 1 under a greater boot number */
    RIGHTS_NUMBER_USED = 4,    /* the player's last number, with another request */
    RIGHTS_BAD_TIME = 5,       /* before the book's time, or after 4,000,000,000 */
    RIGHTS_CUT_SHORT = 6,      /* fewer than 17 bytes */
    RIGHTS_BAD_LIST = 30,      /* the list of lines that is lent is not good: judged before all else */
    /* taken and refused: the book has changed, and the number is used up */
    RIGHTS_NO_ASSET = 10,      /* the asset is not in the book, or has key 0 */
    RIGHTS_ALREADY_OPEN = 11,  /* a begin while the player has a use open */
    RIGHTS_NONE_SUITABLE = 12, /* no entry of that kind for the asset */
    RIGHTS_NONE_GRANTABLE = 13, /* there are some, but none can be used now: rights_grounds has why */
    RIGHTS_NOTHING_OPEN = 14,  /* a continue, stop or cancel while nothing is open */
    RIGHTS_NO_MORE_TIME = 15,  /* a continue that would add no second */
    RIGHTS_SWITCHED_OFF = 43,  /* none can be used now, but one could with the book's switch on */
    RIGHTS_NOT_THE_LAST = 44   /* a cancel: something is open, but its begin was not the last event taken, of any player */
};

/* An event. A cancel takes back the begin of what the player has open, as if it had not been, if nothing was taken since. */
enum { RIGHTS_BEGIN = 1, RIGHTS_CONTINUE = 2, RIGHTS_STOP = 3, RIGHTS_CANCEL = 4 };
enum { RIGHTS_PLAY = 1, RIGHTS_DISPLAY = 2, RIGHTS_EXECUTE = 3, RIGHTS_PRINT = 4, RIGHTS_EXPORT = 5 };

/* Which limits an entry has: its flags are a sum of these. */
enum {
    RIGHTS_HAS_COUNT = 1,
    RIGHTS_HAS_TIMED = 2, /* and its timer */
    RIGHTS_HAS_START = 4,
    RIGHTS_HAS_END = 8,
    RIGHTS_HAS_INTERVAL = 16,
    RIGHTS_HAS_ACCUMULATED = 32
};

enum {
    RIGHTS_RECORD = 17,          /* bytes of an event record */
    RIGHTS_LINE = 19,            /* the longest line of an answer, including its line feed */
    RIGHTS_NO_ENTRY = 255,       /* the entry in an answer that is no grant */
    RIGHTS_LONGEST_IMAGE = 5399, /* bytes of an image with 64 assets and 64 entries: room for any next image */
    RIGHTS_LINES = 64,           /* the most lines of a list */
    RIGHTS_PLAYERS = 16,
    RIGHTS_STACK = 524288,       /* bytes of stack that are enough for any call but rights_from_xml (docs/EMBEDDING.md) */
    RIGHTS_XML_STACK = 3145728   /* bytes of stack that are enough for rights_from_xml, whatever the text */
};

/* An event record, big-endian, at these offsets. */
enum {
    RIGHTS_RECORD_PLAYER = 0,    /* 1 byte */
    RIGHTS_RECORD_NUMBER = 1,    /* 8 bytes */
    RIGHTS_RECORD_OPERATION = 9, /* 1 byte */
    RIGHTS_RECORD_ASSET = 10,    /* 2 bytes */
    RIGHTS_RECORD_KIND = 12,     /* 1 byte */
    RIGHTS_RECORD_TIME = 13      /* 4 bytes */
};

/* A cast for the macros below, in the form that the language wants: C++ compilers can warn of the other one. */
#ifdef __cplusplus
#define RIGHTS_CAST(type, value) static_cast<type>(value)
#else
#define RIGHTS_CAST(type, value) ((type)(value))
#endif

/* The number of an event: the boot number in its upper 32 bits, 0 for a player that has none, and the counter in its lower ones. */
#define RIGHTS_NUMBER(boot, counter) (RIGHTS_CAST(uint64_t, boot) << 32 | RIGHTS_CAST(uint32_t, counter))

/* The bytes that out needs for that many bytes of records. A last record that is cut short counts as one. */
#define RIGHTS_ROOM(records_length) ((RIGHTS_CAST(size_t, records_length) + RIGHTS_RECORD - 1) / RIGHTS_RECORD * RIGHTS_LINE)

/* A line of the usage report: how often and for how many seconds a content, the number of an asset, was used.
 *
 * The calls that answer are lent a list of lines. It is good if it has at least as many lines as the book has assets and at most
 * RIGHTS_LINES, its first lines name the book's assets in their order, and every number in it is below 2 to the 62. An event with
 * another list is answered 30 255 0 and changes nothing. With a good list, when a use of a tracked entry ends and the book's switch is
 * on, the line of its content gains the seconds of the use, and a time if they are at least the entry's timed value. rights_zeros, at
 * the end, makes the list to begin with. */
struct rights_line {
    uint64_t content;
    uint64_t times;
    uint64_t seconds;
};

/* Whether the bytes are the image of a legal book: 0, or 20 to 27. The image is only read. */
uint8_t rights_check(const uint8_t *image, size_t image_length);

/* Answers event records from the book in the image, in turn.
 *
 * image         a buffer of image_room bytes. In: it starts with the image of the book. Out: with that of the book after the
 *               last record. Bytes after the next image are unchanged.
 * image_length  how many bytes of the buffer are the image. In: its length, at most image_room. Out: the next image's length.
 * records       the event records, 17 bytes each, one after another; a last one cut short is answered too. Only read.
 * out           out: a line "code entry until" for each record, with a line feed and no 0 at the end. Bytes after the
 *               text are unchanged.
 * written       out: the length of the text.
 * report        the list of report_length lines. In: what the first record is lent. Out: what the last record left; each is lent what
 *               the one before it left.
 *
 * Returns 0, or 20 to 27 if the image is refused (20 too if *image_length is above image_room), or 30 if out is shorter than
 * RIGHTS_ROOM(records_length) or image_room is less than the next image needs. RIGHTS_LONGEST_IMAGE bytes are always enough. */
uint8_t rights_answer(uint8_t *image, size_t image_room, uint64_t *image_length,
                      const uint8_t *records, size_t records_length,
                      uint8_t *out, size_t out_length,
                      uint64_t *written,
                      struct rights_line *report, size_t report_length);

/* Answers one event, given and answered as numbers. It does the same step as rights_answer for the record of these
 * numbers: the same next image and list, and the numbers that its line would have.
 *
 * image, image_length  the buffer and the image's length, as for rights_answer.
 * player .. time       the event: its number, RIGHTS_NUMBER(boot, counter); operation RIGHTS_BEGIN, asset and kind as asked; or
 *                      RIGHTS_CONTINUE, RIGHTS_STOP or RIGHTS_CANCEL with asset 0 and kind 0. Time is in seconds since 1970-01-01 UTC.
 * code, entry, until   out: the answer. A code other than 0 comes with entry 255 and until 0; until is the begin of the use if a cancel
 *                      is granted.
 * report               the list of lines, as for rights_answer.
 *
 * Returns 0 if the event was answered, whatever the answer, or 20 to 27 if the image is refused (20 too if *image_length is
 * above image_room), or 30 if image_room is less than the next image needs. */
uint8_t rights_answer_one(uint8_t *image, size_t image_room, uint64_t *image_length,
                          uint8_t player, uint64_t number, uint8_t operation,
                          uint16_t asset, uint8_t kind, uint32_t time,
                          uint8_t *code, uint8_t *entry, uint32_t *until,
                          struct rights_line *report, size_t report_length);

/* Puts the 17 bytes of the record that holds these numbers at the start of out, whether or not they make a legal event.
 * Returns 0, or 30 if out is shorter than RIGHTS_RECORD. */
uint8_t rights_record(uint8_t player, uint64_t number, uint8_t operation,
                      uint16_t asset, uint8_t kind, uint32_t time,
                      uint8_t *out, size_t out_length);

/* Turns an XML rights object, as issuers send it, into the image of a fresh book: nothing used, no player, time 0.
 *
 * text          the bytes of the text, of any length; no byte ends it earlier. Only read.
 * image         a buffer of image_room bytes. Out: it starts with the image. Bytes after the image are unchanged. What it held
 *               before does not matter.
 * image_length  out: the image's length.
 * elements      out: how many elements the text has.
 *
 * Returns 0, or 40 to 42 if the text is refused: the first tag at fault decides. Or 30 if the text is accepted and image_room is
 * less than its image needs; RIGHTS_LONGEST_IMAGE bytes are always enough. */
uint8_t rights_from_xml(const uint8_t *text, size_t text_length,
                        uint8_t *image, size_t image_room, uint64_t *image_length,
                        uint64_t *elements);

/* ---- Reading an image
 *
 * Each call puts its numbers at the start of out, at the positions below, and leaves what follows unchanged. It returns 0,
 * or 20 to 27 if the image is refused, or 31 if the book has nothing at that position, or 30 if out has fewer
 * elements than the call has numbers. The image is only read. Later versions may add numbers at the end. */

/* The book: how many assets and entries, the time of the latest event taken, whether usage is recorded (1 or 0), and of which player
 * the latest event taken was. */
enum {
    RIGHTS_BOOK_ASSETS,
    RIGHTS_BOOK_ENTRIES,
    RIGHTS_BOOK_TIME,
    RIGHTS_BOOK_SWITCH,
    RIGHTS_BOOK_LATEST_PLAYER,  /* that player plus 1; 0: none, or the image was written by an older server */
    RIGHTS_BOOK_LATEST_STARTED, /* 1: that event opened a use that started an interval */
    RIGHTS_BOOK_NUMBERS
};

uint8_t rights_book(const uint8_t *image, size_t image_length, uint32_t *out, size_t out_length);

/* The asset at a position, from 0. */
enum { RIGHTS_ASSET_NUMBER, RIGHTS_ASSET_INHERIT, RIGHTS_ASSET_KEY, RIGHTS_ASSET_NUMBERS };

uint8_t rights_asset(const uint8_t *image, size_t image_length, uint32_t position, uint32_t *out, size_t out_length);

/* The entry at a position, from 0: its limits, and what the image says has been used. A limit whose flag is missing is
 * 0, and so is its meter. A count, timed count, interval or accumulated that is flagged and 0 is never granted. The seconds of an
 * open use are counted as used up to its until. The marks say which players have it open, in the image as it is. */
enum {
    RIGHTS_ENTRY_OBJECT,      /* number of the rights object */
    RIGHTS_ENTRY_ASSET,
    RIGHTS_ENTRY_KIND,
    RIGHTS_ENTRY_FLAGS,
    RIGHTS_ENTRY_COUNT,
    RIGHTS_ENTRY_TIMED,
    RIGHTS_ENTRY_TIMER,
    RIGHTS_ENTRY_START,
    RIGHTS_ENTRY_END,
    RIGHTS_ENTRY_INTERVAL,
    RIGHTS_ENTRY_ACCUMULATED,
    RIGHTS_ENTRY_USED_COUNT,
    RIGHTS_ENTRY_USED_TIMED,
    RIGHTS_ENTRY_FIRST,       /* when the interval started */
    RIGHTS_ENTRY_USED_SECONDS,
    RIGHTS_ENTRY_STARTED,     /* 1: the interval has started */
    RIGHTS_ENTRY_TRACKED,     /* 1: its uses are recorded */
    RIGHTS_ENTRY_TIMED_VALUE, /* a recorded use of at least so many seconds counts as a time */
    RIGHTS_ENTRY_MARK,        /* 1: tracked, and granted with the switch off too */
    RIGHTS_ENTRY_THRESHOLD,   /* so many players may have it open together, 1 to 16; 0: any number */
    RIGHTS_ENTRY_MARKS,       /* bit p (1 << p) is set: player p has it open */
    RIGHTS_ENTRY_NUMBERS
};

uint8_t rights_entry(const uint8_t *image, size_t image_length, uint32_t position, uint32_t *out, size_t out_length);

/* What is left of the entry at a position, as an event at that time would find it: uses that are over by then have
 * ended, and any timed count that this gives back is back. A time before the book's counts as the book's, so 0 asks for
 * what is left in the image as it is. A time after 4,000,000,000 is judged like any other, though an event then gets 5. Grantable is 1 if
 * the entry's own limits, its threshold and the book's switch allow a grant at that time; whether an asset can use the entry is not
 * judged. */
enum {
    RIGHTS_LEFT_GRANTABLE,
    RIGHTS_LEFT_COUNT,
    RIGHTS_LEFT_TIMED,
    RIGHTS_LEFT_SECONDS,
    RIGHTS_LEFT_NUMBERS
};

/* In place of a remaining number: there is no such limit. */
#define RIGHTS_NO_LIMIT UINT32_C(4294967295)

uint8_t rights_left(const uint8_t *image, size_t image_length, uint32_t position, uint32_t time,
                    uint32_t *out, size_t out_length);

/* What stands against granting the entry at a position to a player, as a begin at that time would find it (see rights_left for
 * the time): 1 for each ground that stands, otherwise 0. The entry is grantable if all are 0. Whether it is suitable, and
 * whether the player may begin at all, is not judged: any player number is taken, and a time after 4,000,000,000 too, though an
 * event of player 16 or more gets 2, and one at such a time 5. No ground reads the player today, so all players get the same; pass the
 * one that asks, as a later ground may read it. A count, a timed count or an accumulated of 0 is spent from the start; an interval of 0
 * has a ground of its own, and is over too if it has started. */
enum {
    RIGHTS_GROUNDS_COUNT_SPENT,
    RIGHTS_GROUNDS_TIMED_SPENT,
    RIGHTS_GROUNDS_BEFORE_START,
    RIGHTS_GROUNDS_AFTER_END,
    RIGHTS_GROUNDS_INTERVAL_OVER,
    RIGHTS_GROUNDS_SECONDS_SPENT,
    RIGHTS_GROUNDS_INTERVAL_ZERO,  /* the interval is 0: never granted */
    RIGHTS_GROUNDS_SWITCH_OFF,     /* the entry is tracked and has no mark, and the book's switch is off */
    RIGHTS_GROUNDS_THRESHOLD_FULL, /* as many players have it open as may; the end of one of these uses makes room */
    RIGHTS_GROUNDS_NUMBERS
};

uint8_t rights_grounds(const uint8_t *image, size_t image_length, uint32_t position, uint8_t player, uint32_t time,
                       uint32_t *out, size_t out_length);

/* A player, 0 to 15: the last event taken from it with its answer (boot number and counter 0: none yet), and the open use. */
enum {
    RIGHTS_PLAYER_COUNTER,    /* of its number */
    RIGHTS_PLAYER_OPERATION,
    RIGHTS_PLAYER_ASSET,
    RIGHTS_PLAYER_KIND,
    RIGHTS_PLAYER_CODE,
    RIGHTS_PLAYER_ENTRY,
    RIGHTS_PLAYER_UNTIL,
    RIGHTS_PLAYER_OPEN,       /* 1: a use is open, in the image as it is */
    RIGHTS_PLAYER_OPEN_ENTRY,
    RIGHTS_PLAYER_OPEN_BEGIN,
    RIGHTS_PLAYER_OPEN_UNTIL,
    RIGHTS_PLAYER_CONTENT,    /* the asset that the open use shows */
    RIGHTS_PLAYER_BOOT,       /* of its number: RIGHTS_NUMBER(boot, counter) */
    RIGHTS_PLAYER_NUMBERS
};

uint8_t rights_player(const uint8_t *image, size_t image_length, uint32_t player, uint32_t *out, size_t out_length);

/* The list to begin with: a line for each asset of the book in the image, in its order, with no times and no seconds. It is put at the
 * start of lines, which has RIGHTS_LINES elements, and its length into count. Returns 0, or 20 to 27 if the image is refused. */
static inline uint8_t rights_zeros(const uint8_t *image, size_t image_length, struct rights_line *lines, size_t *count)
{
    uint32_t book[RIGHTS_BOOK_NUMBERS], asset[RIGHTS_ASSET_NUMBERS];
    uint8_t code = rights_book(image, image_length, book, RIGHTS_BOOK_NUMBERS);
    if (code != RIGHTS_OK)
        return code;
    for (uint32_t i = 0; i < book[RIGHTS_BOOK_ASSETS]; i++) {
        rights_asset(image, image_length, i, asset, RIGHTS_ASSET_NUMBERS);
        lines[i].content = asset[RIGHTS_ASSET_NUMBER];
        lines[i].times = lines[i].seconds = 0;
    }
    *count = book[RIGHTS_BOOK_ASSETS];
    return RIGHTS_OK;
}

#ifdef __cplusplus
}
#endif

#endif
