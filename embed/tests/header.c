/* What embed/rights.h says of itself: it is the only header that a program needs, in C99 and in C++11, without a warning, and the words
 * on players and times beside rights_left and rights_grounds are what the library does. This file is compiled in both languages. The
 * exit status is 0, or the number of the first test that fails. */
#include "../rights.h"

/* A fresh book: one asset with a key, and one entry for it, play, without a limit. */
enum { HEADER = 23, ASSET = 5, ENTRY = 71, LENGTH = HEADER + ASSET + ENTRY + 512 };

static uint8_t image[RIGHTS_LONGEST_IMAGE];

static void start(void)
{
    static const uint8_t header[] = {'R', 'B', 'K', 0, 5, 1, 1};
    static const uint8_t asset[] = {0, 1, 0, 0, 1};
    static const uint8_t entry[] = {0, 1, 0, 1, RIGHTS_PLAY};
    for (size_t i = 0; i < sizeof image; i++)
        image[i] = 0;
    for (size_t i = 0; i < sizeof header; i++)
        image[i] = header[i];
    for (size_t i = 0; i < sizeof asset; i++)
        image[HEADER + i] = asset[i];
    for (size_t i = 0; i < sizeof entry; i++)
        image[HEADER + ASSET + i] = entry[i];
}

/* The answer to a begin of the asset on the fresh book; 255 if the call is refused. */
static uint8_t asked(uint8_t player, uint32_t time)
{
    struct rights_line lines[RIGHTS_LINES];
    size_t count;
    uint64_t length = LENGTH;
    uint8_t code, entry;
    uint32_t until;
    start();
    if (rights_zeros(image, LENGTH, lines, &count) != RIGHTS_OK || count != 1 || lines[0].content != 1)
        return 255;
    if (rights_answer_one(image, sizeof image, &length, player, RIGHTS_NUMBER(0, 1), RIGHTS_BEGIN, 1, RIGHTS_PLAY, time,
                          &code, &entry, &until, lines, count) != RIGHTS_OK)
        return 255;
    return code;
}

/* Whether rights_left and rights_grounds find nothing against the entry on the fresh book. */
static int free_for(uint8_t player, uint32_t time)
{
    uint32_t left[RIGHTS_LEFT_NUMBERS], grounds[RIGHTS_GROUNDS_NUMBERS], stand = 0;
    start();
    if (rights_left(image, LENGTH, 0, time, left, RIGHTS_LEFT_NUMBERS) != RIGHTS_OK
        || rights_grounds(image, LENGTH, 0, player, time, grounds, RIGHTS_GROUNDS_NUMBERS) != RIGHTS_OK)
        return 0;
    for (int i = 0; i < RIGHTS_GROUNDS_NUMBERS; i++)
        stand += grounds[i];
    return left[RIGHTS_LEFT_GRANTABLE] == 1 && left[RIGHTS_LEFT_COUNT] == RIGHTS_NO_LIMIT && stand == 0;
}

int main(void)
{
    const uint32_t latest = 4000000000u;
    const int boot = 3, counter = -1;
    static const uint8_t room[RIGHTS_ROOM(RIGHTS_RECORD + 1)] = {0}; /* a constant */
    if (sizeof room != 2 * RIGHTS_LINE || RIGHTS_ROOM(0) != 0 || RIGHTS_ROOM(RIGHTS_RECORD) != RIGHTS_LINE)
        return 1;
    if (RIGHTS_NUMBER(boot, counter) != UINT64_C(0x3ffffffff) || RIGHTS_NUMBER(1 + 1, 2) != UINT64_C(0x200000002))
        return 2;
    if (asked(0, latest) != RIGHTS_GRANTED || asked(15, 0) != RIGHTS_GRANTED || !free_for(0, latest) || !free_for(15, 0))
        return 3;
    if (asked(16, 0) != RIGHTS_BAD_PLAYER || asked(255, 0) != RIGHTS_BAD_PLAYER || !free_for(16, 0) || !free_for(255, 0))
        return 4;
    if (asked(0, latest + 1) != RIGHTS_BAD_TIME || asked(0, UINT32_MAX) != RIGHTS_BAD_TIME)
        return 5;
    if (!free_for(0, latest + 1) || !free_for(0, UINT32_MAX))
        return 6;
    return 0;
}
