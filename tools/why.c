/* What stands against each entry of a book for a player at a time, from the proved library:
 *
 *     why BOOK PLAYER TIME
 *
 * A line for each entry in turn: 1 for a ground that stands and 0 for one that does not, in the order of rights.h. The exit
 * status is 0; 20 to 27 if the book is refused with that number; 1 if it cannot be read. `tools/book.py why` builds and
 * calls it. */
#include <stdio.h>
#include <stdlib.h>

#include "rights.h"

static uint8_t image[RIGHTS_LONGEST_IMAGE + 1];

int main(int count, char **words)
{
    if (count != 4) {
        fprintf(stderr, "usage: why BOOK PLAYER TIME\n");
        return 1;
    }
    FILE *book = fopen(words[1], "rb");
    size_t length = book ? fread(image, 1, sizeof image, book) : 0; /* a longer file is refused like this part of it */
    if (!book || ferror(book)) {
        perror(words[1]);
        return 1;
    }
    uint8_t player = (uint8_t)strtoul(words[2], NULL, 10);
    uint32_t time = (uint32_t)strtoul(words[3], NULL, 10), grounds[RIGHTS_GROUNDS_NUMBERS];

    for (uint32_t entry = 0;; entry++) {
        uint8_t code = rights_grounds(image, length, entry, player, time, grounds, RIGHTS_GROUNDS_NUMBERS);
        if (code == RIGHTS_NOT_THERE)
            break;
        if (code != RIGHTS_OK)
            return code;
        for (int i = 0; i < RIGHTS_GROUNDS_NUMBERS; i++)
            printf("%u%c", grounds[i], i + 1 < RIGHTS_GROUNDS_NUMBERS ? ' ' : '\n');
    }
    if (fflush(stdout) != 0) {
        perror("standard output");
        return 1;
    }
    return 0;
}
