/*
 * Calls the published lookup3 for parts of some lengths, so many times.
 *
 *   published PLACE LENGTH... TIMES
 *
 * Each part begins PLACE bytes behind the first of a word: the published function reads words where
 * that is 0, and bytes where it is 1.
 */
#include <stdint.h>
#include <stdio.h>
#include <stdlib.h>

uint32_t hashlittle(const void *key, size_t length, uint32_t initval);

/* More than any header has. */
enum { ROOM = 1 << 25 };

int main(int count, char **words)
{
    static volatile uint32_t sum;
    char *room = calloc(ROOM, 1);
    long times;

    if (room == NULL || count < 4) {
        fputs("published PLACE LENGTH... TIMES\n", stderr);
        return 2;
    }
    for (times = atol(words[count - 1]); times > 0; times--) {
        int i;

        for (i = 2; i < count - 1; i++) {
            sum = hashlittle(room + atol(words[1]), (size_t)atol(words[i]), 0);
        }
    }
    free(room);
    return 0;
}
