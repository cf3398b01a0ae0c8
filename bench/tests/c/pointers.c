/* What the header says of pointers and lengths, as far as it can be tried: NULL
 * with length 0, buffers at odd places, lengths above 4 GiB. Ends with the number
 * of the line that went wrong, or 0. */
#include <stdlib.h>
#include <string.h>

#include "sooqidhaal.h"

#define MUST(call, number) \
    do { \
        if ((call) != (number)) { \
            return __LINE__ % 250 + 1; \
        } \
    } while (0)

enum { CARD = 10 * STORE_SECTOR };

static uint8_t room[2 * CARD + 200];
static struct store_line lines[4];

/* A buffer of so many bytes at an odd place. */
static uint8_t *odd(size_t bytes)
{
    static size_t used;
    uint8_t *at = room + used;
    at += ((uintptr_t)at & 1) == 0;
    used = (size_t)(at - room) + bytes;
    return at;
}

static int null_pointers(void)
{
    static uint8_t card[CARD], work[CARD], session[24], report[16];
    const uint8_t *a = (const uint8_t *)"a";
    MUST(store_make(0, 1, 1, NULL, 0), STORE_BAD_GEOMETRY);
    MUST(store_read(NULL, 0, report), STORE_BAD_GEOMETRY);
    MUST(store_read_get(NULL, 0, NULL, 0, NULL, 0).number, STORE_BAD_GEOMETRY);
    MUST(store_read_list(NULL, 0, NULL, 0).number, STORE_BAD_GEOMETRY);
    MUST(store_mount(NULL, 0, NULL, 0, session), STORE_BAD_GEOMETRY);
    MUST(store_put(session, NULL, 0, NULL, 0, NULL, 0), STORE_CLOSED);
    session[0] = 1;
    MUST(store_put(session, NULL, 0, NULL, 0, NULL, 0), STORE_NOT_SOUND);
    MUST(store_sync(session, NULL, 0, NULL, 0), STORE_NOT_SOUND);
    MUST(store_unmount(session, NULL, 0, NULL, 0).number, STORE_NOT_SOUND);
    MUST(store_make(10, 1, 1, card, sizeof card), STORE_DONE);
    MUST(store_mount(card, sizeof card, work, sizeof work, session), STORE_DONE);
    MUST(store_list(session, work, sizeof work, NULL, 0).number, STORE_DONE);
    MUST(store_put(session, work, sizeof work, NULL, 0, NULL, 0), STORE_BAD_NAME);
    MUST(store_remove(session, work, sizeof work, NULL, 0), STORE_BAD_NAME);
    MUST(store_put(session, work, sizeof work, a, 1, NULL, 0), STORE_DONE);
    MUST(store_put_at(session, work, sizeof work, a, 1, NULL, 0, 9), STORE_DONE);
    MUST(store_get(session, work, sizeof work, a, 1, NULL, 0).number, STORE_DONE);
    MUST(store_put(session, work, sizeof work, a, 1, a, 1), STORE_DONE);
    MUST(store_get(session, work, sizeof work, a, 1, NULL, 0).number, STORE_SHORT_OUTPUT);
    MUST(store_list(session, work, sizeof work, NULL, 0).number, STORE_SHORT_OUTPUT);
    MUST(store_unmount(session, card, sizeof card, work, sizeof work).number, STORE_DONE);
    MUST(store_read_get(card, sizeof card, a, 1, NULL, 0).number, STORE_SHORT_OUTPUT);
    return 0;
}

static int odd_places(void)
{
    uint8_t *card = odd(CARD), *work = odd(CARD), *session = odd(24);
    uint8_t *name = odd(1), *content = odd(3), *out = odd(3), *report = odd(16);
    *name = 'a';
    memset(content, 7, 3);
    MUST(store_make(10, 1, 1, card, CARD), STORE_DONE);
    MUST(store_mount(card, CARD, work, CARD, session), STORE_DONE);
    MUST(store_put_at(session, work, CARD, name, 1, content, 3, 8), STORE_DONE);
    MUST(store_free(session, work, CARD, report), STORE_DONE);
    MUST(report[0], 3);
    MUST(store_get(session, work, CARD, name, 1, out, 3).count, 3);
    MUST(memcmp(out, content, 3), 0);
    MUST(store_land(session, card, CARD, work, CARD, 8), STORE_DONE);
    MUST(store_unmount(session, card, CARD, work, CARD).number, STORE_DONE);
    MUST(store_read(card, CARD, report), STORE_DONE);
    MUST(report[8], 1);
    MUST(store_read_list(card, CARD, lines, 4).count, 1);
    MUST(lines[0].run.start, 8);
    return 0;
}

/* Lengths that are those of a card but for 4 GiB, over zeroed memory that is
 * hardly touched. A machine that has no room for it leaves this out. */
static int above_4_gib(void)
{
    static uint8_t card[CARD], work[CARD], session[24], report[16];
    const uint8_t *a = (const uint8_t *)"a";
    size_t more = (size_t)1 << 31;
    uint8_t *large;
    if (sizeof(size_t) < 8) {
        return 0;
    }
    more = 2 * more + CARD;
    large = calloc(more, 1);
    if (large == NULL) {
        return 0;
    }
    MUST(store_make(10, 1, 1, card, sizeof card), STORE_DONE);
    memcpy(large, card, sizeof card);
    MUST(store_make(10, 1, 1, large, more), STORE_BAD_GEOMETRY);
    MUST(store_read(large, more, report), STORE_BAD_GEOMETRY);
    MUST(store_mount(large, more, work, sizeof work, session), STORE_BAD_GEOMETRY);
    MUST(store_mount(card, sizeof card, work, sizeof work, session), STORE_DONE);
    memcpy(large, work, sizeof work);
    MUST(store_put(session, large, more, a, 1, a, 1), STORE_NOT_SOUND);
    MUST(store_land(session, large, more, work, sizeof work, 0), STORE_BAD_GEOMETRY);
    MUST(store_sync(session, large, more, work, sizeof work), STORE_BAD_GEOMETRY);
    MUST(store_put(session, work, sizeof work, a, 1, large, more), STORE_NO_ROOM);
    MUST(store_put(session, work, sizeof work, large, more - CARD + 1, a, 1), STORE_BAD_NAME);
    MUST(store_put(session, work, sizeof work, a, 1, a, 1), STORE_DONE);
    MUST(store_get(session, work, sizeof work, a, 1, large, more).count, 1);
    free(large);
    return 0;
}

int main(void)
{
    int wrong = null_pointers();
    if (wrong == 0) {
        wrong = odd_places();
    }
    return wrong != 0 ? wrong : above_4_gib();
}
