/* The functions without the fit test, from a mount of ours to an unmount, each
 * beside the tested one on images of its own. Ends with the line of the first
 * difference, or 0. */
#include "sooqidhaal.h"

#include <string.h>

enum { SECTORS = 10, BYTES = STORE_SECTOR * SECTORS };

struct side {
    uint8_t card[BYTES], work[BYTES], session[STORE_SESSION_BYTES];
};

static struct side with, without;

#define ALIKE(a, b)                                                    \
    do {                                                               \
        if ((a) != (b) || memcmp(&with, &without, sizeof with) != 0) { \
            return __LINE__ & 0x7F;                                    \
        }                                                              \
    } while (0)

int main(void)
{
    const uint8_t name[4] = {'l', 'e', 'f', 't'};
    uint8_t content[513], out[2][513], room[2][STORE_ROOM_BYTES];
    struct store_line lines[2][4];
    struct store_answer one, other;

    memset(content, 7, sizeof content);
    memset(out, 0, sizeof out);
    memset(room, 0, sizeof room);
    memset(lines, 0xEE, sizeof lines);
    if (store_make(SECTORS, 1, 1, with.card, BYTES) != STORE_DONE) {
        return 1;
    }
    without = with;
    ALIKE(fitting_put(without.session, without.work, BYTES, name, 4, content, 1),
          STORE_CLOSED);
    if (store_mount(with.card, BYTES, with.work, BYTES, with.session) != 0) {
        return 2;
    }
    without = with;
    ALIKE(store_put(with.session, with.work, BYTES, name, 4, content, 513),
          fitting_put(without.session, without.work, BYTES, name, 4, content, 513));
    ALIKE(store_put_at(with.session, with.work, BYTES, name, 3, content, 1, 9),
          fitting_put_at(without.session, without.work, BYTES, name, 3, content, 1, 9));
    ALIKE(store_put(with.session, with.work, BYTES, name, 0, content, 1),
          fitting_put(without.session, without.work, BYTES, name, 0, content, 1));
    ALIKE(store_land(with.session, with.card, BYTES, with.work, BYTES, 6),
          fitting_land(without.session, without.card, BYTES, without.work, BYTES, 6));
    ALIKE(store_land(with.session, with.card, 512, with.work, BYTES, 6),
          fitting_land(without.session, without.card, 512, without.work, BYTES, 6));
    ALIKE(store_sync(with.session, with.card, BYTES, with.work, BYTES),
          fitting_sync(without.session, without.card, BYTES, without.work, BYTES));
    ALIKE(store_remove(with.session, with.work, BYTES, name, 3),
          fitting_remove(without.session, without.work, BYTES, name, 3));
    ALIKE(store_free(with.session, with.work, BYTES, room[0]),
          fitting_free(without.session, without.work, BYTES, room[1]));
    ALIKE(memcmp(room[0], room[1], sizeof room[0]), 0);
    one = store_get(with.session, with.work, BYTES, name, 4, out[0], 513);
    other = fitting_get(without.session, without.work, BYTES, name, 4, out[1], 513);
    ALIKE(one.number, other.number);
    ALIKE(one.count, other.count);
    ALIKE(memcmp(out[0], out[1], sizeof out[0]), 0);
    one = store_list(with.session, with.work, BYTES, lines[0], 4);
    other = fitting_list(without.session, without.work, BYTES, lines[1], 4);
    ALIKE(one.number, other.number);
    ALIKE(one.count, other.count);
    ALIKE(memcmp(lines[0], lines[1], sizeof lines[0]), 0);
    one = store_sync_count(with.session, with.card, BYTES, with.work, BYTES);
    other = fitting_sync_count(without.session, without.card, BYTES, without.work, BYTES);
    ALIKE(one.number, other.number);
    ALIKE(one.count, other.count);
    one = store_unmount(with.session, with.card, BYTES, with.work, BYTES);
    other = fitting_unmount(without.session, without.card, BYTES, without.work, BYTES);
    ALIKE(one.number, other.number);
    ALIKE(one.count, other.count);
    return 0;
}
