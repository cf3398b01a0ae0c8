/* A few lines of the bench sheet through the C header. Ends with the number of
 * the line that went wrong, or 0. */
#include <string.h>

#include "sooqidhaal.h"

static uint8_t card[10 * STORE_SECTOR];
static uint8_t work[10 * STORE_SECTOR];
static uint8_t session[STORE_SESSION_BYTES];
static uint8_t report[STORE_REPORT_BYTES];
static uint8_t room[STORE_ROOM_BYTES];
static uint8_t content[513];
static struct store_line lines[3];
static struct store_answer answer;

#define MUST(call, number) \
    do { \
        if ((call) != (number)) { \
            return __LINE__ % 250 + 1; \
        } \
    } while (0)

static uint32_t put(const char *name, size_t bytes)
{
    return store_put(session, work, sizeof work, (const uint8_t *)name, strlen(name), content,
                     bytes);
}

static uint32_t put_at(const char *name, size_t bytes, uint32_t goal)
{
    return store_put_at(session, work, sizeof work, (const uint8_t *)name, strlen(name), content,
                        bytes, goal);
}

/* Whether a line is a file of 513 bytes with this name and start. */
static int shows(const struct store_line *line, const char *name, uint32_t start)
{
    uint8_t padded[32] = {0};
    memcpy(padded, name, strlen(name));
    return line->size == strlen(name) && memcmp(line->name, padded, 32) == 0
        && line->run.start == start && line->run.sectors == 2 && line->run.bytes == 513;
}

int main(void)
{
    MUST(sizeof lines, 3 * 48);
    memset(lines, 0xEE, sizeof lines);
    MUST(store_make(6, 1, 1, card, 6 * STORE_SECTOR), STORE_BAD_GEOMETRY);
    MUST(store_make(10, 1, 1, card, sizeof card), STORE_DONE);
    MUST(put("left", 513), STORE_CLOSED);
    memset(room, 0xEE, sizeof room);
    MUST(store_free(session, work, sizeof work, room), STORE_CLOSED);
    MUST(room[0], 0xEE);
    MUST(store_mount(card, sizeof card, work, sizeof work, session), STORE_DONE);
    MUST(put("", 0), STORE_BAD_NAME);
    MUST(put("left", 513), STORE_DONE);
    MUST(store_free(session, work, sizeof work, room), STORE_DONE);
    MUST(room[0], 2);
    MUST(room[4], 0);
    MUST(put_at("left_arm", 513, 7), STORE_DONE);
    MUST(put("more", 1), STORE_NO_ROOM);
    MUST(put_at("more", 0, 10), STORE_NO_SECTOR);
    MUST(put_at("more", 1, 9), STORE_NO_ROOM);
    MUST(store_read(card, sizeof card, report), STORE_DONE);
    MUST(report[8], 0);
    MUST(report[12], 4);
    answer = store_list(session, work, sizeof work, lines, 1);
    MUST(answer.number, STORE_SHORT_OUTPUT);
    MUST(answer.count, 0);
    MUST(lines[0].size, 0xEEEEEEEE);
    answer = store_list(session, work, sizeof work, lines, 2);
    MUST(answer.number, STORE_DONE);
    MUST(answer.count, 2);
    MUST(shows(&lines[0], "left", 6), 1);
    MUST(shows(&lines[1], "left_arm", 8), 1);
    answer = store_read_list(card, sizeof card, lines, 0);
    MUST(answer.number, STORE_DONE);
    MUST(answer.count, 0);
    MUST(store_land(session, card, sizeof card, work, sizeof work, 6), STORE_DONE);
    MUST(store_land(session, card, sizeof card, work, sizeof work, 10), STORE_NO_SECTOR);
    MUST(store_sync(session, card, sizeof card, work, sizeof work), STORE_DONE);
    MUST(store_read(card, sizeof card, report), STORE_DONE);
    MUST(report[0], 1);
    MUST(report[4], 128);
    MUST(report[8], 2);
    MUST(report[12], 0);
    memset(lines, 0xEE, sizeof lines);
    answer = store_read_list(card, sizeof card, lines, 3);
    MUST(answer.number, STORE_DONE);
    MUST(answer.count, 2);
    MUST(shows(&lines[0], "left", 6), 1);
    MUST(shows(&lines[1], "left_arm", 8), 1);
    MUST(lines[2].size, 0xEEEEEEEE);
    MUST(lines[2].run.bytes, 0xEEEEEEEE);
    return 0;
}
