/* A module's use of the store, from an empty card to a card read back: make,
 * mount, put, get, list, sync, remove, unmount, and reading without a session.
 *
 *     cc -I bench/include examples/module.c target/staticlib/libhost.a \
 *         target/staticlib/liblists.a -o module
 *
 * Here the card is plain memory. On a module it is what the driver brings to the
 * flash; docs/DRIVER.md says in which order. */
#include <stdio.h>
#include <stdlib.h>
#include <string.h>

#include "sooqidhaal.h"

enum { SECTORS = 64, TABLE = 1, DIRECTORY = 2, FILES = 4 * DIRECTORY };

static uint8_t card[STORE_SECTOR * SECTORS];
static uint8_t work[sizeof card];
static uint8_t session[STORE_SESSION_BYTES];

/* Ends the program where a call does not give what it should. */
static void must(const char *call, uint32_t number, uint32_t expected)
{
    if (number != expected) {
        printf("%s gives %u\n", call, (unsigned)number);
        exit(1);
    }
}

static const uint8_t *bytes(const char *text)
{
    return (const uint8_t *)text;
}

static void put(const char *name, const char *content)
{
    must("put", store_put(session, work, sizeof work, bytes(name), strlen(name),
                          bytes(content), strlen(content)), STORE_DONE);
}

static void print_line(const struct store_line *line)
{
    printf("  %.*s: %u bytes at sector %u\n", (int)line->size, (const char *)line->name,
           (unsigned)line->run.bytes, (unsigned)line->run.start);
}

/* What the session has, or what a cut now would leave on the card. */
static void print_files(const char *title, int of_card)
{
    static struct store_line lines[FILES];
    struct store_answer a = of_card
        ? store_read_list(card, sizeof card, lines, FILES)
        : store_list(session, work, sizeof work, lines, FILES);
    must("list", a.number, STORE_DONE);
    printf("%s: %u\n", title, (unsigned)a.count);
    for (uint32_t i = 0; i < a.count; i++) {
        print_line(&lines[i]);
    }
}

int main(void)
{
    uint8_t out[64];
    struct store_answer a;

    must("make", store_make(SECTORS, TABLE, DIRECTORY, card, sizeof card), STORE_DONE);
    must("mount", store_mount(card, sizeof card, work, sizeof work, session), STORE_DONE);
    put("left_arm", "steps 0 at 0");
    put("right_arm", "steps 9 at 14");
    print_files("in the session", 0);
    print_files("on the card", 1);

    a = store_get(session, work, sizeof work, bytes("left_arm"), 8, out, sizeof out);
    must("get", a.number, STORE_DONE);
    printf("left_arm reads: %.*s\n", (int)a.count, (const char *)out);

    a = store_sync_count(session, card, sizeof card, work, sizeof work);
    must("sync", a.number, STORE_DONE);
    printf("sync wrote %u sectors\n", (unsigned)a.count);

    must("remove", store_remove(session, work, sizeof work, bytes("left_arm"), 8), STORE_DONE);
    a = store_get(session, work, sizeof work, bytes("left_arm"), 8, out, sizeof out);
    must("get", a.number, STORE_NO_FILE);
    print_files("on the card", 1);

    a = store_unmount(session, card, sizeof card, work, sizeof work);
    must("unmount", a.number, STORE_DONE);
    printf("unmount wrote %u sectors\n", (unsigned)a.count);
    must("put", store_put(session, work, sizeof work, bytes("x"), 1, out, 1), STORE_CLOSED);

    print_files("on the card", 1);
    a = store_read_get(card, sizeof card, bytes("right_arm"), 9, out, sizeof out);
    must("read_get", a.number, STORE_DONE);
    printf("right_arm reads: %.*s\n", (int)a.count, (const char *)out);
    return 0;
}
