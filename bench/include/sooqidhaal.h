/*
 * Sooqidhaal: a file store on a lent card image, as functions for a host,
 * and two more for list over a lent table of lines.
 *
 * Link target/staticlib/libhost.a for the first and target/staticlib/liblists.a
 * for list's two. They need nothing but memcpy, memmove and memset, and each
 * can be linked without the other. A third, libfitting.a, has functions that
 * leave one test out and ask more of the caller: they stand at the end.
 *
 * Images. A card is a byte buffer of 512 * S bytes that survives a cut; the
 * working image is a second buffer of the same length that need not. The
 * functions keep no pointer and allocate nothing.
 *
 * Sizes. S is at most 65,536, so an image has at most 32 MiB; T is 1 to 512, D
 * is 1 to 64, and with P = S / 4,096 rounded up S must exceed T + 2 + 2 * P + D.
 * A length is a size_t: work it out as (size_t)STORE_SECTOR * s. For an s inside
 * the limits the product fits 32 bits; for an s that comes from elsewhere it
 * might not, and the functions compare in numbers that do not wrap. A file lies
 * inside one page of 4,096 sectors: it has at most 2 MiB.
 *
 * What is taken. Every call takes buffers of any length and content, any
 * 24 bytes as a session, any name and any number, and always ends. What the
 * caller answers for is C's own: each pointer is valid for its length (for the
 * arrays: 8, 16 and 24 bytes; for a table: lines_len lines), and NO TWO LENT
 * BUFFERS OVERLAP where one of them is written to. Nothing is promised for a
 * buffer lent twice in one call. Bytes need no alignment, a table that of its
 * struct. NULL is taken where the length is 0 (that is tried, not proved: what
 * is proved speaks of valid pointers); never for an array. A length may be any
 * size_t, also above 4 GiB: it is compared and not cut down.
 *
 * A session is 24 bytes, six words of 32 bits, least byte first: state
 * (0 closed, 1 open, 2 open and worn), S, T, D, c, t. The closed session is
 * 24 zero bytes; a state of 0 is closed whatever follows, and a state above 2
 * is an open session that never fits. It is no secret and may be kept
 * anywhere; a session that does not belong to the working image is refused.
 *
 * Numbers. Each function gives one of these, and where it counts something, in
 * a struct store_answer with a count. A refusal (not 0) counts 0 and changes no
 * byte, but that a refused mount stores the closed session.
 *
 *    0  done
 *    1  geometry outside the limits, or an image of the wrong length
 *    2  the card is not sound, or the session does not fit
 *    3  mount of a sound card whose crash counts are used up (C = N)
 *    4  the session is closed
 *    5  name length or byte outside the rule (1 to 32 bytes, each 33 to 126)
 *    6  no such file
 *    7  no entry for the name
 *    8  no run of sectors inside a page that is free in both views
 *    9  change or sync in a worn session
 *   10  the lent output is too short: get, or a list with more files than lines
 *   11  sector number S or more
 */
#ifndef SOOQIDHAAL_H
#define SOOQIDHAAL_H

#include <stddef.h>
#include <stdint.h>

#ifdef __cplusplus
extern "C" {
#endif

/* The version of this header: the first number grows when what is declared here
 * changes, the second when something is added. Both are 0 to 99. */
#define STORE_VERSION_MAJOR 1
#define STORE_VERSION_MINOR 1
#define STORE_VERSION (100 * STORE_VERSION_MAJOR + STORE_VERSION_MINOR)

enum {
    STORE_DONE = 0,
    STORE_BAD_GEOMETRY = 1,
    STORE_NOT_SOUND = 2,
    STORE_NO_COUNT_LEFT = 3,
    STORE_CLOSED = 4,
    STORE_BAD_NAME = 5,
    STORE_NO_FILE = 6,
    STORE_NO_ENTRY = 7,
    STORE_NO_ROOM = 8,
    STORE_WORN = 9,
    STORE_SHORT_OUTPUT = 10,
    STORE_NO_SECTOR = 11
};

/* Bytes of a sector, of a session and of what store_read and store_free
 * give. */
#define STORE_SECTOR 512
#define STORE_SESSION_BYTES 24
#define STORE_REPORT_BYTES 16
#define STORE_ROOM_BYTES 8

/* The most sectors of a card, and of a page, which is the most of a file. */
#define STORE_MOST_SECTORS 65536
#define STORE_PAGE_SECTORS 4096

/* Where a file's content is: its first sector (0 for a file of 0 bytes), its
 * sectors and its bytes. */
struct store_run {
    uint32_t start;
    uint32_t sectors;
    uint32_t bytes;
};

/* One line of a list, 48 bytes: the length of a name, the name with its unused
 * bytes 0 (so one of 32 bytes has no 0 at its end), and its file. */
struct store_line {
    uint32_t size;
    uint8_t name[32];
    struct store_run run;
};

/* What a call that counts gives: one of the numbers, and the bytes or lines
 * filled or the sectors written (0 on a refusal). */
struct store_answer {
    uint32_t number;
    uint32_t count;
};

/* Makes a fresh card of s sectors, t of them table and d directory: 1, where
 * card_len is not 512 * s too. A make that gives 0 ends any session on the
 * card. */
uint32_t store_make(uint32_t s, uint32_t t, uint32_t d,
                    uint8_t *card, size_t card_len);

/* Reads a card, which needs no session: 1, 2. With 0, out holds four words:
 * C (crash count), N (crash counts in all), files shown, free sectors. */
uint32_t store_read(const uint8_t *card, size_t card_len, uint8_t out[16]);

/* Gets a file that a card shows, which needs no session: 1, 2, 5, 6, 10. The
 * first bytes of out are filled and counted, the later ones stay as they
 * are. */
struct store_answer store_read_get(const uint8_t *card, size_t card_len,
                                   const uint8_t *name, size_t name_len,
                                   uint8_t *out, size_t out_len);

/* Mounts a card: 1, 2, 3. Sector 0 of the card gets the next crash count and
 * must have landed before anything else of the session does; then the card is
 * copied to work. session gets the open session, or the closed one. */
uint32_t store_mount(uint8_t *card, size_t card_len,
                     uint8_t *work, size_t work_len, uint8_t session[24]);

/* Stores a whole file under a name, in the working image only:
 * 4, 2, 9, 5, 7, 8. Content of any length is taken; more than 2 MiB finds no
 * run: 8, or 7. */
uint32_t store_put(const uint8_t session[24], uint8_t *work, size_t work_len,
                   const uint8_t *name, size_t name_len,
                   const uint8_t *content, size_t content_len);

/* The same with a goal sector, to keep files together: the content goes to the
 * first run that starts at or after the goal and fits, or, where none does, to
 * the lowest: 4, 2, 9, 5, 11, 7, 8. 11 is for a goal of S or more, also with no
 * content; any lower goal is taken, one before the data too. Goal 0 is
 * store_put. Whether there is room (8) does not depend on the goal. */
uint32_t store_put_at(const uint8_t session[24],
                      uint8_t *work, size_t work_len,
                      const uint8_t *name, size_t name_len,
                      const uint8_t *content, size_t content_len,
                      uint32_t goal);

/* Removes a file of the session, in the working image only: 4, 2, 9, 5, 6. */
uint32_t store_remove(const uint8_t session[24],
                      uint8_t *work, size_t work_len,
                      const uint8_t *name, size_t name_len);

/* Gets a file of the session: 4, 2, 5, 6, 10. The first bytes of out are filled
 * and counted, the later ones stay as they are. */
struct store_answer store_get(const uint8_t session[24],
                              const uint8_t *work, size_t work_len,
                              const uint8_t *name, size_t name_len,
                              uint8_t *out, size_t out_len);

/* Counts sectors of the working image: 4, 2. With 0, out holds two words: free
 * (clear in both views, so that a put can take them now) and waiting (the ones
 * that the next sync releases: the cut view still has them). Free, waiting, the
 * sectors of the present files and T + 2 + 2 * P + D add up to S. A put of 1 to
 * 512 bytes gives 8 just where free is 0; a larger one may find no run also
 * where enough sectors are free apart from each other. A worn session has
 * waiting 0. */
uint32_t store_free(const uint8_t session[24],
                    const uint8_t *work, size_t work_len, uint8_t out[8]);

/* Brings the working image to the card: 4, 1, 2, 9. Every sector outside the
 * table that differs in rising order, then one sector of the table; a card that
 * holds writes back must have all the others before that one, not those of
 * this call alone but whatever was written to it before, by store_land too. The
 * session gets the next transaction count, or is worn. */
uint32_t store_sync(uint8_t session[24], uint8_t *card, size_t card_len,
                    uint8_t *work, size_t work_len);

/* The same, with the number of sectors written: those that differed and the
 * one of the table; 0 on a refusal. */
struct store_answer store_sync_count(uint8_t session[24],
                                     uint8_t *card, size_t card_len,
                                     uint8_t *work, size_t work_len);

/* Ends a session: 4, 1, 2. Syncs unless worn, and then gives the crash count
 * back in sector 0 of both images, unless the session is worn by then. With 0
 * the session is closed; on a refusal its bytes stay. Counts what its sync
 * wrote; the write of sector 0 is not counted. The table sector must have
 * landed before sector 0 does. A session that ends without this uses one of the
 * card's 128 * T crash counts up. */
struct store_answer store_unmount(uint8_t session[24],
                                  uint8_t *card, size_t card_len,
                                  uint8_t *work, size_t work_len);

/* Copies one sector of the working image to the card, at any time:
 * 4, 1, 2, 11. */
uint32_t store_land(const uint8_t session[24], uint8_t *card, size_t card_len,
                    const uint8_t *work, size_t work_len, uint32_t sector);

/* Lists the files that a card shows, which needs no session: 1, 2, 10. The
 * first lines are filled in entry order and counted, the later ones stay as
 * they are. A card of D directory sectors shows at most 4 * D files. */
struct store_answer store_read_list(const uint8_t *card, size_t card_len,
                                    struct store_line *lines, size_t lines_len);

/* Lists the present files of a session in the same way: 4, 2, 10. */
struct store_answer store_list(const uint8_t session[24],
                               const uint8_t *work, size_t work_len,
                               struct store_line *lines, size_t lines_len);

/* For a bench that cuts the power inside a call: the call's tests, then its
 * writes to the card as far as place k, and nothing else. Mount has two places:
 * sector 0, and a barrier, behind which everything written has landed. Sync's
 * are sector 0, the S - T - 1 sectors past the table in rising order, a barrier,
 * the table sector, a barrier; a sector that does not differ is not written.
 * Unmount's are sync's, and then sector 0. Past the last place nothing
 * happens: any k may be lent. The count is that of the sectors written so far. */
uint32_t store_mount_steps(uint8_t *card, size_t card_len,
                           const uint8_t *work, size_t work_len, uint32_t k);
struct store_answer store_sync_steps(const uint8_t session[24],
                                     uint8_t *card, size_t card_len,
                                     const uint8_t *work, size_t work_len,
                                     uint32_t k);
struct store_answer store_unmount_steps(const uint8_t session[24],
                                        uint8_t *card, size_t card_len,
                                        const uint8_t *work, size_t work_len,
                                        uint32_t k);

/*
 * Without the fit test: the functions of target/staticlib/libfitting.a. Each
 * takes what the function of the same name above takes, and does the same with
 * the same numbers, byte for byte, but that it never asks whether the session
 * fits: 2 is none of its numbers, every other number and its place stay.
 *
 * WHAT THE CALLER ANSWERS FOR. Where the session is open it fits the working
 * image that is lent with it. That is always so when
 *
 *   - the session came from store_mount with this working image, and since then
 *     only from these functions or those above, each with the same session,
 *     card and working image;
 *   - only the newest session is used: an earlier copy of its 24 bytes is not,
 *     and a second mount of the card ends the first;
 *   - nobody else has written to the working image, to the session, or to the
 *     card while the session is open;
 *   - after a cut the session is closed (24 zero bytes) until the next mount.
 *
 * With any other open session nothing is promised, not even that a call ends
 * or stays inside its buffers. A caller that cannot answer for all of this
 * uses the functions above. The closed session is taken: 4.
 */

/* 4, 9, 5, 7, 8 */
uint32_t fitting_put(const uint8_t session[24], uint8_t *work, size_t work_len,
                     const uint8_t *name, size_t name_len,
                     const uint8_t *content, size_t content_len);

/* 4, 9, 5, 11, 7, 8 */
uint32_t fitting_put_at(const uint8_t session[24],
                        uint8_t *work, size_t work_len,
                        const uint8_t *name, size_t name_len,
                        const uint8_t *content, size_t content_len,
                        uint32_t goal);

/* 4, 9, 5, 6 */
uint32_t fitting_remove(const uint8_t session[24],
                        uint8_t *work, size_t work_len,
                        const uint8_t *name, size_t name_len);

/* 4, 5, 6, 10 */
struct store_answer fitting_get(const uint8_t session[24],
                                const uint8_t *work, size_t work_len,
                                const uint8_t *name, size_t name_len,
                                uint8_t *out, size_t out_len);

/* 4, 10 */
struct store_answer fitting_list(const uint8_t session[24],
                                 const uint8_t *work, size_t work_len,
                                 struct store_line *lines, size_t lines_len);

/* 4 */
uint32_t fitting_free(const uint8_t session[24],
                      const uint8_t *work, size_t work_len, uint8_t out[8]);

/* 4, 1, 11 */
uint32_t fitting_land(const uint8_t session[24], uint8_t *card, size_t card_len,
                      const uint8_t *work, size_t work_len, uint32_t sector);

/* 4, 1, 9 */
uint32_t fitting_sync(uint8_t session[24], uint8_t *card, size_t card_len,
                      uint8_t *work, size_t work_len);
struct store_answer fitting_sync_count(uint8_t session[24],
                                       uint8_t *card, size_t card_len,
                                       uint8_t *work, size_t work_len);

/* 4, 1 */
struct store_answer fitting_unmount(uint8_t session[24],
                                    uint8_t *card, size_t card_len,
                                    uint8_t *work, size_t work_len);

#ifdef __cplusplus
}
#endif

#endif
