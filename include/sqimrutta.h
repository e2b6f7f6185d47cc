/* Sqimrutta: the shared points of one survey handheld, kept in an image that you lend.
 *
 * Every function here is proved to end with an answer on any bytes, lengths and numbers, to write only what its comment says, and to leave every
 * lent byte as it was when it refuses. It keeps nothing between calls, takes no memory but some hundred bytes of stack (docs/MEASURES.md), and needs
 * only `memset` and `memcpy` of a C library. A pointer must be valid for the length that goes with it, also where that length is wrong; two buffers
 * of one call must not overlap.
 *
 * Link with libsqimrutta.a, which `tools/library` writes to target/staticlib. */

#ifndef SQIMRUTTA_H
#define SQIMRUTTA_H

#include <stddef.h>
#include <stdint.h>

#ifdef __cplusplus
extern "C" {
#endif

/* Lengths, in bytes but for the context's. */
enum {
    SQIMRUTTA_BLOCK = 512,          /* a block; a reading is one, and so is the message of a write or deletion */
    SQIMRUTTA_IMAGE = 67 * 512,     /* an image: what the handheld stores */
    SQIMRUTTA_REPLY = 121 * 512,    /* the least room for a reply: its head, and the 120 points that the lists can name */
    SQIMRUTTA_TABLE = 8,            /* the crew table: a byte for each job 0..7, bit n-1 says that controller n holds it */
    SQIMRUTTA_CONTEXT = 8,          /* a context, in counters: one for each controller, the first for controller 1 */
    SQIMRUTTA_VALUE = 24            /* the longest value; one of no bytes is a value, too */
};

/* What a call returns: 0, or the first of these that applies, in this order. A refused call has changed nothing. */
enum {
    SQIMRUTTA_ACCEPTED = 0,
    SQIMRUTTA_WRONG_LENGTH = 1,      /* a lent buffer has the wrong length */
    SQIMRUTTA_IMAGE_NOT_GOOD = 2,    /* the image is not one that the library left: damaged, or of something else */
    SQIMRUTTA_WRONG_CHECK = 3,       /* a message block's check is wrong: damaged on its way */
    SQIMRUTTA_ILL_FORMED = 4,        /* the message is not laid out as it should be, or names what there is not */
    SQIMRUTTA_OUT_OF_RANGE = 5,      /* an argument outside its range, or a job not held here or not by the sender */
    SQIMRUTTA_NOT_PEER = 6,          /* the sender or the asked party is not another peer, or the message is for another */
    SQIMRUTTA_VALUE_TOO_LONG = 7,    /* a value over 24 bytes */
    SQIMRUTTA_CONTEXT_AHEAD = 8,     /* the given context is above the present reading's in some entry */
    SQIMRUTTA_HISTORY_LOST = 9,      /* the message knows of own writes that this image does not: it is an old copy */
    SQIMRUTTA_DOT_CLASH = 10,        /* a write in the message is stored here with other contents, or for another point */
    SQIMRUTTA_ROW_TOO_FAR = 11,      /* too many writes are missing before the one that came */
    SQIMRUTTA_TOO_MANY_VERSIONS = 12,/* a point would have more than 8 versions */
    SQIMRUTTA_TOO_MANY_POINTS = 13,  /* more than 64 stored points */
    SQIMRUTTA_OWN_LIST_FULL = 14,    /* 60 own writes are not known to all peers yet: repair first */
    SQIMRUTTA_COUNTERS_USED_UP = 15  /* the own counter is at its end, 4,294,967,295 */
};

/* Whether these bytes are a good image: 1 or 0. No call needs it beforehand, each asks it itself; it is there for a look after a reset. */
uint32_t sqimrutta_good(const uint8_t *image, size_t image_len);

/* A fresh image (SQIMRUTTA_IMAGE bytes, whatever they were) for the controller `number`, 1..8, with the crew's table (SQIMRUTTA_TABLE bytes).
 * A number is started once in the life of a crew. Refusals 1, 5. */
uint32_t sqimrutta_start(uint8_t *image, size_t image_len, uint8_t number, const uint8_t *table, size_t table_len);

/* What the point (job 0..7, point 1..65535) shows: a block of kind 7 in `out` (SQIMRUTTA_BLOCK bytes). Byte 5 is the number of versions; from 40
 * on 32 bytes each: controller, length, two zeros, counter (4), value. Bytes 8-39 are the context, eight counters of 4, which a write that
 * replaces these versions gives back. Little-endian. Refusals 1, 2, 5. */
uint32_t sqimrutta_read(const uint8_t *image, size_t image_len, uint8_t job, uint16_t point, uint8_t *out, size_t out_len);

/* Writes `value` (`value_len` bytes, 0..SQIMRUTTA_VALUE) to the point (job 0..7, point 1..65535).
 *
 * `context` (`context_len` is SQIMRUTTA_CONTEXT) says what the user saw when he decided to write: the eight counters of bytes 8-39 of that reading,
 * as numbers, or all zeros where nothing was read. The write replaces the versions that this context covers, and no others: what has come in since
 * that reading is shown beside the new value. So give the context of the reading that stood on the screen, not of one made since. A context above
 * the present reading's in any entry is none that this image has shown for the point: refusal 8.
 *
 * Afterwards `out` (SQIMRUTTA_BLOCK bytes) holds the outgoing message, a block of kind 4. Store the image to flash before the message is sent: if a
 * reset took back a write that peers have, its counter would go to another write. Then send the message by radio to every peer, which is every
 * controller that shares a job with this one. It may be lost, come again, or come late; a repair brings what was lost.
 *
 * After refusal 12, let the user see the present reading, whose context covers all versions; after 14, repair with the peers.
 * Refusals 1, 2, 5, 7, 8, 12, 13, 14, 15. */
uint32_t sqimrutta_write(uint8_t *image, size_t image_len, uint8_t job, uint16_t point, const uint8_t *value, size_t value_len,
                         const uint32_t *context, size_t context_len, uint8_t *out, size_t out_len);

/* Deletes what the user saw of the point (job 0..7, point 1..65535). `context` and `out` are as for sqimrutta_write, and so is what to do with the
 * image and the message; but the new version is "deleted" and never shown. Versions that the context does not cover stay. A point without a record
 * may be deleted, too: it gets none, but the deletion takes a counter and has its message. Refusals 1, 2, 5, 8, 12, 14, 15. */
uint32_t sqimrutta_delete(uint8_t *image, size_t image_len, uint8_t job, uint16_t point, const uint32_t *context, size_t context_len,
                          uint8_t *out, size_t out_len);

/* Takes in the message of another's write or deletion, the block of kind 4 that came in `message` (SQIMRUTTA_BLOCK bytes). What it says of its point is
 * merged with what is here: it may be lost, come again, or come late or out of order, and changes no reading that it should not. Store the image to
 * flash afterwards. After refusal 11 ask the sender, since too much before this message is missing here; 9 says that this image is an old copy of
 * itself, which must not go on. Refusals 1, 2, 3, 4, 5, 6, 9, 10, 11, 12, 13. */
uint32_t sqimrutta_take_in(uint8_t *image, size_t image_len, const uint8_t *message, size_t message_len);

/* Asks the peer `to`, 1..8, for what this handheld lacks: a block of kind 5 in `out` (SQIMRUTTA_BLOCK bytes) with the own clock, to be sent to that peer alone. It changes
 * nothing in the image, so it may be lost or sent again. Refusals 1, 2, 5, 6. */
uint32_t sqimrutta_ask(const uint8_t *image, size_t image_len, uint8_t to, uint8_t *out, size_t out_len);

/* Answers the ask that came in `ask` (SQIMRUTTA_BLOCK bytes): in `out` (SQIMRUTTA_REPLY bytes or more) a head, a block of kind 6 whose bytes 6-7 are the
 * number of points, and then a block of kind 3 for each point of which the asker lacks a write that is still listed here. `*count` is that number, 0
 * where it is refused: the first 512 * (1 + *count) bytes of `out` are to be sent to the asker alone, the rest is as it was. A point without a record
 * is sent, too: it tells the asker that what it has of that point is gone. It changes nothing in the image, so it may be lost or made again.
 * Refusals 1, 2, 3, 4, 6, 9. */
uint32_t sqimrutta_reply(const uint8_t *image, size_t image_len, const uint8_t *ask, size_t ask_len, uint8_t *out, size_t out_len, uint32_t *count);

/* Repairs this image from the reply that came in `reply`, whole blocks, 1 to 121 of them (`reply_len` is 512 * (1 + points)). All that its sender had of the
 * points in it is merged with what is here, the row that tells what the sender itself has written is closed as far as the sender's, and dots that all
 * peers are known to have leave the lists, which makes room for own writes again (refusal 14). It may be lost, come again, or come late. Only a reply to
 * an ask of this handheld is taken (6). Store the image to flash afterwards. 9 says that this image is an old copy of itself, which must not go on; after
 * 13 delete points that are not needed. Refusals 1, 2, 3, 4, 5, 6, 9, 10, 11, 12, 13. */
uint32_t sqimrutta_repair(uint8_t *image, size_t image_len, const uint8_t *reply, size_t reply_len);

/* Frees what is known by now; changes no reading. `*count` is the number of records gone, 0 where it is refused. Refusals 1, 2. */
uint32_t sqimrutta_strip_pass(uint8_t *image, size_t image_len, uint32_t *count);

#ifdef __cplusplus
}
#endif

#endif
