/*
 * First look: judges an IPAC bulk file and writes a packet of verdicts.
 *
 * The file is posted to a new, empty book of 64 entries and 512 lines. So an adjustment is accepted
 * only if its original stands before it in the same file, and the call remembers nothing.
 * docs/RULES.md says what the codes mean, docs/PACKET.md has the packet byte by byte.
 *
 * To link: build target/staticlib/libfirst_look.a by examples/c/library, and name it behind your own
 * objects. examples/c/build does so.
 */
#ifndef FIRST_LOOK_H
#define FIRST_LOOK_H

#include <stddef.h>
#include <stdint.h>

#ifdef __cplusplus
extern "C" {
#endif

/*
 * file    the bulk file, all of its bytes.
 * alc     agencies: keys of 8 bytes.
 * office  disbursing offices: keys of 5 bytes.
 * symbol  account symbols: keys of 27 bytes.
 * unit    units of issue: keys of 2 bytes.
 * map     ledger accounts: a bit map of 1,250 bytes. Account n is known if bit n % 8 (0 being the
 *         lowest) of byte n / 8 is one.
 * day     the day of the posting, any number. All of a call happens on it, so that it changes no
 *         verdict here.
 * packet  the buffer that the packet is written to. A packet has 20 bytes and 16 for each
 *         transaction; FIRST_LOOK_PACKET_SIZE computes it.
 *
 * A key text has its keys one after another with nothing between or behind them, no line feed
 * either, each above the one before it, byte by byte. A text of any other form, and a map that has
 * not 1,250 bytes, is no error: it is an empty register, and what is looked up in it gets code 51.
 * An empty text is an empty register too.
 *
 * Answers one of two things, which FIRST_LOOK_IS_FILE_CODE tells apart:
 *   - 36 or more: the packet's length. The packet stands at the front of the buffer, and the bytes
 *     behind it are as they were;
 *   - below 20: the code of a file that is refused as a whole. Nothing is written.
 *     1  longer than 16,777,216 bytes            2  empty, or its last byte is no line feed
 *     3  record 1 is not `PCA` and four spaces   4  record 2 is no good batch header
 *     5  record 3 does not begin with `H`        7  the buffer is shorter than the packet
 *
 * The caller owes what no proof of the library can see:
 *   - Each pointer points to as many bytes as its length says, initialized ones, and no length is
 *     above PTRDIFF_MAX.
 *   - No pointer is null, not even with the length 0: for an empty text pass the address of any byte.
 *   - The packet buffer overlaps none of the six inputs. These are only read, and may overlap.
 *   - Nobody else writes to any of these bytes during the call.
 * The call keeps no pointer, allocates nothing, and takes about 100 KiB of stack.
 */
uint64_t first_look(
    const uint8_t *file, size_t file_len,
    const uint8_t *alc, size_t alc_len,
    const uint8_t *office, size_t office_len,
    const uint8_t *symbol, size_t symbol_len,
    const uint8_t *unit, size_t unit_len,
    const uint8_t *map, size_t map_len,
    uint32_t day,
    uint8_t *packet, size_t packet_len);

/* Whether an answer is a file code; else it is the packet's length. */
#define FIRST_LOOK_IS_FILE_CODE(answer) ((answer) < 20)

/* How long a packet is. Each record from the third on that begins with `H` is a transaction. */
#define FIRST_LOOK_PACKET_SIZE(transactions) ((size_t)20 + (size_t)16 * (size_t)(transactions))

/*
 * The packet is a sequence of items: a length (of what follows it), a kind, and a body by kind. All
 * numbers are unsigned, the lowest byte first. An item of kind 1 comes first, then an item of kind 2
 * for each transaction, in file order. The places below are counted from the item's first byte.
 */
#define FIRST_LOOK_LENGTH_AT 0 /* 2 bytes */
#define FIRST_LOOK_KIND_AT 2   /* 2 bytes */

/* Kind 1, about the file: 20 bytes. */
#define FIRST_LOOK_FILE_KIND 1
#define FIRST_LOOK_FILE_SIZE 20
#define FIRST_LOOK_STATED_AT 4        /* 4 bytes: records stated */
#define FIRST_LOOK_FOUND_AT 8         /* 4 bytes: records found */
#define FIRST_LOOK_TRANSACTIONS_AT 12 /* 4 bytes */
#define FIRST_LOOK_ACCEPTED_AT 16     /* 4 bytes: transactions with the code 0 */

/* Kind 2, a transaction's verdict: 16 bytes. Code, record and column are 0 for an accepted one. */
#define FIRST_LOOK_VERDICT_KIND 2
#define FIRST_LOOK_VERDICT_SIZE 16
#define FIRST_LOOK_NUMBER_AT 4  /* 4 bytes: the transaction's number in the file, from 1 */
#define FIRST_LOOK_CODE_AT 8    /* 2 bytes */
#define FIRST_LOOK_RECORD_AT 10 /* 4 bytes: 0 for the header, n for the n-th record after it */
#define FIRST_LOOK_COLUMN_AT 14 /* 2 bytes */

/* The numbers of two and of four bytes in a packet. */
static inline uint16_t first_look_two(const uint8_t *at)
{
    return (uint16_t)(at[0] | at[1] << 8);
}

static inline uint32_t first_look_four(const uint8_t *at)
{
    return first_look_two(at) | (uint32_t)first_look_two(at + 2) << 16;
}

#ifdef __cplusplus
}
#endif

#endif
