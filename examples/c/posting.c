/*
 * A posting program: asks first look about a bulk file and says what it would post.
 *
 *   posting BULK ALC DO TAS UNIT MAP
 *
 * The six files are the bulk file, the key texts of agencies, offices, account symbols and units,
 * and the bit map of ledger accounts. The status is 0 for a packet, 2 for a refused file, and 1 where
 * the program itself failed.
 */
#include "first_look.h"

#include <errno.h>
#include <inttypes.h>
#include <stdbool.h>
#include <stdio.h>
#include <stdlib.h>
#include <string.h>

enum status { JUDGED = 0, FAILED = 1, REFUSED = 2 };

enum input { BULK, ALC, OFFICE, SYMBOL, UNIT, MAP, INPUTS };

struct bytes {
    uint8_t *at;
    size_t len;
};

/* An item of a packet, and what of the packet is left behind it. */
struct item {
    const uint8_t *at;
    size_t size;
    unsigned kind;
};

struct rest {
    const uint8_t *at;
    size_t len;
};

/* ---- the files */

/* Reads a stream to its end. Even an empty text has an address, as first look takes no null pointer. */
static bool read_stream(FILE *stream, struct bytes *text)
{
    size_t room = 4096;
    text->len = 0;
    text->at = malloc(room);
    while (text->at != NULL) {
        text->len += fread(text->at + text->len, 1, room - text->len, stream);
        if (text->len < room)
            return !ferror(stream);
        uint8_t *wider = room <= SIZE_MAX / 2 ? realloc(text->at, 2 * room) : NULL;
        if (wider == NULL)
            break;
        text->at = wider;
        room = 2 * room;
    }
    errno = ENOMEM;
    return false;
}

static bool read_file(const char *name, struct bytes *text)
{
    FILE *stream = fopen(name, "rb");
    bool good = stream != NULL && read_stream(stream, text);
    if (!good)
        fprintf(stderr, "posting: %s: %s\n", name, strerror(errno));
    if (stream != NULL)
        fclose(stream);
    return good;
}

static bool read_files(char *const *names, struct bytes *inputs)
{
    for (int i = 0; i < INPUTS; i++)
        if (!read_file(names[i], &inputs[i]))
            return false;
    return true;
}

/* ---- the packet */

/* Takes the next item off a packet; false if what is left does not begin with a whole item. */
static bool next_item(struct rest *rest, struct item *item)
{
    if (rest->len < 4)
        return false;
    item->at = rest->at;
    item->size = 2 + (size_t)first_look_two(rest->at + FIRST_LOOK_LENGTH_AT);
    item->kind = first_look_two(rest->at + FIRST_LOOK_KIND_AT);
    if (item->size < 4 || item->size > rest->len)
        return false;
    rest->at += item->size;
    rest->len -= item->size;
    return true;
}

static bool next_of(struct rest *rest, struct item *item, unsigned kind, size_t size)
{
    return next_item(rest, item) && item->kind == kind && item->size == size;
}

static bool next_verdict(struct rest *rest, struct item *item)
{
    return next_of(rest, item, FIRST_LOOK_VERDICT_KIND, FIRST_LOOK_VERDICT_SIZE);
}

/* One item about the file, then as many verdicts as it says, in their order and with its count of accepted ones. */
static bool is_well_formed(struct rest rest)
{
    struct item file, verdict;
    uint32_t verdicts = 0, accepted = 0;
    if (!next_of(&rest, &file, FIRST_LOOK_FILE_KIND, FIRST_LOOK_FILE_SIZE))
        return false;
    while (rest.len > 0) {
        if (!next_verdict(&rest, &verdict))
            return false;
        verdicts++;
        if (first_look_four(verdict.at + FIRST_LOOK_NUMBER_AT) != verdicts)
            return false;
        if (first_look_two(verdict.at + FIRST_LOOK_CODE_AT) == 0)
            accepted++;
    }
    return verdicts == first_look_four(file.at + FIRST_LOOK_TRANSACTIONS_AT) &&
           accepted == first_look_four(file.at + FIRST_LOOK_ACCEPTED_AT);
}

static void say_verdict(const uint8_t *verdict)
{
    uint32_t number = first_look_four(verdict + FIRST_LOOK_NUMBER_AT);
    unsigned code = first_look_two(verdict + FIRST_LOOK_CODE_AT);
    uint32_t record = first_look_four(verdict + FIRST_LOOK_RECORD_AT);
    unsigned column = first_look_two(verdict + FIRST_LOOK_COLUMN_AT);
    if (code == 0)
        printf("transaction %" PRIu32 ": post it\n", number);
    else
        printf("transaction %" PRIu32 ": hold, code %u at record %" PRIu32 ", column %u\n", number, code, record, column);
}

/* Nothing of a malformed packet is believed, so it is walked once before anything is said. */
static enum status say_packet(struct rest rest)
{
    struct item item;
    if (!is_well_formed(rest)) {
        fprintf(stderr, "posting: the packet is malformed\n");
        return FAILED;
    }
    while (next_item(&rest, &item))
        if (item.kind == FIRST_LOOK_VERDICT_KIND)
            say_verdict(item.at);
    return JUDGED;
}

/* ---- the call */

/* Enough for every transaction: each begins with an `H` right behind a line feed. */
static size_t packet_size(const struct bytes *bulk)
{
    size_t transactions = 0;
    for (size_t i = 1; i < bulk->len; i++)
        if (bulk->at[i - 1] == '\n' && bulk->at[i] == 'H')
            transactions++;
    return FIRST_LOOK_PACKET_SIZE(transactions);
}

static uint64_t look(const struct bytes *inputs, uint32_t day, struct bytes *packet)
{
    return first_look(
        inputs[BULK].at, inputs[BULK].len,
        inputs[ALC].at, inputs[ALC].len,
        inputs[OFFICE].at, inputs[OFFICE].len,
        inputs[SYMBOL].at, inputs[SYMBOL].len,
        inputs[UNIT].at, inputs[UNIT].len,
        inputs[MAP].at, inputs[MAP].len,
        day,
        packet->at, packet->len);
}

static enum status say_answer(uint64_t answer, const struct bytes *packet)
{
    if (FIRST_LOOK_IS_FILE_CODE(answer)) {
        printf("the file is refused, file code %" PRIu64 "\n", answer);
        return REFUSED;
    }
    if (answer > packet->len) {
        fprintf(stderr, "posting: the packet is longer than its buffer\n");
        return FAILED;
    }
    return say_packet((struct rest){packet->at, (size_t)answer});
}

static enum status judge(const struct bytes *inputs)
{
    struct bytes packet = {NULL, packet_size(&inputs[BULK])};
    packet.at = calloc(packet.len, 1);
    if (packet.at == NULL) {
        fprintf(stderr, "posting: no memory for the packet\n");
        return FAILED;
    }
    enum status status = say_answer(look(inputs, 0, &packet), &packet);
    free(packet.at);
    return status;
}

int main(int argc, char **argv)
{
    struct bytes inputs[INPUTS] = {{NULL, 0}};
    enum status status = FAILED;
    if (argc != 1 + INPUTS)
        fprintf(stderr, "usage: posting BULK ALC DO TAS UNIT MAP\n");
    else if (read_files(argv + 1, inputs))
        status = judge(inputs);
    for (int i = 0; i < INPUTS; i++)
        free(inputs[i].at);
    if (fflush(stdout) != 0 || ferror(stdout))
        status = FAILED;
    return status;
}
