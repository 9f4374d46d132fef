/* Stands in for first look in a test: its packet is the text of the agencies, so that any packet can be told. */
#include "first_look.h"

#include <string.h>

uint64_t first_look(
    const uint8_t *file, size_t file_len,
    const uint8_t *alc, size_t alc_len,
    const uint8_t *office, size_t office_len,
    const uint8_t *symbol, size_t symbol_len,
    const uint8_t *unit, size_t unit_len,
    const uint8_t *map, size_t map_len,
    uint32_t day,
    uint8_t *packet, size_t packet_len)
{
    memcpy(packet, alc, alc_len < packet_len ? alc_len : packet_len);
    return alc_len;
}
