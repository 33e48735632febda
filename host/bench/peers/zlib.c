/* CRC-32 by zlib. */
#include <stdint.h>
#include <zlib.h>

uint32_t peer_crc32(const uint8_t *data, size_t len)
{
    return crc32_z(0, data, len);
}
