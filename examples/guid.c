/* Prints the stored bytes of a partition type, its text again, and a CRC; usage: guid TYPE */
#include "usigrambal.h"

#include <stdio.h>
#include <string.h>

int main(int argc, char **argv) {
    if (argc != 2) {
        fprintf(stderr, "usage: guid TYPE, a GUID text or one of system, msft, data, linux, swap\n");
        return 2;
    }
    uint8_t guid[USI_GUID_LEN], text[USI_GUID_TEXT_LEN];
    uint32_t refusal = usi_type_read((const uint8_t *)argv[1], strlen(argv[1]), guid, sizeof guid);
    if (refusal != 0) {
        fprintf(stderr, "refused %u\n", (unsigned)refusal);
        return 1;
    }
    for (size_t i = 0; i < sizeof guid; i++)
        printf("%02X", guid[i]);
    usi_guid_write(guid, sizeof guid, text, sizeof text);
    printf("\n%.36s\n%08X\n", (const char *)text, (unsigned)usi_crc32(guid, sizeof guid));
    return 0;
}
