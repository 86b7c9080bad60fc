/* Answers lines "noekeon KEY BLOCK", in hexadecimal, with the block as libtomcrypt enciphers it. */
#include <stdio.h>
#include <tomcrypt.h>

static int read_bytes(const char *hex, unsigned char bytes[16])
{
    for (int i = 0; i < 16; i++) {
        unsigned byte;
        if (sscanf(hex + 2 * i, "%2x", &byte) != 1)
            return 0;
        bytes[i] = (unsigned char)byte;
    }
    return 1;
}

int main(void)
{
    char key_hex[33], block_hex[33];
    unsigned char key[16], block[16], answer[16];
    symmetric_key schedule;

    while (scanf(" noekeon %32s %32s", key_hex, block_hex) == 2) {
        if (!read_bytes(key_hex, key) || !read_bytes(block_hex, block))
            return 2;
        if (noekeon_setup(key, 16, 0, &schedule) != CRYPT_OK)
            return 2;
        if (noekeon_ecb_encrypt(block, answer, &schedule) != CRYPT_OK)
            return 2;
        for (int i = 0; i < 16; i++)
            printf("%02x", answer[i]);
        printf("\n");
        noekeon_done(&schedule);
    }
    return feof(stdin) ? 0 : 2;
}
