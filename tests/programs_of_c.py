"""A program of C that reads a hive by the installed library, and what programs of C print: tests that install share them."""
READER = r"""
#include <regtx.h>
#include <stdio.h>
#define TEXT(t) (const uint16_t *)u"" t, sizeof u"" t / 2 - 1

int main(int count, char **words)
{
    static uint8_t file[1 << 20];
    uint8_t data[64] = {0};
    uint32_t type = 0;
    size_t len = 0;
    regtx_hive hive = {0};
    regtx_info info = {0, 0, 0};
    FILE *from = count == 2 ? fopen(words[1], "rb") : NULL;
    if (from == NULL)
        return 2;
    len = fread(file, 1, sizeof file, from);
    fclose(from);
    uint32_t code = regtx_hive_open(file, len, &hive);
    if (code == REGTX_OK)
        code = regtx_hive_info(&hive, TEXT("Software\\Vendor\\Product"), &info);
    if (code == REGTX_OK)
        code = regtx_hive_value(&hive, TEXT("Software\\Vendor\\Product"), TEXT("Version"), &type, data, sizeof data, &len);
    printf("%u: %d subkeys, %d values, type %u, %d bytes, %c%c%c\n", (unsigned)code, (int)info.subkeys, (int)info.values,
           (unsigned)type, (int)len, data[0], data[2], data[4]);
    regtx_hive_close(&hive);
    return code != REGTX_OK;
}
"""
# what examples/software.txt writes
READ = "0: 0 subkeys, 4 values, type 1, 8 bytes, 1.2\n"
# what the examples of the clients for C and Rust print, by their pages
SHOP = "0 of 3 parts were there before\npart 1: committed 1\npart 2: committed 2\npart 3: committed 3\n3 parts are installed\n"
