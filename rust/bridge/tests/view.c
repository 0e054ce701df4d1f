/* Prints what the proved calls say of a plan file: 'view FILE'. */

#include "cup.h"
#include <stdio.h>
#include <string.h>

/* Longer than any accepted file, so that a longer one is refused as it should be. */
static uint8_t file[CUP_LONGEST_FILE + 1], buffer[CUP_LONGEST_FILE + 1];

static size_t read_file(const char *name)
{
    FILE *opened = fopen(name, "rb");
    size_t length = 0;
    if (opened != NULL) {
        length = fread(file, 1, sizeof file, opened);
        fclose(opened);
    }
    return length;
}

int main(int argc, char **argv)
{
    if (argc != 2) {
        fprintf(stderr, "usage: view FILE\n");
        return 2;
    }
    size_t file_length = read_file(argv[1]), entry, offset, length;
    if (file_length == 0) {
        fprintf(stderr, "%s: nothing to read\n", argv[1]);
        return 1;
    }
    size_t number = cup_read(file, file_length, &entry);
    printf("read %zu, entry %zu\n", number, entry);
    for (size_t section = 0; section <= CUP_SECTIONS; section++) {
        length = cup_section(file, file_length, section, &offset);
        printf("section %zu: %zu bytes at %zu\n", section, length, offset);
    }
    memset(buffer, 0xa5, sizeof buffer);
    number = cup_rewrite(file, file_length, buffer, sizeof buffer, &length);
    printf("rewrite %zu, %zu bytes, %s, then %02x\n", number, length,
           memcmp(file, buffer, length) == 0 ? "the same" : "others", buffer[length]);
    memset(buffer, 0xa5, sizeof buffer);
    number = cup_rewrite(file, file_length, buffer, file_length - 1, &length);
    printf("one byte short %zu, %zu bytes, first %02x\n", number, length, buffer[0]);
    return 0;
}
