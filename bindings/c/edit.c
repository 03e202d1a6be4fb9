/* Overwrites the value of a number in an archive of u32 to u32: edit FILE KEY VALUE */
#include "rkyv_btree.h"

#include <fcntl.h>
#include <stdio.h>
#include <stdlib.h>
#include <sys/mman.h>
#include <sys/stat.h>
#include <unistd.h>

int main(int argc, char **argv) {
    rkyv_btree_refusal why = {0};
    struct stat stat;
    if (argc != 4) {
        fprintf(stderr, "usage: edit FILE KEY VALUE\n");
        return 2;
    }
    int file = open(argv[1], O_RDWR);
    if (file < 0 || fstat(file, &stat) != 0 || stat.st_size == 0) {
        fprintf(stderr, "edit: can't open %s\n", argv[1]);
        return 2;
    }
    uint8_t *data = mmap(NULL, (size_t)stat.st_size, PROT_READ | PROT_WRITE, MAP_SHARED, file, 0);
    if (data == MAP_FAILED) return 2;
    rkyv_btree_edit edit = RKYV_BTREE_EDIT(data, (size_t)stat.st_size);
    uint32_t code = rkyv_btree_check_header(RKYV_BTREE_U32_TO_U32, data, (size_t)stat.st_size, &why);
    if (code == RKYV_BTREE_OK || code == RKYV_BTREE_NO_HEADER) code = rkyv_btree_open_edit(&edit, RKYV_BTREE_U32_TO_U32, &why);
    if (code == RKYV_BTREE_OK) {
        code = rkyv_btree_set_number(&edit, strtoull(argv[2], NULL, 10), strtoull(argv[3], NULL, 10));
    }
    if (code == RKYV_BTREE_NOT_FOUND) return 1;
    if (code != RKYV_BTREE_OK) {
        uint8_t text[128] = {0};
        rkyv_btree_strerror(code, text, sizeof text);
        fprintf(stderr, "edit: %s\n", (const char *)text);
        return 2;
    }
    return munmap(data, (size_t)stat.st_size) == 0 ? 0 : 2;
}
