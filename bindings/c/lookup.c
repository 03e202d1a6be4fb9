/* Looks a text up in an archive of texts to texts, or lists the entries from a text on:
 *     lookup FILE KEY
 *     lookup FILE --from KEY
 *     lookup FILE --unvalidated KEY    reads a few nodes of the file, and not all of it: a text that isn't found may yet be there */
#include "rkyv_btree.h"

#include <fcntl.h>
#include <stdbool.h>
#include <stdio.h>
#include <string.h>
#include <sys/mman.h>
#include <sys/stat.h>
#include <unistd.h>

static void print_text(const uint8_t *data, rkyv_btree_item item) {
    fwrite(data + item.start, 1, item.len, stdout);
}

static int say(uint32_t code, const rkyv_btree_refusal *why) {
    uint8_t text[128] = {0};
    rkyv_btree_strerror(code, text, sizeof text);
    fprintf(stderr, "lookup: %s (at %lld)\n", (const char *)text, (long long)why->at);
    return 2;
}

/* Refuses a typed file of another type or another version. A file without a header is taken as an archive alone. */
static int check(const uint8_t *data, size_t len) {
    rkyv_btree_refusal why = {0};
    uint8_t name[64] = {0};
    uint32_t code = rkyv_btree_check_header(RKYV_BTREE_TEXT_TO_TEXT, data, len, &why);
    if (code == RKYV_BTREE_OK || code == RKYV_BTREE_NO_HEADER) return 0;
    if (code != RKYV_BTREE_OTHER_TYPE) return say(code, &why);
    rkyv_btree_type_name(RKYV_BTREE_TEXT_TO_TEXT, name, sizeof name);
    int shown = why.found < 128 ? (int)why.found : 128;
    fprintf(stderr, "lookup: the bytes are of type %.*s, not %s\n", shown, (const char *)data + why.at, (const char *)name);
    return 2;
}

static int list_from(const rkyv_btree_map *map, const char *key) {
    rkyv_btree_cursor cursor = {0};
    rkyv_btree_entry entries[64] = {0};
    size_t written = 64;
    rkyv_btree_seek_text(map, (const uint8_t *)key, strlen(key), &cursor);
    while (written == 64 && rkyv_btree_next(map, &cursor, entries, 64, &written) == RKYV_BTREE_OK) {
        for (size_t i = 0; i < written; i++) {
            print_text(map->data, entries[i].key);
            putchar('\t');
            print_text(map->data, entries[i].value);
            putchar('\n');
        }
    }
    return 0;
}

static int print_found(const uint8_t *data, uint32_t code, const rkyv_btree_entry *found, const rkyv_btree_refusal *why) {
    if (code == RKYV_BTREE_NOT_FOUND) return 1;
    if (code != RKYV_BTREE_OK) return say(code, why);
    print_text(data, found->value);
    putchar('\n');
    return 0;
}

static bool is_option(const char *word) {
    return strcmp(word, "--from") == 0 || strcmp(word, "--unvalidated") == 0;
}

int main(int argc, char **argv) {
    rkyv_btree_map map = {0};
    rkyv_btree_refusal why = {0};
    rkyv_btree_entry found = {0};
    struct stat stat;
    if (argc < 3 || argc > 4 || is_option(argv[2]) != (argc == 4)) {
        fprintf(stderr, "usage: lookup FILE KEY | lookup FILE --from KEY | lookup FILE --unvalidated KEY\n");
        return 2;
    }
    int file = open(argv[1], O_RDONLY);
    if (file < 0 || fstat(file, &stat) != 0 || stat.st_size == 0) {
        fprintf(stderr, "lookup: can't read %s\n", argv[1]);
        return 2;
    }
    const uint8_t *data = mmap(NULL, (size_t)stat.st_size, PROT_READ, MAP_PRIVATE, file, 0);
    if (data == MAP_FAILED) return 2;
    const uint8_t *key = (const uint8_t *)argv[argc - 1];
    size_t key_len = strlen(argv[argc - 1]);
    if (check(data, (size_t)stat.st_size) != 0) return 2;
    if (argc == 4 && strcmp(argv[2], "--unvalidated") == 0) {
        uint32_t code = rkyv_btree_find_text(RKYV_BTREE_TEXT_TO_TEXT, data, (size_t)stat.st_size, key, key_len, &found, &why);
        return print_found(data, code, &found, &why);
    }
    uint32_t code = rkyv_btree_open_strict(&map, RKYV_BTREE_TEXT_TO_TEXT, data, (size_t)stat.st_size, &why);
    if (code != RKYV_BTREE_OK) return say(code, &why);
    if (argc == 4) return list_from(&map, argv[3]);
    return print_found(data, rkyv_btree_get_text(&map, key, key_len, &found), &found, &why);
}
