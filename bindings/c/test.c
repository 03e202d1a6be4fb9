/* The header against the library: layouts, each call on maps of each type, misuse, and archives for the examples. With the argument `short`
 * it takes few of the lengths, keys and positions, for a run that is a hundred times slower. */
#undef NDEBUG
#include "rkyv_btree.h"

#include <assert.h>
#include <stdio.h>
#include <stdlib.h>
#include <string.h>

_Static_assert(sizeof(void *) == 8 && sizeof(size_t) == 8, "a target of 64 bits");
_Static_assert(sizeof(rkyv_btree_refusal) == 32 && offsetof(rkyv_btree_refusal, at) == 8, "refusal");
_Static_assert(sizeof(rkyv_btree_item) == 16 && offsetof(rkyv_btree_item, len) == 12, "item");
_Static_assert(sizeof(rkyv_btree_entry) == 32 && offsetof(rkyv_btree_entry, value) == 16, "entry");
_Static_assert(sizeof(rkyv_btree_piece) == 12, "piece");
_Static_assert(sizeof(rkyv_btree_column) == 40 && offsetof(rkyv_btree_column, offset_size) == 32, "column");
_Static_assert(sizeof(rkyv_btree_map) == 24 && offsetof(rkyv_btree_map, type) == 20, "map");
_Static_assert(sizeof(rkyv_btree_edit) == 24 && offsetof(rkyv_btree_edit, type) == 20, "edit");
_Static_assert(sizeof(rkyv_btree_cursor) == 284 && offsetof(rkyv_btree_cursor, path) == 28, "cursor");

enum { MOST = 1000, LAST = RKYV_BTREE_BYTES_SET, NO_TYPE = LAST + 1 };

/* What the keys and the values of each type of maps are. */
enum kind { NONE, U32, U64, I64, TEXT, BYTES, EMPTY };
static const struct {
    enum kind key, value;
} kinds[LAST + 1] = {
    [RKYV_BTREE_U32_TO_U32] = {U32, U32},    [RKYV_BTREE_U32_TO_U64] = {U32, U64},    [RKYV_BTREE_U32_TO_I64] = {U32, I64},
    [RKYV_BTREE_U32_TO_TEXT] = {U32, TEXT},  [RKYV_BTREE_U64_TO_U32] = {U64, U32},    [RKYV_BTREE_U64_TO_U64] = {U64, U64},
    [RKYV_BTREE_U64_TO_I64] = {U64, I64},    [RKYV_BTREE_U64_TO_TEXT] = {U64, TEXT},  [RKYV_BTREE_I64_TO_U32] = {I64, U32},
    [RKYV_BTREE_I64_TO_U64] = {I64, U64},    [RKYV_BTREE_I64_TO_I64] = {I64, I64},    [RKYV_BTREE_I64_TO_TEXT] = {I64, TEXT},
    [RKYV_BTREE_TEXT_TO_U32] = {TEXT, U32},  [RKYV_BTREE_TEXT_TO_U64] = {TEXT, U64},  [RKYV_BTREE_TEXT_TO_I64] = {TEXT, I64},
    [RKYV_BTREE_TEXT_TO_TEXT] = {TEXT, TEXT}, [RKYV_BTREE_U32_SET] = {U32, EMPTY},      [RKYV_BTREE_U64_SET] = {U64, EMPTY},
    [RKYV_BTREE_I64_SET] = {I64, EMPTY},     [RKYV_BTREE_TEXT_SET] = {TEXT, EMPTY},    [RKYV_BTREE_U32_TO_BYTES] = {U32, BYTES},
    [RKYV_BTREE_U64_TO_BYTES] = {U64, BYTES}, [RKYV_BTREE_I64_TO_BYTES] = {I64, BYTES}, [RKYV_BTREE_TEXT_TO_BYTES] = {TEXT, BYTES},
    [RKYV_BTREE_BYTES_TO_U32] = {BYTES, U32}, [RKYV_BTREE_BYTES_TO_U64] = {BYTES, U64}, [RKYV_BTREE_BYTES_TO_I64] = {BYTES, I64},
    [RKYV_BTREE_BYTES_TO_TEXT] = {BYTES, TEXT}, [RKYV_BTREE_BYTES_TO_BYTES] = {BYTES, BYTES}, [RKYV_BTREE_BYTES_SET] = {BYTES, EMPTY},
};

/* Of lengths, keys and positions one in so many is taken. */
static unsigned step = 1;

static rkyv_btree_entry given[MOST];
static uint8_t texts[64 * MOST];
static size_t texts_len;

static int is_pointed(enum kind kind) { return kind == TEXT || kind == BYTES; }
static int has_texts_as_keys(uint32_t type) { return is_pointed(kinds[type].key); }
static int has_texts_as_values(uint32_t type) { return is_pointed(kinds[type].value); }
static int has_numbers_as_values(uint32_t type) { return kinds[type].value < TEXT; }

static rkyv_btree_item text(const char *words, unsigned number) {
    rkyv_btree_item item = {0, (uint32_t)texts_len, 0};
    item.len = (uint32_t)sprintf((char *)texts + texts_len, words, number);
    texts_len += item.len;
    return item;
}

static rkyv_btree_item number(uint64_t value) {
    rkyv_btree_item item = {value, 0, 0};
    return item;
}

/* Entries 0 to count - 1: the keys 2 * i or "key 0000i", which bytes have a byte before that begins no text. Keys with a sign are around 0, and values with a sign are below it. */
static void give(uint32_t type, unsigned count) {
    texts_len = 0;
    for (unsigned i = 0; i < count; i++) {
        int64_t first = kinds[type].key == I64 ? -2 * (int64_t)(count / 2) : 0;
        int64_t value = kinds[type].value == EMPTY ? 0 : kinds[type].value == I64 ? -7 * (int64_t)i : 7 * (int64_t)i;
        given[i].key = has_texts_as_keys(type) ? text(kinds[type].key == BYTES ? "\xff %05u" : "key %05u", i) : number((uint64_t)(first + 2 * (int64_t)i));
        given[i].value = has_texts_as_values(type) ? text(kinds[type].value == BYTES ? "\x80 %u" : "value %u", i) : number((uint64_t)value);
    }
}

static uint8_t *build(uint32_t type, unsigned count, size_t *len) {
    rkyv_btree_refusal why = {0};
    assert(rkyv_btree_build_strict(type, given, count, texts, texts_len, NULL, 0, len, &why) == RKYV_BTREE_NO_ROOM);
    uint8_t *data = malloc(*len);
    assert(data != NULL);
    assert(rkyv_btree_build(type, given, count, texts, texts_len, data, *len, len, &why) == RKYV_BTREE_OK && why.code == 0);
    return data;
}

/* The entries as two columns: all keys, and then all values, each with its own texts and offsets of four or of eight bytes. */
static rkyv_btree_column column(enum kind kind, unsigned count, int are_values, uint32_t offset_size, uint8_t *room, uint8_t *offsets) {
    const size_t width = kind == U32 ? 4 : 8;
    rkyv_btree_column all = {room, 0, NULL, 0, 0};
    for (unsigned i = 0; i < count; i++) {
        rkyv_btree_item item = are_values ? given[i].value : given[i].key;
        uint64_t start = all.data_len;
        if (is_pointed(kind)) {
            memcpy(offsets + offset_size * i, &start, offset_size);
            memcpy(room + start, texts + item.start, item.len);
            all.data_len += item.len;
        } else if (kind != EMPTY) {
            memcpy(room + start, &item.number, width);
            all.data_len += width;
        }
    }
    if (is_pointed(kind)) {
        uint64_t end = all.data_len;
        memcpy(offsets + offset_size * count, &end, offset_size);
        all.offsets = offsets, all.offsets_len = offset_size * (count + 1), all.offset_size = offset_size;
    }
    return all;
}

/* The archive of the columns is that of the entries. A column that is a byte shorter has a bad last entry. */
static void columns(uint32_t type, unsigned count, const uint8_t *data, size_t data_len) {
    static uint8_t key_room[64 * MOST], value_room[64 * MOST], key_offsets[8 * MOST + 8], value_offsets[8 * MOST + 8], out[128 * MOST];
    rkyv_btree_refusal why = {0};
    size_t len = 0;
    for (uint32_t size = 4; size <= 8; size += 4) {
        rkyv_btree_column keys = column(kinds[type].key, count, 0, size, key_room, key_offsets);
        rkyv_btree_column values = column(kinds[type].value, count, 1, size, value_room, value_offsets);
        assert(rkyv_btree_build_arrays(type, count, &keys, &values, out, sizeof out, &len, &why) == RKYV_BTREE_OK);
        assert(len == data_len && memcmp(out, data, len) == 0 && why.code == 0);
        assert(rkyv_btree_build_arrays_strict(type, count, &keys, &values, out, len - 1, &len, &why) == RKYV_BTREE_NO_ROOM);
        assert(len == data_len && why.code == 0);
        assert(rkyv_btree_build_arrays_strict(type, count, &keys, &values, out, len, &len, &why) == RKYV_BTREE_OK);
        assert(memcmp(out, data, len) == 0);
        if (count == 0) continue;
        rkyv_btree_column *const both[2] = {&keys, &values};
        for (int i = 0; i < (kinds[type].value == EMPTY ? 1 : 2); i++) {
            size_t *shorter = both[i]->offset_size == 0 ? &both[i]->data_len : &both[i]->offsets_len;
            --*shorter;
            assert(rkyv_btree_build_arrays(type, count, &keys, &values, out, sizeof out, &len, &why) == RKYV_BTREE_BAD_ITEM);
            assert(why.code == RKYV_BTREE_BAD_ITEM && why.found == count - 1 && len == data_len);
            ++*shorter;
            if (both[i]->offset_size == 0) continue;
            for (uint32_t bad = 0; bad < 20; bad++) {
                if (bad == 4 || bad == 8) continue;
                both[i]->offset_size = bad;
                assert(rkyv_btree_build_arrays(type, count, &keys, &values, out, sizeof out, &len, &why) == RKYV_BTREE_BAD_ITEM);
                assert(why.found == 0 && len == data_len);
            }
            both[i]->offset_size = size;
        }
        memset(&why, 0, sizeof why);
    }
}

/* One call is enough with as much room as the bound, of entries and of columns. It is the length where no text is, and else at most 7 bytes
 * a node more. */
static void one_call(uint32_t type, unsigned count) {
    static uint8_t key_room[64 * MOST], value_room[64 * MOST], key_offsets[8 * MOST + 8], value_offsets[8 * MOST + 8], out[256 * MOST];
    rkyv_btree_refusal why = {0};
    size_t bound = 0, of_buffers = 0, len = 0;
    give(type, count);
    assert(rkyv_btree_build_bound(type, count, texts_len, &bound) == RKYV_BTREE_OK && bound <= sizeof out);
    assert(rkyv_btree_build(type, given, count, texts, texts_len, out, bound, &len, &why) == RKYV_BTREE_OK);
    assert(len <= bound && bound <= len + (texts_len == 0 ? 0 : 7 * ((count + 4) / 5)));
    assert(rkyv_btree_build_strict(type, given, count, texts, texts_len, out, bound, &len, &why) == RKYV_BTREE_OK);
    rkyv_btree_column keys = column(kinds[type].key, count, 0, 8, key_room, key_offsets);
    rkyv_btree_column values = column(kinds[type].value, count, 1, 8, value_room, value_offsets);
    assert(rkyv_btree_build_arrays(type, count, &keys, &values, out, bound, &len, &why) == RKYV_BTREE_OK);
    size_t buffers = (is_pointed(kinds[type].key) ? keys.data_len : 0) + (is_pointed(kinds[type].value) ? values.data_len : 0);
    assert(rkyv_btree_build_bound(type, count, buffers, &of_buffers) == RKYV_BTREE_OK && of_buffers == bound);
    assert(rkyv_btree_build_arrays_strict(type, count, &keys, &values, out, bound, &len, &why) == RKYV_BTREE_OK && why.code == 0);
}

static int same(const uint8_t *data, rkyv_btree_item found, rkyv_btree_item wanted) {
    return found.number == wanted.number && found.len == wanted.len &&
           memcmp(data + found.start, texts + wanted.start, found.len) == 0;
}

static uint32_t get(const rkyv_btree_map *map, rkyv_btree_item key, rkyv_btree_entry *entry) {
    if (has_texts_as_keys(map->type)) return rkyv_btree_get_text(map, texts + key.start, key.len, entry);
    return rkyv_btree_get_number(map, key.number, entry);
}

static uint32_t find(uint32_t type, const uint8_t *data, size_t len, rkyv_btree_item key, rkyv_btree_entry *entry,
                     rkyv_btree_refusal *why) {
    if (has_texts_as_keys(type)) return rkyv_btree_find_text(type, data, len, texts + key.start, key.len, entry, why);
    return rkyv_btree_find_number(type, data, len, key.number, entry, why);
}

static void walk(const rkyv_btree_map *map, unsigned from, unsigned count, size_t room) {
    rkyv_btree_cursor cursor = {0};
    rkyv_btree_entry batch[64];
    size_t written = room;
    unsigned at = from;
    if (from == 0) assert(rkyv_btree_first(map, &cursor) == RKYV_BTREE_OK);
    else if (has_texts_as_keys(map->type))
        assert(rkyv_btree_seek_text(map, texts + given[from].key.start, given[from].key.len, &cursor) == RKYV_BTREE_OK);
    else assert(rkyv_btree_seek_number(map, given[from].key.number - 1, &cursor) == RKYV_BTREE_OK);
    while (written == room) {
        memset(batch, 0xa5, sizeof batch);
        assert(rkyv_btree_next(map, &cursor, batch, room, &written) == RKYV_BTREE_OK);
        for (const uint8_t *rest = (const uint8_t *)(batch + written); rest < (const uint8_t *)(batch + 64); rest++) assert(*rest == 0xa5);
        for (size_t i = 0; i < written; i++, at++) {
            assert(same(map->data, batch[i].key, given[at].key) && same(map->data, batch[i].value, given[at].value));
        }
    }
    assert(at == count);
}

static void one_type(uint32_t type, unsigned count) {
    rkyv_btree_map map = {0};
    rkyv_btree_refusal why = {0};
    rkyv_btree_entry entry = {0};
    uint32_t len = 0;
    size_t data_len = 0;
    give(type, count);
    uint8_t *data = build(type, count, &data_len);
    memset(&why, 0xa5, sizeof why);
    const rkyv_btree_refusal before = why;
    assert(rkyv_btree_open(&map, type, data, data_len, &why) == RKYV_BTREE_OK);
    assert(rkyv_btree_open_strict(&map, type, data, data_len, &why) == RKYV_BTREE_OK);
    assert(rkyv_btree_len(&map, &len) == RKYV_BTREE_OK && len == count);
    for (unsigned i = 0; i < count; i++) {
        assert(get(&map, given[i].key, &entry) == RKYV_BTREE_OK);
        assert(same(data, entry.key, given[i].key) && same(data, entry.value, given[i].value));
        rkyv_btree_entry found = {0};
        assert(find(type, data, data_len, given[i].key, &found, &why) == RKYV_BTREE_OK);
        assert(memcmp(&entry, &found, sizeof entry) == 0);
    }
    assert(rkyv_btree_find_number(type, data, data_len, 1, &entry, &why) == RKYV_BTREE_NOT_FOUND);
    assert(rkyv_btree_find_text(type, data, data_len, NULL, 0, &entry, &why) == RKYV_BTREE_NOT_FOUND);
    assert(memcmp(&before, &why, sizeof why) == 0); /* where nothing is refused, no cause is written */
    assert(rkyv_btree_get_number(&map, 1, &entry) == RKYV_BTREE_NOT_FOUND);
    assert(rkyv_btree_get_number(&map, UINT64_MAX, &entry) == RKYV_BTREE_NOT_FOUND);
    assert(rkyv_btree_get_text(&map, NULL, 0, &entry) == RKYV_BTREE_NOT_FOUND);
    assert(rkyv_btree_get_text(&map, (const uint8_t *)"\xff", 1, &entry) == RKYV_BTREE_NOT_FOUND);
    for (size_t room = 1; room <= 64; room += 9) {
        walk(&map, 0, count, room);
        if (count > 1) walk(&map, count / 2, count, room);
    }
    columns(type, count, data, data_len);
    free(data);
}

/* Looks a key up in pieces of at least `least` bytes, which are added as they are missing. No piece is asked for twice. */
static uint32_t find_in(uint32_t type, const uint8_t *data, size_t len, size_t least, rkyv_btree_item key, uint8_t *buffer, size_t room,
                        rkyv_btree_item *value, rkyv_btree_refusal *why) {
    static uint8_t held[1 << 20];
    static rkyv_btree_piece pieces[400];
    size_t count = 0, used = 0;
    for (;;) {
        uint32_t code = has_texts_as_keys(type)
                            ? rkyv_btree_find_text_in(type, len, pieces, count, held, used, texts + key.start, key.len, buffer, room, value, why)
                            : rkyv_btree_find_number_in(type, len, pieces, count, held, used, key.number, buffer, room, value, why);
        if (code != RKYV_BTREE_MISSING) return code;
        assert(why->code == RKYV_BTREE_MISSING && why->allowed == 0 && why->at >= 0 && why->found > 0);
        size_t at = (size_t)why->at, size = why->found < least ? least : why->found;
        assert(at + why->found <= len && count < 400);
        for (size_t i = 0; i < count; i++) assert(at < pieces[i].pos || at + why->found > pieces[i].pos + pieces[i].len);
        if (at + size > len) size = len - at;
        assert(used + size <= sizeof held);
        memcpy(held + used, data + at, size);
        pieces[count] = (rkyv_btree_piece){(uint32_t)at, (uint32_t)used, (uint32_t)size};
        count++, used += size;
    }
}

static void pieces(uint32_t type, unsigned count) {
    uint8_t buffer[512];
    size_t len = 0;
    give(type, count);
    uint8_t *data = build(type, count, &len);
    for (size_t least = 1; least < 10000; least *= 40) {
        for (unsigned i = 0; i < count; i += 1 + count / 20) {
            rkyv_btree_refusal why = {0};
            rkyv_btree_item value = {0};
            assert(find_in(type, data, len, least, given[i].key, buffer, sizeof buffer, &value, &why) == RKYV_BTREE_OK);
            assert(same(buffer, value, given[i].value));
            assert(value.start + value.len <= sizeof buffer);
            const rkyv_btree_item before = value;
            assert(find_in(type, data, len, least, given[i].key, buffer, 10, &value, &why) == RKYV_BTREE_NO_ROOM && why.found > 10);
            assert(find_in(type, data, len, least, given[i].key, buffer, why.found - 1, &value, &why) == RKYV_BTREE_NO_ROOM);
            assert(memcmp(&before, &value, sizeof value) == 0);
        }
        rkyv_btree_refusal why = {0};
        rkyv_btree_item value = {0}, absent = {0, 0, 0};
        if (!has_texts_as_keys(type)) absent.number = 1;
        assert(find_in(type, data, len, least, absent, buffer, sizeof buffer, &value, &why) == RKYV_BTREE_NOT_FOUND);
    }
    free(data);
}

static void edits(void) {
    rkyv_btree_refusal why = {0};
    rkyv_btree_map map = {0};
    rkyv_btree_entry entry = {0};
    size_t len = 0;
    for (uint32_t type = 1; type <= LAST; type++) {
        give(type, 100);
        uint8_t *data = build(type, 100, &len);
        rkyv_btree_edit edit = RKYV_BTREE_EDIT(data, len);
        assert(rkyv_btree_set_number(&edit, 2, 3) == RKYV_BTREE_NOT_OPEN);
        assert(rkyv_btree_read_edit(&map, &edit) == RKYV_BTREE_NOT_OPEN && map.type == 0);
        assert(rkyv_btree_open_edit(&edit, type, &why) == RKYV_BTREE_OK);
        assert(rkyv_btree_read_edit(&map, &edit) == RKYV_BTREE_OK && map.type == type && map.data == data && map.data_len == len);
        walk(&map, 0, 100, 10);
        for (unsigned i = 0; i < 100; i += 7) {
            uint32_t code = has_texts_as_keys(type)
                                ? rkyv_btree_set_text(&edit, texts + given[i].key.start, given[i].key.len, i + 1)
                                : rkyv_btree_set_number(&edit, given[i].key.number, i + 1);
            assert(code == (has_numbers_as_values(type) ? RKYV_BTREE_OK : RKYV_BTREE_BAD_VALUE));
            if (code == RKYV_BTREE_OK) given[i].value.number = i + 1;
            assert(rkyv_btree_read_edit(&map, &edit) == RKYV_BTREE_OK);
            assert(get(&map, given[i].key, &entry) == RKYV_BTREE_OK && same(data, entry.value, given[i].value));
        }
        if (has_numbers_as_values(type)) assert(rkyv_btree_set_number(&edit, 1, 1) == RKYV_BTREE_NOT_FOUND);
        if (kinds[type].value == U32) assert(rkyv_btree_set_number(&edit, 2, UINT64_MAX) == RKYV_BTREE_BAD_VALUE);
        assert(rkyv_btree_open(&map, type, data, len, &why) == RKYV_BTREE_OK);
        for (unsigned i = 0; i < 100; i++) {
            assert(get(&map, given[i].key, &entry) == RKYV_BTREE_OK && same(data, entry.value, given[i].value));
        }
        free(data);
    }
}

/* What is given as the value of an entry of a set isn't read, and what is read is zeros. */
static void sets(void) {
    rkyv_btree_entry odd[2] = {{{1, 0, 0}, {7, 8, 9}}, {{2, 0, 0}, {UINT64_MAX, UINT32_MAX, 1}}}, found = {0};
    const rkyv_btree_item zeros = {0};
    const rkyv_btree_column keys = {(const uint8_t *)"\1\0\0\0\2\0\0", 8, NULL, 0, 0}, odd_values = {NULL, 0, NULL, 0, 77};
    rkyv_btree_refusal why = {0};
    rkyv_btree_map map = {0};
    uint8_t data[128] = {0}, same_data[128] = {0};
    size_t len = 0, same_len = 0;
    assert(rkyv_btree_build_strict(RKYV_BTREE_U32_SET, odd, 2, NULL, 0, data, sizeof data, &len, &why) == RKYV_BTREE_OK);
    assert(rkyv_btree_build_arrays(RKYV_BTREE_U32_SET, 2, &keys, &odd_values, same_data, sizeof data, &same_len, &why) == RKYV_BTREE_OK);
    assert(len == same_len && memcmp(data, same_data, len) == 0);
    assert(rkyv_btree_open_strict(&map, RKYV_BTREE_U32_SET, data, len, &why) == RKYV_BTREE_OK);
    assert(rkyv_btree_get_number(&map, 2, &found) == RKYV_BTREE_OK && found.key.number == 2);
    assert(memcmp(&found.value, &zeros, sizeof zeros) == 0);
    assert(rkyv_btree_get_number(&map, 3, &found) == RKYV_BTREE_NOT_FOUND);
}

static void misuse(void) {
    rkyv_btree_map map = {0};
    rkyv_btree_refusal why = {0};
    rkyv_btree_entry entry = {0}, batch[4] = {0};
    rkyv_btree_cursor cursor = {0};
    uint8_t out[8] = {0}, bad[8] = {0};
    uint32_t len = 0;
    size_t written = 0, archive_len = 0;
    assert(rkyv_btree_len(&map, &len) == RKYV_BTREE_NOT_OPEN);
    assert(rkyv_btree_get_number(&map, 0, &entry) == RKYV_BTREE_NOT_OPEN);
    assert(rkyv_btree_first(&map, &cursor) == RKYV_BTREE_NOT_OPEN);
    assert(rkyv_btree_next(&map, &cursor, batch, 4, &written) == RKYV_BTREE_NOT_OPEN);
    assert(rkyv_btree_open(&map, 0, bad, 8, &why) == RKYV_BTREE_BAD_TYPE);
    assert(rkyv_btree_open(&map, NO_TYPE, bad, 8, &why) == RKYV_BTREE_BAD_TYPE);
    assert(rkyv_btree_open(&map, 1, NULL, 0, &why) == RKYV_BTREE_OUT_OF_RANGE && why.code == RKYV_BTREE_OUT_OF_RANGE);
    assert(rkyv_btree_open(&map, 1, bad, 8, &why) == RKYV_BTREE_OK); /* eight zeros are an empty map */
    assert(rkyv_btree_next(&map, &cursor, batch, 4, &written) == RKYV_BTREE_OK && written == 0);
    assert(rkyv_btree_find_number(0, bad, 8, 0, &entry, &why) == RKYV_BTREE_BAD_TYPE);
    assert(rkyv_btree_find_text(NO_TYPE, bad, 8, NULL, 0, &entry, &why) == RKYV_BTREE_BAD_TYPE);
    assert(rkyv_btree_find_number(1, NULL, 0, 0, &entry, &why) == RKYV_BTREE_OUT_OF_RANGE && why.code == RKYV_BTREE_OUT_OF_RANGE);
    assert(rkyv_btree_find_number(1, bad, 8, 0, &entry, &why) == RKYV_BTREE_NOT_FOUND);
    rkyv_btree_item value = {0};
    const rkyv_btree_piece whole = {0, 0, 8};
    uint8_t buffer[512] = {0};
    assert(rkyv_btree_find_number_in(0, 8, &whole, 1, bad, 8, 0, buffer, 512, &value, &why) == RKYV_BTREE_BAD_TYPE);
    assert(rkyv_btree_find_text_in(NO_TYPE, 8, &whole, 1, bad, 8, NULL, 0, buffer, 512, &value, &why) == RKYV_BTREE_BAD_TYPE);
    assert(rkyv_btree_find_number_in(1, 8, &whole, 1, bad, 8, 0, buffer, 512, &value, &why) == RKYV_BTREE_NOT_FOUND);
    assert(rkyv_btree_find_number_in(1, 8, &whole, 1, bad, 7, 0, buffer, 512, &value, &why) == RKYV_BTREE_MISSING && why.at == 0 && why.found == 8);
    assert(rkyv_btree_find_number_in(1, 1ull << 32, NULL, 0, NULL, 0, 0, buffer, 512, &value, &why) == RKYV_BTREE_TOO_LONG);
    assert(rkyv_btree_find_number_in(1, 8, &whole, 1, bad, 8, 1ull << 32, buffer, 512, &value, &why) == RKYV_BTREE_BAD_ITEM);
    assert(rkyv_btree_find_number_in(9, 8, &whole, 1, bad, 8, 0, buffer, 512, &value, &why) == RKYV_BTREE_BAD_ITEM);
    assert(rkyv_btree_find_text_in(4, 8, &whole, 1, bad, 8, NULL, 0, buffer, 512, &value, &why) == RKYV_BTREE_BAD_ITEM);
    assert(rkyv_btree_find_text_in(9, 8, &whole, 1, bad, 8, (const uint8_t *)"\xff", 1, buffer, 512, &value, &why) == RKYV_BTREE_BAD_ITEM);
    assert(rkyv_btree_find_text_in(RKYV_BTREE_BYTES_SET, 8, &whole, 1, bad, 8, (const uint8_t *)"\xff", 1, buffer, 512, &value, &why) == RKYV_BTREE_NOT_FOUND);
    assert(rkyv_btree_find_number_in(RKYV_BTREE_BYTES_SET, 8, &whole, 1, bad, 8, 0, buffer, 512, &value, &why) == RKYV_BTREE_BAD_ITEM);
    assert(rkyv_btree_find_number_in(1, 7, NULL, 0, NULL, 0, 0, buffer, 512, &value, &why) == RKYV_BTREE_OUT_OF_RANGE);
    uint8_t other[8] = {1, 2, 3, 4, 5, 6, 7, 8};
    rkyv_btree_edit edit = RKYV_BTREE_EDIT(other, 8);
    assert(rkyv_btree_open_edit(&edit, 0, &why) == RKYV_BTREE_BAD_TYPE && rkyv_btree_open_edit(&edit, NO_TYPE, &why) == RKYV_BTREE_BAD_TYPE);
    assert(rkyv_btree_open_edit(&edit, 1, &why) != RKYV_BTREE_OK);
    for (uint8_t i = 0; i < 8; i++) assert(other[i] == i + 1); /* a refused buffer is unchanged */
    memset(&why, 0xa5, sizeof why);
    const rkyv_btree_refusal before = why;
    const rkyv_btree_column none = {0};
    size_t bound = 5;
    assert(rkyv_btree_build_bound(0, 0, 0, &bound) == RKYV_BTREE_BAD_TYPE && rkyv_btree_build_bound(NO_TYPE, 0, 0, &bound) == RKYV_BTREE_BAD_TYPE);
    assert(rkyv_btree_build_bound(1, 1ull << 32, 0, &bound) == RKYV_BTREE_LENGTH_OVERFLOW);
    assert(rkyv_btree_build_bound(1, SIZE_MAX, SIZE_MAX, &bound) == RKYV_BTREE_LENGTH_OVERFLOW);
    assert(rkyv_btree_build_bound(1, (1ull << 32) - 1, 0, &bound) == RKYV_BTREE_POSITION_OVERFLOW);
    assert(rkyv_btree_build_bound(RKYV_BTREE_TEXT_SET, 1, SIZE_MAX, &bound) == RKYV_BTREE_POSITION_OVERFLOW && bound == 5);
    assert(rkyv_btree_build_bound(RKYV_BTREE_TEXT_SET, 0, 0, &bound) == RKYV_BTREE_OK && bound == 8);
    assert(rkyv_btree_build(NO_TYPE, NULL, 0, NULL, 0, out, 8, &archive_len, &why) == RKYV_BTREE_BAD_TYPE);
    assert(rkyv_btree_build_arrays(0, 0, &none, &none, out, 8, &archive_len, &why) == RKYV_BTREE_BAD_TYPE);
    assert(rkyv_btree_build_arrays_strict(NO_TYPE, 0, &none, &none, out, 8, &archive_len, &why) == RKYV_BTREE_BAD_TYPE);
    assert(rkyv_btree_build(1, NULL, 0, NULL, 0, out, 7, &archive_len, &why) == RKYV_BTREE_NO_ROOM && archive_len == 8);
    assert(rkyv_btree_build(1, NULL, 0, NULL, 0, out, 8, &archive_len, &why) == RKYV_BTREE_OK && archive_len == 8);
    assert(memcmp(&before, &why, sizeof why) == 0); /* where nothing is refused, no cause is written */
    rkyv_btree_entry two[2] = {{{2, 0, 0}, {0, 0, 0}}, {{1, 0, 0}, {0, 0, 0}}};
    uint8_t kept[8];
    memcpy(kept, out, 8);
    assert(rkyv_btree_build_strict(1, two, 2, NULL, 0, out, 8, &archive_len, &why) == RKYV_BTREE_NOT_INCREASING);
    assert(why.code == RKYV_BTREE_NOT_INCREASING && why.at == 0 && why.found == 1 && why.allowed == 0);
    two[1].value.number = 1ull << 32;
    assert(rkyv_btree_build(1, two, 2, NULL, 0, out, 8, &archive_len, &why) == RKYV_BTREE_BAD_ITEM);
    assert(why.code == RKYV_BTREE_BAD_ITEM && why.at == 0 && why.found == 1 && why.allowed == 0);
    two[0].key.len = 1; /* no text has this byte, but bytes can have it */
    assert(rkyv_btree_build(RKYV_BTREE_BYTES_SET, two, 1, (const uint8_t *)"\xff", 1, out, 8, &archive_len, &why) == RKYV_BTREE_NO_ROOM);
    assert(rkyv_btree_build(RKYV_BTREE_BYTES_SET, two, 1, NULL, 0, out, 8, &archive_len, &why) == RKYV_BTREE_BAD_ITEM);
    archive_len = 8;
    assert(rkyv_btree_build(9, two, 1, NULL, 0, out, 8, &archive_len, &why) == RKYV_BTREE_BAD_ITEM && why.found == 0);
    assert(rkyv_btree_build(9, two, 1, (const uint8_t *)"\xff", 1, out, 8, &archive_len, &why) == RKYV_BTREE_BAD_ITEM);
    assert(archive_len == 8 && memcmp(kept, out, 8) == 0); /* a failed build writes nothing */
}

/* Each number of a cursor in turn is another one: the call returns, and reads the map alone. */
static void forged(void) {
    static const uint32_t numbers[] = {0, 1, 2, 5, 6, 31, 32, 33, 100, 1u << 31, UINT32_MAX};
    rkyv_btree_map map = {0};
    rkyv_btree_refusal why = {0};
    rkyv_btree_entry batch[8] = {0};
    size_t len = 0, written = 0;
    give(9, MOST);
    uint8_t *data = build(9, MOST, &len);
    assert(rkyv_btree_open(&map, 9, data, len, &why) == RKYV_BTREE_OK);
    for (size_t skipped = 0; skipped < 3; skipped++) {
        for (size_t field = 0; field < sizeof(rkyv_btree_cursor) / 4; field += step) {
            for (size_t n = 0; n < sizeof numbers / sizeof *numbers; n++) {
                rkyv_btree_cursor cursor = {0};
                assert(rkyv_btree_first(&map, &cursor) == RKYV_BTREE_OK);
                for (size_t i = 0; i < skipped; i++) {
                    assert(rkyv_btree_next(&map, &cursor, batch, 8, &written) == RKYV_BTREE_OK);
                }
                memcpy((uint8_t *)&cursor + 4 * field, &numbers[n], 4);
                const rkyv_btree_cursor before = cursor;
                written = 4711;
                uint32_t code = rkyv_btree_next(&map, &cursor, batch, 8, &written);
                assert(code == RKYV_BTREE_OK || code == RKYV_BTREE_BAD_CURSOR);
                assert(code == RKYV_BTREE_OK || (memcmp(&before, &cursor, sizeof cursor) == 0 && written == 4711));
                for (size_t i = 0; code == RKYV_BTREE_OK && i < written; i++) {
                    assert(batch[i].key.start + batch[i].key.len <= len && batch[i].value.start + batch[i].value.len <= len);
                }
            }
        }
    }
    free(data);
}

/* Each byte of an archive in turn is another one. A lookup without validation returns, and what it finds is in the buffer. If the bytes
 * can still be opened, it returns what a lookup in the opened map does. */
static void unvalidated(uint32_t type) {
    static const uint8_t bytes[] = {0, 1, 2, 127, 128, 255};
    rkyv_btree_map map = {0};
    size_t len = 0;
    give(type, 40);
    uint8_t *data = build(type, 40, &len);
    for (size_t at = 0; at < len; at += step) {
        const uint8_t good = data[at];
        for (size_t n = 0; n < sizeof bytes; n++) {
            data[at] = bytes[n];
            for (unsigned i = 0; i < 40; i += 3) {
                rkyv_btree_refusal why = {0};
                rkyv_btree_entry entry = {0}, found = {0};
                uint32_t code = find(type, data, len, given[i].key, &found, &why);
                assert(code == RKYV_BTREE_OK || code == RKYV_BTREE_NOT_FOUND || (code < 10 && code == why.code));
                assert(code == RKYV_BTREE_OK || memcmp(&entry, &found, sizeof entry) == 0);
                assert(code != RKYV_BTREE_OK || (same(data, found.key, given[i].key) && found.value.start + found.value.len <= len));
                if (rkyv_btree_open(&map, type, data, len, &why) == RKYV_BTREE_OK) {
                    assert(get(&map, given[i].key, &entry) == code && memcmp(&entry, &found, sizeof entry) == 0);
                }
            }
        }
        data[at] = good;
    }
    free(data);
}

/* The name of a type as the format has it. */
static size_t name_of(uint32_t type, char *name) {
    static const char *const names[] = {[U32] = "u32", [U64] = "u64", [I64] = "i64", [TEXT] = "text", [BYTES] = "bytes"};
    if (kinds[type].value == EMPTY) return (size_t)sprintf(name, "[%s / 5]", names[kinds[type].key]);
    return (size_t)sprintf(name, "[%s -> %s / 5]", names[kinds[type].key], names[kinds[type].value]);
}

/* A typed file of entries: the header, by the bytes that the format says, and the archive after it, which is that without a header. */
static uint8_t *build_typed(uint32_t type, unsigned count, size_t *len) {
    rkyv_btree_refusal why = {0};
    char name[64];
    size_t name_len = name_of(type, name), start = 0, archive_len = 0, bound = 0;
    uint8_t wanted[32] = "rkyvbt\1", out[32];
    wanted[8] = (uint8_t)name_len;
    memcpy(wanted + 12, name, name_len);
    memset(out, 0xa5, sizeof out);
    for (size_t room = 0; room < 32; room++) {
        start = 0;
        assert(rkyv_btree_write_header(type, room == 0 ? NULL : out, room, &start) == RKYV_BTREE_NO_ROOM && start == 32);
        for (size_t i = 0; i < sizeof out; i++) assert(out[i] == 0xa5);
    }
    give(type, count);
    assert(rkyv_btree_build_bound(type, count, texts_len, &bound) == RKYV_BTREE_OK);
    uint8_t *data = malloc(start + bound);
    assert(data != NULL);
    memset(data, 0xa5, start + bound);
    assert(rkyv_btree_write_header(type, data, start + bound, &start) == RKYV_BTREE_OK && start == 32);
    assert(memcmp(data, wanted, start) == 0);
    for (size_t i = start; i < start + bound; i++) assert(data[i] == 0xa5);
    assert(rkyv_btree_build(type, given, count, texts, texts_len, data + start, bound, &archive_len, &why) == RKYV_BTREE_OK);
    *len = start + archive_len;
    uint8_t *untyped = build(type, count, &archive_len);
    assert(start + archive_len == *len && memcmp(untyped, data + start, archive_len) == 0);
    free(untyped);
    return data;
}

/* Each call reads a typed file as the archive that it has. */
static void reads_typed(uint32_t type, uint8_t *data, size_t len, unsigned count) {
    rkyv_btree_map map = {0};
    rkyv_btree_refusal why = {0};
    rkyv_btree_entry entry = {0};
    rkyv_btree_item value = {0};
    uint8_t buffer[512];
    assert(rkyv_btree_open(&map, type, data, len, &why) == RKYV_BTREE_OK);
    assert(rkyv_btree_open_strict(&map, type, data, len, &why) == RKYV_BTREE_OK);
    walk(&map, 0, count, 10);
    for (unsigned i = 0; i < count; i += 5) {
        assert(get(&map, given[i].key, &entry) == RKYV_BTREE_OK && same(data, entry.value, given[i].value));
        assert(find(type, data, len, given[i].key, &entry, &why) == RKYV_BTREE_OK && same(data, entry.value, given[i].value));
        assert(find_in(type, data, len, 100, given[i].key, buffer, sizeof buffer, &value, &why) == RKYV_BTREE_OK);
        assert(same(buffer, value, given[i].value));
    }
    rkyv_btree_edit edit = RKYV_BTREE_EDIT(data, len);
    assert(rkyv_btree_open_edit(&edit, type, &why) == RKYV_BTREE_OK);
}

/* Headers of each type against each other type, of another version, of no type, and cut at each byte. */
static void headers(uint32_t type) {
    char name[64], other[64];
    uint8_t text[64];
    size_t len = 0, start = 77;
    rkyv_btree_map map = {0};
    uint8_t *data = build_typed(type, 100, &len);
    reads_typed(type, data, len, 100);
    size_t name_len = name_of(type, name);
    memset(text, 0xa5, sizeof text);
    assert(rkyv_btree_type_name(type, text, sizeof text) == name_len && strcmp((const char *)text, name) == 0);
    assert(rkyv_btree_type_name(type, text, 3) == name_len && text[3] == (uint8_t)name[3]);
    rkyv_btree_refusal why = {7, 7, 7, 7};
    assert(rkyv_btree_check_header(type, data, len, &why) == RKYV_BTREE_OK && why.code == 7); /* no cause is written */
    for (uint32_t each = 1; each <= LAST; each++) {
        if (each == type) continue;
        assert(rkyv_btree_check_header(each, data, len, &why) == RKYV_BTREE_OTHER_TYPE && why.code == RKYV_BTREE_OTHER_TYPE);
        assert(why.at == 12 && why.found == name_len && memcmp(data + why.at, name, name_len) == 0 && why.allowed == 0);
        assert(name_of(each, other) != name_len || strcmp(name, other) != 0);
    }
    for (size_t cut = 0; cut < 32; cut++) {
        assert(rkyv_btree_check_header(type, data, cut, &why) == RKYV_BTREE_NO_HEADER && why.code == RKYV_BTREE_NO_HEADER);
        assert(rkyv_btree_check_header(type, data + cut + 1, len - cut - 1, &why) == RKYV_BTREE_NO_HEADER && why.found == 0);
        (void)rkyv_btree_open(&map, type, data, cut, &why);
    }
    for (size_t at = 0; at < 32; at++) {
        for (unsigned bit = 0; bit < 8; bit++) {
            data[at] ^= (uint8_t)(1u << bit);
            uint32_t code = rkyv_btree_check_header(type, data, len, &why);
            if (at == 6 || at == 7) assert(code == RKYV_BTREE_OTHER_VERSION && why.found == (uint64_t)(data[6] + 256 * data[7]) && why.allowed == 1);
            else if (at < 6 || at >= 12 + name_len) assert(code == RKYV_BTREE_NO_HEADER);
            else assert(code == RKYV_BTREE_OTHER_TYPE || code == RKYV_BTREE_NO_HEADER); /* another name, or none */
            data[at] ^= (uint8_t)(1u << bit);
        }
    }
    why.code = 7;
    for (uint32_t none = 0; none <= NO_TYPE; none += NO_TYPE) {
        assert(rkyv_btree_write_header(none, data, len, &start) == RKYV_BTREE_BAD_TYPE && start == 77);
        assert(rkyv_btree_check_header(none, data, len, &why) == RKYV_BTREE_BAD_TYPE && why.code == 7);
        assert(rkyv_btree_type_name(none, text, sizeof text) == 0 && text[0] == (uint8_t)name[0]);
    }
    assert(rkyv_btree_check_header(type, data, len, &why) == RKYV_BTREE_OK);
    free(data);
}

static void messages(void) {
    uint8_t out[128];
    for (uint32_t code = 0; code < 64; code++) {
        memset(out, 0xff, sizeof out);
        size_t len = rkyv_btree_strerror(code, out, sizeof out);
        assert(len < sizeof out && strlen((const char *)out) == len);
        assert(rkyv_btree_strerror(code, NULL, 0) == len);
    }
    assert(rkyv_btree_strerror(RKYV_BTREE_NOT_FOUND, out, 4) == 11 && memcmp(out, "no s", 4) == 0);
}

static void save(const char *name, uint32_t type) {
    size_t len = 0;
    uint8_t *data = build_typed(type, MOST, &len);
    FILE *file = fopen(name, "wb");
    assert(file != NULL && fwrite(data, 1, len, file) == len && fclose(file) == 0);
    free(data);
}

int main(int count_of_words, char **words) {
    if (count_of_words > 1 && strcmp(words[1], "short") == 0) step = 31;
    for (uint32_t type = 1; type <= LAST; type++) {
        for (unsigned count = 0; count <= 220; count += step) one_type(type, count), one_call(type, count);
        if (step == 1) one_type(type, MOST), one_call(type, MOST);
        for (unsigned count = 0; count <= MOST; count += step + count / 3) pieces(type, count);
        unvalidated(type);
        headers(type);
    }
    edits();
    sets();
    misuse();
    forged();
    messages();
    save("texts.archive", RKYV_BTREE_TEXT_TO_TEXT);
    save("numbers.archive", RKYV_BTREE_U32_TO_U32);
    return 0;
}
