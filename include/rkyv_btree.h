/* Archived B-tree maps of rkyv_btree, read, edited and built in C. docs/EMBEDDING.md says what a caller owes.
 * tools/header.py compares this file with the sources of crates/rkyv_btree_ffi. */
#ifndef RKYV_BTREE_H
#define RKYV_BTREE_H

#include <stddef.h>
#include <stdint.h>

#ifdef __cplusplus
extern "C" {
#endif

/* The version of this header and of the library. */
#define RKYV_BTREE_VERSION_MAJOR 0
#define RKYV_BTREE_VERSION_MINOR 1
#define RKYV_BTREE_VERSION_PATCH 0
#define RKYV_BTREE_VERSION "0.1.0"

/* What each call returns, unless it says otherwise. */
enum {
    RKYV_BTREE_OK = 0,
    /* The bytes are no map. The cause is in rkyv_btree_refusal. */
    RKYV_BTREE_OUT_OF_RANGE = 1,
    RKYV_BTREE_MISALIGNED = 2,
    RKYV_BTREE_BAD_KIND = 3,
    RKYV_BTREE_INVALID_LENGTH = 4,
    RKYV_BTREE_BAD_ENTRY = 5,
    RKYV_BTREE_TOO_DEEP = 6,
    RKYV_BTREE_LENGTH_MISMATCH = 7,
    RKYV_BTREE_TOO_LONG = 8,
    RKYV_BTREE_OUT_OF_ORDER = 9,
    /* The call doesn't fit the map. */
    RKYV_BTREE_NOT_OPEN = 16,
    RKYV_BTREE_BAD_TYPE = 17,
    RKYV_BTREE_NOT_FOUND = 18,
    RKYV_BTREE_BAD_CURSOR = 19,
    RKYV_BTREE_BAD_VALUE = 20,
    RKYV_BTREE_MISSING = 21,
    /* The entries have no archive. */
    RKYV_BTREE_LENGTH_OVERFLOW = 32,
    RKYV_BTREE_POSITION_OVERFLOW = 33,
    RKYV_BTREE_OFFSET_OVERFLOW = 34,
    RKYV_BTREE_NO_MEMORY = 35,
    RKYV_BTREE_BAD_ITEM = 36,
    RKYV_BTREE_NOT_INCREASING = 37,
    RKYV_BTREE_NO_ROOM = 38,
    /* The bytes begin with no header of a typed file, or with that of another one. The cause is in rkyv_btree_refusal. */
    RKYV_BTREE_NO_HEADER = 48,
    RKYV_BTREE_OTHER_VERSION = 49,
    RKYV_BTREE_OTHER_TYPE = 50
};

/* The types of the keys and the values of a map. A set is a map whose values have no bytes. tools/header.py --write writes this list. */
enum {
    RKYV_BTREE_U32_TO_U32 = 1,
    RKYV_BTREE_U32_TO_U64 = 2,
    RKYV_BTREE_U32_TO_TEXT = 3,
    RKYV_BTREE_U64_TO_U32 = 4,
    RKYV_BTREE_U64_TO_U64 = 5,
    RKYV_BTREE_U64_TO_TEXT = 6,
    RKYV_BTREE_TEXT_TO_U32 = 7,
    RKYV_BTREE_TEXT_TO_U64 = 8,
    RKYV_BTREE_TEXT_TO_TEXT = 9,
    RKYV_BTREE_U32_TO_I64 = 10,
    RKYV_BTREE_U64_TO_I64 = 11,
    RKYV_BTREE_I64_TO_U32 = 12,
    RKYV_BTREE_I64_TO_U64 = 13,
    RKYV_BTREE_I64_TO_I64 = 14,
    RKYV_BTREE_I64_TO_TEXT = 15,
    RKYV_BTREE_TEXT_TO_I64 = 16,
    RKYV_BTREE_U32_TO_BYTES = 17,
    RKYV_BTREE_U64_TO_BYTES = 18,
    RKYV_BTREE_I64_TO_BYTES = 19,
    RKYV_BTREE_TEXT_TO_BYTES = 20,
    RKYV_BTREE_BYTES_TO_U32 = 21,
    RKYV_BTREE_BYTES_TO_U64 = 22,
    RKYV_BTREE_BYTES_TO_I64 = 23,
    RKYV_BTREE_BYTES_TO_TEXT = 24,
    RKYV_BTREE_BYTES_TO_BYTES = 25,
    RKYV_BTREE_U32_SET = 26,
    RKYV_BTREE_U64_SET = 27,
    RKYV_BTREE_I64_SET = 28,
    RKYV_BTREE_TEXT_SET = 29,
    RKYV_BTREE_BYTES_SET = 30
};

/* Why bytes were refused, or why entries have no archive. */
typedef struct {
    uint32_t code;    /* the code that the call returned */
    int64_t at;       /* a position in the buffer, or 0 */
    uint64_t found;   /* a byte, a length, a number of entries, the index of an entry, or a version; or 0 */
    uint64_t allowed; /* the most that is allowed there, or 0 */
} rkyv_btree_refusal;

/* A key or a value: a number, or a text or bytes by their place in the buffer. Texts are UTF-8, and have no final 0. A number of type i64 is cast to
 * uint64_t, here and as a key or a value that a call takes. Keys of that type are ordered as int64_t. The value of an entry of a set is
 * all zeros where a call writes it, and isn't read where a call takes it. */
typedef struct {
    uint64_t number; /* of a text and of bytes 0 */
    uint32_t start;  /* of a number 0 */
    uint32_t len;    /* of a number 0 */
} rkyv_btree_item;

typedef struct {
    rkyv_btree_item key;
    rkyv_btree_item value;
} rkyv_btree_entry;

/* A piece of an archive: `len` bytes from position `pos` on, which a buffer has from `start` on. */
typedef struct {
    uint32_t pos;
    uint32_t start;
    uint32_t len;
} rkyv_btree_piece;

/* Keys or values one after the other, as a table has a column. Numbers have 4 or 8 bytes, as their type has, the least first; those
 * with a sign are in two's complement. Texts are UTF-8 in one buffer, and have offsets of 4 or 8 bytes: where each begins, and then where
 * the last ends. Byte strings are so too, with any bytes. Of the values of a set no field is read. */
typedef struct {
    const uint8_t *data; /* the numbers, or the bytes of all texts or byte strings */
    size_t data_len;
    const uint8_t *offsets; /* of numbers NULL */
    size_t offsets_len;     /* how many bytes the offsets have, of numbers 0 */
    uint32_t offset_size;   /* 4 or 8; of numbers it isn't read */
} rkyv_btree_column;

/* A map in a buffer of the caller's. It must be initialized, by {0} or by a call, and is written by calls alone. While it is open,
 * the buffer doesn't change. */
typedef struct {
    const uint8_t *data;
    size_t data_len;
    uint32_t pos;
    uint32_t type; /* 0 while it is closed */
} rkyv_btree_map;

/* The same, whose values are overwritten. Nothing else reads or writes the buffer while it is open. */
typedef struct {
    uint8_t *data;
    size_t data_len;
    uint32_t pos;
    uint32_t type;
} rkyv_btree_edit;

typedef struct {
    uint32_t node;
    uint32_t index;
} rkyv_btree_step;

/* A place between two entries. Its numbers are tested at each call. */
typedef struct {
    uint32_t node;
    uint32_t next;
    uint32_t end;
    uint32_t depth;
    uint32_t stops;
    rkyv_btree_step stop;
    rkyv_btree_step path[32];
} rkyv_btree_cursor;

/* Opens the map of a whole archive, whose own bytes are the last eight. After a refusal the map is closed. */
uint32_t rkyv_btree_open(rkyv_btree_map *map, uint32_t type, const uint8_t *data, size_t data_len, rkyv_btree_refusal *why);

/* The same, and the keys must increase. */
uint32_t rkyv_btree_open_strict(rkyv_btree_map *map, uint32_t type, const uint8_t *data, size_t data_len, rkyv_btree_refusal *why);

/* Writes the number of entries. */
uint32_t rkyv_btree_len(const rkyv_btree_map *map, uint32_t *len);

/* Finds the entry with a key. Here and below a key of bytes is looked for as a text is. RKYV_BTREE_NOT_FOUND if there is none, or if the
 * keys are of the other type. */
uint32_t rkyv_btree_get_number(const rkyv_btree_map *map, uint64_t key, rkyv_btree_entry *entry);
uint32_t rkyv_btree_get_text(const rkyv_btree_map *map, const uint8_t *key, size_t key_len, rkyv_btree_entry *entry);

/* Finds the entry with a key in bytes that nobody has validated, as the archive of a map. No map is opened: the lookup validates what it
 * reads. On an archive it returns what the two calls above return for the opened map. On other bytes what it finds is valid and has an
 * equal key, and a refusal has its cause in `why`; RKYV_BTREE_NOT_FOUND doesn't mean that the key is absent. */
uint32_t rkyv_btree_find_number(uint32_t type, const uint8_t *data, size_t data_len, uint64_t key, rkyv_btree_entry *entry,
                                rkyv_btree_refusal *why);
uint32_t rkyv_btree_find_text(uint32_t type, const uint8_t *data, size_t data_len, const uint8_t *key, size_t key_len,
                              rkyv_btree_entry *entry, rkyv_btree_refusal *why);

/* Finds the value of a key in an archive of `size` bytes of which some pieces are in memory, in `data`. It validates what it reads,
 * as the two calls above do, in the bytes that the pieces have. A value that is a text or bytes is written to `buffer`, and `value` has its place there.
 * RKYV_BTREE_MISSING if the lookup needs bytes that no piece has whole: `found` many from position `at` on. Add a piece with them, and call
 * again. RKYV_BTREE_NO_ROOM if `buffer` has fewer than `found` bytes, which the lookup needs so far. RKYV_BTREE_BAD_ITEM if the key is no
 * key of the type: a text for a number or the other way round, a number past 32 bits, or where the keys are texts one that isn't UTF-8. */
uint32_t rkyv_btree_find_number_in(uint32_t type, uint64_t size, const rkyv_btree_piece *pieces, size_t pieces_len, const uint8_t *data,
                                   size_t data_len, uint64_t key, uint8_t *buffer, size_t buffer_len, rkyv_btree_item *value,
                                   rkyv_btree_refusal *why);
uint32_t rkyv_btree_find_text_in(uint32_t type, uint64_t size, const rkyv_btree_piece *pieces, size_t pieces_len, const uint8_t *data,
                                 size_t data_len, const uint8_t *key, size_t key_len, uint8_t *buffer, size_t buffer_len,
                                 rkyv_btree_item *value, rkyv_btree_refusal *why);

/* Sets a cursor before the first entry, or before the first entry whose key isn't less than a key. */
uint32_t rkyv_btree_first(const rkyv_btree_map *map, rkyv_btree_cursor *cursor);
uint32_t rkyv_btree_seek_number(const rkyv_btree_map *map, uint64_t key, rkyv_btree_cursor *cursor);
uint32_t rkyv_btree_seek_text(const rkyv_btree_map *map, const uint8_t *key, size_t key_len, rkyv_btree_cursor *cursor);

/* Writes the next entries, as many as there is room for, and how many they are. Fewer than entries_len are the last ones. A cursor that a
 * call wrote for the map is accepted. RKYV_BTREE_BAD_CURSOR, and nothing is written, if its numbers are no place in the map. */
uint32_t rkyv_btree_next(const rkyv_btree_map *map, rkyv_btree_cursor *cursor, rkyv_btree_entry *entries, size_t entries_len,
                         size_t *written);

/* A closed map in a buffer, as `rkyv_btree_open_edit` takes one. */
#define RKYV_BTREE_EDIT(data, data_len) {(data), (data_len), 0, 0}

/* Opens the map of the whole archive in the buffer, whose values can then be overwritten. After a refusal the map is closed. */
uint32_t rkyv_btree_open_edit(rkyv_btree_edit *edit, uint32_t type, rkyv_btree_refusal *why);

/* Opens the map of an edited map's buffer for reading, and validates nothing. It reads until the next call writes a value: after that, call
 * this again. */
uint32_t rkyv_btree_read_edit(rkyv_btree_map *map, const rkyv_btree_edit *edit);

/* Overwrites the value of the entry with a key. RKYV_BTREE_BAD_VALUE if the values are no numbers, or narrower than the
 * value. */
uint32_t rkyv_btree_set_number(rkyv_btree_edit *edit, uint64_t key, uint64_t value);
uint32_t rkyv_btree_set_text(rkyv_btree_edit *edit, const uint8_t *key, size_t key_len, uint64_t value);

/* Writes a length that is enough for the archive of so many entries, whose texts and bytes have `texts_len` bytes together: with an `out` of
 * that length none of the four calls below returns RKYV_BTREE_NO_ROOM. A text or bytes that several entries share count for each of them. More
 * is enough too: for columns the lengths of both buffers of texts or bytes. RKYV_BTREE_LENGTH_OVERFLOW and RKYV_BTREE_POSITION_OVERFLOW, and
 * nothing is written, if no archive has so many. */
uint32_t rkyv_btree_build_bound(uint32_t type, size_t entries_len, size_t texts_len, size_t *bound);

/* Builds the archive of entries, whose texts and bytes are in one buffer, in their order; or only if the keys increase. Where the archive has
 * more bytes than there is room for, nothing is written to `out`, and the call returns RKYV_BTREE_NO_ROOM. Both then and on success
 * `archive_len` is how many bytes the archive has. After another code but RKYV_BTREE_BAD_TYPE `why` has the cause, and nothing else is
 * written. RKYV_BTREE_BAD_ITEM if a number has more than 32 bits where the type has 32, or a text isn't UTF-8, or a text or bytes aren't within `texts`.
 * RKYV_BTREE_NOT_INCREASING if the keys must increase. In `why` the index of the first such entry is `found`. */
uint32_t rkyv_btree_build(uint32_t type, const rkyv_btree_entry *entries, size_t entries_len, const uint8_t *texts,
                          size_t texts_len, uint8_t *out, size_t out_len, size_t *archive_len, rkyv_btree_refusal *why);
uint32_t rkyv_btree_build_strict(uint32_t type, const rkyv_btree_entry *entries, size_t entries_len, const uint8_t *texts,
                                 size_t texts_len, uint8_t *out, size_t out_len, size_t *archive_len, rkyv_btree_refusal *why);

/* The same of the first `len` entries of two columns. RKYV_BTREE_BAD_ITEM if a column is shorter, if the offsets of a text or of bytes aren't
 * within their buffer, or the second is before the first, or if a text isn't UTF-8. */
uint32_t rkyv_btree_build_arrays(uint32_t type, size_t len, const rkyv_btree_column *keys, const rkyv_btree_column *values,
                                 uint8_t *out, size_t out_len, size_t *archive_len, rkyv_btree_refusal *why);
uint32_t rkyv_btree_build_arrays_strict(uint32_t type, size_t len, const rkyv_btree_column *keys, const rkyv_btree_column *values,
                                        uint8_t *out, size_t out_len, size_t *archive_len, rkyv_btree_refusal *why);

/* Writes the header of a typed file of a type at the start of `out`, and how many bytes it has. The archive is built right after it. The
 * length is a multiple of 16. RKYV_BTREE_NO_ROOM, and nothing is written but the length, if `out` is shorter. */
uint32_t rkyv_btree_write_header(uint32_t type, uint8_t *out, size_t out_len, size_t *header_len);

/* Tests that bytes begin with the header of a typed file of a type, and looks at nothing after it. The calls that open archives and look
 * keys up don't look at a header: they take typed files and untyped ones. RKYV_BTREE_NO_HEADER if the bytes begin with no header, as an untyped archive.
 * RKYV_BTREE_OTHER_VERSION if it has another version, which is `found`. RKYV_BTREE_OTHER_TYPE if it has the name of another type, which is
 * `found` bytes from position `at` on. */
uint32_t rkyv_btree_check_header(uint32_t type, const uint8_t *data, size_t data_len, rkyv_btree_refusal *why);

/* Writes the name of a type, as a header has it, as much of it as there is room for, and returns how many bytes the whole name has, or 0
 * if no type has the number. It ends with a 0 if it fits. */
size_t rkyv_btree_type_name(uint32_t type, uint8_t *out, size_t out_len);

/* Writes the text of a code, as much of it as there is room for, and returns how many bytes the whole text has. It ends with a 0 if
 * it fits. */
size_t rkyv_btree_strerror(uint32_t code, uint8_t *out, size_t out_len);

#ifdef __cplusplus
}
#endif

#endif
