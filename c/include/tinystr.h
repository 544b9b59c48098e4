/* tinystr.h: short ASCII codes, language identifiers, and packed tables and maps of codes.
 *
 * Each function has a contract, in crates/tinystr_c of the repository, and is proved to keep it on all bytes and numbers. (The
 * kit builds the proved functions; Cargo builds a translation of them, which is tested.) No function allocates, keeps state
 * between calls, calls back, or fails except by the code that it returns.
 *
 * Pointers
 *   A `void *` and the length after it are bytes: pass a `char *` or a `uint8_t *`. With length 0 the pointer may be NULL, as
 *   that of an empty std::string_view or std::vector.
 *
 * What the caller must ensure: no call checks it, and otherwise the behaviour is undefined
 *   - A pointer whose length isn't 0 points to that many bytes (`tinystr_result *`: results) of one object, at most SSIZE_MAX
 *     bytes. All can be read. Those of `out`, of `scratch`, of the `text` of tinystr_change_case, and of the records of
 *     tinystr_sorted_pack can be written too.
 *   - What a call may write overlaps no other argument: `out` overlaps no input.
 *   - While the call runs, no other thread writes these bytes, or reads those that the call may write. Any calls that keep this
 *     rule may run concurrently, in signal handlers too.
 * A search doesn't check its table. In a table that was never checked, or was changed since, it stays in bounds, but its result
 * may be wrong.
 *
 * Order of checks
 *   The first check that fails gives the code. First come the numbers, in the order of the parameters (a capacity, of
 *   tinystr_read `out_len`, a size of values, a question, a case): BAD_ARGUMENT. Then comes each argument of bytes in turn, but
 *   not the table of a search: its length, its bytes, and the order or the places of its texts, where they matter; of a hashed
 *   table the header, then the pilots and the moves, and then the records. Then comes the room of `out`, and of `scratch`:
 *   NO_ROOM. Equal records to pack are found last: DUPLICATE.
 *   Each function below lists OK first, and NOT_FOUND if it may return it, and then the codes of its checks in this order.
 *   NUL and NON_ASCII are one check, which stops at the first fault: at a byte above 127 the code is NON_ASCII, and at a byte
 *   from 1 to 127 after a NUL it is NUL.
 *
 * NULs after a text
 *   A key, a prefix, and the text of tinystr_ask and tinystr_change_case may have any number of NULs after them, which don't
 *   count: the field `char code[4]` that holds "GB\0\0" can be passed with its length 4. In what tinystr_read, tinystr_langid and
 *   tinystr_langid_parts read they are a fault: tinystr_read returns NUL if there is no other.
 *
 * Words
 *   text          bytes from 1 to 127, none or more
 *   padded text   a text, and then NULs up to a capacity: `char code[4]` holds "EUR\0", "GB\0\0" and "euro"
 *   records       padded texts of one capacity, one after another, with nothing between: "EURGB\0JPY" at capacity 3. Record
 *                 `index` is at `bytes + index * capacity`.
 *   strictly ascending   each text of the records is above the one before it, in the order of memcmp
 *
 * SPDX-License-Identifier: Unicode-3.0
 */
#ifndef TINYSTR_H
#define TINYSTR_H

#include <stddef.h>
#include <stdint.h>

#ifdef __cplusplus
extern "C" {
#endif

/* cdef */
/* Python's cffi takes what is between both lines `cdef`. */

/* Of this header: 10,000 times the first number, 100 times the second, and the third. 300 is 0.3.0. */
#define TINYSTR_VERSION 300

/* The codes. Later versions keep the numbers of codes, questions and cases. */
enum tinystr_code {
    TINYSTR_OK = 0,
    TINYSTR_TOO_LONG = 1,           /* more bytes than the capacity */
    TINYSTR_NUL = 2,                /* a NUL in a text, or before a character in a padded text */
    TINYSTR_NON_ASCII = 3,          /* a byte above 127 */
    TINYSTR_INVALID_LANGUAGE = 4,   /* the first subtag isn't a language */
    TINYSTR_INVALID_SUBTAG = 5,     /* the first subtag is a language, and a later one isn't accepted */
    TINYSTR_NO_ROOM = 6,            /* `out` or `scratch` is too short */
    TINYSTR_BAD_ARGUMENT = 7,       /* there is no such capacity, size, question or case */
    TINYSTR_BAD_LENGTH = 8,         /* the capacity doesn't divide the number of bytes */
    TINYSTR_NOT_RISING = 9,         /* a text isn't above the one before it */
    TINYSTR_BAD_VALUES = 10,        /* the values aren't one for each key */
    TINYSTR_NOT_FOUND = 11,         /* the text is none of the records' */
    TINYSTR_BAD_HEADER = 12,        /* fewer bytes than the header of a hashed table has */
    TINYSTR_BAD_VERSION = 13,       /* the version of a hashed table isn't 1 */
    TINYSTR_BAD_INDEX = 14,         /* fewer bytes than the pilots and the moves of a hashed table have */
    TINYSTR_MISPLACED = 15,         /* a text of a hashed table isn't at its place, or in order */
    TINYSTR_DUPLICATE = 16          /* a text occurs twice */
};

/* The questions (predicates) of tinystr_ask. Each is true of the empty text. */
enum tinystr_question {
    TINYSTR_ALPHABETIC = 0,           /* each byte is a letter */
    TINYSTR_ALPHANUMERIC = 1,         /* a letter or a digit */
    TINYSTR_NUMERIC = 2,              /* a digit */
    TINYSTR_LOWERCASE = 3,            /* no byte is an uppercase letter */
    TINYSTR_TITLECASE = 4,            /* the first isn't a lowercase letter, and no later one is an uppercase letter */
    TINYSTR_UPPERCASE = 5,            /* no byte is a lowercase letter */
    TINYSTR_ALPHABETIC_LOWERCASE = 6, /* each is a lowercase letter */
    TINYSTR_ALPHABETIC_TITLECASE = 7, /* the first is an uppercase letter, and each later one a lowercase letter */
    TINYSTR_ALPHABETIC_UPPERCASE = 8  /* each is an uppercase letter */
};

/* The cases of tinystr_change_case. */
enum tinystr_case {
    TINYSTR_LOWER = 0,
    TINYSTR_TITLE = 1, /* the first byte in uppercase, each later one in lowercase */
    TINYSTR_UPPER = 2
};

/* With the code OK, `value` is what the function lists, and `detail` is 0. With any other code `value` is 0, and `detail` is
 * what the function lists, or 4294967295 if that is larger. If a text is rejected, `detail` is the number of its bytes that
 * count (TOO_LONG), the index of the first NUL (NUL), or the index of the first byte above 127 (NON_ASCII). */
typedef struct tinystr_result {
    size_t value;
    uint32_t code;
    uint32_t detail;
} tinystr_result;

/* `count` records from record `start` on. With any code but OK both are 0, and `detail` is as in a tinystr_result. */
typedef struct tinystr_range {
    size_t start;
    size_t count;
    uint32_t code;
    uint32_t detail;
} tinystr_range;

/* What tinystr_langid_parts lists. Every other field is 0. */
typedef struct tinystr_parts {
    size_t value;
    uint32_t code;
    uint32_t detail;
    size_t subtag;
    size_t language_len;
    size_t script_start;
    size_t script_len;
    size_t region_start;
    size_t region_len;
} tinystr_parts;

/* The version of the linked library, as TINYSTR_VERSION. */
uint32_t tinystr_version(void);

/* The length of an `out` that holds the text of any code, and a NUL after it. */
#define TINYSTR_MESSAGE_ROOM 64

/* Writes the text of a code, in English, and NULs up to the end of `out`. A number that is no code has a text too.
 *   OK                 value: the length of the text. Where `out` is longer, it is a C string.
 *   NO_ROOM            detail: the length of the text, which is above `out_len`.
 * With NO_ROOM, `out` is as it was. */
tinystr_result tinystr_message(uint32_t code, void *out, size_t out_len);

/* The length of an `out` that holds any canonical text, and a NUL after it. */
#define TINYSTR_LANGID_ROOM 18

/* Reads a language identifier: a language of 2, 3 or 5 to 8 letters, and then a script of 4 letters, a region of 2
 * letters or 3 digits, both or neither, in any case, with `-` or `_` between. Variants, extlangs, extensions and private
 * use are rejected. Writes its canonical text, as zh-Hant-TW, and NULs up to the end of `out`. Only case and separators
 * change, and nothing is looked up in a registry: iw stays iw.
 *   OK                 value: the length of the text, at most 17. Where `out` is longer, it is a C string.
 *   INVALID_LANGUAGE, INVALID_SUBTAG   detail: 0.
 *   NO_ROOM            detail: the length of the text, which is above `out_len`.
 * With any code but OK, `out` is as it was. */
tinystr_result tinystr_langid(const void *input, size_t input_len, void *out, size_t out_len);

/* Does the same, and tells where the subtags are, or which one isn't accepted.
 *   OK                 value: the length of the text. The language is its first `language_len` bytes, the script
 *                      `script_len` bytes from byte `script_start` on, and the region `region_len` from `region_start` on.
 *                      The places in `input` are the same.
 *   INVALID_LANGUAGE   detail: 0.
 *   INVALID_SUBTAG     subtag: the index of the first subtag that can't follow those before it: 1, 2 or 3.
 *                      detail: the index in `input` of its first byte, or `input_len` if it is empty and the last.
 *   NO_ROOM            detail: the length of the text, which is above `out_len`.
 * With any code but OK, `out` is as it was. */
tinystr_parts tinystr_langid_parts(const void *input, size_t input_len, void *out, size_t out_len);

/* Reads a text of at most `out_len` bytes, and writes it padded. `out_len` is the capacity, of at most 16.
 *   OK                 value: the length of the text.
 *   BAD_ARGUMENT       detail: `out_len`, which is above 16.
 *   TOO_LONG
 *   NUL, NON_ASCII
 * With any code but OK, `out` is as it was. */
tinystr_result tinystr_read(const void *input, size_t input_len, void *out, size_t out_len);

/* Whether a question (a predicate) is true of a text of at most 16 bytes.
 *   OK                 value: 1 for yes, 0 for no.
 *   BAD_ARGUMENT       detail: the question, which isn't one of tinystr_question.
 *   TOO_LONG           The text has more than 16 bytes.
 *   NUL, NON_ASCII */
tinystr_result tinystr_ask(const void *text, size_t text_len, uint32_t question);

/* Changes the case of a text of at most 16 bytes in place.
 *   OK                 value: the length of the text.
 *   BAD_ARGUMENT       detail: the case, which isn't one of tinystr_case.
 *   TOO_LONG           The text has more than 16 bytes.
 *   NUL, NON_ASCII
 * With any code but OK, the bytes are as they were. */
tinystr_result tinystr_change_case(void *text, size_t text_len, uint32_t letter_case);

/* ---- Records. A capacity is 2, 3, 4, 8 or 16. Each function below checks this first. At any other capacity the code is
 * BAD_ARGUMENT, and `detail` is the capacity. */

/* Whether the bytes are records. It isn't a checksum: they hold neither the capacity nor their number, so a cut table can pass.
 *   OK                 value: how many.
 *   BAD_LENGTH         detail: `bytes_len`.
 *   NUL, NON_ASCII     detail: the index of the first record that isn't a padded text. */
tinystr_result tinystr_table_check(const void *bytes, size_t bytes_len, size_t capacity);

/* Whether the bytes are records, and strictly ascending. The codes are those of tinystr_table_check, and after them
 *   NOT_RISING         detail: the index of the first record that isn't above the one before it. */
tinystr_result tinystr_sorted_check(const void *bytes, size_t bytes_len, size_t capacity);

/* Puts records in order in place, so that they are strictly ascending, by the help of `scratch`: as many bytes of the caller,
 * whatever they are, which it leaves in any state.
 *   OK                 value: how many records.
 *   BAD_LENGTH         detail: `bytes_len`.
 *   NUL, NON_ASCII     detail: the index of the first record that isn't a padded text.
 *   NO_ROOM            detail: `bytes_len`, which is above `scratch_len`.
 *   DUPLICATE          detail: the index of the first record that is the same as the one before it, now that all are in order.
 * With any code but OK and DUPLICATE, the records are as they were. */
tinystr_result tinystr_sorted_pack(void *bytes, size_t bytes_len, size_t capacity, void *scratch, size_t scratch_len);

/* Searches a text in strictly ascending records. The records aren't checked: if they are anything
 * else, it returns OK with the index of some record, or NOT_FOUND with an index from 0 to the number of records.
 *   OK                 value: its index.
 *   NOT_FOUND          detail: the index at which it is to be inserted.
 *   TOO_LONG           The key has more than `capacity` bytes.
 *   NUL, NON_ASCII     The key isn't a text. */
tinystr_result tinystr_sorted_search(const void *bytes, size_t bytes_len, size_t capacity,
                                     const void *key, size_t key_len);

/* Searches each of some keys in strictly ascending records. The keys are records of the same capacity, in any order,
 * and are checked. The records aren't checked. For many keys among many records this takes less time than a
 * search for each.
 *   OK                 value: how many keys. `out` begins with a result for each key, that of tinystr_sorted_search: OK
 *                      with the key's index, or NOT_FOUND with the index at which the key is to be inserted. If the
 *                      records aren't strictly ascending, the indices stay in bounds too, and may differ from those of
 *                      tinystr_sorted_search.
 *   BAD_LENGTH         detail: `keys_len`.
 *   NUL, NON_ASCII     detail: the index of the first key that isn't a padded text.
 *   NO_ROOM            detail: how many keys, which is above `out_len`.
 * With any code but OK, `out` is as it was; with OK, so are the results after those of the keys. */
tinystr_result tinystr_sorted_search_each(const void *bytes, size_t bytes_len, size_t capacity,
                                          const void *keys, size_t keys_len,
                                          tinystr_result *out, size_t out_len);

/* Finds the texts with the prefix `beginning`, in strictly ascending records. The records aren't checked: if they are
 * anything else, the range stays in bounds, and may be wrong.
 *   OK                 start: the index of the first, or at which `beginning` is to be inserted. count: how many.
 *   TOO_LONG           The prefix has more than `capacity` bytes.
 *   NUL, NON_ASCII     The prefix isn't a text. */
tinystr_range tinystr_sorted_prefix(const void *bytes, size_t bytes_len, size_t capacity,
                                    const void *beginning, size_t beginning_len);

/* Whether the keys are strictly ascending records, and the values are `value_size` bytes for each of them: 1, 2, 4 or
 * 8. The value of the key at an index, which tinystr_sorted_search finds, is at `values + index * value_size`.
 *   OK                 value: how many keys.
 *   BAD_ARGUMENT       detail: `value_size`, which is none of these sizes.
 *   BAD_LENGTH, NUL, NON_ASCII, NOT_RISING   Of the keys, as tinystr_sorted_check returns.
 *   BAD_VALUES         detail: `values_len`. */
tinystr_result tinystr_map_check(const void *keys, size_t keys_len, size_t capacity,
                                 const void *values, size_t values_len, size_t value_size);

/* ---- Hashed tables: records in the order of a hash, so that a text is compared with one record, and before them numbers from
 * which a text's place, its index among the records, is computed. Record `index` of `count` is at
 * `bytes + bytes_len - (count - index) * capacity`. tinystr_hashed_pack and the repository's command tinystr-table make them, and
 * its crates/tinystr_hashed/CALLING.md has their format. */

/* Whether the bytes are a hashed table. It isn't a checksum: a cut table can pass.
 *   OK                 value: how many texts.
 *   BAD_HEADER         detail: `bytes_len`, which is below 16.
 *   BAD_VERSION        detail: the version, which isn't 1.
 *   BAD_INDEX          detail: the number of bytes of the pilots and the moves, of which fewer follow the header.
 *   BAD_LENGTH         detail: the number of bytes after these.
 *   NUL, NON_ASCII     detail: the index of the first record that isn't a padded text.
 *   MISPLACED          detail: the index of the first text that isn't at its place or, without pilots, above the one before. */
tinystr_result tinystr_hashed_check(const void *bytes, size_t bytes_len, size_t capacity);

/* Packs the texts of records, no two of which may be equal, as a hashed table at the start of `out`, by the help of `scratch`.
 * The table depends only on the set of the texts. The bytes of `out` after it, and `scratch`, end in any state.
 *   OK                 value: how many bytes the table has.
 *   BAD_LENGTH         detail: `bytes_len`.
 *   NUL, NON_ASCII     detail: the index of the first record that isn't a padded text.
 *   NO_ROOM            detail: TINYSTR_HASHED_PACK_OUT, which is above `out_len`; or, if it isn't,
 *                      TINYSTR_HASHED_PACK_SCRATCH, which is above `scratch_len`.
 *   DUPLICATE          detail: the index of the first record that is the same as one before it.
 * With any code but OK and DUPLICATE, `out` is as it was; with DUPLICATE it is in any state. */
tinystr_result tinystr_hashed_pack(const void *bytes, size_t bytes_len, size_t capacity, void *out, size_t out_len,
                                   void *scratch, size_t scratch_len);

/* Searches a text in a hashed table. The bytes aren't checked: if they are anything else, it returns
 * OK with the index of some record, or NOT_FOUND.
 *   OK                 value: its index.
 *   NOT_FOUND          detail: 0.
 *   TOO_LONG           The key has more than `capacity` bytes.
 *   NUL, NON_ASCII     The key isn't a text. */
tinystr_result tinystr_hashed_search(const void *bytes, size_t bytes_len, size_t capacity,
                                     const void *key, size_t key_len);

/* Searches each of some keys in a hashed table. The keys are records of the same capacity, in any order, and are checked.
 * The table isn't checked.
 *   OK                 value: how many keys. `out` begins with a result for each key, that of tinystr_hashed_search. If
 *                      the bytes aren't a hashed table, each is OK with the index of some record, or NOT_FOUND, and may
 *                      differ from that of tinystr_hashed_search.
 *   BAD_LENGTH         detail: `keys_len`.
 *   NUL, NON_ASCII     detail: the index of the first key that isn't a padded text.
 *   NO_ROOM            detail: how many keys, which is above `out_len`.
 * With any code but OK, `out` is as it was; with OK, so are the results after those of the keys. */
tinystr_result tinystr_hashed_search_each(const void *bytes, size_t bytes_len, size_t capacity,
                                          const void *keys, size_t keys_len,
                                          tinystr_result *out, size_t out_len);

/* Whether the keys are a hashed table, and the values are `value_size` bytes for each of them: 1, 2, 4 or 8. The value of the
 * key at an index, which tinystr_hashed_search finds, is at `values + index * value_size`.
 *   OK                 value: how many keys.
 *   BAD_ARGUMENT       detail: `value_size`, which is none of these sizes.
 *   BAD_HEADER, BAD_VERSION, BAD_INDEX, BAD_LENGTH, NUL, NON_ASCII, MISPLACED
 *                      Of the keys, as tinystr_hashed_check returns.
 *   BAD_VALUES         detail: `values_len`. */
tinystr_result tinystr_hashed_map_check(const void *keys, size_t keys_len, size_t capacity,
                                        const void *values, size_t values_len, size_t value_size);

/* cdef */

/* How many bytes tinystr_hashed_pack needs of `out` and of `scratch` for `count` records, or `(size_t)-1` if they are more. */
#define TINYSTR_HASHED_PACK_OUT(count, capacity) TINYSTR_ROOM_(80, count, (size_t)(capacity) + 3)
#define TINYSTR_HASHED_PACK_SCRATCH(count, capacity) TINYSTR_ROOM_(512, count, (size_t)(capacity) + 40)
#define TINYSTR_ROOM_(least, count, each) \
    ((size_t)(count) > ((size_t)-1 - (least)) / (each) ? (size_t)-1 : (least) + (size_t)(count) * (each))

#ifdef __cplusplus
}
#endif

#endif
