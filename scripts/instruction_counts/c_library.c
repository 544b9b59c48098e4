/* The calls of the C library on small fixed inputs, for scripts/checks/instruction-counts, as crates/instruction_counts
 * has those of the other libraries: a line after each call of a function whose name begins with `counted_`. */
#include <stdio.h>
#include <string.h>
#include <tinystr.h>

#define COUNTED __attribute__((noinline)) static void
enum { RECORDS = 1000, KEYS = 512, LISTS = 256, MOST = 16 };

static uint8_t records[RECORDS * MOST], keys[KEYS * MOST], bytes[LISTS + 64];
static tinystr_result found[KEYS];

/* Eight letters of a number, and eight letters `m`, cut after `n` bytes. */
static void put_text(uint8_t *text, size_t n, uint32_t number) {
    for (size_t at = 0; at < n; at++) text[at] = at < 8 ? 'a' + (number >> (28 - 4 * at)) % 16 : 'm';
}

/* A random number, by the last steps of MurmurHash3. */
static uint32_t random_of(uint32_t number) {
    uint32_t bits = (number + 1) * 0x9e3779b9;
    bits = (bits ^ (bits >> 16)) * 0x85ebca6b;
    bits = (bits ^ (bits >> 13)) * 0xc2b2ae35;
    return bits ^ (bits >> 16);
}

/* Records and keys of a capacity. A step of 0 means random keys. */
static void put_all(size_t n, uint32_t step) {
    for (uint32_t index = 0; index < RECORDS; index++) put_text(records + index * n, n, 2 * index);
    for (uint32_t key = 0; key < KEYS; key++) put_text(keys + key * n, n, 2 * ((step ? key * step : random_of(key)) % RECORDS));
}

COUNTED counted_search(size_t n) {
    for (size_t key = 0; key < KEYS; key++) tinystr_sorted_search(records, RECORDS * n, n, keys + key * n, n);
}

COUNTED counted_prefix(size_t n, size_t len) {
    for (size_t key = 0; key < KEYS; key++) tinystr_sorted_prefix(records, RECORDS * n, n, keys + key * n, len);
}

COUNTED counted_search_each(size_t n) { tinystr_sorted_search_each(records, RECORDS * n, n, keys, KEYS * n, found, KEYS); }

COUNTED counted_read(size_t n) {
    uint8_t out[MOST];
    for (size_t start = 0; start < LISTS; start++) tinystr_read(bytes + start, start % (n + 2), out, n);
}

COUNTED counted_langid(void) {
    static const char *const inputs[] = {"en-US", "de", "zh_hant_tw", "EN_us", "fr-CA", "es-419",
                                         "en-US-posix", "e", "sr-Latn", "ja-JP", "pt_BR", "hsb-DE"};
    uint8_t out[TINYSTR_LANGID_ROOM];
    for (size_t input = 0; input < LISTS; input++) tinystr_langid(inputs[input % 12], strlen(inputs[input % 12]), out, sizeof out);
}

int main(void) {
    put_all(8, 0);
    counted_search(8), puts("tinystr_sorted_search 8 1000 random");
    counted_prefix(8, 7), puts("tinystr_sorted_prefix 8 1000 prefixes");
    put_all(MOST, 5);
    counted_search_each(MOST), puts("tinystr_sorted_search_each 16 1000 every fifth record");
    for (size_t at = 0; at < sizeof bytes; at++) bytes[at] = at % 61 == 60 ? 0x80 : 'a' + at % 26;
    counted_read(MOST), puts("tinystr_read 16 256 lists");
    counted_langid(), puts("tinystr_langid 18 256 lists");
    return 0;
}
