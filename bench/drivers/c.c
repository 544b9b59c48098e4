/* c FOLDER: nanoseconds a call from C, the least of 400 rounds. The folder has locale names (one a line, of at most 17 bytes), and
 * for `languages` and `currencies` strictly ascending packed records of 3 bytes, NAME.sorted, and a hashed table of the same
 * codes, NAME.hashed. Each call is compared with what a C programmer has: a function written by hand, ICU, gperf's function of the
 * currencies, bsearch and memcmp. The results are compared before anything is timed. */
#define _POSIX_C_SOURCE 199309L
#include <stdio.h>
#include <stdlib.h>
#include <string.h>
#include <time.h>
#include <tinystr.h>
#include <unistd.h>
#include <unicode/uloc.h>

enum { MOST_NAMES = 600, MOST_RECORDS = 1 << 14, CAPACITY = 3, KEYS = 1000 };
static char names[MOST_NAMES][TINYSTR_LANGID_ROOM];
static size_t lens[MOST_NAMES], name_count;
static tinystr_result found[KEYS];
static volatile size_t sink;

/* A set of codes: its sorted and its hashed table, and what the functions by hand prepare. */
static uint8_t sorted[CAPACITY * MOST_RECORDS], hashed[4 * MOST_RECORDS], keys[CAPACITY * KEYS];
static size_t sorted_len, hashed_len, record_count;
static uint32_t numbers[MOST_RECORDS];
static struct { uint32_t number, index; } slots[2 * MOST_RECORDS];
static unsigned slot_bits;
static char texts[MOST_RECORDS][CAPACITY + 1];

static double now(void) {
    struct timespec t;
    clock_gettime(CLOCK_MONOTONIC, &t);
    return (double)t.tv_sec * 1e9 + (double)t.tv_nsec;
}

static int is_letter(char c) { return (c | 0x20) >= 'a' && (c | 0x20) <= 'z'; }
static int is_digit(char c) { return c >= '0' && c <= '9'; }

/* The canonical text of a language identifier and its length, or -1: one subtag after another, a byte at a time. */
static int by_hand(const char *in, size_t len, char *out, size_t size) {
    enum { LANGUAGE, SCRIPT_OR_REGION, REGION, END } next = LANGUAGE;
    size_t i = 0, at = 0, k;
    if (len >= size) return -1;
    for (;;) {
        const char *subtag = in + i;
        size_t n, letters = 0, digits = 0;
        for (; i < len && in[i] != '-' && in[i] != '_'; i++) {
            if (is_letter(in[i])) letters++;
            else if (is_digit(in[i])) digits++;
        }
        n = (size_t)(in + i - subtag);
        if (next == LANGUAGE && letters == n && (n == 2 || n == 3 || (n >= 5 && n <= 8))) {
            for (k = 0; k < n; k++) out[at++] = (char)(subtag[k] | 0x20);
            next = SCRIPT_OR_REGION;
        } else if (next == SCRIPT_OR_REGION && n == 4 && letters == 4) {
            out[at++] = '-';
            out[at++] = (char)(subtag[0] & ~0x20);
            for (k = 1; k < 4; k++) out[at++] = (char)(subtag[k] | 0x20);
            next = REGION;
        } else if ((next == SCRIPT_OR_REGION || next == REGION) && ((n == 2 && letters == 2) || (n == 3 && digits == 3))) {
            out[at++] = '-';
            for (k = 0; k < n; k++) out[at++] = (char)(n == 2 ? subtag[k] & ~0x20 : subtag[k]);
            next = END;
        } else {
            return -1;
        }
        if (i++ == len) break;
    }
    out[at] = 0;
    return (int)at;
}

static int compare(const void *a, const void *b) { return memcmp(a, b, CAPACITY); }

static size_t by_bsearch(const uint8_t *key) {
    return (size_t)((uint8_t *)bsearch(key, sorted, record_count, CAPACITY, compare) - sorted) / CAPACITY;
}

/* A number of a record, in the order of the records. */
static uint32_t number_of(const uint8_t *record) { return (uint32_t)(record[0] << 16 | record[1] << 8 | record[2]); }

/* A search of an array of numbers, without branches on what it finds. */
static size_t by_halving(const uint8_t *key) {
    const uint32_t *first = numbers, number = number_of(key);
    size_t left = record_count, half;
    for (; left > 1; left -= half) {
        half = left / 2;
        first += first[half - 1] < number ? half : 0;
    }
    return (size_t)(first - numbers);
}

static size_t slot_of(uint32_t number) { return number * 2654435769u >> (32 - slot_bits); }

/* Open addressing: a table of numbers, at most half full. */
static size_t by_probing(const uint8_t *key) {
    uint32_t number = number_of(key);
    size_t slot = slot_of(number);
    while (slots[slot].number != number && slots[slot].number) slot = (slot + 1) & (((size_t)1 << slot_bits) - 1);
    return slots[slot].index;
}

/* gperf's function. */
struct code { const char *name; int index; };
const struct code *code_by_gperf(const char *text, size_t len);

/* Prints a line: a table, a call, a column without a name, whose call it is, and the nanoseconds of each of the `count` results
 * of `calls` calls. */
#define TIME_CALLS(name, whose, count, calls, call) \
    do { \
        double least = 1e18, start; \
        size_t round, i; \
        for (round = 0; round < 400; round++) { \
            for (start = now(), i = 0; i < (calls); i++) sink += (size_t)(call); \
            if ((start = now() - start) < least) least = start; \
        } \
        printf("From C|%s||%s|%.2f\n", name, whose, least / (double)(count)); \
    } while (0)
#define TIME(name, whose, count, call) TIME_CALLS(name, whose, count, count, call)

static void read_names(const char *path) {
    char line[256];
    FILE *file = fopen(path, "r");
    while (file && name_count < MOST_NAMES && fgets(line, sizeof line, file)) {
        size_t len = strcspn(line, "\n");
        tinystr_result r;
        uint8_t text[TINYSTR_LANGID_ROOM];
        char other[32];
        if (len >= TINYSTR_LANGID_ROOM) continue;
        r = tinystr_langid((uint8_t *)line, len, text, sizeof text);
        if (by_hand(line, len, other, sizeof other) != (r.code ? -1 : (int)r.value) || (!r.code && strcmp(other, (char *)text)))
            exit(3);
        if (r.code) continue;
        memcpy(names[name_count], line, len);
        lens[name_count++] = len;
    }
    if (!file || !name_count) exit(2);
    fclose(file);
}

static size_t read_file(const char *name, const char *kind, uint8_t *bytes, size_t room) {
    char path[64];
    FILE *file;
    size_t len;
    snprintf(path, sizeof path, "%s.%s", name, kind);
    if (!(file = fopen(path, "rb"))) exit(2);
    len = fread(bytes, 1, room, file);
    fclose(file);
    return len;
}

#define RECORD(i) (sorted + CAPACITY * (i))
#define KEY_LEN(key) ((key)[2] ? (size_t)3 : 2)
#define BY_SEARCH(key) tinystr_sorted_search(sorted, sorted_len, CAPACITY, key, KEY_LEN(key)).value
#define BY_HASH(key) tinystr_hashed_search(hashed, hashed_len, CAPACITY, key, KEY_LEN(key)).value

/* Reads both tables of a set, and prepares what is written by hand. Each function finds each record. */
static void read_set(const char *name) {
    size_t k, slot;
    sorted_len = read_file(name, "sorted", sorted, sizeof sorted);
    hashed_len = read_file(name, "hashed", hashed, sizeof hashed);
    record_count = sorted_len / CAPACITY;
    if (tinystr_sorted_check(sorted, sorted_len, CAPACITY).code) exit(2);
    if (tinystr_hashed_check(hashed, hashed_len, CAPACITY).value != record_count) exit(2);
    for (slot_bits = 1; (size_t)1 << slot_bits < 2 * record_count;) slot_bits++;
    memset(slots, 0, sizeof slots);
    for (k = 0; k < record_count; k++) {
        memcpy(texts[k], RECORD(k), CAPACITY);
        numbers[k] = number_of(RECORD(k));
        for (slot = slot_of(numbers[k]); slots[slot].number;) slot = (slot + 1) & (((size_t)1 << slot_bits) - 1);
        slots[slot].number = numbers[k];
        slots[slot].index = (uint32_t)k;
    }
    for (k = 0; k < record_count; k++) {
        const uint8_t *record = RECORD(k);
        size_t index = BY_HASH(record);
        if (BY_SEARCH(record) != k || by_bsearch(record) != k || by_halving(record) != k || by_probing(record) != k) exit(3);
        if (memcmp(hashed + hashed_len - sorted_len + CAPACITY * index, record, CAPACITY)) exit(3);
    }
}

/* Random keys: one call for all of them finds each where a call for it alone does. */
static void draw_keys(void) {
    uint32_t seed = 1;
    size_t k;
    for (k = 0; k < KEYS; k++) {
        seed = seed * 1664525u + 1013904223u;
        memcpy(keys + CAPACITY * k, RECORD(((uint64_t)seed * record_count) >> 32), CAPACITY);
    }
    if (tinystr_sorted_search_each(sorted, sorted_len, CAPACITY, keys, sizeof keys, found, KEYS).value != KEYS) exit(3);
    for (k = 0; k < KEYS; k++)
        if (found[k].code || found[k].value != BY_SEARCH(keys + CAPACITY * k)) exit(3);
}

/* Both searches of a set, with its records in an order that looks random. */
static void time_searches(const char *name) {
    char search[64], hash[64];
    size_t count = record_count;
    snprintf(search, sizeof search, "tinystr_sorted_search, %s", name);
    snprintf(hash, sizeof hash, "tinystr_hashed_search, %s", name);
#define NEXT RECORD(i * 7919 % count)
    TIME(search, "here", count, BY_SEARCH(NEXT));
    TIME(search, "bsearch", count, by_bsearch(NEXT));
    TIME(search, "numbers, halved", count, by_halving(NEXT));
    TIME(hash, "here", count, BY_HASH(NEXT));
    TIME(hash, "bsearch", count, by_bsearch(NEXT));
    TIME(hash, "open addressing", count, by_probing(NEXT));
}

int main(int argc, char **argv) {
    char out[64];
    uint8_t text[TINYSTR_LANGID_ROOM];
    UErrorCode status;
    size_t k;
    if (argc < 2 || chdir(argv[1])) return 2;
    read_names("names");
    printf("note|%zu identifiers", name_count);
    read_set("languages");
    printf(", %zu languages", record_count);
    draw_keys();
    read_set("currencies");
    printf(", %zu currencies\n", record_count);
    TIME("tinystr_langid", "here", name_count, tinystr_langid((uint8_t *)names[i], lens[i], text, sizeof text).value);
    TIME("tinystr_langid", "by hand", name_count, by_hand(names[i], lens[i], out, sizeof out));
    TIME("tinystr_langid", "ICU's uloc_canonicalize", name_count,
         (status = U_ZERO_ERROR, uloc_canonicalize(names[i], out, sizeof out, &status)));
    time_searches("currencies");
    for (k = 0; k < record_count; k++)
        if (code_by_gperf(texts[k], CAPACITY)->index != (int)k) return 3;
    TIME("tinystr_hashed_search, currencies", "gperf", record_count, code_by_gperf(texts[i * 7919 % record_count], CAPACITY)->index);
    read_set("languages");
    time_searches("languages");
#define KEY(i) (keys + CAPACITY * (i))
    TIME_CALLS("tinystr_sorted_search_each, 1,000 languages", "here", KEYS, 1, tinystr_sorted_search_each(sorted, sorted_len, CAPACITY, keys, sizeof keys, found, KEYS).value);
    TIME("tinystr_sorted_search_each, 1,000 languages", "one by one", KEYS, BY_SEARCH(KEY(i)));
    TIME("tinystr_sorted_search_each, 1,000 languages", "bsearch", KEYS, by_bsearch(KEY(i)));
    return 0;
}
