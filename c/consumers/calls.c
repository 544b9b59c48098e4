/* Each call of tinystr.h, with each code, and with NULL. Some arguments have a second fault, which a later check would find. The
 * last line is 'passed' or 'failed'. */
#include <stdio.h>
#include <string.h>
#include <tinystr.h>

static int has_failed;
#define CHECK(fact) \
    do { \
        if (!(fact)) { \
            fprintf(stderr, "%s:%d: %s\n", __FILE__, __LINE__, #fact); \
            has_failed = 1; \
        } \
    } while (0)

/* Whether a result has a code, and a number, which is the value of OK and the detail of any other code. */
static int is(tinystr_result r, uint32_t code, size_t number) {
    if (code == TINYSTR_OK) return r.code == code && r.value == number && r.detail == 0;
    return r.code == code && r.value == 0 && r.detail == (number < UINT32_MAX ? number : UINT32_MAX);
}
static int is_range(tinystr_range r, size_t start, size_t count) {
    return r.code == TINYSTR_OK && r.start == start && r.count == count && r.detail == 0;
}
static int is_no_range(tinystr_range r, uint32_t code, size_t detail) {
    return r.start == 0 && r.count == 0 && is((tinystr_result){0, r.code, r.detail}, code, detail);
}
static int is_filled(tinystr_result r) { return r.value == 77 && r.code == 77 && r.detail == 77; }

/* Whether bytes that were all 7 have a text and NULs up to a length, or are as they were where there is no text. */
static int is_written(const uint8_t *out, const char *text, size_t out_len) {
    size_t k, len = text ? strlen(text) : 0;
    for (k = 0; k <= TINYSTR_LANGID_ROOM; k++)
        if (out[k] != (k < len ? text[k] : text && k < out_len ? 0 : 7)) return 0;
    return 1;
}

/* Of each input and length of `out` the canonical text, and the result of tinystr_langid_parts; tinystr_langid tells no place. */
#define NO_TEXT(code, detail, subtag) NULL, {0, code, detail, subtag, 0, 0, 0, 0, 0}
static void langids(void) {
    static const struct {
        const char *input;
        size_t out_len;
        const char *text;
        tinystr_parts parts;
    } rows[] = {
        {"ZH_hANT-tw", TINYSTR_LANGID_ROOM, "zh-Hant-TW", {10, TINYSTR_OK, 0, 0, 2, 3, 4, 8, 2}},
        {"abcdefgh-Latn-419", TINYSTR_LANGID_ROOM, "abcdefgh-Latn-419", {17, TINYSTR_OK, 0, 0, 8, 9, 4, 14, 3}},
        {"sr-latn", 7, "sr-Latn", {7, TINYSTR_OK, 0, 0, 2, 3, 4, 0, 0}},
        {"EN_us", 5, "en-US", {5, TINYSTR_OK, 0, 0, 2, 0, 0, 3, 2}},
        {"QQQ", 4, "qqq", {3, TINYSTR_OK, 0, 0, 3, 0, 0, 0, 0}},
        {"abcdefgh-Latn-419", 16, NO_TEXT(TINYSTR_NO_ROOM, 17, 0)},
        {"abcd-US", 0, NO_TEXT(TINYSTR_INVALID_LANGUAGE, 0, 0)},
        {"en-", TINYSTR_LANGID_ROOM, NO_TEXT(TINYSTR_INVALID_SUBTAG, 3, 1)},
        {"en-US-posix", TINYSTR_LANGID_ROOM, NO_TEXT(TINYSTR_INVALID_SUBTAG, 6, 2)},
        {"abcdefgh-Latn-419_x", 0, NO_TEXT(TINYSTR_INVALID_SUBTAG, 18, 3)},
    };
    size_t k;
    for (k = 0; k < sizeof rows / sizeof *rows; k++) {
        const char *input = rows[k].input;
        uint8_t out[TINYSTR_LANGID_ROOM + 1];
        tinystr_parts parts;
        tinystr_result r;
        parts = tinystr_langid_parts(input, strlen(input), memset(out, 7, sizeof out), rows[k].out_len);
        CHECK(!memcmp(&parts, &rows[k].parts, sizeof parts) && is_written(out, rows[k].text, rows[k].out_len));
        r = tinystr_langid(input, strlen(input), memset(out, 7, sizeof out), rows[k].out_len);
        CHECK(r.value == parts.value && r.code == parts.code && r.detail == (r.code == TINYSTR_NO_ROOM ? parts.detail : 0));
        CHECK(is_written(out, rows[k].text, rows[k].out_len));
    }
    CHECK(sizeof "abcdefgh-Latn-419" == TINYSTR_LANGID_ROOM);
}

/* Each code has a text of its own, which ends inside TINYSTR_MESSAGE_ROOM. */
static void messages(void) {
    enum { CODES = TINYSTR_DUPLICATE + 2 };
    static char out[CODES][TINYSTR_MESSAGE_ROOM];
    uint32_t code, other;
    for (code = 0; code < CODES; code++) {
        tinystr_result r = tinystr_message(code, out[code], TINYSTR_MESSAGE_ROOM);
        CHECK(r.code == TINYSTR_OK && r.value > 0 && r.value < TINYSTR_MESSAGE_ROOM && is(r, TINYSTR_OK, strlen(out[code])));
        for (other = 0; other < code; other++) CHECK(strcmp(out[code], out[other]));
    }
    memset(out, 7, sizeof out);
    CHECK(is(tinystr_message(TINYSTR_OK, out, 17), TINYSTR_NO_ROOM, 18) && out[0][0] == 7);
    CHECK(is(tinystr_message(TINYSTR_OK, NULL, 0), TINYSTR_NO_ROOM, 18));
    CHECK(is(tinystr_message(TINYSTR_OK, out, 18), TINYSTR_OK, 18) && !memcmp(out, "the call succeeded\7", 19));
    CHECK(is(tinystr_message(TINYSTR_OK, out, 20), TINYSTR_OK, 18) && !memcmp(out, "the call succeeded\0\0\7", 21));
    CHECK(is(tinystr_message(UINT32_MAX, out, sizeof out), TINYSTR_OK, 21) && !strcmp(*out, "there is no such code"));
}

static void texts(void) {
    size_t n;
    uint8_t out[18];
    for (n = 3; n <= 16; n++) {
        memset(out, 7, sizeof out);
        CHECK(is(tinystr_read("eur", 3, out, n), TINYSTR_OK, 3) && !memcmp(out, "eur", 3));
        CHECK((n == 3 || out[3] == 0) && out[n - 1] != 7 && out[n] == 7);
        CHECK(is(tinystr_change_case(out, n, TINYSTR_UPPER), TINYSTR_OK, 3) && !memcmp(out, "EUR", 3) && out[n] == 7);
        CHECK(is(tinystr_change_case(out, n, TINYSTR_LOWER), TINYSTR_OK, 3) && !memcmp(out, "eur", 3));
        CHECK(is(tinystr_change_case(out, n, TINYSTR_TITLE), TINYSTR_OK, 3) && !memcmp(out, "Eur", 3));
        CHECK(is(tinystr_ask(out, n, TINYSTR_ALPHABETIC_TITLECASE), TINYSTR_OK, 1));
        CHECK(is(tinystr_read("a\0cdefghijklmnopq", n + 1, out, n), TINYSTR_TOO_LONG, n + 1) && out[0] == 'E');
    }
    CHECK(is(tinystr_read("\xff", 1, out, 17), TINYSTR_BAD_ARGUMENT, 17) && out[0] == 'E');
    CHECK(is(tinystr_read("a\0b", 3, out, 3), TINYSTR_NUL, 1) && out[0] == 'E');
    CHECK(is(tinystr_read("ab\xc3", 3, out, 3), TINYSTR_NON_ASCII, 2) && out[0] == 'E');
    CHECK(is(tinystr_change_case(out, 17, 3), TINYSTR_BAD_ARGUMENT, 3) && out[0] == 'E');
    CHECK(is(tinystr_change_case(memcpy(out, "Abcdefghijklmnopq", 17), 17, TINYSTR_UPPER), TINYSTR_TOO_LONG, 17) && out[0] == 'A');
    memcpy(out, "a\0b\xff", 4);
    CHECK(is(tinystr_change_case(out, 3, TINYSTR_UPPER), TINYSTR_NUL, 1) && out[0] == 'a');
    CHECK(is(tinystr_change_case(out + 3, 1, TINYSTR_UPPER), TINYSTR_NON_ASCII, 0));
    CHECK(is(tinystr_ask(out, 3, TINYSTR_NUMERIC), TINYSTR_NUL, 1));
    CHECK(is(tinystr_ask(out + 3, 1, TINYSTR_NUMERIC), TINYSTR_NON_ASCII, 0));
    CHECK(is(tinystr_ask("abcdefghijklmnopq", 17, TINYSTR_NUMERIC), TINYSTR_TOO_LONG, 17));
}

static void questions(void) {
    /* of each question a text that has it, and one that hasn't */
    static const char *const yes[] = {"aZ", "a9", "09", "a9", "Ab9", "A9", "az", "Az", "AZ"};
    static const char *const no[] = {"a9", "a-", "a9", "aZ", "aB", "aZ", "aZ", "aZ", "Az"};
    uint32_t question;
    for (question = TINYSTR_ALPHABETIC; question <= TINYSTR_ALPHABETIC_UPPERCASE; question++) {
        CHECK(is(tinystr_ask(yes[question], strlen(yes[question]), question), TINYSTR_OK, 1));
        CHECK(is(tinystr_ask(no[question], 2, question), TINYSTR_OK, 0));
    }
    CHECK(is(tinystr_ask("\xff", 1, question), TINYSTR_BAD_ARGUMENT, question));
}

static void tables(void) {
    static const size_t none[] = {0, 1, 5, 6, 7, 9, 15, 17, SIZE_MAX};
    tinystr_result out = {77, 77, 77};
    size_t k;
    CHECK(is(tinystr_table_check("EURGB\0JPY", 9, 3), TINYSTR_OK, 3));
    CHECK(is(tinystr_table_check("EURJP", 5, 3), TINYSTR_BAD_LENGTH, 5));
    CHECK(is(tinystr_table_check("EURG\0B", 6, 3), TINYSTR_NUL, 1));
    CHECK(is(tinystr_table_check("EURJPYG\xff" "B", 9, 3), TINYSTR_NON_ASCII, 2));
    CHECK(is(tinystr_sorted_check("CHFEURJPY", 9, 3), TINYSTR_OK, 3));
    CHECK(is(tinystr_sorted_check("CHFEUREUR", 9, 3), TINYSTR_NOT_RISING, 2));
    CHECK(is(tinystr_sorted_check("EURCHFJP", 8, 3), TINYSTR_BAD_LENGTH, 8));
    CHECK(is(tinystr_sorted_check("EURCHFG\0B", 9, 3), TINYSTR_NUL, 2));
    CHECK(is(tinystr_sorted_search("CHFEURJPY", 9, 3, "EUR", 3), TINYSTR_OK, 1));
    CHECK(is(tinystr_sorted_search("CHFEURJPY", 9, 3, "GBP", 3), TINYSTR_NOT_FOUND, 2));
    CHECK(is(tinystr_sorted_search("CHFEURJPY", 9, 3, "E\0RO", 4), TINYSTR_TOO_LONG, 4));
    CHECK(is(tinystr_sorted_search("CHFEURGB\0", 9, 3, "GB\0\0", 4), TINYSTR_OK, 2));
    CHECK(is(tinystr_sorted_search("CHFEURJPY", 9, 3, "E\0U", 3), TINYSTR_NUL, 1));
    CHECK(is(tinystr_sorted_search("CHFEURJPY", 9, 3, "E\xff", 2), TINYSTR_NON_ASCII, 1));
    CHECK(is_range(tinystr_sorted_prefix("CADCHFCZKEUR", 12, 3, "C", 1), 0, 3));
    CHECK(is_range(tinystr_sorted_prefix("CADCHFCZKEUR", 12, 3, "D", 1), 3, 0));
    CHECK(is_no_range(tinystr_sorted_prefix("CADCHFCZKEUR", 12, 3, "CADE", 4), TINYSTR_TOO_LONG, 4));
    CHECK(is(tinystr_map_check("EURJPY", 6, 3, "\2\0", 2, 1), TINYSTR_OK, 2));
    CHECK(is(tinystr_map_check("EURJPY", 6, 3, "\2\0", 2, 2), TINYSTR_BAD_VALUES, 2));
    CHECK(is(tinystr_map_check("JPYEUR", 6, 3, "\2", 1, 1), TINYSTR_NOT_RISING, 1));
    CHECK(is(tinystr_map_check("EURJP", 5, 3, "\2\0", 2, 3), TINYSTR_BAD_ARGUMENT, 3));
    CHECK(is(tinystr_hashed_check("", 0, 3), TINYSTR_BAD_HEADER, 0));
    CHECK(is(tinystr_hashed_search("", 0, 3, "EUR", 3), TINYSTR_NOT_FOUND, 0));
    CHECK(is(tinystr_hashed_search("", 0, 3, "E\0RO", 4), TINYSTR_TOO_LONG, 4));
    CHECK(is(tinystr_hashed_search("", 0, 3, "G\0B", 3), TINYSTR_NUL, 1));
    CHECK(is(tinystr_hashed_search("", 0, 3, "E\xff", 2), TINYSTR_NON_ASCII, 1));
    for (k = 0; k < sizeof none / sizeof *none; k++) {
        size_t n = none[k];
        CHECK(is(tinystr_table_check("EURJPY", 6, n), TINYSTR_BAD_ARGUMENT, n));
        CHECK(is(tinystr_sorted_check("JPYEUR", 6, n), TINYSTR_BAD_ARGUMENT, n));
        CHECK(is(tinystr_sorted_search("EURJPY", 6, n, "E\xff", 2), TINYSTR_BAD_ARGUMENT, n));
        CHECK(is(tinystr_sorted_search_each("EURJPY", 6, n, "E\0R", 3, &out, 0), TINYSTR_BAD_ARGUMENT, n));
        CHECK(is_filled(out));
        CHECK(is_no_range(tinystr_sorted_prefix("EURJPY", 6, n, "\xff", 1), TINYSTR_BAD_ARGUMENT, n));
        CHECK(is(tinystr_map_check("EURJPY", 6, n, "\2\0", 2, 3), TINYSTR_BAD_ARGUMENT, n));
        CHECK(is(tinystr_hashed_check("EURJPY", 6, n), TINYSTR_BAD_ARGUMENT, n));
        CHECK(is(tinystr_hashed_search("EURJPY", 6, n, "E\xff", 2), TINYSTR_BAD_ARGUMENT, n));
    }
}

/* Hashed tables without pilots, whose records are in order; diff/c has others. */
#define HEADER "\1\0\0\0" "\0\0\0\0" "\0\0\0\0" "\0\0\0\0"
static void hashed(void) {
    static const char table[] = HEADER "CHFEURGB\0";
    tinystr_result out[3] = {{77, 77, 77}, {77, 77, 77}, {77, 77, 77}};
    CHECK(is(tinystr_hashed_check(table, 25, 3), TINYSTR_OK, 3));
    CHECK(is(tinystr_hashed_check(table, 15, 3), TINYSTR_BAD_HEADER, 15));
    CHECK(is(tinystr_hashed_check("\2\0\0\0" "\0\0\0\0" "\0\0\0\0" "\0\0\0\0", 16, 3), TINYSTR_BAD_VERSION, 2));
    CHECK(is(tinystr_hashed_check("\1\0\0\0" "\3\0\0\0" "\1\0\0\0" "\0\0\0\0" "EUREUR", 22, 3), TINYSTR_BAD_INDEX, 7));
    CHECK(is(tinystr_hashed_check(table, 24, 3), TINYSTR_BAD_LENGTH, 8));
    CHECK(is(tinystr_hashed_check(HEADER "EURCHFG\0B", 25, 3), TINYSTR_NUL, 2));
    CHECK(is(tinystr_hashed_check(HEADER "EURG\xff" "B", 22, 3), TINYSTR_NON_ASCII, 1));
    CHECK(is(tinystr_hashed_check(HEADER "EURCHF", 22, 3), TINYSTR_MISPLACED, 1));
    CHECK(is(tinystr_hashed_search(table, 25, 3, "GB\0\0", 4), TINYSTR_OK, 2));
    CHECK(is(tinystr_hashed_search(table, 25, 3, "USD", 3), TINYSTR_NOT_FOUND, 0));
    CHECK(is(tinystr_hashed_search_each(table, 25, 3, "USDCHF", 6, out, 1), TINYSTR_NO_ROOM, 2) && is_filled(out[0]));
    CHECK(is(tinystr_hashed_search_each(table, 25, 3, "USDCH", 5, out, 0), TINYSTR_BAD_LENGTH, 5) && is_filled(out[0]));
    CHECK(is(tinystr_hashed_search_each(table, 25, 3, "USDC\0F", 6, out, 1), TINYSTR_NUL, 1) && is_filled(out[0]));
    CHECK(is(tinystr_hashed_search_each(table, 25, 3, "USD\xff" "HF", 6, out, 3), TINYSTR_NON_ASCII, 1) && is_filled(out[0]));
    CHECK(is(tinystr_hashed_search_each(table, 25, 3, "USDCHF", 6, out, 3), TINYSTR_OK, 2) && is_filled(out[2]));
    CHECK(is(out[0], TINYSTR_NOT_FOUND, 0) && is(out[1], TINYSTR_OK, 0));
    CHECK(is(tinystr_hashed_map_check(table, 25, 3, "\2\2\2", 3, 1), TINYSTR_OK, 3));
    CHECK(is(tinystr_hashed_map_check(table, 25, 3, "\2\2", 2, 1), TINYSTR_BAD_VALUES, 2));
    CHECK(is(tinystr_hashed_map_check(table, 15, 3, "\2\2\2", 3, 3), TINYSTR_BAD_ARGUMENT, 3));
    CHECK(is(tinystr_hashed_map_check(table, 15, 3, "\2", 1, 1), TINYSTR_BAD_HEADER, 15));
}

/* The codes of tinystr_sorted_pack, in their order. Each leaves the records as they were. */
static void rejected_packs(void) {
    char bytes[] = "JPYE\0RE\xff" "RAB", good[] = "JPYEURCHF";
    uint8_t scratch[9];
    CHECK(is(tinystr_sorted_pack(bytes, 11, 5, NULL, 0), TINYSTR_BAD_ARGUMENT, 5));
    CHECK(is(tinystr_sorted_pack(bytes, 11, 3, NULL, 0), TINYSTR_BAD_LENGTH, 11));
    CHECK(is(tinystr_sorted_pack(bytes, 9, 3, NULL, 0), TINYSTR_NUL, 1));
    CHECK(is(tinystr_sorted_pack(bytes + 6, 3, 3, NULL, 0), TINYSTR_NON_ASCII, 0));
    CHECK(!memcmp(bytes, "JPYE\0RE\xff" "RAB", sizeof bytes));
    CHECK(is(tinystr_sorted_pack(good, 9, 3, NULL, 0), TINYSTR_NO_ROOM, 9));
    CHECK(is(tinystr_sorted_pack(good, 9, 3, scratch, 8), TINYSTR_NO_ROOM, 9) && !strcmp(good, "JPYEURCHF"));
    CHECK(is(tinystr_sorted_pack(good, 9, 3, scratch, 9), TINYSTR_OK, 3) && !strcmp(good, "CHFEURJPY"));
    CHECK(is(tinystr_sorted_pack(NULL, 0, 3, NULL, 0), TINYSTR_OK, 0));
}

/* The codes of tinystr_hashed_pack, in their order. Each but DUPLICATE leaves `out` as it was. */
static void rejected_hashed_packs(void) {
    const char bytes[] = "JPYE\0RE\xff" "RAB", good[] = "JPYEURCHF", twice[] = "JPYEURJPYEUR";
    uint8_t out[TINYSTR_HASHED_PACK_OUT(4, 3)] = {7}, scratch[TINYSTR_HASHED_PACK_SCRATCH(4, 3)];
    CHECK(is(tinystr_hashed_pack(bytes, 11, 5, NULL, 0, NULL, 0), TINYSTR_BAD_ARGUMENT, 5));
    CHECK(is(tinystr_hashed_pack(bytes, 11, 3, NULL, 0, NULL, 0), TINYSTR_BAD_LENGTH, 11));
    CHECK(is(tinystr_hashed_pack(bytes, 9, 3, NULL, 0, NULL, 0), TINYSTR_NUL, 1));
    CHECK(is(tinystr_hashed_pack(bytes + 6, 3, 3, NULL, 0, NULL, 0), TINYSTR_NON_ASCII, 0));
    CHECK(is(tinystr_hashed_pack(good, 9, 3, NULL, 0, NULL, 0), TINYSTR_NO_ROOM, 98));
    CHECK(is(tinystr_hashed_pack(good, 9, 3, out, 97, scratch, sizeof scratch), TINYSTR_NO_ROOM, 98));
    CHECK(is(tinystr_hashed_pack(good, 9, 3, out, 98, NULL, 0), TINYSTR_NO_ROOM, 641));
    CHECK(is(tinystr_hashed_pack(good, 9, 3, out, 98, scratch, 640), TINYSTR_NO_ROOM, 641) && out[0] == 7 && !out[1]);
    CHECK(is(tinystr_hashed_pack(twice, 12, 3, out, sizeof out, scratch, sizeof scratch), TINYSTR_DUPLICATE, 2));
    tinystr_result made = tinystr_hashed_pack(good, 9, 3, out, 98, scratch, 641);
    CHECK(made.code == TINYSTR_OK && made.value <= 98 && is(tinystr_hashed_check(out, made.value, 3), TINYSTR_OK, 3));
    CHECK(is(tinystr_hashed_pack(NULL, 0, 3, out, 80, scratch, 512), TINYSTR_OK, 16));
    const size_t most = (size_t)-1;
    CHECK(TINYSTR_HASHED_PACK_OUT(most / 19 - 5, 16) < most && TINYSTR_HASHED_PACK_OUT(most / 19, 16) == most);
    CHECK(TINYSTR_HASHED_PACK_SCRATCH(most / 44 - 12, 4) < most && TINYSTR_HASHED_PACK_SCRATCH(most / 44, 4) == most);
}

/* Many keys, an `out` that is too short, and keys that aren't records. Nothing is written after the results. */
static void many_keys(void) {
    static const char table[] = "CADCHFEUR", keys[] = "EURUSDCAD";
    tinystr_result out[] = {{77, 77, 77}, {77, 77, 77}, {77, 77, 77}, {77, 77, 77}};
    CHECK(is(tinystr_sorted_search_each(table, 9, 3, keys, 9, out, 2), TINYSTR_NO_ROOM, 3) && is_filled(out[0]));
    CHECK(is(tinystr_sorted_search_each(table, 9, 3, keys, 8, out, 0), TINYSTR_BAD_LENGTH, 8) && is_filled(out[0]));
    CHECK(is(tinystr_sorted_search_each(table, 9, 3, "EURE\0R", 6, out, 1), TINYSTR_NUL, 1) && is_filled(out[0]));
    CHECK(is(tinystr_sorted_search_each(table, 9, 3, "E\xff" "R", 3, out, 3), TINYSTR_NON_ASCII, 0) && is_filled(out[0]));
    CHECK(is(tinystr_sorted_search_each(table, 9, 3, keys, 9, out, 4), TINYSTR_OK, 3) && is_filled(out[3]));
    CHECK(is(out[0], TINYSTR_OK, 2) && is(out[1], TINYSTR_NOT_FOUND, 3) && is(out[2], TINYSTR_OK, 0));
}

/* NULL with no bytes, as each pointer. */
static void null_pointers(void) {
    CHECK(is(tinystr_langid(NULL, 0, NULL, 0), TINYSTR_INVALID_LANGUAGE, 0));
    CHECK(tinystr_langid_parts(NULL, 0, NULL, 0).code == TINYSTR_INVALID_LANGUAGE);
    CHECK(is(tinystr_read(NULL, 0, NULL, 0), TINYSTR_OK, 0));
    CHECK(is(tinystr_ask(NULL, 0, TINYSTR_NUMERIC), TINYSTR_OK, 1));
    CHECK(is(tinystr_change_case(NULL, 0, TINYSTR_UPPER), TINYSTR_OK, 0));
    CHECK(is(tinystr_table_check(NULL, 0, 3), TINYSTR_OK, 0));
    CHECK(is(tinystr_sorted_check(NULL, 0, 3), TINYSTR_OK, 0));
    CHECK(is(tinystr_sorted_search(NULL, 0, 3, NULL, 0), TINYSTR_NOT_FOUND, 0));
    CHECK(is(tinystr_sorted_search_each(NULL, 0, 3, NULL, 0, NULL, 0), TINYSTR_OK, 0));
    CHECK(is_range(tinystr_sorted_prefix(NULL, 0, 3, NULL, 0), 0, 0));
    CHECK(is(tinystr_map_check(NULL, 0, 3, NULL, 0, 8), TINYSTR_OK, 0));
    CHECK(is(tinystr_hashed_check(NULL, 0, 3), TINYSTR_BAD_HEADER, 0));
    CHECK(is(tinystr_hashed_search(NULL, 0, 3, NULL, 0), TINYSTR_NOT_FOUND, 0));
}

int main(void) {
    CHECK(tinystr_version() == TINYSTR_VERSION);
    langids();
    messages();
    texts();
    questions();
    tables();
    hashed();
    rejected_packs();
    rejected_hashed_packs();
    many_keys();
    null_pointers();
    puts(has_failed ? "failed" : "passed");
    return has_failed;
}
