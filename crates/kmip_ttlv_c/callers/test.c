/* Tests of the library from C: worked messages, buffers that are one byte too small, failing allocations, large and hostile
 * bytes. They run over an allocator of their own; or, with LIBRARY_MEMORY, over the library's, and then what counts and fails
 * are malloc, realloc and free below it (linked with -Wl,--wrap=malloc,--wrap=realloc,--wrap=free). */
#include "kmip_ttlv.h"

#include <stdio.h>
#include <stdlib.h>
#include <string.h>

void *kmip_ttlv_malloc(size_t size);
void *kmip_ttlv_realloc(void *block, size_t size);
void kmip_ttlv_free(void *block);

#ifdef LIBRARY_MEMORY
void *__real_malloc(size_t size);
void *__real_realloc(void *block, size_t size);
void __real_free(void *block);
void *__wrap_malloc(size_t size);
void *__wrap_realloc(void *block, size_t size);
void __wrap_free(void *block);
#define OWN(call) __wrap_##call
#define BELOW(call) __real_##call
#else
#define OWN(call) kmip_ttlv_##call
#define BELOW(call) call
#endif

/* The allocator's call of this number fails, unless it is negative; and how many blocks are in use. */
static long left = -1;
static long blocks = 0;

static bool is_refused(void) {
    if (left < 0) {
        return false;
    }
    if (left == 0) {
        return true;
    }
    left--;
    return false;
}

void *OWN(malloc)(size_t size) {
    if (is_refused()) {
        return NULL;
    }
    blocks++;
    return BELOW(malloc)(size);
}

void *OWN(realloc)(void *block, size_t size) {
    if (is_refused()) {
        return NULL;
    }
    blocks += block == NULL;
    return BELOW(realloc)(block, size);
}

void OWN(free)(void *block) {
    blocks -= block != NULL;
    BELOW(free)(block);
}

static int failed = 0;

static void hold(bool holds, const char *what, int line) {
    if (!holds) {
        printf("test.c:%d: not so: %s\n", line, what);
        failed++;
    }
}

#define HOLD(it) hold((it), #it, __LINE__)

/* The protocol version 1.0, in a structure of two integers. */
static const uint8_t VERSION[40] = {
    0x42, 0x00, 0x69, 0x01, 0,    0,    0,    0x20, 0x42, 0x00, 0x6A, 0x02, 0, 0, 0, 4, 0, 0, 0, 1,
    0,    0,    0,    0,    0x42, 0x00, 0x6B, 0x02, 0,    0,    0,    4,    0, 0, 0, 0, 0, 0, 0, 0,
};

/* No limit on memory. */
static const size_t ANY = SIZE_MAX;

static const uint8_t PREFIX[] = "4200";
static const uint8_t NAMES[] = "# two tags\n420069 Protocol Version\n\n42006A Major\n";
static const char DIAGNOSTIC[] = "69[6Ai6Bi]";
static const char TEXT[] = "Tag: Protocol Version (0x420069), Type: Structure (0x01), Data:\n"
                           "  Tag: Major (0x42006A), Type: Integer (0x02), Data: 0x000001 (1)\n"
                           "  Tag: 0x42006B, Type: Integer (0x02), Data: 0x000000 (0)\n";
static const char STANDARD_TEXT[] = "Tag: Protocol Version (0x420069), Type: Structure (0x01), Data:\n"
                                    "  Tag: Protocol Version Major (0x42006A), Type: Integer (0x02), Data: 0x000001 (1)\n"
                                    "  Tag: Protocol Version Minor (0x42006B), Type: Integer (0x02), Data: 0x000000 (0)\n";
static const char LINES[] = "Tag: Protocol Version (0x420069), Type: Structure (0x01), Data: \n"
                            "  Tag: Major (0x42006A), Type: Integer (0x02), Data: <redacted>\n"
                            "  Tag: 0x42006B, Type: Integer (0x02), Data: <redacted>";

static const char REDACTED_TEXT[] = "Tag: Protocol Version (0x420069), Type: Structure (0x01), Data: \n"
                                    "  Tag: Protocol Version Major (0x42006A), Type: Integer (0x02), Data: <redacted>\n"
                                    "  Tag: Protocol Version Minor (0x42006B), Type: Integer (0x02), Data: <redacted>";
#define ROOT "{\"tag\":\"0x420069\",\"type\":\"Structure\",\"value\":["
#define MAJOR "{\"tag\":\"0x42006A\",\"type\":\"Integer\",\"value\":"
#define MINOR "{\"tag\":\"0x42006B\",\"type\":\"Integer\",\"value\":"
static const char JSON[] = ROOT MAJOR "\"0x00000001\"}," MINOR "\"0x00000000\"}]}";
static const char HIDDEN_JSON[] = ROOT MAJOR "null}," MINOR "null}]}";

/* The tags of an Enumeration and of a mask. */
enum { OPERATION = 0x42005C, USAGE_MASK = 0x42002C };

/* The calls that make a text of the worked message, each with the expected text. */
enum { TO_DIAG, TO_DIAG_CHECKED, TO_TEXT, TO_STANDARD_TEXT, TO_REDACTED_TEXT, FROM_DIAG };
enum { TO_JSON = FROM_DIAG + 1, TO_HIDDEN_JSON, TAG_NAME, VALUE_NAME, MASK_NAMES, GET_VERSION, CALLS };
static const char *const TEXTS[CALLS] = {DIAGNOSTIC, DIAGNOSTIC, TEXT, STANDARD_TEXT, REDACTED_TEXT, LINES, JSON, HIDDEN_JSON,
                                         "Key", "Destroy", "Encrypt | Decrypt", KMIP_TTLV_VERSION};

/* The status of a call that also sets `*other`: the table of names has no bad line, a diagnostic has three items. */
static kmip_ttlv_status with(kmip_ttlv_status status, size_t other, size_t wanted) {
    HOLD(other == (status == KMIP_TTLV_OK || status == KMIP_TTLV_NO_ROOM ? wanted : 0));
    return status;
}

static kmip_ttlv_status call_within(int which, size_t limit, uint8_t *out, size_t room, size_t *length) {
    size_t other = 99;
    kmip_ttlv_fault fault = {9, 9};
    kmip_ttlv_status status;
    switch (which) {
    case TO_DIAG:
        status = kmip_ttlv_to_diag(VERSION, sizeof VERSION, PREFIX, 4, false, out, room, length, &other);
        return with(status, other, 3);
    case TO_DIAG_CHECKED:
        status = kmip_ttlv_to_diag_checked(VERSION, sizeof VERSION, PREFIX, 4, out, room, length, &fault);
        HOLD(fault.kind == KMIP_TTLV_WHOLE && fault.offset == 0);
        return status;
    case TO_TEXT:
        status = kmip_ttlv_to_text(VERSION, sizeof VERSION, NAMES, sizeof NAMES - 1, false, limit, out, room, length, &other);
        return with(status, other, 0);
    case TO_STANDARD_TEXT:
        return kmip_ttlv_to_standard_text(VERSION, sizeof VERSION, false, limit, out, room, length);
    case TO_REDACTED_TEXT:
        status = kmip_ttlv_to_redacted_text(VERSION, sizeof VERSION, limit, out, room, length, &fault);
        HOLD(fault.kind == KMIP_TTLV_WHOLE && fault.offset == 0);
        return status;
    case TO_JSON:
    case TO_HIDDEN_JSON:
        status = kmip_ttlv_to_json(VERSION, sizeof VERSION, which == TO_JSON ? KMIP_TTLV_SHOW_ALL : KMIP_TTLV_REDACT_VALUES, out, room,
                                   length, &fault);
        HOLD(fault.kind == KMIP_TTLV_WHOLE && fault.offset == 0);
        return status;
    case TAG_NAME:
        return kmip_ttlv_tag_name(0x42003F, out, room, length);
    case VALUE_NAME:
        return kmip_ttlv_value_name(OPERATION, 0x14, out, room, length);
    case MASK_NAMES:
        return kmip_ttlv_mask_names(USAGE_MASK, 0x8000000C, out, room, length);
    case FROM_DIAG:
        status = kmip_ttlv_from_diag((const uint8_t *)DIAGNOSTIC, sizeof DIAGNOSTIC - 1, PREFIX, 4, NAMES, sizeof NAMES - 1,
                                     limit, out, room, length, &other);
        return with(status, other, 0);
    default:
        return kmip_ttlv_version(out, room, length);
    }
}

static kmip_ttlv_status call(int which, uint8_t *out, size_t room, size_t *length) {
    return call_within(which, ANY, out, room, length);
}

/* Each text in a buffer of its exact size, and none of it in one that is a byte too small. */
static void texts(void) {
    for (int which = 0; which < CALLS; which++) {
        const char *text = TEXTS[which];
        size_t size = strlen(text), length = 99;
        uint8_t *out = malloc(size + 1);
        memset(out, '.', size + 1);
        HOLD(call(which, out, size - 1, &length) == KMIP_TTLV_NO_ROOM);
        HOLD(length == size && out[0] == '.' && out[size - 1] == '.');
        HOLD(call(which, out, size, &length) == KMIP_TTLV_OK);
        HOLD(length == size && memcmp(out, text, size) == 0 && out[size] == '.');
        free(out);
    }
    size_t length, items = 99;
    uint8_t none[1];
    HOLD(kmip_ttlv_to_diag(none, 0, none, 0, false, none, 0, &length, &items) == KMIP_TTLV_NO_ROOM);
    HOLD(length == 3 && items == 1);
}

static bool is_text(const uint8_t *out, size_t length, const char *text) {
    return length == strlen(text) && memcmp(out, text, length) == 0;
}

/* Texts with the standard's names, of no bytes, and of two empty structures in a third, closed at once or left open. */
static void rare_texts(void) {
    static const uint8_t empty[24] = {0x42, 0, 0x78, 1, 0,    0, 0,    16, 0x42, 0, 0x79, 1,
                                      0,    0, 0,    0, 0x42, 0, 0x69, 1,  0,    0, 0,    0};
    uint8_t out[512];
    size_t length = 99, open = 99, standard = 99;
    HOLD(kmip_ttlv_to_standard_text(empty, 0, false, ANY, out, 512, &length) == KMIP_TTLV_OK);
    HOLD(is_text(out, length, "ERROR: cannot read the item at byte 0"));
    HOLD(kmip_ttlv_to_standard_text(empty, 24, true, ANY, out, 0, &open) == KMIP_TTLV_NO_ROOM);
    HOLD(kmip_ttlv_to_standard_text(empty, 24, false, ANY, out, 0, &standard) == KMIP_TTLV_NO_ROOM);
    HOLD(open == standard + 2 + 2 * strlen("WARNING: TTLV structure length is zero\n"));
}

/* With a limit the calls hold no more memory, and fail if they need more. */
static void limits(void) {
    uint8_t out[512];
    for (int which = TO_TEXT; which <= FROM_DIAG; which++) {
        size_t length = 99;
        HOLD(call_within(which, 0, out, sizeof out, &length) == KMIP_TTLV_OUT_OF_MEMORY && length == 0);
        HOLD(call_within(which, 65536, out, sizeof out, &length) == KMIP_TTLV_OK && is_text(out, length, TEXTS[which]));
    }
}

/* A request header with a version in it: a structure in a structure, whose walk keeps the end of the outer one. */
static const uint8_t NESTED[32] = {
    0x42, 0x00, 0x77, 0x01, 0, 0, 0, 0x18, 0x42, 0x00, 0x69, 0x01, 0, 0, 0, 0x10,
    0x42, 0x00, 0x6A, 0x02, 0, 0, 0, 4,    0,    0,    0,    1,    0, 0, 0, 0,
};

/* Every allocation fails in turn, and all memory is freed. A walk allocates nothing unless structures are in the root. */
static void memory(void) {
    for (int which = 0; which < CALLS; which++) {
        uint8_t out[512];
        for (long n = 0; n < 400; n++) {
            size_t length = 99;
            left = n;
            kmip_ttlv_status status = call(which, out, sizeof out, &length);
            left = -1;
            HOLD(blocks == 0);
            if (status == KMIP_TTLV_OK) {
                break;
            }
            HOLD(status == KMIP_TTLV_OUT_OF_MEMORY && length == 0 && n < 399);
        }
    }
    kmip_ttlv_fault fault;
    kmip_ttlv_item items[3];
    size_t count = 99;
    left = 0;
    HOLD(kmip_ttlv_check(NESTED, sizeof NESTED, &fault) == KMIP_TTLV_OUT_OF_MEMORY && fault.kind == KMIP_TTLV_WHOLE);
    HOLD(kmip_ttlv_items(NESTED, sizeof NESTED, items, 3, &count, &fault) == KMIP_TTLV_OUT_OF_MEMORY && count == 0);
    HOLD(kmip_ttlv_check(VERSION, sizeof VERSION, &fault) == KMIP_TTLV_OK);
    HOLD(kmip_ttlv_items(VERSION, sizeof VERSION, items, 3, &count, &fault) == KMIP_TTLV_OK && count == 3);
    left = -1;
    HOLD(kmip_ttlv_check(NESTED, sizeof NESTED, &fault) == KMIP_TTLV_OK);
    HOLD(kmip_ttlv_items(NESTED, sizeof NESTED, items, 3, &count, &fault) == KMIP_TTLV_OK && count == 3);
    /* JSON is read into bytes, and a bad line needs memory too */
    for (int is_bad = 0; is_bad < 2; is_bad++) {
        const size_t size = sizeof JSON - 1 - (size_t)is_bad;
        kmip_ttlv_status status = KMIP_TTLV_OUT_OF_MEMORY;
        for (long n = 0; n < 400 && status == KMIP_TTLV_OUT_OF_MEMORY; n++) {
            uint8_t out[64];
            size_t length = 99;
            left = n;
            status = kmip_ttlv_from_json((const uint8_t *)JSON, size, out, sizeof out, &length, &fault);
            left = -1;
            HOLD(blocks == 0 && length == (status == KMIP_TTLV_OK ? 40 : 0));
            HOLD((fault.kind == KMIP_TTLV_NOT_JSON) == (status == KMIP_TTLV_MALFORMED));
            HOLD(n > 0 || status == KMIP_TTLV_OUT_OF_MEMORY);
        }
        HOLD(status == (is_bad ? KMIP_TTLV_MALFORMED : KMIP_TTLV_OK));
    }
}

/* Blocks are as large as asked for, and keep what is in them when they move: a sanitizer sees one that is shorter. */
static void blocks_of_memory(void) {
    for (size_t size = 1; size <= (size_t)1 << 22; size += size / 3 + 1) {
        uint8_t *block = kmip_ttlv_malloc(size);
        HOLD(block != NULL);
        memset(block, 0x5A, size);
        block = kmip_ttlv_realloc(block, 3 * size);
        HOLD(block != NULL && block[0] == 0x5A && block[size - 1] == 0x5A);
        memset(block, 0xA5, 3 * size);
        block = kmip_ttlv_realloc(block, size);
        HOLD(block != NULL && block[0] == 0xA5 && block[size - 1] == 0xA5);
        kmip_ttlv_free(block);
        HOLD(blocks == 0);
    }
}

/* More than a million bytes: a structure, and in it the first number of the worked message again and again. */
enum { COUNT = 100000, LARGE = 8 + 16 * COUNT, LARGE_TEXT = 70 * COUNT };

static void put_structure(uint8_t *at, uint32_t length) {
    const uint8_t header[8] = {
        0x42, 0x00, 0x69, 0x01, (uint8_t)(length >> 24), (uint8_t)(length >> 16), (uint8_t)(length >> 8), (uint8_t)length};
    memcpy(at, header, 8);
}

static void large_lists(const uint8_t *bytes, uint8_t *out) {
    kmip_ttlv_item *items = malloc((COUNT + 1) * sizeof *items);
    kmip_ttlv_fault fault;
    kmip_ttlv_bad_item bad;
    size_t length = 0, count = 0;
    HOLD(kmip_ttlv_check(bytes, LARGE, &fault) == KMIP_TTLV_OK);
    HOLD(kmip_ttlv_check(bytes, LARGE - 1, &fault) == KMIP_TTLV_MALFORMED && fault.offset == LARGE - 16);
    HOLD(kmip_ttlv_items(bytes, LARGE, items, COUNT + 1, &count, &fault) == KMIP_TTLV_OK && count == COUNT + 1);
    HOLD(items[COUNT].offset == LARGE - 16 && items[COUNT].depth == 1 && items[COUNT].tag == 0x42006A);
    HOLD(kmip_ttlv_write(items, COUNT + 1, bytes, LARGE, out, LARGE, &length, &bad) == KMIP_TTLV_OK);
    HOLD(length == LARGE && memcmp(out, bytes, LARGE) == 0);
    free(items);
}

static void large_texts(const uint8_t *bytes, uint8_t *out, uint8_t *again) {
    static const char first[] = "Tag: Protocol Version (0x420069), Type: Structure (0x01), Data:\n";
    static const char next[] = "  Tag: Major (0x42006A), Type: Integer (0x02), Data: 0x000001 (1)\n";
    static const char hidden[] = "  Tag: Major (0x42006A), Type: Integer (0x02), Data: <redacted>\n";
    const size_t names = sizeof NAMES - 1, room = LARGE_TEXT;
    size_t length = 0, other = 0, shown = 0;
    HOLD(kmip_ttlv_to_diag(bytes, LARGE, PREFIX, 4, false, out, room, &length, &other) == KMIP_TTLV_OK);
    HOLD(length == 4 + 3 * COUNT && other == COUNT + 1 && memcmp(out, "69[6Ai6Ai", 9) == 0 && out[length - 1] == ']');
    HOLD(kmip_ttlv_from_diag(out, length, PREFIX, 4, NAMES, names, ANY, again, room, &shown, &other) == KMIP_TTLV_OK);
    /* a space behind the root's `Data:`, and no last line feed */
    HOLD(shown == strlen(first) + COUNT * strlen(hidden) && memcmp(again + shown - 60, hidden + strlen(hidden) - 61, 60) == 0);
    HOLD(kmip_ttlv_to_text(bytes, LARGE, NAMES, names, false, ANY, out, room, &length, &other) == KMIP_TTLV_OK);
    HOLD(length == strlen(first) + COUNT * strlen(next) && memcmp(out + length - 60, next + strlen(next) - 60, 60) == 0);
    HOLD(kmip_ttlv_to_standard_text(bytes, LARGE, false, ANY, out, 0, &shown) == KMIP_TTLV_NO_ROOM);
    HOLD(shown == length + COUNT * strlen("Protocol Version "));
    HOLD(kmip_ttlv_to_text(bytes, LARGE, NAMES, names, false, LARGE, out, room, &length, &other) == KMIP_TTLV_OUT_OF_MEMORY);
}

/* As deep as so many bytes can be: a text of four hundred megabytes is an error at once, as no such limit was given. */
static void deep_texts(uint8_t *bytes, uint8_t *out) {
    const size_t deep = 16000;
    for (size_t at = 0; at < 8 * deep; at += 8) {
        put_structure(bytes + at, (uint32_t)(8 * deep - 8 - at));
    }
    kmip_ttlv_fault fault;
    size_t length = 99, other = 99;
    HOLD(kmip_ttlv_check(bytes, 8 * deep, &fault) == KMIP_TTLV_OK);
    const size_t limit = 64 * 8 * deep;
    HOLD(kmip_ttlv_to_standard_text(bytes, 8 * deep, false, limit, out, 0, &length) == KMIP_TTLV_OUT_OF_MEMORY && length == 0);
    HOLD(kmip_ttlv_to_text(bytes, 8 * deep, NAMES, 0, false, limit, out, 0, &length, &other) == KMIP_TTLV_OUT_OF_MEMORY);
    HOLD(kmip_ttlv_to_diag(bytes, 8 * deep, PREFIX, 4, false, out, LARGE_TEXT, &length, &other) == KMIP_TTLV_OK &&
         length == 4 * deep);
    HOLD(kmip_ttlv_from_diag(out, length, PREFIX, 4, NAMES, 0, limit, out + length, 0, &length, &other) ==
         KMIP_TTLV_OUT_OF_MEMORY);
}

static void large(void) {
    uint8_t *bytes = malloc(LARGE), *out = malloc(LARGE_TEXT), *again = malloc(LARGE_TEXT);
    put_structure(bytes, LARGE - 8);
    for (size_t at = 8; at < LARGE; at += 16) {
        memcpy(bytes + at, VERSION + 8, 16);
    }
    large_lists(bytes, out);
    large_texts(bytes, out, again);
    deep_texts(bytes, out);
    free(again);
    free(out);
    free(bytes);
    HOLD(blocks == 0);
}

/* Null where the length is 0, as an empty block is elsewhere. */
static void null_arguments(void) {
    uint8_t out[64];
    size_t length = 99, other = 99;
    kmip_ttlv_fault fault = {9, 9};
    kmip_ttlv_bad_item bad = {9, 9};
    HOLD(kmip_ttlv_to_diag(NULL, 0, NULL, 0, false, NULL, 0, &length, &other) == KMIP_TTLV_NO_ROOM && length == 3 && other == 1);
    HOLD(kmip_ttlv_to_diag(NULL, 0, NULL, 0, false, out, 3, &length, &other) == KMIP_TTLV_OK && is_text(out, length, "ERR"));
    HOLD(kmip_ttlv_to_diag_checked(NULL, 0, NULL, 0, NULL, 0, &length, &fault) == KMIP_TTLV_MALFORMED && fault.kind == KMIP_TTLV_CUT);
    HOLD(kmip_ttlv_to_diag_checked(VERSION, 40, NULL, 0, NULL, 0, &length, &fault) == KMIP_TTLV_NO_ROOM && length == 22);
    HOLD(kmip_ttlv_to_text(NULL, 0, NULL, 0, false, ANY, NULL, 0, &length, &other) == KMIP_TTLV_NO_ROOM && other == 0);
    HOLD(kmip_ttlv_to_text(NULL, 0, NULL, 0, false, ANY, out, 64, &length, &other) == KMIP_TTLV_OK);
    HOLD(is_text(out, length, "ERROR: cannot read the item at byte 0"));
    HOLD(kmip_ttlv_to_standard_text(NULL, 0, false, ANY, NULL, 0, &other) == KMIP_TTLV_NO_ROOM && other == length);
    HOLD(kmip_ttlv_from_diag(NULL, 0, NULL, 0, NULL, 0, ANY, NULL, 0, &length, &other) == KMIP_TTLV_OK && length == 0 && other == 0);
    HOLD(kmip_ttlv_to_redacted_text(NULL, 0, ANY, NULL, 0, &length, &fault) == KMIP_TTLV_MALFORMED && fault.kind == KMIP_TTLV_CUT);
    HOLD(kmip_ttlv_to_redacted_text(VERSION, 40, ANY, NULL, 0, &length, &fault) == KMIP_TTLV_NO_ROOM && length == sizeof REDACTED_TEXT - 1);
    HOLD(kmip_ttlv_to_json(NULL, 0, 0, NULL, 0, &length, &fault) == KMIP_TTLV_MALFORMED && fault.kind == KMIP_TTLV_CUT);
    HOLD(kmip_ttlv_to_json(VERSION, 40, 0, NULL, 0, &length, &fault) == KMIP_TTLV_NO_ROOM && length == sizeof JSON - 1);
    HOLD(kmip_ttlv_from_json(NULL, 0, NULL, 0, &length, &fault) == KMIP_TTLV_MALFORMED && fault.kind == KMIP_TTLV_NOT_JSON);
    HOLD(kmip_ttlv_from_json((const uint8_t *)JSON, sizeof JSON - 1, NULL, 0, &length, &fault) == KMIP_TTLV_NO_ROOM && length == 40);
    HOLD(kmip_ttlv_tag_name(OPERATION, NULL, 0, &length) == KMIP_TTLV_NO_ROOM && length == strlen("Operation"));
    HOLD(kmip_ttlv_value_name(OPERATION, 1, NULL, 0, &length) == KMIP_TTLV_NO_ROOM && length == strlen("Create"));
    HOLD(kmip_ttlv_mask_names(USAGE_MASK, 0, NULL, 0, &length) == KMIP_TTLV_OK && length == 0);
    HOLD(kmip_ttlv_items(NULL, 0, NULL, 0, &other, &fault) == KMIP_TTLV_MALFORMED && other == 0 && fault.kind == KMIP_TTLV_CUT);
    HOLD(kmip_ttlv_items(VERSION, 40, NULL, 0, &other, &fault) == KMIP_TTLV_NO_ROOM && other == 3 && fault.kind == KMIP_TTLV_WHOLE);
    HOLD(kmip_ttlv_check(NULL, 0, &fault) == KMIP_TTLV_MALFORMED && fault.kind == KMIP_TTLV_CUT && fault.offset == 0);
    HOLD(kmip_ttlv_write(NULL, 0, NULL, 0, NULL, 0, &length, &bad) == KMIP_TTLV_OK && length == 0 && bad.kind == KMIP_TTLV_WHOLE);
    HOLD(kmip_ttlv_version(NULL, 0, &length) == KMIP_TTLV_NO_ROOM && length == strlen(KMIP_TTLV_VERSION));
}

/* A pointer and a length. */
typedef struct {
    const uint8_t *at;
    size_t length;
} given;

/* Whether nothing was done, and what is set is 0. */
static bool is_none(kmip_ttlv_status status, size_t length, size_t other) {
    return status == KMIP_TTLV_BAD_ARGUMENT && length == 0 && other == 0;
}

/* Each pair of a pointer and a length in turn is the bad one: null with a length, or a length that no object has. */
static void bad_argument(given bad) {
    uint8_t out[64];
    const given good[4] = {{VERSION, 40}, {PREFIX, 4}, {NAMES, 0}, {out, 64}};
    for (int which = 0; which < 4; which++) {
        given it[4] = {good[0], good[1], good[2], good[3]};
        it[which] = bad;
        uint8_t *to = it[3].at == NULL ? NULL : out;
        const bool has_bytes = which == 0, has_prefix = which == 1, has_names = which == 2, has_out = which == 3;
        size_t length = 99, other = 99;
        kmip_ttlv_fault fault = {9, 9};
        kmip_ttlv_status status =
            kmip_ttlv_to_diag(it[0].at, it[0].length, it[1].at, it[1].length, false, to, it[3].length, &length, &other);
        HOLD(has_names || is_none(status, length, other));
        length = 99;
        status = kmip_ttlv_to_diag_checked(it[0].at, it[0].length, it[1].at, it[1].length, to, it[3].length, &length, &fault);
        HOLD(has_names || is_none(status, length, fault.offset + fault.kind));
        length = other = 99;
        status = kmip_ttlv_to_text(it[0].at, it[0].length, it[2].at, it[2].length, false, ANY, to, it[3].length, &length, &other);
        HOLD(has_prefix || is_none(status, length, other));
        length = 99;
        status = kmip_ttlv_to_standard_text(it[0].at, it[0].length, false, ANY, to, it[3].length, &length);
        HOLD((!has_bytes && !has_out) || is_none(status, length, 0));
        length = other = 99;
        status = kmip_ttlv_from_diag(it[0].at, it[0].length, it[1].at, it[1].length, it[2].at, it[2].length, ANY, to, it[3].length,
                                     &length, &other);
        HOLD(is_none(status, length, other));
        length = 99, fault.kind = 9;
        status = kmip_ttlv_to_redacted_text(it[0].at, it[0].length, ANY, to, it[3].length, &length, &fault);
        HOLD((!has_bytes && !has_out) || is_none(status, length, fault.offset + fault.kind));
        length = 99, fault.kind = 9;
        status = kmip_ttlv_to_json(it[0].at, it[0].length, 0, to, it[3].length, &length, &fault);
        HOLD((!has_bytes && !has_out) || is_none(status, length, fault.offset + fault.kind));
        length = 99, fault.kind = 9;
        status = kmip_ttlv_from_json(it[0].at, it[0].length, to, it[3].length, &length, &fault);
        HOLD((!has_bytes && !has_out) || is_none(status, length, fault.offset + fault.kind));
        length = other = 99;
        status = kmip_ttlv_tag_name(OPERATION, to, it[3].length, &length);
        HOLD(!has_out || is_none(status, length, 0));
        status = kmip_ttlv_value_name(OPERATION, 1, to, it[3].length, &other);
        HOLD(!has_out || is_none(status, other, 0));
        other = 99;
        status = kmip_ttlv_mask_names(USAGE_MASK, 1, to, it[3].length, &other);
        HOLD(!has_out || is_none(status, other, 0));
        length = 99;
        status = kmip_ttlv_version(to, it[3].length, &length);
        HOLD(!has_out || is_none(status, length, 0));
    }
    HOLD(blocks == 0);
}

/* The same of the calls that take or fill a list. */
static void bad_list(given bad, kmip_ttlv_item *list) {
    uint8_t out[64], *to = bad.at == NULL ? NULL : out;
    kmip_ttlv_item *items = bad.at == NULL ? NULL : list;
    /* so many items have more bytes than an object, though their number is one that it can have */
    const size_t count = bad.at == NULL ? 1 : PTRDIFF_MAX / sizeof *list + 1;
    for (int which = 0; which < 6; which++) {
        size_t length = which == 0 ? 0 : 99;
        kmip_ttlv_fault fault = {which < 3 ? 9 : 0, which < 3 ? 9 : 0};
        kmip_ttlv_bad_item item = {which < 3 ? 0 : 9, which < 3 ? 0 : 9};
        kmip_ttlv_status status =
            which == 0   ? kmip_ttlv_check(bad.at, bad.length, &fault)
            : which == 1 ? kmip_ttlv_items(bad.at, bad.length, list, 1, &length, &fault)
            : which == 2 ? kmip_ttlv_items(VERSION, 40, items, count, &length, &fault)
            : which == 3 ? kmip_ttlv_write(list, 0, bad.at, bad.length, out, 64, &length, &item)
            : which == 4 ? kmip_ttlv_write(list, 0, VERSION, 40, to, bad.length, &length, &item)
                         : kmip_ttlv_write(items, count, VERSION, 40, out, 64, &length, &item);
        HOLD(is_none(status, length, fault.offset + fault.kind + item.index + item.kind));
    }
}

static void bad_arguments(void) {
    static kmip_ttlv_item item;
    const given bad[] = {{NULL, 1}, {NULL, SIZE_MAX}, {VERSION, SIZE_MAX}, {VERSION, (size_t)PTRDIFF_MAX + 1}};
    for (size_t i = 0; i < sizeof bad / sizeof *bad; i++) {
        bad_argument(bad[i]);
        bad_list(bad[i], &item);
    }
}

/* JSON that is no message's: where and why; and numbers that hide nothing, or have no name. */
static void no_json(void) {
    static const struct {
        const char *text;
        size_t offset;
        uint32_t kind;
    } rows[] = {
        {"", 0, KMIP_TTLV_NOT_JSON},
        {ROOT "]} 1", sizeof ROOT - 1 + 3, KMIP_TTLV_NOT_JSON},
        {" 12", 1, KMIP_TTLV_NOT_ITEM},
        {ROOT "[]]}", sizeof ROOT - 1, KMIP_TTLV_NOT_ITEM},
        {"{\"tag\":\"420069\",\"type\":\"Structure\",\"value\":[]}", 0, KMIP_TTLV_NOT_TAG},
        {ROOT "{\"tag\":\"0x42006A\",\"type\":\"integer\",\"value\":[]}]}", sizeof ROOT - 1, KMIP_TTLV_UNKNOWN_TYPE},
        {ROOT MAJOR "\"0x0001\"}]}", sizeof ROOT - 1, KMIP_TTLV_INVALID_VALUE},
        {MAJOR "\"0x00000001\"}", 0, KMIP_TTLV_NO_STRUCTURE},
    };
    uint8_t out[64];
    size_t length = 99;
    kmip_ttlv_fault fault = {9, 9};
    for (size_t row = 0; row < sizeof rows / sizeof *rows; row++) {
        const char *text = rows[row].text;
        length = 99;
        HOLD(kmip_ttlv_from_json((const uint8_t *)text, strlen(text), out, 64, &length, &fault) == KMIP_TTLV_MALFORMED && length == 0);
        HOLD(fault.offset == rows[row].offset && fault.kind == rows[row].kind);
    }
    char deep[128];
    memset(deep, '[', sizeof deep);
    HOLD(kmip_ttlv_from_json((const uint8_t *)deep, 128, out, 64, &length, &fault) == KMIP_TTLV_MALFORMED);
    HOLD(fault.offset == 127 && fault.kind == KMIP_TTLV_TOO_DEEP);
    HOLD(kmip_ttlv_from_json((const uint8_t *)JSON, sizeof JSON - 1, out, 39, &length, &fault) == KMIP_TTLV_NO_ROOM && length == 40);
    HOLD(kmip_ttlv_from_json((const uint8_t *)JSON, sizeof JSON - 1, out, 40, &length, &fault) == KMIP_TTLV_OK && length == 40);
    HOLD(memcmp(out, VERSION, 40) == 0 && fault.kind == KMIP_TTLV_WHOLE && fault.offset == 0);
    static const uint8_t bad[] = {0xFF};
    fault.kind = 9;
    HOLD(kmip_ttlv_from_json(bad, 1, out, 64, &length, &fault) == KMIP_TTLV_NOT_UTF8 && length == 0 && fault.kind == KMIP_TTLV_WHOLE);
    static const uint32_t none[] = {3, 0xFFFFFFFF};
    for (int i = 0; i < 2; i++) {
        fault.kind = 9, length = 99;
        const kmip_ttlv_status status = kmip_ttlv_to_json(VERSION, 40, none[i], out, 64, &length, &fault);
        HOLD(is_none(status, length, fault.offset + fault.kind));
    }
}

/* Names: none of another number, whatever its lowest three bytes are. */
static void no_names(void) {
    static const uint32_t rows[][2] = {{OPERATION, 0xFFFFFF}, {0x420069, 1}, {0x1000000 + OPERATION, 1}, {0, 0}, {0xFFFFFFFF, 0xFFFFFFFF}};
    uint8_t out[64];
    for (size_t row = 0; row < sizeof rows / sizeof *rows; row++) {
        const uint32_t tag = rows[row][0], value = rows[row][1];
        size_t length = 99;
        const bool has_name = kmip_ttlv_tag_name(tag, out, 64, &length) == KMIP_TTLV_OK;
        HOLD(has_name == (tag == OPERATION || tag == 0x420069) && (has_name || length == 0));
        length = 99;
        HOLD(kmip_ttlv_value_name(tag, value, out, 64, &length) == KMIP_TTLV_NO_NAME && length == 0);
        length = 99;
        HOLD(kmip_ttlv_mask_names(tag, value, out, 64, &length) == KMIP_TTLV_NO_NAME && length == 0);
    }
}

static void refusals(void) {
    static const uint8_t bad[] = {0xFF};
    size_t length = 99, items = 99, line = 99;
    uint8_t out[64];
    HOLD(kmip_ttlv_to_diag(VERSION, 40, bad, 1, false, out, 64, &length, &items) == KMIP_TTLV_NOT_UTF8);
    HOLD(length == 0 && items == 0);
    kmip_ttlv_fault fault = {9, 9};
    HOLD(kmip_ttlv_to_diag_checked(VERSION, 40, bad, 1, out, 64, &length, &fault) == KMIP_TTLV_NOT_UTF8);
    HOLD(length == 0 && fault.kind == KMIP_TTLV_WHOLE && fault.offset == 0);
    HOLD(kmip_ttlv_to_text(VERSION, 40, bad, 1, false, ANY, out, 64, &length, &line) == KMIP_TTLV_NOT_UTF8 && line == 0);
    static const uint8_t names[] = "42006A Major\n\nMinor";
    HOLD(kmip_ttlv_to_text(VERSION, 40, names, sizeof names - 1, false, ANY, out, 64, &length, &line) == KMIP_TTLV_BAD_NAMES);
    HOLD(length == 0 && line == 3);
    for (int which = 0; which < 3; which++) {
        kmip_ttlv_status status =
            kmip_ttlv_from_diag(bad, which == 0, bad, which == 1, bad, which == 2, ANY, out, 64, &length, &line);
        HOLD(status == KMIP_TTLV_NOT_UTF8 && line == 0 && length == 0);
    }
    HOLD(kmip_ttlv_from_diag(PREFIX, 4, PREFIX, 4, names, sizeof names - 1, ANY, out, 64, &length, &line) ==
         KMIP_TTLV_BAD_NAMES);
    HOLD(length == 0 && line == 3);
}

static void walks(void) {
    kmip_ttlv_item items[4];
    kmip_ttlv_fault fault;
    size_t count = 99;
    memset(items, 0x55, sizeof items);
    HOLD(kmip_ttlv_items(VERSION, 40, items, 4, &count, &fault) == KMIP_TTLV_OK);
    HOLD(count == 3 && fault.kind == KMIP_TTLV_WHOLE && fault.offset == 0);
    HOLD(items[0].tag == 0x420069 && items[0].typ == KMIP_TTLV_STRUCTURE && items[0].length == 32);
    HOLD(items[0].offset == 0 && items[0].depth == 0);
    HOLD(items[2].tag == 0x42006B && items[2].typ == KMIP_TTLV_INTEGER && items[2].length == 4);
    HOLD(items[2].offset == 24 && items[2].depth == 1);
    HOLD(items[3].tag == 0x55555555);
    memset(items, 0x55, sizeof items);
    HOLD(kmip_ttlv_items(VERSION, 40, items, 2, &count, &fault) == KMIP_TTLV_NO_ROOM);
    HOLD(count == 3 && items[1].offset == 8 && items[2].tag == 0x55555555);
    HOLD(kmip_ttlv_items(VERSION, 40, items, 1, &count, &fault) == KMIP_TTLV_NO_ROOM && count == 3 && items[1].offset == 8);
    /* the message of one item, into a list of one */
    static const uint8_t alone[8] = {0x42, 0x00, 0x69, 0x01, 0, 0, 0, 0};
    HOLD(kmip_ttlv_items(alone, 8, items, 1, &count, &fault) == KMIP_TTLV_OK && count == 1 && items[0].length == 0);
    HOLD(kmip_ttlv_items(alone, 8, items, 0, &count, &fault) == KMIP_TTLV_NO_ROOM && count == 1);
    uint8_t message[48];
    memcpy(message, VERSION, 40);
    message[31] = 5;
    HOLD(kmip_ttlv_items(message, 40, items, 4, &count, &fault) == KMIP_TTLV_MALFORMED);
    HOLD(count == 2 && fault.kind == KMIP_TTLV_WRONG_LENGTH && fault.offset == 24);
    HOLD(kmip_ttlv_check(message, 40, &fault) == KMIP_TTLV_MALFORMED && fault.offset == 24);
    HOLD(kmip_ttlv_check(VERSION, 40, &fault) == KMIP_TTLV_OK);
    for (size_t cut = 0; cut < 40; cut++) {
        HOLD(kmip_ttlv_check(VERSION, cut, &fault) == KMIP_TTLV_MALFORMED && fault.kind == KMIP_TTLV_CUT);
        HOLD(fault.offset == (cut < 8 ? 0u : cut < 24 ? 8u : 24u));
    }
    HOLD(kmip_ttlv_items(VERSION, 39, items, 4, &count, &fault) == KMIP_TTLV_MALFORMED);
    HOLD(count == 2 && items[1].offset == 8 && fault.offset == 24);
    memcpy(message, VERSION, 40);
    memset(message + 40, 0, 8);
    HOLD(kmip_ttlv_check(message, 41, &fault) == KMIP_TTLV_MALFORMED);
    HOLD(fault.kind == KMIP_TTLV_SURPLUS && fault.offset == 40);
}

/* Items written: those of a message, others made from nothing, and bad ones; no memory is asked for. */
static void writing(void) {
    kmip_ttlv_item items[3];
    kmip_ttlv_fault fault;
    kmip_ttlv_bad_item bad = {7, 7};
    uint8_t message[40], out[48];
    size_t count = 99, length = 99;
    memcpy(message, VERSION, 40);
    message[23] = 0x55; /* padding that is not zero */
    HOLD(kmip_ttlv_items(message, 40, items, 3, &count, &fault) == KMIP_TTLV_OK && count == 3);
    left = 0;
    memset(out, '.', sizeof out);
    HOLD(kmip_ttlv_write(items, 3, message, 40, out, 39, &length, &bad) == KMIP_TTLV_NO_ROOM);
    HOLD(length == 40 && bad.kind == KMIP_TTLV_WHOLE && bad.index == 0 && out[0] == '.' && out[39] == '.');
    HOLD(kmip_ttlv_write(items, 3, message, 40, out, 48, &length, &bad) == KMIP_TTLV_OK);
    HOLD(length == 40 && bad.kind == KMIP_TTLV_WHOLE && memcmp(out, VERSION, 40) == 0 && out[40] == '.');
    HOLD(kmip_ttlv_write(items, 0, message, 0, out, 0, &length, &bad) == KMIP_TTLV_OK && length == 0);
    /* an item left out: the structure gets shorter */
    HOLD(kmip_ttlv_write(items, 2, message, 40, out, 48, &length, &bad) == KMIP_TTLV_OK && length == 24 && out[7] == 0x10);
    HOLD(memcmp(out + 8, VERSION + 8, 16) == 0);
    /* from nothing: eight bytes of any value, and the two values */
    static const uint8_t values[16] = {0, 0, 0, 0, 0, 0, 0, 0, 0, 0, 0, 1, 0, 0, 0, 0};
    static const kmip_ttlv_item made[3] = {
        {0, 0, 0x420069, KMIP_TTLV_STRUCTURE, 0},
        {0, 1, 0x42006A, KMIP_TTLV_INTEGER, 4},
        {4, 1, 0x42006B, KMIP_TTLV_INTEGER, 4},
    };
    HOLD(kmip_ttlv_write(made, 3, values, 16, out, 40, &length, &bad) == KMIP_TTLV_OK && length == 40);
    HOLD(memcmp(out, VERSION, 40) == 0);
    static const struct {
        kmip_ttlv_item item;
        uint32_t kind;
    } rows[] = {
        {{0, 2, 0x420020, KMIP_TTLV_INTEGER, 4}, KMIP_TTLV_NOT_INSIDE},
        {{0, 1, 0x1000000, KMIP_TTLV_INTEGER, 4}, KMIP_TTLV_LONG_TAG},
        {{0, 1, 0x420020, 0, 4}, KMIP_TTLV_UNKNOWN_TYPE},
        {{0, 1, 0x420020, 256 + 2, 4}, KMIP_TTLV_UNKNOWN_TYPE},
        {{0, 1, 0x420020, KMIP_TTLV_DATE_TIME, 4}, KMIP_TTLV_WRONG_LENGTH},
        {{5, 1, 0x420020, KMIP_TTLV_INTEGER, 4}, KMIP_TTLV_OUTSIDE},
        {{SIZE_MAX, 1, 0x420020, KMIP_TTLV_BYTE_STRING, 0}, KMIP_TTLV_OUTSIDE},
        {{0, 1, 0x420020, KMIP_TTLV_BYTE_STRING, UINT32_MAX}, KMIP_TTLV_OUTSIDE},
        {{0, 1, 0x420020, KMIP_TTLV_BOOLEAN, 8}, KMIP_TTLV_INVALID_VALUE},
    };
    for (size_t row = 0; row < sizeof rows / sizeof rows[0]; row++) {
        kmip_ttlv_item some[3] = {made[0], made[1], rows[row].item};
        memset(out, '.', sizeof out);
        HOLD(kmip_ttlv_write(some, 3, values, 16, out, 48, &length, &bad) == KMIP_TTLV_MALFORMED);
        HOLD(length == 0 && bad.index == 2 && bad.kind == rows[row].kind && out[0] == '.');
    }
    left = -1;
}

/* What is shown of one whole message alone: of one that is cut, or has a byte too many, nothing but the fault, whatever room there is. */
static void checked(void) {
    uint8_t message[41], out[512];
    memcpy(message, VERSION, 40);
    message[40] = 0;
    for (size_t size = 0; size <= 41; size++) {
        kmip_ttlv_fault fault = {9, 9}, wanted = {9, 9};
        size_t length = 99;
        memset(out, '.', sizeof out);
        kmip_ttlv_status status = kmip_ttlv_to_diag_checked(message, size, PREFIX, 4, out, size == 7 ? 0 : sizeof out, &length, &fault);
        HOLD(status == kmip_ttlv_check(message, size, &wanted) && status == (size == 40 ? KMIP_TTLV_OK : KMIP_TTLV_MALFORMED));
        HOLD(fault.kind == wanted.kind && fault.offset == wanted.offset);
        HOLD(size == 40 ? is_text(out, length, DIAGNOSTIC) : length == 0 && out[0] == '.' && memcmp(out, out + 1, sizeof out - 1) == 0);
        for (int redact = -1; redact < 3; redact++) {
            const kmip_ttlv_fault unset = {9, 9};
            fault = unset, length = 99;
            memset(out, '.', sizeof out);
            status = redact < 0 ? kmip_ttlv_to_redacted_text(message, size, ANY, out, sizeof out, &length, &fault)
                                : kmip_ttlv_to_json(message, size, (uint32_t)redact, out, sizeof out, &length, &fault);
            HOLD(status == (size == 40 ? KMIP_TTLV_OK : KMIP_TTLV_MALFORMED) && fault.kind == wanted.kind && fault.offset == wanted.offset);
            const char *text = redact < 0 ? REDACTED_TEXT : redact == 2 ? HIDDEN_JSON : JSON;
            HOLD(size == 40 ? is_text(out, length, text) : length == 0 && out[0] == '.' && memcmp(out, out + 1, sizeof out - 1) == 0);
        }
    }
    /* a password is secret, and what is in a credential's value */
    static const uint8_t secret[] = {0x42, 0, 0x23, 1, 0, 0, 0, 40, 0x42, 0, 0xA1, 7, 0, 0, 0, 1, 'p', 0, 0, 0, 0, 0, 0, 0,
                                     0x42, 0, 0x25, 1, 0, 0, 0, 16, 0x42, 0, 0x24, 5, 0, 0, 0, 4, 0,   0, 0, 1, 0, 0, 0, 0};
    static const char shown[] = "{\"tag\":\"0x420023\",\"type\":\"Structure\",\"value\":["
                                "{\"tag\":\"0x4200A1\",\"type\":\"TextString\",\"value\":null},"
                                "{\"tag\":\"0x420025\",\"type\":\"Structure\",\"value\":["
                                "{\"tag\":\"0x420024\",\"type\":\"Enumeration\",\"value\":null}]}]}";
    kmip_ttlv_fault fault;
    size_t length = 99;
    HOLD(kmip_ttlv_to_json(secret, sizeof secret, KMIP_TTLV_REDACT_SECRETS, out, sizeof out, &length, &fault) == KMIP_TTLV_OK);
    HOLD(is_text(out, length, shown));
}

/* Hostile bytes: the worked message with bits flipped, cut anywhere. Each block is as long as what is lent, so that a
 * sanitizer sees what is read or written past it. */
static void hostile(void) {
    uint64_t seed = 20251123;
    for (int round = 0; round < 10000; round++) {
        seed = seed * 6364136223846793005u + 1442695040888963407u;
        size_t size = (size_t)(seed >> 33) % 41, room = (size_t)(seed >> 40) % 200;
        uint8_t *bytes = malloc(size + 1), *out = malloc(room + 1);
        memcpy(bytes, VERSION, size);
        for (int flip = 0; size > 0 && flip < (int)(seed >> 60); flip++) {
            seed = seed * 6364136223846793005u + 1442695040888963407u;
            bytes[(size_t)(seed >> 33) % size] ^= (uint8_t)(1u << (seed >> 61));
        }
        size_t length = 0, count = 0, line = 0;
        kmip_ttlv_item *items = malloc(2 * sizeof *items);
        kmip_ttlv_fault fault;
        out[room] = 0x77;
        kmip_ttlv_status walk = kmip_ttlv_items(bytes, size, items, 2, &count, &fault);
        HOLD((walk == KMIP_TTLV_MALFORMED) == (fault.kind != KMIP_TTLV_WHOLE) && count <= size / 8);
        kmip_ttlv_fault same;
        HOLD((kmip_ttlv_check(bytes, size, &same) == KMIP_TTLV_MALFORMED) == (walk == KMIP_TTLV_MALFORMED));
        HOLD(same.kind == fault.kind && same.offset == fault.offset && fault.offset <= size);
        if (count <= 2) {
            kmip_ttlv_bad_item bad;
            size_t written = 0;
            kmip_ttlv_status wrote = kmip_ttlv_write(items, count, bytes, size, out, room, &written, &bad);
            HOLD(wrote == (written > room ? KMIP_TTLV_NO_ROOM : KMIP_TTLV_OK) && written <= size && out[room] == 0x77);
        }
        kmip_ttlv_status status = kmip_ttlv_to_diag(bytes, size, PREFIX, 4, false, out, room, &length, &count);
        HOLD(status == (length > room ? KMIP_TTLV_NO_ROOM : KMIP_TTLV_OK) && count <= size / 8 + 1);
        if (status == KMIP_TTLV_OK) {
            uint8_t lines[4096];
            size_t shown = 0;
            HOLD(kmip_ttlv_from_diag(out, length, PREFIX, 4, NAMES, 0, ANY, lines, sizeof lines, &shown, &line) ==
                 KMIP_TTLV_OK);
        }
        uint8_t json[1024], again[64];
        size_t read = 0;
        HOLD(kmip_ttlv_to_json(bytes, size, KMIP_TTLV_SHOW_ALL, json, sizeof json, &length, &same) ==
             (walk == KMIP_TTLV_MALFORMED ? KMIP_TTLV_MALFORMED : KMIP_TTLV_OK));
        if (length > 0) {
            HOLD(kmip_ttlv_from_json(json, length, again, sizeof again, &read, &same) == KMIP_TTLV_OK && read == size);
        }
        status = kmip_ttlv_to_text(bytes, size, NAMES, 0, true, ANY, out, room, &length, &line);
        HOLD(status == (length > room ? KMIP_TTLV_NO_ROOM : KMIP_TTLV_OK) && out[room] == 0x77);
        free(items);
        free(out);
        free(bytes);
    }
}

int main(void) {
    texts();
    rare_texts();
    limits();
    memory();
    blocks_of_memory();
    large();
    null_arguments();
    bad_arguments();
    refusals();
    no_json();
    no_names();
    walks();
    checked();
    writing();
    hostile();
    HOLD(blocks == 0);
    printf("C: %s\n", failed ? "failed" : "all held");
    return failed ? 1 : 0;
}
