/* The tests that are data, tried from C: reads the rows that vectors.py prints from standard input, each a line of a test, a member
 * and a number, and in hexadecimal the input, a prefix, a table of names and what is wanted. Each text has a buffer of its exact size, after one that
 * is a byte too small, and each input a block of its own, so that a sanitizer sees what is read or written past it. */
#define _POSIX_C_SOURCE 200809L /* getline */
#include "kmip_ttlv.h"

#include <stdio.h>
#include <stdlib.h>
#include <string.h>

typedef struct {
    uint8_t *bytes;
    size_t length;
} block;

typedef struct {
    const char *member;
    size_t number;
    block input, prefix, names, wanted;
} row;

static const char *const KINDS[] = {
    [KMIP_TTLV_WHOLE] = "whole",
    [KMIP_TTLV_CUT] = "cut",
    [KMIP_TTLV_NO_STRUCTURE] = "no_structure",
    [KMIP_TTLV_UNKNOWN_TYPE] = "unknown_type",
    [KMIP_TTLV_PARTIAL_HEADER] = "partial_header",
    [KMIP_TTLV_WRONG_LENGTH] = "wrong_length",
    [KMIP_TTLV_OVERLONG] = "overlong",
    [KMIP_TTLV_INVALID_VALUE] = "invalid_value",
    [KMIP_TTLV_SURPLUS] = "surplus",
    [KMIP_TTLV_TOO_LONG] = "too_long",
    [KMIP_TTLV_NOT_JSON] = "not_json",
    [KMIP_TTLV_TOO_DEEP] = "too_deep",
    [KMIP_TTLV_NOT_ITEM] = "not_item",
    [KMIP_TTLV_NOT_TAG] = "not_tag",
};

static block room_for(size_t length) {
    const block made = {malloc(length ? length : 1), length};
    return made;
}

/* The bytes of hexadecimal digits, which are in lowercase. */
static block decoded(const char *digits) {
    const block made = room_for(strlen(digits) / 2);
    for (size_t i = 0; i < 2 * made.length; i++) {
        const int value = digits[i] <= '9' ? digits[i] - '0' : digits[i] - 'a' + 10;
        made.bytes[i / 2] = (uint8_t)(i % 2 ? made.bytes[i / 2] << 4 | value : value);
    }
    return made;
}

static bool is(const row *it, const char *member) {
    return strcmp(it->member, member) == 0;
}

/* The canonical bytes of a whole message, by a list of its items. */
static kmip_ttlv_status written(const block *in, uint8_t *out, size_t room, size_t *length) {
    const size_t most = in->length / 8 + 1;
    kmip_ttlv_item *items = malloc(most * sizeof *items);
    kmip_ttlv_fault fault;
    kmip_ttlv_bad_item bad;
    size_t count = 0;
    kmip_ttlv_status status = kmip_ttlv_items(in->bytes, in->length, items, most, &count, &fault);
    if (status == KMIP_TTLV_OK) {
        status = kmip_ttlv_write(items, count, in->bytes, in->length, out, room, length, &bad);
    }
    free(items);
    return status;
}

/* Makes the text of a row, or its bytes; `number` is as its member says. */
static kmip_ttlv_status made(const row *it, uint8_t *out, size_t room, size_t *length, size_t *number) {
    const block *in = &it->input, *prefix = &it->prefix, *names = &it->names;
    kmip_ttlv_fault fault = {0, 0};
    kmip_ttlv_status status;
    *number = 0;
    if (is(it, "canonical")) {
        return written(in, out, room, length);
    }
    if (is(it, "lines")) {
        return kmip_ttlv_from_diag(in->bytes, in->length, prefix->bytes, prefix->length, names->bytes, names->length, SIZE_MAX, out,
                                   room, length, number);
    }
    if (is(it, "standard_text")) {
        return kmip_ttlv_to_standard_text(in->bytes, in->length, false, SIZE_MAX, out, room, length);
    }
    if (is(it, "text") || is(it, "closed_text") || is(it, "bad_line")) {
        return kmip_ttlv_to_text(in->bytes, in->length, names->bytes, names->length, is(it, "text"), SIZE_MAX, out, room, length, number);
    }
    if (is(it, "printed_json") || is(it, "printed_hidden_json")) {
        const uint32_t redact = is(it, "printed_json") ? KMIP_TTLV_SHOW_ALL : KMIP_TTLV_REDACT_VALUES;
        status = kmip_ttlv_to_json(in->bytes, in->length, redact, out, room, length, &fault);
    } else if (is(it, "read_json")) {
        status = kmip_ttlv_from_json(in->bytes, in->length, out, room, length, &fault);
    } else if (is(it, "redacted_text")) {
        status = kmip_ttlv_to_redacted_text(in->bytes, in->length, SIZE_MAX, out, room, length, &fault);
    } else if (is(it, "checked_diagnostic")) {
        status = kmip_ttlv_to_diag_checked(in->bytes, in->length, prefix->bytes, prefix->length, out, room, length, &fault);
    } else {
        return kmip_ttlv_to_diag(in->bytes, in->length, prefix->bytes, prefix->length, is(it, "diagnostic"), out, room, length, number);
    }
    *number = fault.offset + fault.kind;
    return status;
}

static bool is_made(const row *it) {
    const kmip_ttlv_status wanted = is(it, "bad_line") ? KMIP_TTLV_BAD_NAMES : KMIP_TTLV_OK;
    size_t length = 99, number = 99;
    const block small = room_for(it->wanted.length ? it->wanted.length - 1 : 0), out = room_for(it->wanted.length);
    bool same = it->wanted.length == 0 || (made(it, small.bytes, small.length, &length, &number) == KMIP_TTLV_NO_ROOM &&
                                           length == it->wanted.length && number == it->number);
    same = same && made(it, out.bytes, out.length, &length, &number) == wanted && number == it->number;
    same = same && length == out.length && memcmp(out.bytes, it->wanted.bytes, length) == 0;
    free(small.bytes);
    free(out.bytes);
    return same;
}

/* Whether a kind of fault has this name. */
static bool is_named(uint32_t kind, const block *name) {
    const char *found = kind < sizeof KINDS / sizeof *KINDS && KINDS[kind] != NULL ? KINDS[kind] : "";
    return strlen(found) == name->length && memcmp(found, name->bytes, name->length) == 0;
}

/* Whether a text is no message's JSON, where and why the row says. */
static bool is_unread(const row *it) {
    kmip_ttlv_fault fault = {9, 9};
    size_t length = 99;
    uint8_t none;
    const kmip_ttlv_status status = kmip_ttlv_from_json(it->input.bytes, it->input.length, &none, 0, &length, &fault);
    return status == KMIP_TTLV_MALFORMED && length == 0 && fault.offset == it->number && is_named(fault.kind, &it->wanted);
}

/* Whether the three calls that check a message have the fault, or, of a row of items, the list has their number. */
static bool is_walked(const row *it) {
    const block *in = &it->input;
    kmip_ttlv_fault checked = {9, 9}, walked = {9, 9}, shown = {9, 9};
    kmip_ttlv_item none;
    size_t count = 99, length = 99;
    const bool is_whole = kmip_ttlv_check(in->bytes, in->length, &checked) == KMIP_TTLV_OK;
    const kmip_ttlv_status walk = kmip_ttlv_items(in->bytes, in->length, &none, 0, &count, &walked);
    const kmip_ttlv_status text = kmip_ttlv_to_diag_checked(in->bytes, in->length, in->bytes, 0, in->bytes, 0, &length, &shown);
    const kmip_ttlv_status wanted = is_whole ? KMIP_TTLV_NO_ROOM : KMIP_TTLV_MALFORMED;
    const bool same = walk == wanted && text == wanted && checked.offset == walked.offset && checked.kind == walked.kind &&
                      checked.offset == shown.offset && checked.kind == shown.kind;
    if (is(it, "items")) {
        return same && count == it->number;
    }
    return same && checked.offset == it->number && is_named(checked.kind, &it->wanted);
}

/* Whether a beginning of a message is cut, and its diagnostic ends so, which has less than twice their length. */
static bool is_cut(const row *it) {
    const block *in = &it->input, out = room_for(2 * in->length + 16);
    kmip_ttlv_fault fault = {9, 9};
    size_t length = 0, items = 0;
    bool same = kmip_ttlv_check(in->bytes, in->length, &fault) == KMIP_TTLV_MALFORMED && fault.kind == KMIP_TTLV_CUT;
    same = same && kmip_ttlv_to_diag(in->bytes, in->length, in->bytes, 0, false, out.bytes, out.length, &length, &items) == KMIP_TTLV_OK;
    same = same && length >= 3 && memcmp(out.bytes + length - 3, "ERR", 3) == 0;
    free(out.bytes);
    return same;
}

/* Ends the field at `at`, and returns the next one. */
static char *next(char *at) {
    char *end = at + strcspn(at, "\t\n");
    const bool is_last = *end != '\t';
    *end = 0;
    return is_last ? end : end + 1;
}

/* Tries a line, and returns whether it is as it says. */
static bool try_line(char *test) {
    char *member = next(test), *number = next(member), *input = next(number), *prefix = next(input), *names = next(prefix);
    char *wanted = next(names);
    next(wanted);
    row it = {member, strtoul(number, NULL, 10), decoded(input), decoded(prefix), decoded(names), decoded(wanted)};
    const bool same = is(&it, "cut")                         ? is_cut(&it)
                      : is(&it, "bad_json")                  ? is_unread(&it)
                      : is(&it, "fault") || is(&it, "items") ? is_walked(&it)
                                                             : is_made(&it);
    if (!same) {
        printf("%s: %s: differs\n", test, member);
    }
    free(it.input.bytes);
    free(it.prefix.bytes);
    free(it.names.bytes);
    free(it.wanted.bytes);
    return same;
}

int main(void) {
    char *line = NULL;
    size_t size = 0, values = 0, differ = 0;
    while (getline(&line, &size, stdin) >= 0) {
        values++;
        differ += !try_line(line);
    }
    free(line);
    printf("vectors: %zu values, %zu differ\n", values, differ);
    return values > 0 && differ == 0 ? 0 : 1;
}
