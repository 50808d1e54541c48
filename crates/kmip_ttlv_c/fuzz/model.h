/* What the header promises, written apart from the library: the walk over a message, its canonical bytes and its diagnostic;
 * and an allocator that counts, and fails where it is told to. Each target includes this. */
#ifndef MODEL_H
#define MODEL_H

#include "kmip_ttlv.h"

#include <stdio.h>
#include <stdlib.h>
#include <string.h>

int LLVMFuzzerTestOneInput(const uint8_t *data, size_t size);

/* Ends the run: libFuzzer keeps the input. */
#define HOLD(it) ((it) ? (void)0 : (fprintf(stderr, "%s:%d: not so: %s\n", __FILE__, __LINE__, #it), abort()))

/* The allocator's call of this number fails, unless it is negative; how many bytes are in use, and the most that were. */
static long left = -1;
static size_t used, most;

void *kmip_ttlv_malloc(size_t size);
void *kmip_ttlv_realloc(void *block, size_t size);
void kmip_ttlv_free(void *block);

void *kmip_ttlv_malloc(size_t size) {
    if (left == 0) {
        return NULL;
    }
    left -= left > 0;
    size_t *block = malloc(size + 16);
    block[0] = size;
    used += size;
    most = used > most ? used : most;
    return block + 2;
}

void kmip_ttlv_free(void *block) {
    if (block != NULL) {
        size_t *own = (size_t *)block - 2;
        used -= own[0];
        free(own);
    }
}

void *kmip_ttlv_realloc(void *block, size_t size) {
    void *new = kmip_ttlv_malloc(size);
    if (new != NULL && block != NULL) {
        const size_t old = ((size_t *)block - 2)[0];
        memcpy(new, block, old < size ? old : size);
        kmip_ttlv_free(block);
    }
    return new;
}

/* A copy in a block of exactly this size, so that reading past it is seen. */
static inline uint8_t *copy_of(const uint8_t *bytes, size_t size) {
    uint8_t *copy = malloc(size);
    if (size > 0) {
        memcpy(copy, bytes, size);
    }
    return copy;
}

static inline uint32_t number_at(const uint8_t *bytes, size_t at, int size) {
    uint32_t number = 0;
    for (int i = 0; i < size; i++) {
        number = number << 8 | bytes[at + (size_t)i];
    }
    return number;
}

static inline bool is_utf8(const uint8_t *bytes, size_t size) {
    for (size_t at = 0; at < size;) {
        const uint8_t first = bytes[at++];
        const size_t more = first < 0x80   ? 0
                            : first < 0xC2 ? SIZE_MAX
                            : first < 0xE0 ? 1
                            : first < 0xF0 ? 2
                            : first < 0xF5 ? 3
                                           : SIZE_MAX;
        if (more > size - at) {
            return false;
        }
        for (size_t i = 0; i < more; i++) {
            const uint8_t low = i > 0 ? 0x80 : first == 0xE0 ? 0xA0 : first == 0xF0 ? 0x90 : 0x80;
            const uint8_t high = i > 0 ? 0xBF : first == 0xED ? 0x9F : first == 0xF4 ? 0x8F : 0xBF;
            if (bytes[at] < low || bytes[at] > high) {
                return false;
            }
            at++;
        }
    }
    return true;
}

/* The bytes that a value takes with its padding. */
static inline uint64_t padded(uint32_t typ, uint32_t length) {
    return typ == KMIP_TTLV_STRUCTURE ? length : ((uint64_t)length + 7) / 8 * 8;
}

static inline bool has_length(uint32_t typ, uint32_t length) {
    switch (typ) {
    case KMIP_TTLV_INTEGER:
    case KMIP_TTLV_ENUMERATION:
    case KMIP_TTLV_INTERVAL:
        return length == 4;
    case KMIP_TTLV_LONG_INTEGER:
    case KMIP_TTLV_BOOLEAN:
    case KMIP_TTLV_DATE_TIME:
        return length == 8;
    default:
        return true;
    }
}

static inline bool is_value(uint32_t typ, const uint8_t *content, uint32_t length) {
    static const uint8_t zeros[7];
    if (typ == KMIP_TTLV_BOOLEAN) {
        return memcmp(content, zeros, 7) == 0 && content[7] < 2;
    }
    return typ != KMIP_TTLV_TEXT_STRING || is_utf8(content, length);
}

/* What is wrong with the item at an offset, in a structure with this end. */
static inline uint32_t fault_at(const uint8_t *bytes, size_t size, uint64_t at, uint64_t end) {
    if (end - at < 8) {
        return KMIP_TTLV_PARTIAL_HEADER;
    }
    if (size - at < 8) {
        return KMIP_TTLV_CUT;
    }
    const uint32_t typ = bytes[at + 3], length = number_at(bytes, at + 4, 4);
    if (typ < 1 || typ > 10) {
        return KMIP_TTLV_UNKNOWN_TYPE;
    }
    if (!has_length(typ, length)) {
        return KMIP_TTLV_WRONG_LENGTH;
    }
    if (padded(typ, length) > end - at - 8) {
        return KMIP_TTLV_OVERLONG;
    }
    if (typ != KMIP_TTLV_STRUCTURE && padded(typ, length) > size - at - 8) {
        return KMIP_TTLV_CUT;
    }
    return typ != KMIP_TTLV_STRUCTURE && !is_value(typ, bytes + at + 8, length) ? KMIP_TTLV_INVALID_VALUE : KMIP_TTLV_WHOLE;
}

/* Walks over bytes: the items up to the first fault, and the fault. `ends` and `items` have room for size / 8 + 1. */
static inline size_t walk(const uint8_t *bytes, size_t size, kmip_ttlv_item *items, uint64_t *ends, kmip_ttlv_fault *fault) {
    size_t count = 0, depth = 0;
    uint64_t at = 0;
    fault->offset = 0;
    fault->kind = size < 8                          ? KMIP_TTLV_CUT
                  : bytes[3] < 1 || bytes[3] > 10   ? KMIP_TTLV_UNKNOWN_TYPE
                  : bytes[3] != KMIP_TTLV_STRUCTURE ? KMIP_TTLV_NO_STRUCTURE
                                                    : KMIP_TTLV_WHOLE;
    while (fault->kind == KMIP_TTLV_WHOLE) {
        while (depth > 0 && ends[depth - 1] == at) {
            depth--;
        }
        fault->offset = at;
        if (count > 0 && depth == 0) {
            fault->kind = at < size ? KMIP_TTLV_SURPLUS : KMIP_TTLV_WHOLE;
            fault->offset = at < size ? at : 0;
            return count;
        }
        fault->kind = count == 0 ? KMIP_TTLV_WHOLE : fault_at(bytes, size, at, ends[depth - 1]);
        if (fault->kind == KMIP_TTLV_WHOLE) {
            const uint32_t typ = bytes[at + 3], length = number_at(bytes, at + 4, 4);
            items[count++] = (kmip_ttlv_item){at, depth, number_at(bytes, at, 3), typ, length};
            at += 8;
            if (typ == KMIP_TTLV_STRUCTURE) {
                ends[depth++] = at + length;
            } else {
                at += padded(typ, length);
            }
        }
    }
    return count;
}

static inline bool is_same(const kmip_ttlv_item *one, const kmip_ttlv_item *two) {
    return one->offset == two->offset && one->depth == two->depth && one->tag == two->tag && one->typ == two->typ &&
           one->length == two->length;
}

/* The diagnostic of the items of a whole message, whose structures are closed. `out` has room for 24 bytes an item. */
static inline size_t diagnostic(const uint8_t *bytes, const kmip_ttlv_item *items, size_t count, const char *prefix,
                                char *out) {
    static const char letters[] = "?[ilIebtodn";
    size_t length = 0, open = 0;
    for (size_t i = 0; i < count; i++) {
        for (; open > items[i].depth; open--) {
            out[length++] = ']';
        }
        char digits[7];
        sprintf(digits, "%06X", items[i].tag);
        const size_t omitted = strncmp(digits, prefix, strlen(prefix)) == 0 ? strlen(prefix) : 0;
        length += (size_t)sprintf(out + length, "%s%c", digits + omitted, letters[items[i].typ]);
        if (items[i].typ == KMIP_TTLV_ENUMERATION) {
            length += (size_t)sprintf(out + length, "%X:", number_at(bytes, items[i].offset + 8, 4));
        }
        open += items[i].typ == KMIP_TTLV_STRUCTURE;
    }
    for (; open > 0; open--) {
        out[length++] = ']';
    }
    return length;
}

#endif
