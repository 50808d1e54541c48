/* Looks at each block that the library gives back: how many still hold a text of the message that was printed? (Linked with
 * -Wl,--wrap=free.) With WIPED, for a library that was built with --wipe, none may; of any other library some do. */
#define _GNU_SOURCE
#include "kmip_ttlv.h"

#include <malloc.h>
#include <stdio.h>
#include <string.h>

void *kmip_ttlv_malloc(size_t size);
void *kmip_ttlv_realloc(void *block, size_t size);
void kmip_ttlv_free(void *block);
void __real_free(void *block);
void __wrap_free(void *block);

static const char SECRET[] = "a secret";
static int given_back = 0, unwiped = 0, failed = 0;

void __wrap_free(void *block) {
    if (block != NULL) {
        given_back++;
        unwiped += memmem(block, malloc_usable_size(block), SECRET, sizeof SECRET - 1) != NULL;
    }
    __real_free(block);
}

static void hold(bool holds, const char *what, int line) {
    if (!holds) {
        printf("wiped.c:%d: not so: %s\n", line, what);
        failed++;
    }
}

#define HOLD(it) hold((it), #it, __LINE__)

/* A structure with one Text String. */
static const uint8_t MESSAGE[24] = {0x42, 0, 0x69, 1, 0, 0, 0, 16, 0x42, 0, 0x6A, 7, 0, 0, 0, 8, 'a', ' ', 's', 'e', 'c', 'r', 'e', 't'};

static void prints(void) {
    uint8_t text[400];
    size_t length = 0;
    HOLD(kmip_ttlv_to_standard_text(MESSAGE, sizeof MESSAGE, true, SIZE_MAX, text, sizeof text, &length) == KMIP_TTLV_OK);
    HOLD(memmem(text, length, SECRET, sizeof SECRET - 1) != NULL);
}

/* Blocks that grow, shrink and are given back keep what is in them until then. */
static void resizes(size_t size, size_t other) {
    char *block = kmip_ttlv_malloc(size);
    HOLD(block != NULL && (uintptr_t)block % 16 == 0);
    memset(block, 'x', size);
    memcpy(block, SECRET, sizeof SECRET);
    memcpy(block + size - sizeof SECRET, SECRET, sizeof SECRET);
    block = kmip_ttlv_realloc(block, other);
    HOLD(block != NULL && (uintptr_t)block % 16 == 0 && memcmp(block, SECRET, sizeof SECRET) == 0);
    HOLD(other < size || memcmp(block + size - sizeof SECRET, SECRET, sizeof SECRET) == 0);
    kmip_ttlv_free(block);
}

int main(void) {
    prints();
    HOLD(given_back > 0);
#ifdef WIPED
    HOLD(unwiped == 0);
#else
    HOLD(unwiped > 0);
#endif
    for (size_t size = 2 * sizeof SECRET; size < (size_t)1 << 20; size += size / 3 + 1) {
        resizes(size, 2 * size);
        resizes(2 * size, size);
    }
    kmip_ttlv_free(kmip_ttlv_realloc(NULL, 8));
    kmip_ttlv_free(NULL);
#ifdef WIPED
    HOLD(unwiped == 0);
#endif
    printf("C: %s\n", failed ? "failed" : "all held");
    return failed ? 1 : 0;
}
