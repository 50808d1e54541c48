/* The library's allocator, unless the program that links it defines these three. With KMIP_TTLV_WIPE it overwrites each
 * block with zeros before it is given back. */
#include <stdlib.h>

void *kmip_ttlv_malloc(size_t size);
void *kmip_ttlv_realloc(void *block, size_t size);
void kmip_ttlv_free(void *block);

#ifdef KMIP_TTLV_WIPE

#include <stdint.h>
#include <string.h>

/* The bytes in front of a block, which begin with its size. They keep it aligned as malloc's own. */
#define FRONT 16

/* Through a volatile pointer, so that no compiler leaves the call out. */
static void *(*const volatile overwrite)(void *, int, size_t) = memset;

static size_t size_of(const void *block) {
    size_t size;
    memcpy(&size, (const unsigned char *)block - FRONT, sizeof size);
    return size;
}

void *kmip_ttlv_malloc(size_t size) {
    unsigned char *front = size <= SIZE_MAX - FRONT ? malloc(FRONT + size) : NULL;
    if (front == NULL) {
        return NULL;
    }
    memcpy(front, &size, sizeof size);
    return front + FRONT;
}

void *kmip_ttlv_realloc(void *block, size_t size) {
    void *other = kmip_ttlv_malloc(size);
    if (block == NULL || other == NULL) {
        return other;
    }
    size_t kept = size_of(block);
    memcpy(other, block, kept < size ? kept : size);
    kmip_ttlv_free(block);
    return other;
}

void kmip_ttlv_free(void *block) {
    if (block != NULL) {
        overwrite(block, 0, size_of(block));
        free((unsigned char *)block - FRONT);
    }
}

#else

void *kmip_ttlv_malloc(size_t size) {
    return malloc(size);
}

void *kmip_ttlv_realloc(void *block, size_t size) {
    return realloc(block, size);
}

void kmip_ttlv_free(void *block) {
    free(block);
}

#endif
