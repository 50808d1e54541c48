/* A library of another version, which the Python module has to refuse. */
#include "kmip_ttlv.h"

#include <string.h>

kmip_ttlv_status kmip_ttlv_version(uint8_t *out, size_t room, size_t *length) {
    static const char version[] = "0.0.9";
    *length = sizeof version - 1;
    if (room < *length) {
        return KMIP_TTLV_NO_ROOM;
    }
    memcpy(out, version, *length);
    return KMIP_TTLV_OK;
}
