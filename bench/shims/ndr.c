// Samba's libndr-nbt over one EX reply: decoded from its octets, and encoded from the struct that decoding gave.
#include <stdbool.h>
#include <stdint.h>
#include <string.h>
#include <talloc.h>
#include <util/data_blob.h>
#include <core/ntstatus.h>
#include <core/werror.h>
#include <ndr.h>
#include <ndr/ndr_nbt.h>
#include <gen_ndr/ndr_nbt.h>

static struct NETLOGON_SAM_LOGON_RESPONSE_EX reply;

static bool pull(TALLOC_CTX *memory, const uint8_t *octets, size_t length, uint32_t version, void *into) {
    DATA_BLOB blob = {.data = (uint8_t *)octets, .length = length};
    struct ndr_pull *ndr = ndr_pull_init_blob(&blob, memory);
    return NDR_ERR_CODE_IS_SUCCESS(
        ndr_pull_NETLOGON_SAM_LOGON_RESPONSE_EX_with_flags(ndr, NDR_SCALARS | NDR_BUFFERS, into, version));
}

// Decodes a reply whose struct ndr_encode then encodes.
bool ndr_keep(const uint8_t *octets, size_t length, uint32_t version) {
    return pull(talloc_new(NULL), octets, length, version, &reply);
}

bool ndr_decode(const uint8_t *octets, size_t length, uint32_t version) {
    struct NETLOGON_SAM_LOGON_RESPONSE_EX read;
    TALLOC_CTX *memory = talloc_new(NULL);
    bool good = pull(memory, octets, length, version, &read);
    talloc_free(memory);
    return good;
}

// Encodes the kept reply into the buffer, and gives its length; 0 where that fails.
size_t ndr_encode(uint8_t *out) {
    TALLOC_CTX *memory = talloc_new(NULL);
    struct ndr_push *ndr = ndr_push_init_ctx(memory);
    size_t length = 0;
    if (NDR_ERR_CODE_IS_SUCCESS(
            ndr_push_NETLOGON_SAM_LOGON_RESPONSE_EX_with_flags(ndr, NDR_SCALARS | NDR_BUFFERS, &reply))) {
        DATA_BLOB blob = ndr_push_blob(ndr);
        memcpy(out, blob.data, blob.length);
        length = blob.length;
    }
    talloc_free(memory);
    return length;
}
