// libresolv over the names of a message: dn_comp one after the other, and dn_expand of each.
#include <resolv.h>
#include <stddef.h>

enum { DOMAINS_MOST = 64 };

// Writes the names into the message from an offset on, and gives the offset after them; 0 where one can't be written.
size_t resolv_compress(const char *const *names, size_t count, unsigned char *message, size_t room, size_t offset) {
    unsigned char *domains[DOMAINS_MOST];
    domains[0] = message;
    domains[1] = NULL;
    for (size_t i = 0; i < count; i++) {
        int size = dn_comp(names[i], message + offset, (int)(room - offset), domains, domains + DOMAINS_MOST);
        if (size < 0) return 0;
        offset += (size_t)size;
    }
    return offset;
}

// The texts of the names at the offsets, one after the other in rooms of 256 octets; the sum of the names' sizes.
int resolv_expand(const unsigned char *message, size_t length, const size_t *offsets, size_t count, char *texts) {
    int sum = 0;
    for (size_t i = 0; i < count; i++) {
        int size = dn_expand(message, message + length, message + offsets[i], texts + 256 * i, 256);
        if (size < 0) return -1;
        sum += size;
    }
    return sum;
}
