// liblber over filters: an AND of equalities, decoded with ber_scanf and encoded with ber_printf, as a server does it: the element
// is allocated once, and names and values stay where they are. ber_scanf ends each with a zero octet over what comes after it, so
// that a filter is decoded in a copy.
#include <lber.h>
#include <stddef.h>
#include <string.h>

enum { TAG_AND = 0xA0, TAG_EQUALITY = 0xA3, FILTER_MOST = 2048 };

static BerElement *element(void) {
    static BerElement *only;
    if (only == NULL) only = ber_alloc_t(LBER_USE_DER);
    return only;
}

// How many equalities the AND has, each name and value found in place; -1 where a part can't be decoded.
int lber_decode(const unsigned char *filter, size_t length, struct berval *names, struct berval *values) {
    BerElement *ber = element();
    static char copy[FILTER_MOST + 1];
    struct berval whole = {length, copy};
    ber_len_t size;
    char *last;
    int count = 0;
    if (length > FILTER_MOST) return -1;
    memcpy(copy, filter, length);
    ber_init2(ber, &whole, LBER_USE_DER);
    if (ber_peek_tag(ber, &size) != TAG_AND) return -1;
    for (ber_tag_t tag = ber_first_element(ber, &size, &last); tag != LBER_DEFAULT;
         tag = ber_next_element(ber, &size, last)) {
        if (tag != TAG_EQUALITY) return -1;
        if (ber_scanf(ber, "{mm}", &names[count], &values[count]) == LBER_ERROR) return -1;
        count++;
    }
    return count;
}

// Writes the AND of the equalities into the buffer, and gives its length.
size_t lber_encode(const struct berval *names, const struct berval *values, int count, unsigned char *out) {
    BerElement *ber = element();
    struct berval written;
    ber_init2(ber, NULL, LBER_USE_DER);
    ber_printf(ber, "t{", (ber_tag_t)TAG_AND);
    for (int i = 0; i < count; i++) {
        ber_printf(ber, "t{OO}", (ber_tag_t)TAG_EQUALITY, &names[i], &values[i]);
    }
    ber_printf(ber, "}");
    ber_flatten2(ber, &written, 0);
    memcpy(out, written.bv_val, written.bv_len);
    ber_free_buf(ber);
    return written.bv_len;
}
