/* What the examples share: document 01's ping P1 with its reply, and a table image from a file. */
#include "locator_table.h"

#include <stdio.h>
#include <string.h>

static const uint8_t CLIENT[4] = {192, 0, 2, 1};

/* (&(NtVer=06 00 00 00)) */
static const uint8_t FILTER[] = {0xA0, 0x0F, 0xA3, 0x0D, 0x04, 0x05, 0x4E, 0x74, 0x56,
                                 0x65, 0x72, 0x04, 0x04, 0x06, 0x00, 0x00, 0x00};

static const uint8_t REPLY[] = {
    0x17, 0x00, 0x00, 0x00, 0x98, 0x01, 0x00, 0x00, 0x01, 0x02, 0x03, 0x04, 0x05, 0x06, 0x07, 0x08, 0x09, 0x0A,
    0x0B, 0x0C, 0x0D, 0x0E, 0x0F, 0x10, 0x07, 0x65, 0x78, 0x61, 0x6D, 0x70, 0x6C, 0x65, 0x00, 0x04, 0x63, 0x6F,
    0x72, 0x70, 0xC0, 0x18, 0x03, 0x64, 0x63, 0x31, 0xC0, 0x21, 0x04, 0x43, 0x4F, 0x52, 0x50, 0x00, 0x03, 0x44,
    0x43, 0x31, 0x00, 0x00, 0x02, 0x48, 0x51, 0x00, 0xC0, 0x3A, 0x05, 0x00, 0x00, 0x00, 0xFF, 0xFF, 0xFF, 0xFF};

/* Loads a whole file of at most LOCATOR_IMAGE_MOST octets; a longer one comes one octet longer, which no judgement accepts. */
static inline int load(const char *path, uint8_t image[LOCATOR_IMAGE_MOST + 1], size_t *length)
{
    FILE *file = fopen(path, "rb");
    if (file == NULL) {
        perror(path);
        return 0;
    }
    *length = fread(image, 1, LOCATOR_IMAGE_MOST + 1, file);
    int read = !ferror(file);
    fclose(file);
    return read;
}

/* Prints an answer; whether it is P1's. */
static inline int is_p1(uint8_t number, const struct locator_answer *answer, const uint8_t *reply)
{
    printf("answer: number %d, form %zu, context %zu, length %zu\n", number, answer->form, answer->context, answer->length);
    if (number == LOCATOR_DONE && answer->form == LOCATOR_EX && answer->length == sizeof REPLY &&
        memcmp(reply, REPLY, sizeof REPLY) == 0)
        return 1;
    fprintf(stderr, "the reply is not P1's\n");
    return 0;
}
