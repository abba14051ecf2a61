/*
 * Loads a table once and answers document 01's ping P1 from it, as an appliance does. Then what a table does with an image that
 * is refused. The image is that of data/base.table.txt; its path is the only argument. Status 1 where anything is not so.
 */
#include "p1.h"

static struct locator_table table;

/* A table that was refused its image by this number is empty: a ping gets 1, no members and the buffer as it was. */
static int refuses(const uint8_t *image, size_t length, uint8_t expected)
{
    uint8_t reply[LOCATOR_REPLY_MOST] = {0xEE};
    struct locator_answer answer = {1, 1, 1};
    uint8_t loaded = locator_table_load(&table, image, length);
    uint8_t number = locator_table_answer(&table, CLIENT, FILTER, sizeof FILTER, reply, sizeof reply, &answer);

    printf("an image of %zu octets: number %d, then a ping: number %d\n", length, loaded, number);
    return loaded == expected && table.length == 0 && number == LOCATOR_IMAGE_LENGTH && answer.length == 0 &&
           answer.context == 0 && answer.form == LOCATOR_NO_FORM && reply[0] == 0xEE;
}

int main(int count, char **words)
{
    static uint8_t image[LOCATOR_IMAGE_MOST + 1];
    size_t length;
    uint8_t reply[LOCATOR_REPLY_MOST];
    struct locator_answer answer;

    if (count != 2) {
        fprintf(stderr, "usage: table IMAGE\n");
        return 2;
    }
    if (!load(words[1], image, &length) || locator_table_load(&table, image, length) != LOCATOR_DONE)
        return 1;
    memset(image, 0, length);
    uint8_t number = locator_table_answer(&table, CLIENT, FILTER, sizeof FILTER, reply, sizeof reply, &answer);
    if (!is_p1(number, &answer, reply))
        return 1;
    if (!refuses(image, length, LOCATOR_BLOCK_CHECK) || !refuses(image, sizeof image, LOCATOR_IMAGE_LENGTH) ||
        !refuses(NULL, 0, LOCATOR_IMAGE_LENGTH)) {
        fprintf(stderr, "table: it is not empty\n");
        return 1;
    }
    return 0;
}
