/*
 * locator_table.h - a table image that is judged once, when it is loaded, and pings answered from it.
 *
 * For C11 and C++11. Link with crates/vinegarjar_table/out/libvinegarjar_table.a (`rt lib` in crates/vinegarjar_table) beside
 * libvinegarjar.a.
 * What locator.h says of buffers, octets and numbers holds here too.
 */
#ifndef LOCATOR_TABLE_H
#define LOCATOR_TABLE_H

#include "locator.h"

#include <string.h>

#ifdef __cplusplus
extern "C" {
#endif

enum { LOCATOR_IMAGE_MOST = 65536 }; /* octets of the longest table image */

/*
 * A table in memory that the caller lends for it. It is empty, of length 0, or holds an image that passed 1 to 4; one of zeros
 * is empty. Loaded, any number of threads may answer from it, while none loads it.
 *
 * That a table's image passed is what answering is proved under, and only this keeps it true: locator_table_load alone writes
 * the members, and judges the octets where they then lie. So nothing else may write them, and a table may not lie in memory
 * that others can write to, as another process or a device can. Where that is broken nothing is promised, not even that a
 * call stays within what is lent to it.
 */
struct locator_table {
    size_t length;
    uint8_t image[LOCATOR_IMAGE_MOST];
};

/* What libvinegarjar_table.a exports, for the functions after these alone: the image must be one that was accepted. */
uint8_t vinegarjar_answer_ping_on_accepted_image(const uint8_t *image, size_t image_length, const uint8_t client[4],
                                                 const uint8_t *filter, size_t filter_length, uint8_t *reply,
                                                 size_t reply_room, struct locator_answer *answer);
uint8_t vinegarjar_answer_mailslot_on_accepted_image(const uint8_t *image, size_t image_length, const uint8_t client[4],
                                                     const uint8_t *message, size_t message_length, uint8_t *reply,
                                                     size_t reply_room, struct locator_answer *answer);

/*
 * Fills a table with a copy of an image and judges it: 0, or 1 to 4, and then the table is empty, whatever it held. The image is
 * not needed any more. It must not overlap the table.
 */
static inline uint8_t locator_table_load(struct locator_table *table, const uint8_t *image, size_t image_length)
{
    uint8_t number;

    table->length = 0;
    if (image_length > LOCATOR_IMAGE_MOST)
        return LOCATOR_IMAGE_LENGTH;
    memcpy(table->image, locator_octets(image), image_length);
    number = locator_judge(table->image, image_length);
    if (number == LOCATOR_DONE)
        table->length = image_length;
    return number;
}

/*
 * Answers a client's ping from a table as locator_answer_ping does from its image, which is not judged again: 0, or 5 to 9 or
 * 11 to 19; from an empty table 1. reply and answer must overlap neither each other nor table, client and filter.
 */
static inline uint8_t locator_table_answer(const struct locator_table *table, const uint8_t client[4],
                                           const uint8_t *filter, size_t filter_length, uint8_t *reply, size_t reply_room,
                                           struct locator_answer *answer)
{
    if (table->length == 0)
        return locator_answer_ping(NULL, 0, client, filter, filter_length, reply, reply_room, answer);
    return vinegarjar_answer_ping_on_accepted_image(table->image, table->length, client, locator_octets(filter),
                                                    filter_length, locator_buffer(reply), reply_room, answer);
}

/*
 * Answers a client's mailslot message from a table as locator_answer_mailslot does from its image, which is not judged again:
 * 0, or 41 or 15 to 19; from an empty table 1. reply and answer must overlap neither each other nor table, client and message.
 */
static inline uint8_t locator_table_answer_mailslot(const struct locator_table *table, const uint8_t client[4],
                                                    const uint8_t *message, size_t message_length, uint8_t *reply,
                                                    size_t reply_room, struct locator_answer *answer)
{
    if (table->length == 0)
        return locator_answer_mailslot(NULL, 0, client, message, message_length, reply, reply_room, answer);
    return vinegarjar_answer_mailslot_on_accepted_image(table->image, table->length, client, locator_octets(message),
                                                        message_length, locator_buffer(reply), reply_room, answer);
}

#ifdef __cplusplus
}
#endif

#endif
