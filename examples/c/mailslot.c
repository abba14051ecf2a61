/*
 * Writes a mailslot message that asks for what document 01's ping P1 asks for, reads it back, and answers it from a table image and
 * from a table that was loaded: the reply is P1's. The image is that of data/base.table.txt; its path is the only argument. Status
 * 1 where anything is not so.
 */
#include "p1.h"

/* A computer's name in UTF-16LE, and behind it the mailslot's. */
static const char SOURCE[] = "L\0O\0G\0G\0E\0R\0"
                             "1\0"
                             "\\MAILSLOT\\NET\\GETDC";

enum { COMPUTER_LENGTH = 14, SOURCE_LENGTH = sizeof SOURCE - 1 };

/* No user, no SID. */
static const struct locator_mailslot ASKED = {
    .repeat = 3,
    .version = 6,
    .computer = {1, 0, COMPUTER_LENGTH},
    .mailslot = {1, COMPUTER_LENGTH, SOURCE_LENGTH - COMPUTER_LENGTH},
};

static uint8_t write_message(const struct locator_mailslot *asked, uint8_t message[LOCATOR_MAILSLOT_MOST], size_t *length)
{
    uint8_t number = locator_write_mailslot((const uint8_t *)SOURCE, SOURCE_LENGTH, asked, message, LOCATOR_MAILSLOT_MOST,
                                            length);
    printf("written: number %d, length %zu\n", number, *length);
    return number;
}

/* A number past its field's width is refused, never cut, and nothing is written. */
static int refuses_wide(void)
{
    uint8_t message[LOCATOR_MAILSLOT_MOST] = {0xEE};
    struct locator_mailslot wide = ASKED;
    size_t length = 1;

    wide.repeat = 0x10000;
    return write_message(&wide, message, &length) == LOCATOR_MAILSLOT_SHAPE && length == 0 && message[0] == 0xEE;
}

/* Whether a text that was read has the octets of the source that it was written from. */
static int same_text(const uint8_t *message, const struct locator_stretch *read, const struct locator_stretch *asked)
{
    return read->present && read->length == asked->length &&
           memcmp(message + read->start, SOURCE + asked->start, asked->length) == 0;
}

static int read_back(const uint8_t *message, size_t length)
{
    struct locator_mailslot read;
    uint8_t number = locator_read_mailslot(message, length, &read);

    printf("read: number %d, repeat %zu, bits %zu, version %zu, mailslot \"%.*s\"\n", number, read.repeat, read.bits,
           read.version, (int)read.mailslot.length, (const char *)message + read.mailslot.start);
    return number == LOCATOR_DONE && read.repeat == ASKED.repeat && read.bits == ASKED.bits &&
           read.version == ASKED.version && same_text(message, &read.computer, &ASKED.computer) &&
           same_text(message, &read.user, &ASKED.user) && same_text(message, &read.mailslot, &ASKED.mailslot) &&
           !read.sid.present;
}

/* P1's reply from the image, and the same from a table of it. */
static int answers(const uint8_t *image, size_t image_length, const uint8_t *message, size_t length)
{
    static struct locator_table table;
    uint8_t reply[LOCATOR_REPLY_MOST];
    struct locator_answer answer;

    uint8_t number = locator_answer_mailslot(image, image_length, CLIENT, message, length, reply, sizeof reply, &answer);
    if (!is_p1(number, &answer, reply) || locator_table_load(&table, image, image_length) != LOCATOR_DONE)
        return 0;
    number = locator_table_answer_mailslot(&table, CLIENT, message, length, reply, sizeof reply, &answer);
    return is_p1(number, &answer, reply);
}

int main(int count, char **words)
{
    static uint8_t image[LOCATOR_IMAGE_MOST + 1];
    size_t image_length, length;
    uint8_t message[LOCATOR_MAILSLOT_MOST];

    if (count != 2) {
        fprintf(stderr, "usage: mailslot IMAGE\n");
        return 2;
    }
    if (!load(words[1], image, &image_length))
        return 1;
    if (!refuses_wide() || write_message(&ASKED, message, &length) != LOCATOR_DONE || !read_back(message, length)) {
        fprintf(stderr, "mailslot: the message is not as it was asked for\n");
        return 1;
    }
    return !answers(image, image_length, message, length);
}
