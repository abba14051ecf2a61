/*
 * NULL with length 0 in every call that takes a pointer and a length, document 01's P3 among them: a filter of no octets gets 6.
 * The image is that of data/base.table.txt; its path is the only argument. Status 1 where a number is another.
 */
#include "p1.h"

static int wrong;

static void expect(const char *call, int number, int expected)
{
    printf("%s: %d\n", call, number);
    wrong |= number != expected;
}

/* Of nothing at all. */
static void nothing(void)
{
    struct locator_check check;
    struct locator_request request;
    struct locator_mailslot mailslot;
    struct locator_reading reading;
    struct locator_answer answer;
    uint8_t text[LOCATOR_TEXT_MOST];
    uint32_t version;
    size_t length;

    expect("judge", locator_judge(NULL, 0), LOCATOR_IMAGE_LENGTH);
    locator_check(NULL, 0, &check);
    expect("check, a", (int)check.a, 1);
    expect("check, b", (int)check.b, 0);
    expect("take_apart", locator_take_apart(NULL, 0, &request), LOCATOR_FILTER_SHAPE);
    expect("judge_values", locator_judge_values(NULL, 0, &request, &version), LOCATOR_DONE);
    expect("write_filter", locator_write_filter(NULL, 0, &request, NULL, 0, &length), LOCATOR_FILTER_SHAPE);
    expect("answer_ping", locator_answer_ping(NULL, 0, CLIENT, NULL, 0, NULL, 0, &answer), LOCATOR_IMAGE_LENGTH);
    expect("read_mailslot", locator_read_mailslot(NULL, 0, &mailslot), LOCATOR_MAILSLOT_SHAPE);
    expect("write_mailslot", locator_write_mailslot(NULL, 0, &mailslot, NULL, 0, &length), LOCATOR_NO_ROOM);
    expect("answer_mailslot", locator_answer_mailslot(NULL, 0, CLIENT, NULL, 0, NULL, 0, &answer), LOCATOR_IMAGE_LENGTH);
    expect("read_nt40", locator_read_nt40(NULL, 0, &reading), LOCATOR_REPLY_CUT);
    expect("read_response", locator_read_response(NULL, 0, &reading), LOCATOR_REPLY_CUT);
    expect("read_ex", locator_read_ex(NULL, 0, 6, &reading), LOCATOR_REPLY_CUT);
    expect("name_text", locator_name_text(NULL, 0, 0, text, &length), LOCATOR_REPLY_CUT);
}

/* A good table, first without a filter, which is P3, then without room for a reply; and without a message. */
static void pings(const uint8_t *image, size_t image_length)
{
    static struct locator_table table;
    uint8_t reply[LOCATOR_REPLY_MOST];
    struct locator_answer answer;

    expect("table_load", locator_table_load(&table, image, image_length), LOCATOR_DONE);
    expect("P3, answer_ping", locator_answer_ping(image, image_length, CLIENT, NULL, 0, reply, sizeof reply, &answer),
           LOCATOR_FILTER_SHAPE);
    expect("P3, table_answer", locator_table_answer(&table, CLIENT, NULL, 0, reply, sizeof reply, &answer),
           LOCATOR_FILTER_SHAPE);
    expect("P1, answer_ping",
           locator_answer_ping(image, image_length, CLIENT, FILTER, sizeof FILTER, NULL, 0, &answer), LOCATOR_NO_ROOM);
    expect("P1, table_answer", locator_table_answer(&table, CLIENT, FILTER, sizeof FILTER, NULL, 0, &answer),
           LOCATOR_NO_ROOM);
    expect("answer_mailslot",
           locator_answer_mailslot(image, image_length, CLIENT, NULL, 0, reply, sizeof reply, &answer),
           LOCATOR_MAILSLOT_SHAPE);
    expect("table_answer_mailslot",
           locator_table_answer_mailslot(&table, CLIENT, NULL, 0, reply, sizeof reply, &answer), LOCATOR_MAILSLOT_SHAPE);
}

int main(int count, char **words)
{
    static uint8_t image[LOCATOR_IMAGE_MOST + 1];
    size_t length;

    if (count != 2) {
        fprintf(stderr, "usage: null IMAGE\n");
        return 2;
    }
    if (!load(words[1], image, &length))
        return 1;
    nothing();
    pings(image, length);
    return wrong;
}
