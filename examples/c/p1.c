/*
 * Answers document 01's ping P1 from a table image, reads the reply back and prints both. The image is that of
 * data/base.table.txt, made by tables/make; its path is the only argument. Status 1 where anything is not as P1 says.
 */
#include "p1.h"

static const char *const NAMES[LOCATOR_PLACES] = {"forest",         "context", "host",     "context NetBIOS",
                                                  "server NetBIOS", "user",    "own site", "client site",
                                                  "next site"};

/* Prints a name by its place, with its text and its pointer count. */
static int print_name(const uint8_t *reply, size_t length, const struct locator_reading *reading, int place)
{
    const struct locator_name *name = &reading->names[place];
    uint8_t text[LOCATOR_TEXT_MOST];
    size_t text_length;

    if (!name->present)
        return 1;
    if (locator_name_text(reply, length, name->start, text, &text_length) != LOCATOR_DONE || text_length != name->length)
        return 0;
    printf("%s: \"%.*s\", %zu pointers\n", NAMES[place], (int)text_length, (const char *)text, name->pointers);
    return 1;
}

/* The version bits that the filter asks for. */
static int version_asked(uint32_t *version)
{
    struct locator_request request;

    return locator_take_apart(FILTER, sizeof FILTER, &request) == LOCATOR_DONE &&
           locator_judge_values(FILTER, sizeof FILTER, &request, version) == LOCATOR_DONE;
}

static int read_back(const uint8_t *reply, size_t length)
{
    struct locator_reading reading;
    uint32_t version;

    if (!version_asked(&version))
        return 0;
    uint8_t number = locator_read_ex(reply, length, version, &reading);
    printf("read: number %d, length %zu, opcode %zu, flags %zX, version %zu\n", number, reading.length, reading.opcode,
           reading.flags, reading.version);
    if (number != LOCATOR_DONE || !reading.has_flags || !reading.has_guid)
        return 0;
    for (int place = 0; place < LOCATOR_PLACES; place++)
        if (!print_name(reply, length, &reading, place))
            return 0;
    return 1;
}

int main(int count, char **words)
{
    static uint8_t image[LOCATOR_IMAGE_MOST + 1];
    size_t image_length;
    uint8_t reply[LOCATOR_REPLY_MOST];
    struct locator_answer answer;

    if (count != 2) {
        fprintf(stderr, "usage: p1 IMAGE\n");
        return 2;
    }
    if (!load(words[1], image, &image_length))
        return 1;
    uint8_t number = locator_answer_ping(image, image_length, CLIENT, FILTER, sizeof FILTER, reply, sizeof reply, &answer);
    if (!is_p1(number, &answer, reply))
        return 1;
    if (!read_back(reply, answer.length)) {
        fprintf(stderr, "p1: the reply does not read back\n");
        return 1;
    }
    return 0;
}
