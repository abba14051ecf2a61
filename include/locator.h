/*
 * locator.h - answers Netlogon pings, filters and mailslot messages, from a table image, reads replies, reads and writes
 * filters and messages. Who answers more than one ping from an image takes locator_table.h too.
 *
 * For C11 and C++11. Link with crates/vinegarjar/out/libvinegarjar.a (`rt lib` in crates/vinegarjar), on x86-64. The code is
 * proved; these declarations are held to it by hand and by the programs in examples/.
 *
 * Buffers. The caller owns all memory. A call keeps no pointer past its return, allocates nothing and has no state, so
 * any number of threads may call at once. Where parameters are a pointer and a length or a room, the pointer is to that many
 * octets, and may be NULL where that is 0; no other pointer may be. const ones are only read. What a call writes must overlap
 * nothing else that is lent to the same call.
 *
 * Octets. Any octets may be passed as image, filter, message, source or reply, of any length; each call ends and answers by
 * number.
 * Starts and lengths in structs are counted in octets from the first octet of the buffer that they speak of.
 *
 * Numbers. A call that returns uint8_t returns 0 (done) or why it refused, one of enum locator_number. On a refusal every
 * struct, number and text lent for results is all zeros, and a buffer lent for a reply, a filter or a message is as it was.
 */
#ifndef LOCATOR_H
#define LOCATOR_H

#include <stddef.h>
#include <stdint.h>

#ifdef __cplusplus
#define LOCATOR_ASSERT(claim) static_assert(claim, #claim)
extern "C" {
#else
#define LOCATOR_ASSERT(claim) _Static_assert(claim, #claim)
#endif

/*
 * What a call returns. locator_answer_ping judges by 1 to 9, then 11 to 19, in this order, locator_answer_mailslot by 1 to 4,
 * then 41, then 15 to 19.
 */
enum locator_number {
    LOCATOR_DONE = 0,

    /* the table image */
    LOCATOR_IMAGE_LENGTH = 1, /* not 2 to 128 whole blocks of 512 octets */
    LOCATOR_BLOCK_CHECK = 2,  /* a block does not store its own check */
    LOCATOR_BLOCK_LAYOUT = 3, /* a block or record is not laid out by the rules */
    LOCATOR_TABLE_WHOLE = 4,  /* its blocks do not agree: counts, doubles, references */

    /* the filter */
    LOCATOR_FILTER_LENGTH = 5,    /* more than LOCATOR_FILTER_MOST octets */
    LOCATOR_FILTER_SHAPE = 6,     /* not equalities in ANDs; no clause to write */
    LOCATOR_UNKNOWN_CLAUSE = 7,   /* a clause has another name than the eight */
    LOCATOR_DUPLICATE_CLAUSE = 8, /* two clauses have one name */
    LOCATOR_CLAUSE_VALUE = 9,     /* NtVer, AAC or User has no such value */

    /* the context asked for */
    LOCATOR_GUID_LENGTH = 11,       /* DomainGuid is not of 16 octets */
    LOCATOR_GUID_NOT_HELD = 12,     /* no context has it */
    LOCATOR_DNS_NAME_EMPTY = 13,    /* DnsDomain is present and empty */
    LOCATOR_DNS_NAME_NOT_HELD = 14, /* no context has it */
    LOCATOR_SID_SHAPE = 15,         /* DomainSid is no SID */
    LOCATOR_SID_NOT_HELD = 16,      /* no context has it */
    LOCATOR_SID_OF_ANOTHER = 17,    /* another context than the one used has it */

    /* the reply */
    LOCATOR_USER_LABEL_EMPTY = 18, /* the user's name has an empty label, which an EX reply cannot hold */
    LOCATOR_NO_ROOM = 19,          /* longer than the room lent */

    /* a received reply, by the first octet that fits no rule */
    LOCATOR_REPLY_CUT = 31,      /* it ends too early */
    LOCATOR_REPLY_OPCODE = 32,   /* an opcode of another form */
    LOCATOR_REPLY_TEXT = 33,     /* a broken UTF-16 text, or a broken, overlong or winding name */
    LOCATOR_REPLY_FIXED = 34,    /* a fixed field has another value */
    LOCATOR_REPLY_LEFT_OVER = 35, /* octets after its end */

    /* the mailslot message */
    LOCATOR_MAILSLOT_SHAPE = 41 /* not a message, or one that breaks a limit */
};

/* The form of a reply. */
enum locator_form {
    LOCATOR_NO_FORM = 0, /* with a refusal */
    LOCATOR_NT40 = 1,
    LOCATOR_RESPONSE = 2,
    LOCATOR_EX = 3
};

enum {
    LOCATOR_FILTER_MOST = 2048,  /* octets of the longest filter */
    LOCATOR_MAILSLOT_MOST = 316, /* octets of the longest mailslot message */
    LOCATOR_REPLY_MOST = 1108,   /* octets of the longest reply that is written */
    LOCATOR_TEXT_MOST = 253,     /* octets of the longest name, labels joined by dots */
    LOCATOR_GUID_SIZE = 16,
    LOCATOR_ADDRESS_SIZE = 4
};

/* A stretch of octets, which may be empty, or none. 0 is not present, any other number present. Calls write 0 or 1. */
struct locator_stretch {
    size_t present;
    size_t start;
    size_t length;
};

/* A filter's clauses, as stretches of the filter or of a source. Absent and empty are not the same. */
struct locator_request {
    struct locator_stretch dns_domain;
    struct locator_stretch host;
    struct locator_stretch dns_host_name;
    struct locator_stretch user;
    struct locator_stretch aac;
    struct locator_stretch domain_sid;
    struct locator_stretch domain_guid;
    struct locator_stretch nt_ver;
};
LOCATOR_ASSERT(sizeof(struct locator_request) == 24 * sizeof(size_t));

/*
 * What a mailslot message says, its texts as stretches of the message or of a source. A message that was read has computer,
 * user and mailslot present, and the SID where its size is not 0; to the writer one that is not present has no octets.
 */
struct locator_mailslot {
    size_t repeat;                   /* the repeat count, 16 bits; not used by an answer */
    size_t bits;                     /* the account bits, 32 bits */
    size_t version;                  /* the version bits, 32 bits */
    struct locator_stretch computer; /* at most 15 units of UTF-16LE, without the zero unit; not used by an answer */
    struct locator_stretch user;     /* UTF-16LE without the zero unit, at most 63 octets as UTF-8; of no octets it is none */
    struct locator_stretch mailslot; /* at most 64 octets of 01h to 7Fh, without the zero octet; not used by an answer */
    struct locator_stretch sid;      /* 8 to 68 octets, as many as its own count says */
};
LOCATOR_ASSERT(sizeof(struct locator_mailslot) == 15 * sizeof(size_t));

/* The two sums of a block's check. */
struct locator_check {
    uint32_t a;
    uint32_t b;
};
LOCATOR_ASSERT(sizeof(struct locator_check) == 2 * sizeof(uint32_t));

/* What answering a ping gives beside the reply's octets. */
struct locator_answer {
    size_t length;  /* of the reply */
    size_t context; /* the number of the context used; 0 with a refusal */
    size_t form;    /* of enum locator_form */
};
LOCATOR_ASSERT(sizeof(struct locator_answer) == 3 * sizeof(size_t));

/* A name of a reply: where it starts, the length of its text, and how many pointers lead through it. */
struct locator_name {
    size_t present;
    size_t start;
    size_t length;
    size_t pointers;
};

/* The names of a reply by their places. RESPONSE has the first three, EX the first eight and, where it is present, the last. */
enum locator_place {
    LOCATOR_FOREST,
    LOCATOR_CONTEXT,
    LOCATOR_HOST,
    LOCATOR_CONTEXT_NETBIOS,
    LOCATOR_SERVER_NETBIOS,
    LOCATOR_USER,
    LOCATOR_OWN_SITE,
    LOCATOR_CLIENT_SITE,
    LOCATOR_NEXT_SITE,
    LOCATOR_PLACES
};

/* The fields of a reply that was read. What a form or a reply lacks is marked by has_.. or present, never by its value. */
struct locator_reading {
    size_t length; /* of the reply; 0 with a refusal */
    size_t opcode;
    size_t version;
    size_t has_flags;
    size_t flags;
    size_t has_guid;
    size_t guid; /* where its LOCATOR_GUID_SIZE octets start */
    size_t has_address;
    size_t address;                /* where its LOCATOR_ADDRESS_SIZE octets start, in dotted order */
    struct locator_stretch server; /* texts of NT40 and RESPONSE: UTF-16LE, without the zero unit */
    struct locator_stretch user;
    struct locator_stretch domain;
    struct locator_name names[LOCATOR_PLACES];
};
LOCATOR_ASSERT(sizeof(struct locator_reading) == 54 * sizeof(size_t));

/*
 * What libvinegarjar.a exports. Here no pointer may be NULL, not even with length 0: call the functions after these, which
 * put a valid pointer in its place.
 */
uint8_t vinegarjar_judge(const uint8_t *image, size_t image_length);
void vinegarjar_check(const uint8_t *octets, size_t length, struct locator_check *check);
uint8_t vinegarjar_take_apart(const uint8_t *filter, size_t filter_length, struct locator_request *request);
uint8_t vinegarjar_judge_values(const uint8_t *filter, size_t filter_length, const struct locator_request *request,
                                uint32_t *version);
uint8_t vinegarjar_write_filter(const uint8_t *source, size_t source_length, const struct locator_request *request,
                                uint8_t *out, size_t out_room, size_t *length);
uint8_t vinegarjar_answer_ping(const uint8_t *image, size_t image_length, const uint8_t client[4], const uint8_t *filter,
                               size_t filter_length, uint8_t *reply, size_t reply_room, struct locator_answer *answer);
uint8_t vinegarjar_read_mailslot(const uint8_t *message, size_t message_length, struct locator_mailslot *members);
uint8_t vinegarjar_write_mailslot(const uint8_t *source, size_t source_length, const struct locator_mailslot *members,
                                  uint8_t *out, size_t out_room, size_t *length);
uint8_t vinegarjar_answer_mailslot(const uint8_t *image, size_t image_length, const uint8_t client[4],
                                   const uint8_t *message, size_t message_length, uint8_t *reply, size_t reply_room,
                                   struct locator_answer *answer);
uint8_t vinegarjar_read_nt40(const uint8_t *reply, size_t reply_length, struct locator_reading *reading);
uint8_t vinegarjar_read_response(const uint8_t *reply, size_t reply_length, struct locator_reading *reading);
uint8_t vinegarjar_read_ex(const uint8_t *reply, size_t reply_length, uint32_t version, struct locator_reading *reading);
uint8_t vinegarjar_name_text(const uint8_t *reply, size_t reply_length, size_t start, uint8_t text[LOCATOR_TEXT_MOST],
                             size_t *length);

/* A valid pointer in the place of NULL, to read from or to write to; with length 0 no call follows it. */
static inline const uint8_t *locator_octets(const uint8_t *octets)
{
    static const uint8_t none = 0;
    return octets != NULL ? octets : &none;
}

static inline uint8_t *locator_buffer(uint8_t *buffer)
{
    static uint8_t none = 0;
    return buffer != NULL ? buffer : &none;
}

/* Judges a table image: 0, or 1 to 4. */
static inline uint8_t locator_judge(const uint8_t *image, size_t image_length)
{
    return vinegarjar_judge(locator_octets(image), image_length);
}

/* The check of octets, as a block stores it of its first 508. check must not overlap them. */
static inline void locator_check(const uint8_t *octets, size_t length, struct locator_check *check)
{
    vinegarjar_check(locator_octets(octets), length, check);
}

/* Takes a filter apart into its clauses: 0, or 5 to 8. request must not overlap the filter. */
static inline uint8_t locator_take_apart(const uint8_t *filter, size_t filter_length, struct locator_request *request)
{
    return vinegarjar_take_apart(locator_octets(filter), filter_length, request);
}

/*
 * Judges the values of a filter's clauses and gives the version asked: 0, or 9. A filter without NtVer asks for version 1.
 * version must overlap neither filter nor request.
 */
static inline uint8_t locator_judge_values(const uint8_t *filter, size_t filter_length,
                                           const struct locator_request *request, uint32_t *version)
{
    return vinegarjar_judge_values(locator_octets(filter), filter_length, request, version);
}

/*
 * Writes a filter of the clauses present, whose octets lie in the source; what lies outside it is not there. 0, or 6 where
 * no clause is present, 5, or 19 by out_room. *length is how many octets of out were written; the rest stays as it was.
 * out and length must overlap neither each other nor source and request.
 */
static inline uint8_t locator_write_filter(const uint8_t *source, size_t source_length,
                                           const struct locator_request *request, uint8_t *out, size_t out_room,
                                           size_t *length)
{
    return vinegarjar_write_filter(locator_octets(source), source_length, request, locator_buffer(out), out_room, length);
}

/*
 * Answers a client's ping from a table image: 0, or 1 to 9 or 11 to 19. The client is its IPv4 address in dotted order. The first
 * answer->length octets of reply are the reply; the rest stays as it was. LOCATOR_REPLY_MOST octets are room for every reply.
 * reply and answer must overlap neither each other nor image, client and filter.
 */
static inline uint8_t locator_answer_ping(const uint8_t *image, size_t image_length, const uint8_t client[4],
                                          const uint8_t *filter, size_t filter_length, uint8_t *reply, size_t reply_room,
                                          struct locator_answer *answer)
{
    return vinegarjar_answer_ping(locator_octets(image), image_length, client, locator_octets(filter), filter_length,
                                  locator_buffer(reply), reply_room, answer);
}

/* Reads a mailslot message: 0, or 41. members must not overlap the message. */
static inline uint8_t locator_read_mailslot(const uint8_t *message, size_t message_length,
                                            struct locator_mailslot *members)
{
    return vinegarjar_read_mailslot(locator_octets(message), message_length, members);
}

/*
 * Writes a mailslot message, whose texts lie in the source; what lies outside it is not there. 0, or 41 where a text or a
 * number breaks its limit, or 19 by out_room. *length is how many octets of out were written; the rest stays as it was.
 * LOCATOR_MAILSLOT_MOST octets are room for every message. out and length must overlap neither each other nor source and
 * members.
 */
static inline uint8_t locator_write_mailslot(const uint8_t *source, size_t source_length,
                                             const struct locator_mailslot *members, uint8_t *out, size_t out_room,
                                             size_t *length)
{
    return vinegarjar_write_mailslot(locator_octets(source), source_length, members, locator_buffer(out), out_room, length);
}

/*
 * Answers a client's mailslot message from a table image as locator_answer_ping answers a filter, by the message's user, bits,
 * SID and version: 0, or 1 to 4, 41 or 15 to 19. reply and answer must overlap neither each other nor image, client and message.
 */
static inline uint8_t locator_answer_mailslot(const uint8_t *image, size_t image_length, const uint8_t client[4],
                                              const uint8_t *message, size_t message_length, uint8_t *reply,
                                              size_t reply_room, struct locator_answer *answer)
{
    return vinegarjar_answer_mailslot(locator_octets(image), image_length, client, locator_octets(message), message_length,
                                      locator_buffer(reply), reply_room, answer);
}

/*
 * Read a received reply in its form: 0, or 31 to 35. version is what the ping asked for in NtVer; it decides only in an EX.
 * reading must not overlap the reply.
 */
static inline uint8_t locator_read_nt40(const uint8_t *reply, size_t reply_length, struct locator_reading *reading)
{
    return vinegarjar_read_nt40(locator_octets(reply), reply_length, reading);
}

static inline uint8_t locator_read_response(const uint8_t *reply, size_t reply_length, struct locator_reading *reading)
{
    return vinegarjar_read_response(locator_octets(reply), reply_length, reading);
}

static inline uint8_t locator_read_ex(const uint8_t *reply, size_t reply_length, uint32_t version,
                                      struct locator_reading *reading)
{
    return vinegarjar_read_ex(locator_octets(reply), reply_length, version, reading);
}

/*
 * The text of the name that starts at an offset of a reply, labels joined by dots: 0, or 31 or 33. All of text is written:
 * the first *length octets are the name, zeros follow. It is not a C string: the longest name leaves no room for a zero.
 * text and length must overlap neither each other nor the reply.
 */
static inline uint8_t locator_name_text(const uint8_t *reply, size_t reply_length, size_t start,
                                        uint8_t text[LOCATOR_TEXT_MOST], size_t *length)
{
    return vinegarjar_name_text(locator_octets(reply), reply_length, start, text, length);
}

#undef LOCATOR_ASSERT

#ifdef __cplusplus
}
#endif

#endif
