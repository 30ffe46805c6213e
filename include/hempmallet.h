/* Hempmallet for the console's host: verdict, mining and permit.
 *
 * Each function takes the bytes of a house file, checks them first, and
 * returns one number. docs/EXPORTS.md lists what the numbers mean.
 *
 * A pointer must be valid also where its length is 0, and the buffers of a call
 * must not overlap. No function keeps a pointer or holds state between calls.
 * A call needs up to 600 KB of stack: give a thread that calls 1 MiB.
 *
 * Every call ends, but on some files and lists with words of some thirty
 * symbols it can take longer than anybody waits. A host that must answer makes
 * the call where it can be ended.
 */
#ifndef HEMPMALLET_H
#define HEMPMALLET_H

#include <stddef.h>
#include <stdint.h>

#ifdef __cplusplus
extern "C" {
#endif

/* Whether the file's permits can be said by rules, and how long their list is. */
uint64_t hempmallet_verdict(const uint8_t *file, size_t file_len);

/* Writes the rule list from output's first byte, and into scratch which pairs it permits:
 * byte 32 * first + second, of the first HEMPMALLET_SCRATCH, is 1 or 0. */
uint64_t hempmallet_mining(const uint8_t *file, size_t file_len,
                           uint8_t *scratch, size_t scratch_len,
                           uint8_t *output, size_t output_len);

/* Whether the rule list permits the pair. */
uint64_t hempmallet_permit(const uint8_t *file, size_t file_len,
                           const uint8_t *list, size_t list_len,
                           size_t first, size_t second);

/* What mining needs at least as scratch. */
#define HEMPMALLET_SCRATCH 1024u

/* The longest file that can be legal; it is of edition 2. */
#define HEMPMALLET_LONGEST_FILE 44712u

/* The low byte of a reply: a refusal's number, below HEMPMALLET_FIRST_KIND, or one of these. */
#define HEMPMALLET_FIRST_KIND 128u

enum {
    HEMPMALLET_CONVERTIBLE = 128, /* verdict; the list's length stands above */
    HEMPMALLET_NO_WORD = 129,     /* verdict; a pair stands above */
    HEMPMALLET_RIVAL = 130,       /* verdict; a pair and its rival stand above */
    HEMPMALLET_MINED = 128,       /* mining; the length written stands above */
    HEMPMALLET_NO = 128,          /* permit */
    HEMPMALLET_YES = 129          /* permit */
};

/* Refusals. Nothing stands above them. */
enum {
    HEMPMALLET_REFUSED_LENGTH = 1,            /* file: shorter than 8 bytes, or of another length than the header says */
    HEMPMALLET_REFUSED_HEADER = 2,            /* file: a header field outside its range */
    HEMPMALLET_REFUSED_LINK = 3,              /* file: a head or next above R */
    HEMPMALLET_REFUSED_REACHED_TWICE = 4,     /* file: a record reached a second time */
    HEMPMALLET_REFUSED_NEVER_REACHED = 5,     /* file: a record never reached */
    HEMPMALLET_REFUSED_TARGET = 6,            /* file: a target of n or more, or the chain's own party */
    HEMPMALLET_REFUSED_KIND = 7,              /* file: a kind byte that is neither a label below L, nor 0x80 plus one, nor 0xFF */
    HEMPMALLET_REFUSED_REPEATED = 8,          /* file: target and kind of an earlier record of the chain */
    HEMPMALLET_REFUSED_LIST = 9,              /* permit: the list's bytes break the layout, or a symbol is not the file's */
    HEMPMALLET_REFUSED_PAIR = 10,             /* permit: a party of n or more, or the same party twice */
    HEMPMALLET_REFUSED_SCRATCH = 12,          /* mining: scratch below HEMPMALLET_SCRATCH bytes */
    HEMPMALLET_REFUSED_NOT_CONVERTIBLE = 13,  /* mining: the file is not convertible */
    HEMPMALLET_REFUSED_OUTPUT = 14,           /* mining: output below the list's length */
    HEMPMALLET_REFUSED_OWNER = 15,            /* file: in edition 2, an owner byte other than the chain's party */
    HEMPMALLET_REFUSED_KNOWN_AND_UNKNOWN = 16 /* file: target and label of an earlier record of the chain, one known and one unknown */
};

/* The low byte of a reply. */
static inline unsigned hempmallet_kind(uint64_t reply)
{
    return (unsigned)(reply & 255u);
}

/* Whether the reply is a refusal; its number is then hempmallet_kind. */
static inline int hempmallet_refused(uint64_t reply)
{
    return hempmallet_kind(reply) < HEMPMALLET_FIRST_KIND;
}

/* The length of HEMPMALLET_CONVERTIBLE and of HEMPMALLET_MINED. */
static inline uint64_t hempmallet_length(uint64_t reply)
{
    return reply >> 8;
}

/* The pair of HEMPMALLET_NO_WORD and of HEMPMALLET_RIVAL. */
static inline unsigned hempmallet_first(uint64_t reply)
{
    return (unsigned)(reply >> 8 & 255u);
}

static inline unsigned hempmallet_second(uint64_t reply)
{
    return (unsigned)(reply >> 16 & 255u);
}

/* The rival of HEMPMALLET_RIVAL. */
static inline unsigned hempmallet_rival_first(uint64_t reply)
{
    return (unsigned)(reply >> 24 & 255u);
}

static inline unsigned hempmallet_rival_second(uint64_t reply)
{
    return (unsigned)(reply >> 32 & 255u);
}

#ifdef __cplusplus
}
#endif

#endif
