/* A host to start from: prints what the console may know of a house file.
 *
 *     host FILE
 *
 * It prints the verdict; where the file is convertible, the mined list's bytes
 * and each pair that the list permits. The exit status is 0 where the file was
 * accepted, 1 where it was refused, and 2 where the host itself failed. */
#include <stdio.h>
#include <stdlib.h>

#include "hempmallet.h"

/* The file's bytes; one more than can be legal, so that a longer file is refused too. */
static uint8_t file[HEMPMALLET_LONGEST_FILE + 1];
static size_t file_len;

static int fail(const char *what)
{
    fprintf(stderr, "host: %s\n", what);
    return 2;
}

static int read_file(const char *path)
{
    FILE *in = fopen(path, "rb");
    if (in == NULL) {
        return 0;
    }
    file_len = fread(file, 1, sizeof file, in);
    int good = !ferror(in);
    fclose(in);
    return good;
}

static void print_verdict(uint64_t reply)
{
    switch (hempmallet_kind(reply)) {
    case HEMPMALLET_CONVERTIBLE:
        printf("convertible, a list of %llu bytes\n", (unsigned long long)hempmallet_length(reply));
        break;
    case HEMPMALLET_NO_WORD:
        printf("not convertible: pair %u %u has no word\n", hempmallet_first(reply), hempmallet_second(reply));
        break;
    case HEMPMALLET_RIVAL:
        printf("not convertible: pair %u %u has the rival %u %u\n", hempmallet_first(reply), hempmallet_second(reply),
               hempmallet_rival_first(reply), hempmallet_rival_second(reply));
        break;
    default:
        printf("refused %u\n", hempmallet_kind(reply));
    }
}

static void print_list(const uint8_t *list, size_t list_len)
{
    printf("list");
    for (size_t i = 0; i < list_len; i++) {
        printf(" %02X", list[i]);
    }
    printf("\n");
}

/* Asks permit for each pair; the number of parties is byte 1 of an accepted file. */
static void print_permits(const uint8_t *list, size_t list_len)
{
    size_t parties = file[1];
    for (size_t first = 0; first < parties; first++) {
        for (size_t second = 0; second < parties; second++) {
            if (first != second
                && hempmallet_permit(file, file_len, list, list_len, first, second) == HEMPMALLET_YES) {
                printf("permits %zu %zu\n", first, second);
            }
        }
    }
}

static int mine_and_print(size_t length)
{
    static uint8_t scratch[HEMPMALLET_SCRATCH];
    uint8_t *list = (uint8_t *)malloc(length); /* the cast is for C++ */
    if (list == NULL) {
        return fail("no memory for the list");
    }
    uint64_t reply = hempmallet_mining(file, file_len, scratch, sizeof scratch, list, length);
    if (hempmallet_refused(reply) || hempmallet_length(reply) != length) {
        free(list);
        return fail("mining did not write the list");
    }
    print_list(list, length);
    print_permits(list, length);
    free(list);
    return 0;
}

int main(int count, char **arguments)
{
    if (count != 2) {
        return fail("usage: host FILE");
    }
    if (!read_file(arguments[1])) {
        return fail("the file cannot be read");
    }
    uint64_t reply = hempmallet_verdict(file, file_len);
    print_verdict(reply);
    if (hempmallet_kind(reply) == HEMPMALLET_CONVERTIBLE) {
        return mine_and_print((size_t)hempmallet_length(reply));
    }
    return hempmallet_refused(reply) ? 1 : 0;
}
