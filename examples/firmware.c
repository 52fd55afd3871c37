/* Checks the module on standard input and finds keys in it, by the calls of the static library. */

/*
 * usage: firmware-example [FIRST SECOND]... < MODULE
 *
 * FIRST and SECOND are the two words of a key, in hexadecimal. The first line printed is `check N`, or `check N cell K`
 * where a cell is named. Then comes `find FIRST SECOND` for each pair of words, with `cell K`, with `-` where there is no
 * such key, or with the number of a decline.
 */
#include "firmware.h"

#include <inttypes.h>
#include <stdio.h>
#include <stdlib.h>
#include <string.h>

/* One byte more than the longest module, so that a longer one is seen to be too long. */
static const size_t most = ((size_t)1 << 31) + 1;

/* Reads standard input to its end, or as far as any module may go. Gives NULL where memory or the stream fails. */
static uint8_t *read_module(size_t *length)
{
    size_t room = 4096;
    uint8_t *bytes = malloc(room);
    *length = 0;
    while (bytes != NULL) {
        *length += fread(bytes + *length, 1, room - *length, stdin);
        if (*length < room || room == most)
            break;
        room = room < most / 2 ? 2 * room : most;
        uint8_t *larger = realloc(bytes, room);
        if (larger == NULL)
            free(bytes);
        bytes = larger;
    }
    if (bytes != NULL && ferror(stdin)) {
        free(bytes);
        bytes = NULL;
    }
    return bytes;
}

/* Reads a word of 1 to 16 hex digits. Gives 0 where the text is none. */
static int read_word(const char *text, uint64_t *word)
{
    size_t digits = strspn(text, "0123456789abcdefABCDEF");
    if (digits < 1 || digits > 16 || text[digits] != '\0')
        return 0;
    *word = strtoull(text, NULL, 16);
    return 1;
}

static void print_check(uint64_t answer)
{
    uint64_t number = answer % 256;
    printf("check %" PRIu64, number);
    if (number >= 15 && number <= 17)
        printf(" cell %" PRIu64, answer / 256);
    printf("\n");
}

static void print_find(uint64_t first, uint64_t second, uint64_t answer)
{
    printf("find %016" PRIx64 " %016" PRIx64 " ", first, second);
    if (answer == 0)
        printf("-\n");
    else if (answer % 256 == 0)
        printf("cell %" PRIu64 "\n", answer / 256 - 1);
    else
        printf("%" PRIu64 "\n", answer % 256);
}

int main(int argc, char **argv)
{
    uint64_t first, second;
    if (argc % 2 == 0) {
        fprintf(stderr, "%s: a key has two words, and the last one here has one\n", argv[0]);
        return 2;
    }
    for (int i = 1; i < argc; i++) {
        if (!read_word(argv[i], &first)) {
            fprintf(stderr, "%s: '%s' is not a word of 1 to 16 hex digits\n", argv[0], argv[i]);
            return 2;
        }
    }

    size_t length;
    uint8_t *bytes = read_module(&length);
    if (bytes == NULL) {
        fprintf(stderr, "%s: the module cannot be read\n", argv[0]);
        return 1;
    }
    print_check(module_check(bytes, length));
    for (int i = 1; i < argc; i += 2) {
        if (read_word(argv[i], &first) && read_word(argv[i + 1], &second))
            print_find(first, second, module_find(bytes, length, first, second));
    }
    free(bytes);
    if (fflush(stdout) != 0 || ferror(stdout)) {
        fprintf(stderr, "%s: the answers cannot be written\n", argv[0]);
        return 1;
    }
    return 0;
}
