/*
 * Checks card images.
 *
 *   check FILE...   says of each file whether it is accepted
 *   check -         reads images from standard input, each a 32-bit
 *                   little-endian length and that many bytes, and prints
 *                   the 64-bit answer for each on a line of its own
 */
#include "card_image.h"

#include <errno.h>
#include <inttypes.h>
#include <stdint.h>
#include <stdio.h>
#include <stdlib.h>
#include <string.h>

/* Reads a whole file; null, with the cause in errno, when that fails. */
static uint8_t *read_file(const char *name, size_t *len)
{
    FILE *file = fopen(name, "rb");
    if (file == NULL)
        return NULL;
    uint8_t *bytes = NULL;
    size_t room = 0, used = 0;
    int cause = 0;
    do {
        /* Full: double the room. */
        room = room == 0 ? 4096 : room * 2;
        uint8_t *more = room > used ? realloc(bytes, room) : NULL;
        if (more == NULL) {
            cause = ENOMEM;
            break;
        }
        bytes = more;
        used += fread(bytes + used, 1, room - used, file);
        if (ferror(file))
            cause = errno;
    } while (cause == 0 && used == room);
    fclose(file);
    if (cause != 0) {
        free(bytes);
        errno = cause;
        return NULL;
    }
    *len = used;
    return bytes;
}

/* Prints one line; 0 when the file is accepted, else 1. */
static int check_file(const char *name)
{
    size_t len;
    uint8_t *bytes = read_file(name, &len);
    if (bytes == NULL) {
        fprintf(stderr, "%s: cannot be read: %s\n", name, strerror(errno));
        return 1;
    }
    uint64_t answer = card_image_check(bytes, len);
    free(bytes);
    if (answer == 0) {
        printf("%s: accepted\n", name);
        return 0;
    }
    printf("%s: refused %" PRIu64 " at byte %" PRIu64 "\n", name, answer >> 32,
           answer & UINT32_MAX);
    return 1;
}

static int check_batch(void)
{
    uint8_t word[4];
    size_t got;
    while ((got = fread(word, 1, sizeof word, stdin)) == sizeof word) {
        size_t len = (uint32_t)word[0] | (uint32_t)word[1] << 8 |
                     (uint32_t)word[2] << 16 | (uint32_t)word[3] << 24;
        /* Just the room of the image, so that a tool sees a read beyond it. */
        uint8_t *bytes = malloc(len > 0 ? len : 1);
        if (bytes == NULL) {
            fprintf(stderr, "check: no memory for %zu bytes\n", len);
            return 1;
        }
        if (fread(bytes, 1, len, stdin) != len) {
            fprintf(stderr, "check: the input ends inside an image\n");
            free(bytes);
            return 1;
        }
        printf("%" PRIu64 "\n", card_image_check(bytes, len));
        fflush(stdout);
        free(bytes);
    }
    if (ferror(stdin)) {
        fprintf(stderr, "check: the input cannot be read\n");
        return 1;
    }
    if (got != 0) {
        fprintf(stderr, "check: the input ends inside a length\n");
        return 1;
    }
    return 0;
}

int main(int argc, char **argv)
{
    int status = 0;
    if (argc < 2) {
        fprintf(stderr, "usage: check FILE...\n       check -\n");
        return 2;
    }
    if (argc == 2 && strcmp(argv[1], "-") == 0) {
        status = check_batch();
    } else {
        for (int i = 1; i < argc; i++)
            status |= check_file(argv[i]);
    }
    if (fflush(stdout) != 0 || ferror(stdout)) {
        fprintf(stderr, "check: the output cannot be written\n");
        status = 1;
    }
    return status;
}
