/*
 * settings: the two calls of settings on what standard input holds, an answer a line, to compare
 * with another program (runs/settings). Input is frames, a line and as many bytes behind it as its
 * last number says:
 *
 *     read READER ROOM LENGTH    the text, read into a label of ROOM bytes
 *     write SCHEME RULE LENGTH   the label
 *
 * Buffers are as long as what they hold, so that a tool like valgrind sees a byte too far. What an
 * output holds behind its answer, and after a refusal, must be zeros; else it fails.
 */
#include "wimmostry.h"

#include <stdio.h>
#include <stdlib.h>
#include <string.h>

#define ROOM 64

static void fail(const char *why)
{
    fprintf(stderr, "settings: %s\n", why);
    exit(EXIT_FAILURE);
}

/* At least one byte is taken, so that there is a pointer. */
static uint8_t *taken(size_t length)
{
    uint8_t *bytes = malloc(length + (length == 0));

    if (bytes == NULL)
        fail("no memory");
    return bytes;
}

/* The bytes of a frame. */
static uint8_t *bytes_of(size_t length)
{
    uint8_t *bytes = taken(length);

    if (fread(bytes, 1, length, stdin) != length)
        fail("a frame is cut short");
    return bytes;
}

static void zeros(const uint8_t *bytes, size_t from, size_t end)
{
    for (size_t i = from; i < end; i++)
        if (bytes[i] != 0)
            fail("an output is not zero behind its answer");
}

static void read_one(uint32_t reader, size_t room, size_t length)
{
    uint8_t *text = bytes_of(length), *label = taken(room);
    uint64_t place = 9, written = 9, format = 9, scheme = 9, rule = 9;
    uint32_t refusal;

    memset(label, 9, room);
    refusal = wim_settings_read(reader, text, length, label, room, &place, &written, &format,
                                &scheme, &rule);
    zeros(label, (size_t)written, room);
    if (place != 0)
        fail("a place is not 0");
    printf("refusal=%u format=%llu scheme=%llu rule=%llu label=%.*s\n", (unsigned)refusal,
           (unsigned long long)format, (unsigned long long)scheme, (unsigned long long)rule,
           (int)written, (const char *)label);
    free(label);
    free(text);
}

static void write_one(uint32_t scheme, uint32_t rule, size_t length)
{
    uint8_t *label = bytes_of(length), text[ROOM];
    uint64_t place = 9, written = 9;
    uint32_t refusal;

    memset(text, 9, sizeof text);
    refusal = wim_settings_write(scheme, rule, label, length, text, sizeof text, &place, &written);
    zeros(text, (size_t)written, sizeof text);
    if (place != 0)
        fail("a place is not 0");
    printf("refusal=%u written=%llu text=", (unsigned)refusal, (unsigned long long)written);
    for (size_t i = 0; i < written; i++)
        printf("%02x", text[i]);
    printf("\n");
    free(label);
}

int main(void)
{
    char line[80];
    unsigned one, two;
    size_t room, length;

    while (fgets(line, sizeof line, stdin) != NULL)
        if (sscanf(line, "read %u %zu %zu", &one, &room, &length) == 3)
            read_one(one, room, length);
        else if (sscanf(line, "write %u %u %zu", &one, &two, &length) == 3)
            write_one(one, two, length);
        else
            fail("no frame");
    return EXIT_SUCCESS;
}
