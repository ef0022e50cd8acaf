/* The archive's record functions, as the oracle prints its own.
 *     records entries < ENTRIES      the oracle's `records`: what was read, and every byte of the buffer after writing it
 *     records rewrite < RECORDING    the oracle's `rewrite`: the recording by the writer's rules, up to a bad record
 * Configurations are read by nuthkolla_read_config. The archive gives no call's numbers, so that a call's refusal and place come
 * from nuthkolla_run on a fresh guidance, and its numbers from records.h; nuthkolla_write_call writes them. */
#include "records.h"

#include <stdio.h>
#include <stdlib.h>

enum { FILL = 0xa5 };

static uint8_t input[1 << 27];
static nuthkolla_guidance fresh;

/* A place of an entry; 255 is the largest one. */
static size_t place_of(uint8_t byte) { return byte == 255 ? SIZE_MAX : byte; }

/* What was written: the place after it or the refusal, and the whole buffer. */
static void print_written(nuthkolla_place p, const uint8_t *buffer, size_t room)
{
    static const char digits[] = "0123456789abcdef";
    char text[2 * 256 + 1];
    for (size_t i = 0; i < room; i++) {
        text[2 * i] = digits[buffer[i] >> 4];
        text[2 * i + 1] = digits[buffer[i] & 15];
    }
    text[2 * room] = 0;
    const char *space = room == 0 ? "" : " ";
    if (p.refusal == 0)
        printf(" wrote %zu%s%s\n", p.next, space, text);
    else
        printf(" refused %u%s%s\n", p.refusal, space, text);
}

static void try_config(const uint8_t *bytes, size_t n, size_t from, uint8_t *buffer, size_t room, size_t to)
{
    nuthkolla_config_read r = nuthkolla_read_config(bytes, n, from);
    if (r.refusal != 0) {
        printf(" refused %u\n", r.refusal);
        return;
    }
    printf(" read %zu", r.next);
    nuthkolla_place p = nuthkolla_write_config(buffer, room, to, r.config);
    print_written(p, buffer, room);
}

/* A place past the end has no bytes that could be handed over: 5. */
static void try_call(const uint8_t *bytes, size_t n, size_t from, uint8_t *buffer, size_t room, size_t to)
{
    nuthkolla_guidance g = fresh;
    nuthkolla_answer a = {.refusal = 5};
    if (from <= n)
        a = nuthkolla_run(&g, NUTHKOLLA_SKIPPER, NUTHKOLLA_CALL, bytes + from, n - from);
    if (a.next == 0) {
        printf(" refused %u\n", a.refusal);
        return;
    }
    printf(" read %zu", from + a.next);
    nuthkolla_place p = nuthkolla_write_call(buffer, room, to, call_of(bytes + from));
    print_written(p, buffer, room);
}

static int entries(size_t length)
{
    size_t place = 0;
    for (unsigned long number = 1; place < length; number++) {
        const uint8_t *head = input + place;
        printf("%lu", number);
        if (length - place < 5 || length - place - 5 < head[4]) {
            printf(" stopped 5\n");
            return 0;
        }
        uint8_t buffer[256];
        memset(buffer, FILL, sizeof buffer);
        (head[0] == 1 ? try_config : try_call)(head + 5, head[4], place_of(head[1]), buffer, head[3], place_of(head[2]));
        for (size_t i = head[3]; i < sizeof buffer; i++)
            if (buffer[i] != FILL) {
                printf("%lu: a byte past the buffer was written\n", number);
                return 1;
            }
        place += 5 + (size_t)head[4];
    }
    return 0;
}

static int stopped(uint32_t refusal)
{
    fprintf(stderr, "stopped %u\n", refusal);
    return 1;
}

static int rewrite(size_t length)
{
    uint8_t out[NUTHKOLLA_CONFIG_BYTES];
    nuthkolla_config_read r = nuthkolla_read_config(input, length, 0);
    if (r.refusal != 0)
        return stopped(r.refusal);
    nuthkolla_place p = nuthkolla_write_config(out, sizeof out, 0, r.config);
    fwrite(out, 1, p.next, stdout);
    for (size_t place = r.next; place < length;) {
        nuthkolla_guidance g = fresh;
        nuthkolla_answer a = nuthkolla_run(&g, NUTHKOLLA_SKIPPER, NUTHKOLLA_CALL, input + place, length - place);
        if (a.next == 0)
            return stopped(a.refusal);
        p = nuthkolla_write_call(out, sizeof out, 0, call_of(input + place));
        fwrite(out, 1, p.next, stdout);
        place += a.next;
    }
    return 0;
}

int main(int count, char **words)
{
    static const uint8_t no_fields[5];
    nuthkolla_answer made = nuthkolla_run(&fresh, NUTHKOLLA_SKIPPER, NUTHKOLLA_NEW, no_fields, sizeof no_fields);
    size_t length = fread(input, 1, sizeof input, stdin);
    if (made.refusal != 0 || length == sizeof input)
        return 2;
    return count > 1 && strcmp(words[1], "rewrite") == 0 ? rewrite(length) : entries(length);
}
