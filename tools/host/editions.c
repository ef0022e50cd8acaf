/* Call records converted by the archive, as the oracle's `editions` prints them: both places or the refusal, and every byte of the
 * second buffer.
 *     editions < ENTRIES */
#include "nuthkolla.h"

#include <stdio.h>
#include <string.h>

enum { FILL = 0xa5 };

static uint8_t input[1 << 27];

/* A place of an entry; 255 is the largest one. */
static size_t place_of(uint8_t byte) { return byte == 255 ? SIZE_MAX : byte; }

static void print_conversion(const uint8_t *head)
{
    static const char digits[] = "0123456789abcdef";
    uint8_t buffer[256];
    memset(buffer, FILL, sizeof buffer);
    size_t room = head[3];
    nuthkolla_conversion c = nuthkolla_convert_record(head + 5, head[4], place_of(head[1]), head[0], buffer, room, place_of(head[2]));
    if (c.refusal == 0)
        printf(" read %zu wrote %zu", c.read, c.written);
    else
        printf(" refused %u", c.refusal);
    if (room != 0)
        putchar(' ');
    for (size_t i = 0; i < room; i++) {
        putchar(digits[buffer[i] >> 4]);
        putchar(digits[buffer[i] & 15]);
    }
    for (size_t i = room; i < sizeof buffer; i++)
        if (buffer[i] != FILL)
            printf(" a byte past the buffer was written");
    if (c.refusal != 0 && (c.read != 0 || c.written != 0))
        printf(" a refusal has places");
    putchar('\n');
}

int main(void)
{
    size_t length = fread(input, 1, sizeof input, stdin), place = 0;
    for (unsigned long number = 1; place < length; number++) {
        const uint8_t *head = input + place;
        printf("%lu", number);
        if (length - place < 5 || length - place - 5 < head[4]) {
            printf(" stopped 5\n");
            return 0;
        }
        print_conversion(head);
        place += 5 + (size_t)head[4];
    }
    return 0;
}
