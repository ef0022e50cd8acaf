/* Replays a recording or a list of tools/oracle through the archive, and prints the oracle's lines.
 *     replay desk|list [--state] [--many] < INPUT
 * With --many the input has many recordings or lists, each after its length: four bytes, low byte first. */
#include "lines.h"

#include <stdlib.h>

static uint8_t all[1 << 26];
static const uint8_t *input;
static int list, state;

/* A list's byte for a taking back, which has no record; 0 and 1 are the archive's numbers too. */
enum { BACK = 2 };

/* A sum of a configuration's bits, so that a state line shows whether it changed. */
static uint32_t sum(const nuthkolla_config *config)
{
    float numbers[sizeof *config / sizeof(float)];
    memcpy(numbers, config, sizeof *config);
    uint32_t found = 0;
    for (size_t n = 0; n < sizeof numbers / sizeof *numbers; n++)
        found = found * 16777619u + bits(numbers[n]);
    return found;
}

static void print_state(unsigned long number, const nuthkolla_guidance *g)
{
    const nuthkolla_tecs *t = &g->tecs;
    printf("%lu state %u %08x %u %08x %08x %08x %08x %08x %08x %08x %u %u %08x %08x\n", number, g->requested != 0, bits(g->altitude.integral), t->seeded != 0,
        bits(t->demand.slewed_height_m), bits(t->demand.height_m), bits(t->demand.airspeed_mps), bits(t->filtered_airspeed_mps),
        bits(t->steady_accel_mps2), bits(t->pitch_integral_rad), bits(t->thrust_integral), t->underspeed != 0,
        g->former.kept != 0, sum(&g->config), sum(&g->former.config));
}

/* A refusal of a record, after which nothing more is read. */
static int stops(uint32_t refusal) { return refusal == 5 || refusal == 6 || refusal == 7; }

/* One entry; 0 where the run stops. */
static int entry(nuthkolla_guidance *g, unsigned long number, uint32_t what, size_t length, size_t *place)
{
    nuthkolla_answer a = nuthkolla_run(g, NUTHKOLLA_SKIPPER, what, input + *place, length - *place);
    if (stops(a.refusal)) {
        printf("%lu stopped %u\n", number, a.refusal);
        return 0;
    }
    *place += a.next;
    if (what == NUTHKOLLA_CALL)
        print_answer(stdout, number, &a);
    else if (what == NUTHKOLLA_TAKE_BACK)
        printf(a.refusal == 0 ? "%lu back\n" : "%lu refused 14\n", number);
    else if (a.refusal == 0)
        printf("%lu set\n", number);
    else
        printf("%lu refused 1 %u\n", number, a.field);
    return 1;
}

static void run(size_t length)
{
    nuthkolla_guidance g;
    memset(&g, 0xa5, sizeof g);
    nuthkolla_answer made = nuthkolla_run(&g, NUTHKOLLA_SKIPPER, NUTHKOLLA_NEW, input, length);
    if (made.refusal != 0) {
        if (made.refusal == 1)
            printf("config refused %u\n", made.field);
        else
            printf("config stopped %u\n", made.refusal);
        return;
    }
    size_t place = made.next;
    for (unsigned long number = 1; place < length; number++) {
        uint32_t what = NUTHKOLLA_CALL;
        if (!list && number > 4096) {
            printf("%lu stopped 9\n", number);
            return;
        }
        if (list) {
            what = input[place++];
            if (what > BACK) {
                printf("%lu stopped tag\n", number);
                return;
            }
            if (what == BACK)
                what = NUTHKOLLA_TAKE_BACK;
        }
        if (!entry(&g, number, what, length, &place))
            return;
        if (state)
            print_state(number, &g);
    }
}

static void run_many(size_t length)
{
    size_t place = 0;
    for (unsigned long number = 1; length - place >= 4; number++) {
        const uint8_t *head = all + place;
        size_t part = head[0] | (size_t)head[1] << 8 | (size_t)head[2] << 16 | (size_t)head[3] << 24;
        if (part > length - place - 4)
            return;
        input = head + 4;
        printf("input %lu\n", number);
        run(part);
        place += 4 + part;
    }
}

int main(int count, char **words)
{
    int many = 0;
    for (int i = 1; i < count; i++) {
        list |= strcmp(words[i], "list") == 0;
        state |= strcmp(words[i], "--state") == 0;
        many |= strcmp(words[i], "--many") == 0;
    }
    input = all;
    size_t length = fread(all, 1, sizeof all, stdin);
    if (many)
        run_many(length);
    else
        run(length);
    return 0;
}
