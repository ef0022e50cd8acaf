/* Guidances of arbitrary bytes, numbers and records of arbitrary bytes: every call ends, a refusal keeps the guidance's
 * bytes, the whole answer is a function of guidance, number and bytes, what is put back is a guidance, the words of the
 * answer are those that the header lists, and `next` is the place after the record, worked out here from its map.
 *     odd SEED CALLS */
#define PROGRAM "odd"
#include "nuthkolla.h"
#include "odd.h"

#include <stdio.h>
#include <stdlib.h>
#include <string.h>

/* Words that are numbers of any kind: any bits, small whole numbers, flags. */
static void fill_words(void *to, size_t words)
{
    uint32_t *w = malloc(4 * words);
    for (size_t i = 0; i < words; i++) {
        float small = (float)(any() % 64) - 16;
        switch (any() % 3) {
        case 0: w[i] = any(); break;
        case 1: w[i] = any() % 3; break;
        default: memcpy(&w[i], &small, 4);
        }
    }
    memcpy(to, w, 4 * words);
    free(w);
}

/* Answers are compared as bytes: each byte is one of a field. */
_Static_assert(sizeof(nuthkolla_answer) == 5 * sizeof(uint32_t) + 5 * sizeof(float) + sizeof(size_t), "an answer has padding");

static size_t ones(uint32_t map)
{
    size_t n = 0;
    for (; map != 0; map >>= 1)
        n += map & 1;
    return n;
}

/* The length of the record at the start of the bytes, which are long enough for its map. Of a call: a map of 4 bytes, a byte for each of
 * bits 0 and 1, a number for each other bit; of a configuration: a map of 5 bytes, a number for each bit. */
static size_t record_length(uint32_t what, const uint8_t *bytes)
{
    uint32_t map = bytes[0] | (uint32_t)bytes[1] << 8 | (uint32_t)bytes[2] << 16 | (uint32_t)bytes[3] << 24;
    if (what == NUTHKOLLA_CALL)
        return 4 + ones(map & 3) + 4 * ones(map & ~(uint32_t)3);
    return 5 + 4 * (ones(map) + ones(bytes[4]));
}

/* The place after the record, or 0 where the header says that none was read. */
static size_t place_after(const nuthkolla_answer *a, uint32_t what, const uint8_t *bytes)
{
    switch (a->refusal) {
    case 5: case 6: case 7: case 13: case NUTHKOLLA_UNKNOWN: return 0;
    default: return what == NUTHKOLLA_TAKE_BACK ? 0 : record_length(what, bytes);
    }
}

static void check(const nuthkolla_answer *a)
{
    expect(a->refusal <= 8 || a->refusal == 13 || a->refusal == 14 || a->refusal == NUTHKOLLA_UNKNOWN, "refusal's number");
    expect((a->refusal == 1) == (a->field != 0), "field of refusal 1 alone");
    expect(a->field <= 35, "field's number");
    expect(a->setpoint <= 2 && a->lateral <= 3 && a->vertical <= 3, "kind and laws");
    expect((a->lateral != 0) == (a->vertical != 0), "both laws or none");
    expect(a->lateral == 0 || a->setpoint == NUTHKOLLA_PLANE, "a waypoint answers a plane setpoint");
    expect(a->refusal == 0 || a->setpoint == 0, "a refusal has no setpoint");
    uint32_t off;
    memcpy(&off, &a->cross_track_m, 4);
    expect(off == 0 || a->lateral == NUTHKOLLA_TRACK || a->lateral == NUTHKOLLA_LOITER, "a distance off no line");
}

int main(int count, char **words)
{
    seed = count > 1 ? strtoull(words[1], 0, 10) : 1;
    unsigned long calls = count > 2 ? strtoul(words[2], 0, 10) : 100000, accepted = 0, refused = 0;
    nuthkolla_guidance g;
    fill_words(&g, sizeof g / 4);
    for (unsigned long n = 0; n < calls; n++) {
        uint8_t record[NUTHKOLLA_CONFIG_BYTES] = {0};
        size_t length = sizeof record;
        uint32_t what = any() % 8 < 6 ? 0 : any() % 5, caller = any() % 4 != 0 ? any() % 2 : any() % 8 != 0 ? any() % 5 : any();
        if (any() % 16 == 0)
            fill_words(&g, sizeof g / 4);
        if (what == 0 && any() % 8 != 0) {
            nuthkolla_call call;
            fill_words(&call, sizeof call / 4);
            call.kind = any() % 8 == 0 ? any() : 3 * (any() % 2) + any() % 4;
            call.regime = any() % 8 == 0 ? any() : any() % 2;
            nuthkolla_place p = nuthkolla_write_call(record, sizeof record, 0, call);
            expect((p.refusal == 7) == (call.kind > 6 || call.regime > 1), "refusal 7 of the writer");
            length = p.refusal == 0 ? p.next : any() % sizeof record;
        } else {
            for (size_t i = 0; i < sizeof record; i++)
                record[i] = (uint8_t)any();
            if (any() % 2 != 0)
                record[4] = 0;
            length = any() % (sizeof record + 1);
        }
        /* exactly as long as the record, so that a read past it is seen */
        uint8_t *lent = malloc(length == 0 ? 1 : length);
        memcpy(lent, record, length);
        nuthkolla_guidance before = g, again = g;
        nuthkolla_answer a = nuthkolla_run(&g, caller, what, lent, length);
        nuthkolla_answer b = nuthkolla_run(&again, caller, what, lent, length);
        check(&a);
        expect(memcmp(&g, &again, sizeof g) == 0, "same guidance from same call");
        expect(memcmp(&a, &b, sizeof a) == 0, "same answer from same call");
        expect(a.next == place_after(&a, what, record), "the place after the record");
        expect(memcmp(lent, record, length) == 0, "the record is kept");
        if (a.refusal != 0)
            expect(memcmp(&g, &before, sizeof g) == 0, "a refusal keeps the guidance");
        if (what == 0)
            expect(memcmp(&g.config, &before.config, sizeof g.config) == 0, "a call keeps the configuration");
        if (what == NUTHKOLLA_CALL)
            expect(memcmp(&g.former, &before.former, sizeof g.former) == 0, "a call keeps the kept configuration");
        if (what == NUTHKOLLA_TAKE_BACK)
            expect(a.refusal == 13 || (a.refusal == 14) == (before.former.kept == 0), "refusal 14");
        expect((a.refusal == 13) == (caller > (what == NUTHKOLLA_CALL)), "refusal 13");
        nuthkolla_reported mode = nuthkolla_report(g, caller, NUTHKOLLA_MODE), guard = nuthkolla_report(g, caller, NUTHKOLLA_STALL_GUARD);
        expect(mode.refusal == (caller > 2 ? 13 : 0) && mode.value == (caller <= 2 && g.requested == 0), "the mode report");
        expect(guard.refusal == mode.refusal && guard.value == (caller <= 2 && g.tecs.underspeed != 0), "the guard's report");
        *(a.refusal == 0 ? &accepted : &refused) += 1;
        free(lent);
    }
    printf("%lu calls on guidances of arbitrary bytes: %lu accepted, %lu refused\n", calls, accepted, refused);
    return 0;
}
