/* What a page of a recording shows, from the archive alone: every number of a page comes from here or from the recording.
 *     page flight SECONDS < RECORDING
 *         for each call its line as the desk program prints it; `guard 1` where the stall guard stands after it, else `guard 0`; and of
 *         a waypoint call the turn to come, drawn before the call is made:
 *             path STEPS DRAWN STOPPED REASON POINTS
 *         STEPS fill SECONDS by the call's time step, 1 to 600. POINTS are 16 hexadecimal digits each, the bytes of north and east as
 *         two f32, low byte first: of the DRAWN steps every k-th and the last, so that there are at most 48.
 *     page agree < RECORDINGS
 *         two recordings, the box's and the display's, each after its length, four bytes, low byte first: `agree`, `part BOX DISPLAY` with
 *         the calls at which they part, or whose was refused, `box ..` or `display ..` and the desk program's last line of it.
 * A replay acts as the skipper. */
#include "lines.h"
#include "records.h"

#include <stdlib.h>

enum { MOST_CALLS = 4096, MOST_POINTS = 48 };

static uint8_t input[1 << 24];

/* ---- the archive's calls on a guidance: whatever replays records acts as the skipper */

static nuthkolla_answer run(nuthkolla_guidance *g, uint32_t what, const uint8_t *bytes, size_t length)
{
    return nuthkolla_run(g, NUTHKOLLA_SKIPPER, what, bytes, length);
}

static uint32_t guard(const nuthkolla_guidance *g) { return nuthkolla_report(*g, NUTHKOLLA_SKIPPER, NUTHKOLLA_STALL_GUARD).value; }

/* ---- a flight */

/* How many steps fill so many seconds; 1 where the time step will be refused. */
static size_t steps_of(float dt, double seconds)
{
    double steps = seconds / dt;
    if (!(dt > 0) || !(steps >= 1))
        return 1;
    return steps < NUTHKOLLA_PATH_STEPS ? (size_t)(steps + 0.5) : NUTHKOLLA_PATH_STEPS;
}

static void print_point(const float *point)
{
    for (int i = 0; i < 2; i++) {
        uint32_t word = bits(point[i]);
        printf("%02x%02x%02x%02x", word & 255, word >> 8 & 255, word >> 16 & 255, word >> 24);
    }
}

static void print_path(const nuthkolla_guidance *g, nuthkolla_call call, double seconds)
{
    static float points[3 * NUTHKOLLA_PATH_STEPS];
    size_t steps = steps_of(call.dt, seconds);
    nuthkolla_path p = nuthkolla_draw_path(*g, call, steps, points, 3 * NUTHKOLLA_PATH_STEPS);
    printf("path %zu %zu %zu %u ", steps, p.drawn, p.stopped, p.reason);
    size_t apart = (p.drawn + MOST_POINTS - 1) / MOST_POINTS;
    for (size_t step = apart; step > 0 && step < p.drawn; step += apart)
        print_point(points + 3 * (step - 1));
    if (p.drawn > 0)
        print_point(points + 3 * (p.drawn - 1));
    printf("\n");
}

static void flight(size_t length, double seconds)
{
    nuthkolla_guidance g = {0};
    nuthkolla_answer a = run(&g, NUTHKOLLA_NEW, input, length);
    if (a.refusal != 0) {
        printf(a.refusal == 1 ? "config refused %u\n" : "config stopped %u\n", a.refusal == 1 ? a.field : a.refusal);
        return;
    }
    size_t place = a.next;
    for (unsigned long number = 1; place < length; number++) {
        nuthkolla_guidance before = g;
        a = run(&g, NUTHKOLLA_CALL, input + place, length - place);
        if (number > MOST_CALLS || a.next == 0) {
            printf("%lu stopped %u\n", number, number > MOST_CALLS ? 9 : a.refusal);
            return;
        }
        print_answer(stdout, number, &a);
        printf("guard %u\n", guard(&g));
        nuthkolla_call call = call_of(input + place);
        if (call.kind == NUTHKOLLA_WAYPOINT)
            print_path(&before, call, seconds);
        place += a.next;
    }
}

/* ---- two recordings */

static void print_agreement(const uint8_t *box, size_t box_length, const uint8_t *display, size_t display_length)
{
    nuthkolla_agreed a = nuthkolla_agree(box, box_length, display, display_length);
    if (a.whose != 0)
        printf(a.whose == NUTHKOLLA_BOX ? "box " : "display ");
    if (a.refusal == 1)
        printf("config refused %u\n", a.field);
    else if (a.refusal != 0 && a.call == 0)
        printf("config stopped %u\n", a.refusal);
    else if (a.refusal != 0)
        printf("%u stopped %u\n", a.call, a.refusal);
    else if (a.agree != 0)
        printf("agree\n");
    else
        printf("part %u %u\n", a.box_call, a.display_call);
}

/* The length that stands at a place; 0 where none does, or it is too long. */
static size_t length_at(size_t place, size_t length)
{
    if (length < 4 || place > length - 4)
        return 0;
    size_t found = input[place] | (size_t)input[place + 1] << 8 | (size_t)input[place + 2] << 16 | (size_t)input[place + 3] << 24;
    return found <= length - place - 4 ? found : 0;
}

static int agree(size_t length)
{
    size_t box = length_at(0, length), display = length_at(4 + box, length);
    if (8 + box + display != length)
        return 2;
    print_agreement(input + 4, box, input + 8 + box, display);
    return 0;
}

int main(int count, char **words)
{
    size_t length = fread(input, 1, sizeof input, stdin);
    if (count == 3 && strcmp(words[1], "flight") == 0)
        flight(length, atof(words[2]));
    else if (count == 2 && strcmp(words[1], "agree") == 0)
        return agree(length);
    else
        return 2;
    return 0;
}
