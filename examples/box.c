/* Plays the flight box: it flies a simple plane along a search pattern, sends every call to the display as a record, and
 * works out the setpoints itself. Records go to standard output, lines to the named file.
 *     box LINES | display > LINES2
 * The records are a desk recording: one configuration, then calls. It is built where it stands, since it prints its lines with
 * tools/host/lines.h, and with -lm for the plane that it flies: the library needs no maths library. */
#include "../tools/host/lines.h"

#include <math.h>
#include <stdlib.h>

enum { STEPS = 1500 };

/* A plane that banks at once and keeps its airspeed near what its thrust gives. */
typedef struct plane {
    double north, east, up, heading, speed, climb, roll;
} plane;

static void fly(plane *p, const nuthkolla_answer *a, double dt)
{
    if (a->refusal != 0 || a->setpoint != NUTHKOLLA_PLANE)
        return;
    p->roll += (a->roll - p->roll) * 0.5;
    p->heading += 9.80665 * tan(p->roll) / p->speed * dt;
    p->climb = p->speed * sin(a->pitch);
    p->speed += (6.0 * (a->thrust - 0.5) - 9.80665 * sin(a->pitch)) * dt;
    if (p->speed < 5)
        p->speed = 5;
    p->north += p->speed * cos(p->heading) * dt;
    p->east += p->speed * sin(p->heading) * dt;
    p->up += p->climb * dt;
}

/* The sensors, with a stretch of bad ones. */
static void sense(nuthkolla_call *call, const plane *p, int step)
{
    call->position_m = (nuthkolla_vec3){(float)p->north, (float)p->east, (float)p->up};
    call->velocity_mps = (nuthkolla_vec3){(float)(p->speed * cos(p->heading)), (float)(p->speed * sin(p->heading)), (float)p->climb};
    call->roll_rad = (float)p->roll;
    call->has_airspeed = step % 500 < 460;
    call->airspeed_mps = step % 300 == 150 ? NAN : (float)p->speed;
    if (step % 250 == 249)
        call->position_m.z = INFINITY;
}

/* Launch by sticks, then legs north and south, a loiter at the end of each, and land. */
static nuthkolla_call command(const plane *p, int step)
{
    nuthkolla_call call = {.kind = NUTHKOLLA_WAYPOINT, .regime = 1, .dt = 0.1f};
    int leg = step / 250;
    if (step < 20) {
        call.kind = NUTHKOLLA_ATTITUDE;
        call.second = 0.4f;
        call.third = 0.9f;
    } else if (step == 20) {
        call.kind = NUTHKOLLA_PRIME;
    } else if (step == 700) {
        call.kind = NUTHKOLLA_ABSOLUTE_RATE;
        call.first = 0.25f;
        call.fourth = 2.0f;
    } else if (step >= STEPS - 10) {
        call.kind = NUTHKOLLA_LAND;
    }
    call.waypoint_north_m = leg % 2 == 0 ? 600 : 0;
    call.waypoint_east_m = (float)(leg * 80);
    call.has_leg = step % 250 < 200;
    call.leg_north_mps = leg % 2 == 0 ? 18 : -18;
    call.altitude_m = 60;
    call.cruise_speed_mps = 18;
    call.has_cap = step % 400 > 350;
    call.pitch_cap_rad = step % 400 == 399 ? -0.1f : 0.15f;
    if (step % 333 == 332)
        call.dt = 0;
    sense(&call, p, step);
    return call;
}

static void must(int holds, const char *what)
{
    if (!holds) {
        fprintf(stderr, "box: %s\n", what);
        exit(1);
    }
}

/* A skipper tries a wider bank and thinks better of it before the next call. The display hears of neither, and its answers stay
 * the box's: a change and its taking back leave no trace. */
static void try_wider_bank(nuthkolla_guidance *guidance)
{
    nuthkolla_config wider = guidance->config;
    wider.max_bank_rad = 1.0f;
    uint8_t record[NUTHKOLLA_CONFIG_BYTES];
    size_t length = nuthkolla_write_config(record, sizeof record, 0, wider).next;
    must(nuthkolla_run(guidance, NUTHKOLLA_SKIPPER, NUTHKOLLA_SET_CONFIG, record, length).refusal == 0, "the wider bank is refused");
    must(nuthkolla_run(guidance, NUTHKOLLA_SKIPPER, NUTHKOLLA_TAKE_BACK, record, 0).refusal == 0, "nothing to take back");
    must(nuthkolla_run(guidance, NUTHKOLLA_SKIPPER, NUTHKOLLA_TAKE_BACK, record, 0).refusal == 14, "taken back twice");
}

/* A deckhand tries the wider bank too, and someone who may only watch sends a prime and a landing, then reads the two reports. The
 * display hears of none of it: what is forbidden leaves no trace. */
static void try_without_the_right(nuthkolla_guidance *guidance)
{
    uint8_t record[NUTHKOLLA_CONFIG_BYTES];
    size_t length = nuthkolla_write_config(record, sizeof record, 0, guidance->config).next;
    must(nuthkolla_run(guidance, NUTHKOLLA_DECKHAND, NUTHKOLLA_SET_CONFIG, record, length).refusal == 13, "a deckhand sets");
    nuthkolla_call sent = {0};
    for (sent.kind = NUTHKOLLA_PRIME; sent.kind <= NUTHKOLLA_LAND; sent.kind += NUTHKOLLA_LAND) {
        length = nuthkolla_write_call(record, sizeof record, 0, sent).next;
        must(nuthkolla_run(guidance, NUTHKOLLA_WATCHER, NUTHKOLLA_CALL, record, length).refusal == 13, "a watcher flies");
    }
    must(nuthkolla_report(*guidance, NUTHKOLLA_WATCHER, NUTHKOLLA_MODE).refusal == 0, "no mode report");
    must(nuthkolla_report(*guidance, NUTHKOLLA_WATCHER, NUTHKOLLA_STALL_GUARD).refusal == 0, "no report of the guard");
    must(nuthkolla_report(*guidance, 3, NUTHKOLLA_MODE).refusal == 13, "a stranger reads");
}

int main(int count, char **words)
{
    must(count == 2, "the name of the file for the lines is missing");
    FILE *lines = fopen(words[1], "w");
    must(lines != NULL, "cannot write the lines");

    nuthkolla_config config = nuthkolla_default_config();
    config.tecs.min_airspeed_mps = 12;
    config.loiter_radius_m = 60;
    uint8_t record[NUTHKOLLA_CONFIG_BYTES];
    size_t length = nuthkolla_write_config(record, sizeof record, 0, config).next;
    nuthkolla_guidance guidance = {0};
    must(nuthkolla_run(&guidance, NUTHKOLLA_SKIPPER, NUTHKOLLA_NEW, record, length).refusal == 0, "the configuration is refused");
    must(fwrite(record, 1, length, stdout) == length, "the cable is cut");

    plane p = {0, 0, 0, 0.3, 14, 0, 0};
    for (int step = 0; step < STEPS; step++) {
        if (step % 400 == 200)
            try_wider_bank(&guidance);
        if (step % 100 == 50)
            try_without_the_right(&guidance);
        nuthkolla_place end = nuthkolla_write_call(record, sizeof record, 0, command(&p, step));
        must(end.refusal == 0, "no record");
        must(fwrite(record, 1, end.next, stdout) == end.next, "the cable is cut");
        nuthkolla_answer answer = nuthkolla_run(&guidance, NUTHKOLLA_DECKHAND, NUTHKOLLA_CALL, record, end.next);
        print_answer(lines, (unsigned long)step + 1, &answer);
        fly(&p, &answer, 0.1);
    }
    must(fclose(lines) == 0 && fflush(stdout) == 0, "lines or records are not written");
    return 0;
}
