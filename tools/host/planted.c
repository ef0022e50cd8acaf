/* A fault between a program and the archive, linked with --wrap=nuthkolla_run and --wrap=nuthkolla_run_route: FAULT is done to each answer
 * `a`; `second` is 1 at every second call. A program that looks at answers has to say so. */
#include "nuthkolla.h"

static nuthkolla_answer changed(nuthkolla_answer a)
{
    static int second = 1;
    second = !second;
    (void)second; /* not every fault uses it */
    FAULT;
    return a;
}

nuthkolla_answer __real_nuthkolla_run(nuthkolla_guidance *guidance, uint32_t caller, uint32_t what, const uint8_t *bytes, size_t length);

nuthkolla_answer __wrap_nuthkolla_run(nuthkolla_guidance *guidance, uint32_t caller, uint32_t what, const uint8_t *bytes, size_t length)
{
    return changed(__real_nuthkolla_run(guidance, caller, what, bytes, length));
}

nuthkolla_route_answer __real_nuthkolla_run_route(
    nuthkolla_guidance *guidance, uint32_t caller, nuthkolla_route_call call, const float *numbers, size_t count);

nuthkolla_route_answer __wrap_nuthkolla_run_route(
    nuthkolla_guidance *guidance, uint32_t caller, nuthkolla_route_call call, const float *numbers, size_t count)
{
    nuthkolla_route_answer a = __real_nuthkolla_run_route(guidance, caller, call, numbers, count);
    a.answer = changed(a.answer);
    return a;
}
