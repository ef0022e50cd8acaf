"""A recording and its answers as a flight: times, places, and what the waypoint calls aim at."""

import statistics
from typing import NamedTuple

from nuthkolla.answers import Answer
from nuthkolla.numbers import F32, is_finite, value
from nuthkolla.record import Call

# A time step that is longer than so many usual ones would leave no room for the rest.
LONGEST_STEP = 50


class Moment(NamedTuple):
    """A call and its answer.

    time: the sum of the time steps after the first call's; along: the call's place on a drawn axis of time; place: north and east of the
    plane as the call reports it, or none.
    """

    number: int
    time: float
    along: float
    call: Call
    answer: Answer
    place: tuple | None

    @property
    def refused(self):
        return self.answer.kind == "refused"

    @property
    def law(self):
        """energy, hold or fallback; none for what is no accepted waypoint call."""
        return self.answer.laws[1] if self.answer.laws else None

    @property
    def idle(self):
        """An accepted waypoint call that flies neither leg nor circle."""
        return self.answer.laws[:1] == ("idle",)

    def number_of(self, name, at=0):
        """A finite number of the call; none where it has none."""
        bits = self.call.numbers.get(name, ())[at : at + 1]
        return value(bits[0]) if bits and is_finite(bits[0]) else None


class Aim(NamedTuple):
    """What waypoint calls aim at: a leg through a point, or a circle round it where there is no finite leg, with its radius."""

    at: tuple
    leg: tuple | None
    radius: float | None


def finite_values(bits):
    return tuple(map(value, bits)) if bits and all(map(is_finite, bits)) else None


def good_step(call):
    """The time step, or none where it would be refused."""
    bits = call.numbers.get("dt", (0,))[0]
    return value(bits) if is_finite(bits) and value(bits) > 0 else None


def usual_step(calls):
    return statistics.median([step for step in map(good_step, calls) if step] or [1.0])


def time_steps(calls):
    """The time step of each call, and how long it is drawn; a prime has none.

    A step that is refused counts nothing and is drawn as the one before it; a very long one is drawn as a usual one.
    """
    drawn = usual = usual_step(calls)
    for call in calls:
        if call.kind == "prime":
            yield 0.0, 0.0
            continue
        step = good_step(call)
        if step:
            drawn = usual if step > LONGEST_STEP * usual else step
        yield step or 0.0, drawn


def moments(calls, answers):
    time, along, found = 0.0, 0.0, []
    for number, (call, answer, (step, drawn)) in enumerate(zip(calls, answers, time_steps(calls)), 1):
        if number > 1:
            time, along = time + step, along + drawn
        place = finite_values(call.numbers["position"][:2]) if call.kind == "waypoint" else None
        found.append(Moment(number, time, along, call, answer, place))
    return found


def off_scale(flown):
    """The calls whose time step is drawn and counts nothing, and those whose step is drawn shorter than it is."""
    longest = LONGEST_STEP * usual_step([moment.call for moment in flown])
    timed = [(moment, good_step(moment.call)) for moment in flown[1:] if moment.call.kind != "prime"]
    return [m for m, step in timed if step is None], [m for m, step in timed if step and step > longest]


def aim_of(call, radius):
    """What a waypoint call aims at, with the loiter radius in force; none where its point is not finite."""
    at, leg = finite_values(call.numbers["at"]), finite_values(call.numbers.get("leg"))
    return at and Aim(at, leg, None if leg else radius)


def aims(flown, configuration):
    """Each aim in the order of its first call, with the places from which it was flown; an idle call flies to none."""
    found, radius = {}, value(configuration["loiter_radius_m"])
    for moment in flown:
        if moment.call.kind == "waypoint" and not moment.idle:
            aim = aim_of(moment.call, radius)
            if aim:
                found.setdefault(aim, [])
                if moment.place:
                    found[aim].append(moment.place)
    return found


class Run(NamedTuple):
    """A number over time without a gap: (place along the axis, number) at each call, and the place at which it ends."""

    steps: list
    end: float


def runs(flown, number_of):
    """The runs of a number: number_of(moment) is it, or none where a call ends it."""
    found, open_run = [], None
    for moment in flown:
        number = number_of(moment)
        if number is not None:
            if open_run is None:
                open_run = []
                found.append(open_run)
            open_run.append((moment.along, number))
        elif open_run is not None:
            found[-1] = Run(open_run, moment.along)
            open_run = None
    if open_run is not None:
        found[-1] = Run(open_run, flown[-1].along)
    return found


def in_force(flown):
    """The calls whose answers are in force in turn: a refused call and a prime leave the one before."""
    return [moment for moment in flown if not moment.refused and moment.answer.kind != "prime"]


def stall_guard(configuration, flown):
    """After each call, whether the stall guard stands, from the calls and their answers.

    Of the energy steps since the last accepted prime, accepted command other than a waypoint or fallback, the latest that was below
    share times least airspeed, or at or above least airspeed, was below.
    """
    least, share = (value(configuration[name]) for name in ("min_airspeed_mps", "underspeed_share"))
    # The product of two f32s is exact in a double, so it is rounded once.
    (low,) = F32.unpack(F32.pack(share * least))
    stands, found = False, []
    for moment in flown:
        if not moment.refused and moment.law in (None, "fallback"):
            stands = False
        elif moment.law == "energy":
            airspeed = moment.number_of("airspeed")
            # Lines need not be the guidance's: a step without an airspeed is none of its own.
            if airspeed is not None:
                stands = airspeed < low or stands and airspeed < least
        found.append(stands)
    return found
