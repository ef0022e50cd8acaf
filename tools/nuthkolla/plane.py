"""A simple plane that flies answers: a point mass with lags in roll and pitch, drag that grows in a bank, and a steady wind."""

import math

GRAVITY = 9.81
WIND = (1.5, 3.0)  # m/s, towards north and east
PARTS = 10  # of a step, in which the plane's motion is worked out


class Plane:
    """x is north, y east, z up; angles in rad."""

    def __init__(self):
        self.x, self.y, self.z = 0.0, 0.0, 6.0
        self.heading, self.roll, self.pitch = 0.0, 0.0, 0.1
        self.airspeed = 15.0

    def climb(self):
        return self.airspeed * math.sin(self.pitch)

    def velocity(self):
        level = self.airspeed * math.cos(self.pitch)
        return (level * math.cos(self.heading) + WIND[0], level * math.sin(self.heading) + WIND[1], self.climb())

    def drag(self):
        """m/s² of speed lost: half of the thrust's greatest at 17 m/s, more in a bank."""
        speed = self.airspeed / 17
        load = 1 / max(math.cos(self.roll), 0.3)
        return 2.9 * (0.65 * speed**2 + 0.35 * (load / speed) ** 2)

    def fly(self, roll, pitch, thrust, seconds):
        dt = seconds / PARTS
        for _ in range(PARTS):
            self.roll += (roll - self.roll) * dt / 0.4
            self.pitch += (pitch - self.pitch) * dt / 0.5
            self.heading += GRAVITY * math.tan(self.roll) / self.airspeed * dt
            self.airspeed += (5.8 * thrust - self.drag() - GRAVITY * math.sin(self.pitch)) * dt
            self.airspeed = max(self.airspeed, 4.0)
            vx, vy, vz = self.velocity()
            self.x, self.y, self.z = self.x + vx * dt, self.y + vy * dt, max(self.z + vz * dt, 0.0)
