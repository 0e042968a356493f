"""Decides which proofs run in parallel, with how many jobs each, and estimates the time left."""

import collections

# The speed of a proof with several jobs, as a multiple of its speed with one job.
SPEEDS = {1: 1.0, 2: 1.5, 3: 1.8, 4: 2.0}

# The memory of each further job, as a share of the memory of the first.
FURTHER = 0.6

# A proof: the names of the proofs that it waits for, its work in any unit, and the bytes of memory that it needs.
Part = collections.namedtuple("Part", "waits weight memory")


def share_done(planned):
    """Returns the estimated share of a proof that is done, when this share of its planned time has passed.

    Beyond 0.6, the result grows more slowly and stays below 1, so a proof may take longer than planned.
    """
    return planned if planned <= 0.6 else 1 - 0.16 / (planned - 0.2)


class Schedule:
    """A schedule of parts on some processors and bytes of memory. A part comes first if the most work waits for it."""

    def __init__(self, parts, processors, memory):
        self.parts, self.processors, self.memory = parts, processors, memory
        self.order = sorted(parts, key=lambda name: -self.chain(name))

    def chain(self, name):
        """Returns the work of the longest chain of parts that begins with this one."""
        above = [self.chain(it) for it, part in self.parts.items() if name in part.waits]
        return self.parts[name].weight + max(above, default=0)

    def taken(self, running):
        """Returns the memory of the running parts."""
        return sum(self.room_of(name, jobs) for name, jobs in running.items())

    def room_of(self, name, jobs):
        """Returns the memory of a part with some jobs."""
        return self.parts[name].memory * (1 + FURTHER * (jobs - 1))

    def starts(self, done, running):
        """Returns the parts that can begin now, with their jobs.

        A part gets the processors that no other part waits for.
        """
        ready = [it for it in self.order if it not in done and it not in running and self.parts[it].waits <= done]
        begun = {}
        for at, name in enumerate(ready):
            others = {**running, **begun}
            idle, room = self.processors - sum(others.values()), self.memory - self.taken(others)
            if idle > 0 and (not others or self.room_of(name, 1) <= room):
                begun[name] = self.jobs(name, max(1, idle // (len(ready) - at)), room)
        return begun

    def jobs(self, name, most, room):
        """Returns how many jobs a part gets: at least 1, at most `most`, and as many as fit in the memory."""
        fit = [it for it in SPEEDS if it <= most and self.room_of(name, it) <= room]
        return max(fit, default=1)

    def left(self, done, running, rest):
        """Returns the time until all parts are done, in units of work with one job.

        `rest` is the work left on each part.
        """
        done, running, rest, clock = set(done), dict(running), dict(rest), 0.0
        while done != set(self.parts):
            running.update(self.starts(done, running))
            step = min(rest[it] / SPEEDS[jobs] for it, jobs in running.items())
            ended = {it for it, jobs in running.items() if rest[it] / SPEEDS[jobs] <= step}
            rest = {it: left - step * SPEEDS[running[it]] if it in running else left for it, left in rest.items()}
            running = {it: jobs for it, jobs in running.items() if it not in ended}
            done, clock = done | ended, clock + step
        return clock
