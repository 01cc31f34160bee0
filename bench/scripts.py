"""Scripts for the program `waits`: docs/RULES.md says what they mean."""

import random

SCRIPT_MAX = 8192
JOBS = 256
TARGETS_MAX = 16
DEPTH_MAX = 8
TRAIL_MAX = 1024


def request(job, need, targets):
    return bytes([ord("R"), job, need, len(targets), *sorted(targets)])


def grant(granter, waiter):
    return bytes([ord("G"), granter, waiter])


def detect(job):
    return bytes([ord("D"), job])


def with_detections(setup, initiators, most=SCRIPT_MAX):
    """The requests, and as many detections as the script has room for, but no more than `most`."""
    room = min(most, (SCRIPT_MAX - len(setup)) // 2)
    return setup + b"".join(detect(initiators[i % len(initiators)]) for i in range(room))


def dense_stuck():
    """Each of the 256 jobs needs 8 of the 16 jobs after it: nobody is active, so all are stuck."""
    setup = b"".join(
        request(job, 8, [(job + step) % JOBS for step in range(1, 17)]) for job in range(JOBS)
    )
    return with_detections(setup, range(JOBS))


def dense_free():
    """Job 0 is active, and each other needs 1 of the 16 jobs after it: all can be freed."""
    setup = b"".join(
        request(job, 1, [(job + step) % JOBS for step in range(1, 17)]) for job in range(1, JOBS)
    )
    return with_detections(setup, range(JOBS))


def sparse(rng):
    """Each job but some needs one or both of one or two others, at random: some are stuck, some free."""
    setup = b""
    for job in range(JOBS):
        if rng.random() < 0.1:
            continue
        targets = rng.sample([t for t in range(JOBS) if t != job], rng.randint(1, 2))
        setup += request(job, rng.randint(1, len(targets)), targets)
    return with_detections(setup, rng.sample(range(JOBS), JOBS))


class Model:
    """What is needed of a book to write commands that are accepted."""

    def __init__(self):
        self.rows = {}
        self.trail = []
        self.starts = []

    def has_room(self):
        return not self.starts or len(self.trail) < TRAIL_MAX

    def write(self, job, row):
        if self.starts:
            self.trail.append((job, self.rows.get(job)))
        self.put(job, row)

    def put(self, job, row):
        if row is None:
            self.rows.pop(job, None)
        else:
            self.rows[job] = row

    def request(self, job, need, targets):
        self.write(job, (need, tuple(sorted(targets))))
        return request(job, need, targets)

    def grants(self):
        """The grants that are accepted now."""
        return [(t, job) for job, (_, row) in self.rows.items() for t in row if t not in self.rows]

    def grant(self, granter, waiter):
        need, targets = self.rows[waiter]
        left = tuple(t for t in targets if t != granter)
        self.write(waiter, (need - 1, left) if need > 1 else None)
        return grant(granter, waiter)

    def open(self):
        self.starts.append(len(self.trail))
        return b"O"

    def keep(self):
        self.starts.pop()
        if not self.starts:
            self.trail.clear()
        return b"K"

    def cancel(self):
        start = self.starts.pop()
        while len(self.trail) > start:
            self.put(*self.trail.pop())
        return b"C"


def accepted_command(rng, model, most_targets, detections):
    """A command that the book accepts."""
    while True:
        pick = rng.random()
        if pick < detections:
            return detect(rng.randrange(JOBS))
        pick = rng.random()
        if pick < 0.15:
            if len(model.starts) < DEPTH_MAX:
                return model.open()
            continue
        if pick < 0.30:
            if model.starts:
                return model.keep() if pick < 0.22 else model.cancel()
            continue
        if not model.has_room():
            return model.cancel()
        if pick < 0.70 and len(model.rows) < JOBS:
            job = rng.choice([job for job in range(JOBS) if job not in model.rows])
            targets = rng.sample([t for t in range(JOBS) if t != job], rng.randint(1, most_targets))
            return model.request(job, rng.randint(1, len(targets)), targets)
        for _ in range(8):
            if not model.rows:
                break
            waiter = rng.choice(list(model.rows))
            granters = [t for t in model.rows[waiter][1] if t not in model.rows]
            if granters:
                return model.grant(rng.choice(granters), waiter)


def undo_heavy(rng, most_targets=2):
    """Groups in groups, up to eight deep, with requests and grants in them, kept and cancelled."""
    model = Model()
    script = b""
    while True:
        command = accepted_command(rng, model, most_targets, detections=0.0)
        if len(script) + len(command) > SCRIPT_MAX:
            return script
        script += command


def undo_waves():
    """Eight groups, requests in each, and all cancelled: again and again, with the longest undo that fits."""
    wave = b""
    for depth in range(DEPTH_MAX):
        wave += b"O"
        for job in range(depth * 30, depth * 30 + 30):
            wave += request(job, 1, [JOBS - 1])
    wave += b"C" * DEPTH_MAX
    script = wave * (SCRIPT_MAX // len(wave))
    # what is left of the room: an empty group, again and again
    return script + b"OC" * ((SCRIPT_MAX - len(script)) // 2)


def empty_groups():
    return b"OOOOOOOOCKCKCKCK" * (SCRIPT_MAX // 16)


def ring_stuck(waits, deliveries):
    """`waits` waits in all, evenly on the jobs of a ring of which nobody is active; a detection has two deliveries a wait."""
    jobs = min(waits, JOBS)
    each = waits // jobs
    setup = b"".join(
        request(job, 1, [(job + step) % jobs for step in range(1, each + 1)]) for job in range(jobs)
    )
    return with_detections(setup, range(jobs), max(1, deliveries // (2 * waits)))


def ring_free(waits, deliveries):
    """As near to `waits` as a ring comes in which job 0 is active; a detection has four deliveries a wait."""
    jobs = min(waits + 1, JOBS)
    each = max(1, waits // JOBS)
    setup = b"".join(
        request(job, 1, [(job + step) % jobs for step in range(1, each + 1)]) for job in range(1, jobs)
    )
    waits = each * (jobs - 1)
    return waits, with_detections(setup, range(1, jobs), max(1, deliveries // (4 * waits)))


def ring(targets, free):
    """Each of the 256 jobs has as targets those after it, and needs one of them if free, all if stuck; job 0 is active if free."""
    first = 1 if free else 0
    setup = b"".join(
        request(job, 1 if free else targets, [(job + step) % JOBS for step in range(1, targets + 1)])
        for job in range(first, JOBS)
    )
    return with_detections(setup, range(JOBS), 2000)


def few_waits(waits, free):
    """So many jobs of the 256 wait for one each: in a chain whose end is active if free, in a circle if stuck."""
    if free:
        setup = b"".join(request(job, 1, [job - 1]) for job in range(1, waits + 1))
    else:
        setup = b"".join(request(job, 1, [(job + 1) % waits]) for job in range(waits))
    return with_detections(setup, [waits if free else 0], 3800)


def random_script(rng):
    """A script for the fuzz: most of them damaged."""
    kind = rng.random()
    if kind < 0.05:
        return bytes(rng.choice(b"RGOKCD\0\1\2\3") for _ in range(rng.randint(0, 200)))
    if kind < 0.08:
        # about as long as a script can be
        return b"OK" * 4090 + rng.randbytes(rng.randint(0, 16)).replace(b"O", b"D")
    model = Model()
    script = b""
    length = min(SCRIPT_MAX, int(2 ** rng.uniform(3, 13.2)))
    most_targets = rng.choice([1, 2, 4, 16])
    detections = rng.choice([0.02, 0.1])
    while len(script) < length:
        command = accepted_command(rng, model, most_targets, detections)
        if len(script) + len(command) > SCRIPT_MAX:
            break
        script += command
    if rng.random() < 0.35:
        return script
    script = bytearray(script)
    for _ in range(rng.randint(1, 3)):
        at = rng.randrange(len(script) + 1)
        damage = rng.randrange(8)
        if damage == 0:
            del script[at:]
        elif damage == 1 and script:
            script[at - 1] = rng.randrange(256)
        elif damage == 2:
            script[at:at] = bytes([rng.choice(b"RGOKCD")])
        elif damage == 3 and script:
            del script[at - 1]
        elif damage == 4:
            targets = [rng.randrange(256) for _ in range(rng.randint(0, 18))]
            targets = sorted(set(targets)) if rng.random() < 0.6 else targets
            need = rng.randint(0, len(targets) + 1)
            script += bytes([ord("R"), rng.randrange(256), need, len(targets), *targets])
        elif damage == 5:
            script += grant(rng.randrange(256), rng.randrange(256))
        elif damage == 6:
            script += b"O" * rng.randint(1, 9)
        elif damage == 7:
            script += rng.choice([b"K", b"C"]) * rng.randint(1, 9)
    return bytes(script[: SCRIPT_MAX + rng.choice([0, 0, 0, 1, 2])])


def full_trail(rng):
    """A script that fills the trail, or comes near to it."""
    # a row changes twice by ten bytes: a request and a grant
    writes = rng.randint(TRAIL_MAX - 3, TRAIL_MAX + 3)
    script = b"O"
    for _ in range(writes // 2):
        script += request(0, 1, [1]) + grant(1, 0)
    if writes % 2:
        script += request(0, 1, [1])
    return script + rng.choice([b"", b"C", b"K", b"OKD\0", b"KD\0"]) + detect(0)


def chart(rows):
    """The bytes of a chart, of needs and targets."""
    return b"".join(bytes([need, len(targets), *sorted(targets)]).ljust(18, b"\0") for need, targets in rows)


def charts():
    """Charts of 256 jobs, to be reduced: all stuck in a ring, all free but for job 0 active, and random ones."""
    rng = random.Random(3)
    for count in (1, 16):
        ring = [[(job + step) % JOBS for step in range(1, count + 1)] for job in range(JOBS)]
        back = [[(job - step) % JOBS for step in range(1, count + 1)] for job in range(1, JOBS)]
        some = [rng.sample([t for t in range(JOBS) if t != job], count) for job in range(JOBS)]
        need = (count + 1) // 2
        yield f"ring, {need} of {count}", JOBS * count, chart((need, targets) for targets in ring)
        yield f"free, 1 of {count}", (JOBS - 1) * count, chart([(0, []), *((1, targets) for targets in back)])
        rows = [(need, targets) if job % 16 else (0, []) for job, targets in enumerate(some)]
        yield f"random, {need} of {count}", sum(len(targets) for _, targets in rows), chart(rows)
