"""A run of a script, worked out plainly: what each step does to which cyclic, and the line that comes of it.

It knows all words of the format and any number of CPUs. It is no part of the proof, and shares no code with what is proved:
pictures (tools/timeline) are drawn by it, and tests compare texts with its lines.
"""

NEVER = 2**63 - 1
SECOND = 10**9
MOST_CYCLICS = 4096


def first(start, interval, now):
    return start if start else min((now // interval + 1) * interval, NEVER)


def due(expire, interval, now):
    if expire > now:
        return 0
    return 1 if now - (expire + interval) > SECOND else (now - expire) // interval + 1


def following(expire, interval, now):
    return expire if expire > now else min(expire + ((now - expire) // interval + 1) * interval, NEVER)


class Cyclic:
    """A cyclic, or a component of an omnipresent one, on one CPU."""

    def __init__(self, id, level, interval, expire, counts=(0, 0)):
        self.id, self.level, self.interval, self.expire = id, level, interval, expire
        self.expired, self.lost = counts
        self.pend = 0


class Level:
    """One soft level of a CPU: the ids in the bank that was left and in the one that is filled, and the one in hand."""

    def __init__(self):
        self.old, self.new, self.hand, self.followed = [], [], None, True

    def switch(self):
        self.old, self.new, self.followed = self.new, [], False

    def take(self):
        if not self.followed and not self.old:
            self.followed = True
        waiting = self.new if self.followed else self.old
        self.hand = waiting.pop(0) if waiting else None


class Cpu:
    def __init__(self):
        self.online, self.size, self.removal, self.cyclics = True, 1, None, {}
        self.levels = {"low": Level(), "lock": Level()}

    def room(self, more):
        """The number of the refusal where so many more have no room."""
        needed = len(self.cyclics) + more
        if needed > MOST_CYCLICS:
            return 5
        if needed <= self.size:
            return None
        if self.removal is not None:
            return 7
        return None if all(it.followed for it in self.levels.values()) else 6

    def widen(self, more):
        if len(self.cyclics) + more > self.size:
            while len(self.cyclics) + more > self.size:
                self.size *= 2
            for level in self.levels.values():
                level.switch()


class Name:
    """A name of the script: its id once it has one, where its cyclic is, and the counts of what has ended."""

    def __init__(self):
        self.id, self.gone, self.bound, self.omni, self.called = None, False, False, None, 0
        self.ended = {}  # CPU: (expired, lost)
        self.open, self.at = None, []  # the CPUs on which its removal is open, and those on which it began


class Refused(Exception):
    def __init__(self, number):
        super().__init__(number)
        self.number = number


def refuse(number, where=True):
    if number and where:
        raise Refused(number)


class Run:
    """The run of a script. `lines` are the lines of its text, and `marks` what there is to draw: (step, kind, name, CPU, more)."""

    def __init__(self, script):
        self.cpus = [Cpu() for _ in range(script["cpus"])]
        self.ceiling = script.get("ceiling", 2**32 - 1)
        self.clock, self.last, self.number, self.suspended = 0, 0, 0, False
        self.names, self.of_id, self.lines, self.marks, self.refused = {}, {}, [], [], {}
        self.clocks, self.fired = [], 0  # for each step the moment of the last fire before it, and the clock after it
        for self.number, (word, *words) in enumerate(script["steps"], 1):
            before = self.fired
            try:
                said = getattr(self, word)(*words)
                self.line(said if said is not None else "ok")
            except Refused as why:
                self.refused[self.number] = why.number
                self.line(f"refused {why.number}")
            if word == "softint" and self.number not in self.refused:
                self.poll()
            self.clocks.append((before, self.clock))
        for text, name in self.names.items():
            expired, lost = self.totals(name)
            self.lines.append(f"{text} expired {expired} called {name.called} lost {lost} pending {self.pending(name)}")

    def line(self, said):
        self.lines.append(f"{self.number} {said}")

    def mark(self, kind, name, cpu, **more):
        self.marks.append((self.number, kind, name, cpu, more))

    # -- names

    def here(self, text):
        """The name whose cyclic can be worked on."""
        name = self.names[text]
        refuse(8, name.id is None or name.gone or name.open is not None)
        return name

    def places(self, name):
        return [n for n, cpu in enumerate(self.cpus) if name.id in cpu.cyclics]

    def totals(self, name):
        parts = [*name.ended.values()]
        parts += [(it.expired, it.lost) for it in (cpu.cyclics.get(name.id) for cpu in self.cpus) if it]
        return sum(it[0] for it in parts), sum(it[1] for it in parts)

    def pending(self, name):
        return sum(self.cpus[n].cyclics[name.id].pend for n in self.places(name))

    def destination(self, source=None):
        online = [n for n, cpu in enumerate(self.cpus) if cpu.online and n != source]
        return min(online, key=lambda n: len(self.cpus[n].cyclics))

    def online_cpu(self, n):
        refuse(13, n >= len(self.cpus))
        refuse(14, not self.cpus[n].online)
        return self.cpus[n]

    # -- words

    def when(self, text, start, interval):
        name = self.names.setdefault(text, Name())
        refuse(2, start < 0)
        refuse(3, interval < 1)
        return name

    def put(self, text, n, cyclic):
        self.cpus[n].cyclics[cyclic.id] = cyclic
        self.mark("here", text, n)

    def given(self, text, name):
        self.last += 1
        name.id = self.last
        self.of_id[self.last] = text
        return self.last

    def add(self, text, level, start, interval):
        name = self.when(text, start, interval)
        n = self.destination()
        refuse(self.cpus[n].room(1))
        self.cpus[n].widen(1)
        self.put(text, n, Cyclic(self.given(text, name), level, interval, first(start, interval, self.clock)))

    def omni(self, text, level, start, interval, skew):
        name = self.when(text, start, interval)
        online = [n for n, cpu in enumerate(self.cpus) if cpu.online]
        for n in online:
            refuse(self.cpus[n].room(1))
        name.omni = (level, start, interval, skew)
        self.given(text, name)
        for n in online:
            self.cpus[n].widen(1)
            self.component(text, name, n)

    def component(self, text, name, n):
        level, start, interval, skew = name.omni
        own = min(start + n * skew, NEVER)
        self.put(text, n, Cyclic(name.id, level, interval, first(own, interval, self.clock), name.ended.pop(n, (0, 0))))

    def move(self, text, name, source, target):
        cyclic = self.cpus[source].cyclics.pop(name.id)
        self.cpus[target].widen(1)
        self.cpus[target].cyclics[name.id] = cyclic
        self.mark("moved", text, target, source=source)

    def bind(self, text, n):
        name = self.here(text)
        refuse(16, name.omni)
        target = self.online_cpu(n)
        source = self.places(name)[0]
        if source != n:
            refuse(7, self.cpus[source].removal is not None)
            refuse(9, self.pending(name))
            refuse(target.room(1))
            self.move(text, name, source, n)
        name.bound = True

    def unbind(self, text):
        name = self.here(text)
        refuse(16, name.omni)
        name.bound = False

    def reprogram(self, text, moment, n=None):
        refuse(2, moment < 0)
        name = self.here(text)
        if n is None:
            refuse(16, name.omni)
            n = self.places(name)[0]
        else:
            self.online_cpu(n)
            refuse(8, not name.omni)
        self.cpus[n].cyclics[name.id].expire = moment
        self.mark("set", text, n, moment=moment)

    def advance(self, now):
        self.clock = now
        refuse(25, self.suspended)
        self.fired, sums = now, [0, 0]
        for n, cpu in enumerate(self.cpus):
            if cpu.online:
                for cyclic in sorted(cpu.cyclics.values(), key=lambda it: (it.expire, it.id)):
                    self.expire(n, cpu, cyclic, sums)
        return f"fired {sums[0]} lost {sums[1]}"

    def expire(self, n, cpu, cyclic, sums):
        """All expirations of a cyclic in one fire. Between them no call is made, so only the first can find the pend at 0."""
        count = due(cyclic.expire, cyclic.interval, self.clock)
        if not count:
            return
        text, lost = self.of_id[cyclic.id], 0
        if cyclic.level == "high":
            self.names[text].called += count
        else:
            if not cyclic.pend:
                cpu.levels[cyclic.level].new.append(cyclic.id)
            lost = max(cyclic.pend + count - self.ceiling, 0)
            cyclic.pend += count - lost
        more = {"count": count, "lost": lost, "start": cyclic.expire, "interval": cyclic.interval, "high": cyclic.level == "high"}
        self.mark("expired", text, n, pend=cyclic.pend, **more)
        cyclic.expired, cyclic.lost = cyclic.expired + count, cyclic.lost + lost
        cyclic.expire = following(cyclic.expire, cyclic.interval, self.clock)
        sums[0], sums[1] = sums[0] + count, sums[1] + lost

    def suspend(self):
        refuse(25, self.suspended)
        self.suspended = True
        self.mark("suspended", None, None)

    def resume(self):
        refuse(26, not self.suspended)
        self.suspended = False
        self.mark("resumed", None, None)

    def softint(self, n, at, budget):
        refuse(13, n >= len(self.cpus))
        cpu, level, left = self.cpus[n], self.cpus[n].levels[at], budget
        while left:
            if level.hand is None:
                level.take()
            if level.hand is None:
                return f"ran {budget - left} idle"
            cyclic = cpu.cyclics[level.hand]
            calls = min(left, cyclic.pend)
            left, cyclic.pend = left - calls, cyclic.pend - calls
            self.names[self.of_id[cyclic.id]].called += calls
            self.mark("called", self.of_id[cyclic.id], n, count=calls, pend=cyclic.pend)
            if not cyclic.pend:
                level.hand = None
        return f"ran {budget} more"

    def end(self, name, n):
        cyclic = self.cpus[n].cyclics.pop(name.id)
        name.ended[n] = (cyclic.expired, cyclic.lost)
        self.cpus[n].removal = None

    def answered(self, text, name):
        name.gone, name.open = True, None
        expired, lost = self.totals(name)
        self.mark("removed", text, None, calls=expired - lost, at=name.at)
        return f"removed {text} {expired - lost}"

    def remove(self, text):
        name = self.names[text]
        refuse(8, name.id is None or name.gone)
        at = self.places(name) if name.open is None else name.open
        refuse(7, name.open is not None or any(self.cpus[n].removal is not None for n in at))
        kept, name.open, name.at = self.pending(name), [], at
        for n in at:
            cyclic = self.cpus[n].cyclics[name.id]
            cyclic.expire = NEVER
            self.mark("marked", text, n)
            if cyclic.pend:
                self.cpus[n].removal = name.id
                name.open.append(n)
            else:
                self.end(name, n)
        return f"kept {kept}" if name.open else self.answered(text, name)

    def poll(self):
        for text, name in self.names.items():
            if not name.open:
                continue
            for n in [n for n in name.open if not self.cpus[n].cyclics[name.id].pend]:
                self.end(name, n)
                name.open.remove(n)
            if not name.open:
                self.line(self.answered(text, name))

    def leave(self, n):
        """What a juggle of the CPU comes to, as its line tells it."""
        shares = dict.fromkeys(("moved", "bound", "pending", "refused"), 0)
        for id in sorted(self.cpus[n].cyclics):
            text = self.of_id[id]
            name = self.names[text]
            if name.omni:
                continue
            share = "bound" if name.bound else "pending" if self.pending(name) else "moved"
            if share == "moved":
                target = self.destination(n)
                if self.cpus[target].room(1):
                    share = "refused"
                else:
                    self.move(text, name, n, target)
            shares[share] += 1
        return " ".join(f"{kind} {count}" for kind, count in shares.items())

    def last_online(self, n):
        cpu = self.online_cpu(n)
        refuse(15, sum(it.online for it in self.cpus) == 1)
        refuse(7, cpu.removal is not None)
        return cpu

    def juggle(self, n):
        self.last_online(n)
        return self.leave(n)

    def offline(self, n):
        cpu = self.last_online(n)
        shares = self.leave(n)
        if any(not self.names[self.of_id[id]].omni for id in cpu.cyclics):
            return f"left {shares}"
        refuse(9, any(it.pend for it in cpu.cyclics.values()))
        for id in list(cpu.cyclics):
            self.mark("ended", self.of_id[id], n)
            self.end(self.names[self.of_id[id]], n)
        cpu.online = False
        self.mark("offline", None, n)

    def online(self, n):
        refuse(13, n >= len(self.cpus))
        cpu = self.cpus[n]
        refuse(24, cpu.online)
        coming = [(text, it) for text, it in self.names.items() if it.omni and it.id and not it.gone and it.open is None]
        refuse(cpu.room(len(coming)))
        cpu.widen(len(coming))
        cpu.online = True
        self.mark("online", None, n)
        for text, name in coming:
            self.component(text, name, n)
