"""Makers of scripts whose events are drawn at random, the same ones for the same seed. A third of them are refused."""
import random

BLOCK = 4096
FOLDERS = 6
FILES = 60
PINS = ["unspecified", "pinned", "unpinned", "inherit"]
CLASSES = ["ondisk", "modified"]


class Chances:
    """Where a drawn script stands: the openings so far, and the handles of the last one."""

    def __init__(self, seed):
        self.draw = random.Random(seed)
        self.epoch = 1
        self.handles = 0

    def folder(self):
        return f"/folder-{self.draw.randrange(FOLDERS)}"

    def path(self):
        name = f"/file-{self.draw.randrange(FILES)}"
        return name if self.draw.random() < 0.5 else self.folder() + name

    def handle(self):
        return f"{self.epoch}.{self.draw.randint(max(1, self.handles - 40), max(1, self.handles))}"

    def at(self):
        return self.draw.randrange(8 * BLOCK)

    def bytes(self):
        return f"{self.draw.randrange(256):02x}*{self.draw.randint(1, 2 * BLOCK)}"

    def opened(self):
        self.handles += 1
        return f"open {self.path()}"

    def call(self):
        """A call of an application."""
        draw = self.draw
        return draw.choices(
            [
                lambda: self.opened(),
                lambda: f"write {self.handle()} {self.at()} {self.bytes()}",
                lambda: f"read {self.handle()} {self.at()} {draw.randint(1, BLOCK)}",
                lambda: f"get {self.path()} {self.at()} {draw.randint(1, BLOCK)}",
                lambda: f"size {self.handle()} {self.at()}",
                lambda: f"close {self.handle()}",
                lambda: f"create {self.path()}",
                lambda: f"delete {self.path()}",
                lambda: f"rename {self.path()} {self.path()}",
                lambda: f"list {self.folder()}",
                lambda: f"info {self.path()}",
                lambda: f"ranges {self.path()} {draw.choice(CLASSES)}",
                lambda: f"pin {self.path()} {draw.choice(PINS)}",
                lambda: f"hydrate {self.path()}",
                lambda: f"dehydrate {self.path()}",
                lambda: f"tick {draw.randint(1, 20)}",
                lambda: "flush",
            ],
            [6, 12, 12, 12, 2, 4, 8, 3, 3, 3, 8, 3, 3, 3, 4, 2, 4],
        )[0]()

    def cut(self):
        """A power cut, and a restart."""
        self.epoch, self.handles = self.epoch + 1, 0
        return [f"crash {self.draw.choice(['drop', 'keep', f'mix {self.draw.randrange(1000)}'])}", "restart"]

    def peer(self):
        """An edit of another device."""
        draw = self.draw
        return draw.choices(
            [
                lambda: f"peer put {self.path()} {self.bytes()}",
                lambda: f"peer move {self.path()} {self.path()}",
                lambda: f"peer remove {self.path()}",
            ],
            [8, 2, 1],
        )[0]()

    def planned(self):
        """What the provider does in the next callback."""
        return f"plan transfer self 0 {self.draw.randrange(256):02x}*{2 * BLOCK}"

    def placed(self):
        return f"place {self.path()} {2 * BLOCK} {self.draw.randrange(256):02x}"


def drawn(count, at, next_events):
    """`count` events: some directories, and then what is drawn, the last of it cut off."""
    yield from (f"mkdir /folder-{n}" for n in range(FOLDERS))
    left = count - FOLDERS
    while left > 0:
        events = next_events(at.draw.random())
        yield from events[:left]
        left -= len(events)


def replayed(count, seed):
    """`count` events of `replay`: calls, edits of another device, syncs, and now and then a power cut."""
    at = Chances(seed)
    return drawn(count, at, lambda kind: at.cut() if kind < 0.004 else ["sync"] if kind < 0.05 else [at.peer() if kind < 0.12 else at.call()])


def filtered(count, seed):
    """`count` events of `filter`: calls, what a provider plans for its callbacks, and now and then a power cut."""
    at = Chances(seed)
    return drawn(count, at, lambda kind: at.cut() if kind < 0.004 else [at.placed() if kind < 0.08 else at.planned() if kind < 0.2 else at.call()])


def seeded(maker, seed):
    """The maker with a seed, and a name of its own for the table."""

    def made(count):
        return maker(count, seed)

    made.__name__ = f"random-{seed}"
    return made


CASES = [(mode, seeded(maker, seed), 20_000) for mode, maker in (("replay", replayed), ("filter", filtered)) for seed in range(1, 6)]
"""The mode of each script, its maker, and the size of the whole."""
