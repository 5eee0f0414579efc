"""Makers of large scripts. Each yields the events of one script of a given size, a line each, without its end."""

BLOCK = 4096
FILES = 200
DIGITS = "0123456789abcdefghijklmnopqrstuvwxyz"


def short(n):
    """The name of file n, in three digits, so that a volume has room for 9,999 files that have identities and paths seen."""
    return DIGITS[n // 1296] + DIGITS[n // 36 % 36] + DIGITS[n % 36]


# Scripts of `replay`


def large(count):
    """One version of `count` equal bytes, and a read of 4,000 bytes for each 4,000 of them."""
    yield f"peer put /film 61*{count}"
    yield "sync"
    for start in range(0, count, 4000):
        yield f"get /film {start} 4000"


def put_back(count):
    """A file of `count` bytes, written in pieces of 65,536, uploaded, dehydrated and read back whole."""
    yield "create /film"
    yield "open /film"
    for start in range(0, count, 16 * BLOCK):
        yield f"write 1.1 {start} {start // BLOCK % 256:02x}*{min(16 * BLOCK, count - start)}"
    yield "close 1.1"
    yield "sync"
    yield "dehydrate /film"
    yield f"get /film 0 {count}"


def work_day(count):
    """A user's day over 200 files, with edits on both sides and a sync now and then."""
    yield from (f"create /file-{n}" for n in range(FILES))
    yield from (f"open /file-{n}" for n in range(FILES))
    for n in range((count - 2 * FILES) // 10):
        handle, at = n % FILES + 1, n // FILES % 64 * 8
        yield f"write 1.{handle} {at} {n:016x}"
        yield f"read 1.{handle} {at} 16"
        yield f"info /file-{handle - 1}"
        yield f"write 1.{handle} {at + 8} {n:08x}"
        yield f"ranges /file-{handle - 1} modified"
        yield "df"
        yield "flush" if n % 50 == 0 else f"read 1.{handle} 0 8"
        yield f"peer put /other-{n % FILES} {n:08x}" if n % 100 == 99 else f"info /file-{n * 7 % FILES}"
        yield "sync" if n % 200 == 199 else f"read 1.{handle} {at} 4"
        yield f"get /file-{n * 3 % FILES} 0 4"


def mirrored(count):
    """`count` new files that are synced, changed, synced, removed and synced."""
    yield from (f"create /file-{n}" for n in range(count))
    yield "sync"
    yield from (f"pin /file-{n} pinned" for n in range(count))
    yield from (f"rename /file-{n} /moved-{n}" for n in range(count))
    yield "sync"
    yield from (f"delete /moved-{n}" for n in range(count))
    yield "sync"


def created(count):
    """`count` new files that are synced."""
    yield from (f"create /{short(n)}" for n in range(count))
    yield "sync"


def renamed(count):
    """`count` files that are synced, moved, and synced."""
    yield from created(count)
    yield from (f"rename /{short(n)} /{short(n)}x" for n in range(count))
    yield "sync"


def changed(count):
    """`count` files that are synced, written to, and synced."""
    yield from created(count)
    for n in range(count):
        yield f"open /{short(n)}"
        yield f"write 1.{n + 1} 0 6162"
        yield f"close 1.{n + 1}"
    yield "sync"


def fed(count):
    """`count` files that another device put, synced, and changed by it, and synced."""
    yield from (f"peer put /{short(n)} {n % 256:02x}" for n in range(count))
    yield "sync"
    yield from (f"peer put /{short(n)} {n % 256:02x}00" for n in range(count))
    yield "sync"


def idle(count):
    """60 syncs with nothing to do over `count` files."""
    yield from created(count)
    yield from ("sync" for _ in range(60))


def queued(count):
    """`count` new files, and two passes whose uploads get no reply."""
    yield "link queued"
    yield from (f"create /{short(n)}" for n in range(count))
    yield "work"
    yield "work"


def buried(count):
    """`count` files that are synced and removed, and two passes whose uploads of the removals get no reply."""
    yield from created(count)
    yield "link queued"
    yield from (f"delete /{short(n)}" for n in range(count))
    yield "work"
    yield "work"


def waiting(count):
    """`count` reads that wait on one file, answered one by one."""
    yield f"peer put /film 61*{4 * count * BLOCK}"
    yield "sync"
    yield "open /film"
    yield "link queued"
    yield from (f"read 1.1 {4 * n * BLOCK} {BLOCK}" for n in range(count))
    yield from (f"arrive {n + 5}" for n in range(count))
    yield from (f"deliver {n + count + 5}" for n in range(count))


def apart(count):
    """`count` reads that wait, each on a file of its own, answered one by one."""
    yield from (f"peer put /file-{n} 61*{BLOCK}" for n in range(count))
    yield "sync"
    yield "link queued"
    yield from (f"get /file-{n} 0 {BLOCK}" for n in range(count))
    yield from (f"arrive {n + 5}" for n in range(count))
    yield from (f"deliver {n + count + 5}" for n in range(count))


# Scripts of `filter`


def users(count):
    """A user's day over 200 files: those with even numbers are open and written, the others come, go and come again."""
    yield from (f"place /file-{n} {2 * BLOCK} {n:04x}" for n in range(FILES))
    yield from (f"open /file-{n}" for n in range(0, FILES, 2))
    rounds = (count - FILES - FILES // 2) // 8
    for n in range(rounds):
        yield from edited(n) if n % 2 == 0 else fetched(n)
    yield from ("flush" for _ in range(count - FILES - FILES // 2 - 8 * rounds))


def edited(n):
    """Eight events on an open file."""
    name, handle, at = n % FILES, n % FILES // 2 + 1, n // FILES % 64 * 8
    yield f"plan transfer self 0 61*{2 * BLOCK}"
    yield f"read 1.{handle} {at} 16"
    yield f"write 1.{handle} {at} {n:016x}"
    yield f"read 1.{handle} {at} 16"
    yield f"info /file-{name}"
    yield f"ranges /file-{name} modified"
    yield f"pin /file-{name} {'pinned' if n // FILES % 2 == 0 else 'unspecified'}"
    yield "flush" if n % 50 == 0 else "df"


def fetched(n):
    """Eight events on a closed file, which is dehydrated and read again."""
    name = n % FILES
    yield f"plan transfer self 0 62*{2 * BLOCK}"
    yield f"get /file-{name} {n % BLOCK} 16"
    yield f"mark /file-{name} 0.0"
    yield f"used /file-{name}"
    yield "plan ackdehydrate self ok"
    yield f"dehydrate /file-{name}"
    yield f"update /file-{name} {n:08x}"
    yield f"get /nothing-{name} 0 1" if n % 3 == 0 else "tick 1"


def transfers(count):
    """A file of `count` bytes that comes in transfers of 65,536 bytes, and is read back whole."""
    yield from arrived(count, 16 * BLOCK)


def blocks(count):
    """A file of `count` bytes that comes in transfers of one block, and is read back whole."""
    yield from arrived(count, BLOCK)


def arrived(count, step):
    yield f"place /film {count} aa"
    yield "open /film"
    yield "hydrate /film"
    for start in range(0, count, step):
        yield f"do transfer 1.1 {start} {start // step % 256:02x}*{min(step, count - start)}"
    yield f"read 1.1 0 {count}"


def whole(count):
    """A file of `count` bytes that comes in one transfer, planned before it is read whole."""
    yield f"place /film {count} aa"
    yield f"plan transfer self 0 61*{count}"
    yield f"get /film 0 {count}"


def places(count):
    """Files in one directory, and then the flush, the list and a look at each."""
    yield from (f"place /file-{n} {n} {n % 256:02x}" for n in range(count))
    yield "flush"
    yield "list /"
    yield from (f"info /file-{n * 7 % count}" for n in range(count))


def answered(count):
    """Reads of one file that are pending at once, each with an ask of its own, then answered one by one."""
    yield from pending(count)
    for n in range(count):
        yield f"do transfer 1.{n + 1} {4 * n * BLOCK} {n % 256:02x}*{BLOCK}"


def expired(count):
    """Reads of one file that are pending at once, each with an ask of its own, then timed out."""
    yield from pending(count)
    yield "tick 59"
    yield "tick 1"


def pending(count):
    """`count` reads of every fourth block."""
    yield "policy partial always-full"
    yield f"place /film {4 * count * BLOCK} aa"
    yield "open /film"
    yield from (f"read 1.1 {4 * n * BLOCK} {BLOCK}" for n in range(count))


def commits(items, rounds):
    """`items` placed files, and then so many rounds of a write of 8 bytes to one of them and a flush."""
    yield from (f"place /file-{n} {BLOCK} {n % 256:02x}" for n in range(items))
    yield "plan transfer self 0 61*4096"
    yield "open /file-0"
    yield "read 1.1 0 1"
    yield "flush"
    for n in range(rounds):
        yield f"write 1.1 {n % 64 * 8} {n:016x}"
        yield "flush"


CASES = [
    ("replay", work_day, 90_000),
    ("replay", large, 16_000_000),
    ("replay", put_back, 16_777_216),
    ("replay", mirrored, 8_000),
    ("replay", created, 9_999),
    ("replay", renamed, 9_999),
    ("replay", changed, 8_000),
    ("replay", fed, 9_999),
    ("replay", idle, 9_999),
    ("replay", queued, 9_999),
    ("replay", buried, 9_999),
    ("replay", waiting, 1_024),
    ("replay", apart, 1_024),
    ("filter", users, 90_000),
    ("filter", transfers, 16_777_216),
    ("filter", blocks, 16_777_216),
    ("filter", whole, 16_777_216),
    ("filter", places, 9_999),
    ("filter", answered, 1_024),
    ("filter", expired, 1_024),
]
"""The mode of each script, its maker, and the size of the whole."""
