"""The generated script of a seed, by docs/commands.md. The program plays it (`bulk`) and does not print it."""

from .errors import LookError

MASK_64, MASK_32 = 2**64 - 1, 2**32 - 1
MULTIPLIER = 6364136223846793005
STREAM = 1
BASE, SIZE = 65536, 65536
LOCAL_A, LOCAL_B, REMOTE_B = "01000002", "02000002", "02000003"
RANGES = (("SEED", 0, MASK_64), ("CONNECTIONS", 1, 8), ("MESSAGES", 1, 2000), ("MOVES", 0, 16))


def words_of(seed, stream=STREAM):
    """The words of the generator: PCG XSH RR 64/32 from a seed and a stream."""
    increment = 2 * stream + 1
    state = (seed + increment) * MULTIPLIER + increment & MASK_64
    while True:
        mixed = (state >> 18 ^ state) >> 27 & MASK_32
        turn = state >> 59
        yield (mixed >> turn | mixed << (-turn & 31)) & MASK_32
        state = state * MULTIPLIER + increment & MASK_64


def opening(connections):
    yield from (f"device {n} 10.0.0.{n}" for n in (1, 2, 3))
    yield from ("context a 1", "context b 2", "domain a.p", "domain b.p")
    yield from (f"region {region} {domain} {BASE} {SIZE} lwra" for region, domain in (("a.m", "a.p"), ("b.n", "b.p")))
    yield from ("cq a.c 4096", "cq b.c 4096")
    for i in range(1, connections + 1):
        yield f"qp a.q{i} a.p a.c a.c 64 64"
        yield f"qp b.q{i} b.p b.c b.c 64 64"
        yield f"connect a.q{i} b.q{i} mtu 1024 psn {1000 * i} {2000 * i} retry 7 rnr 7 reads 4"


def polls():
    return "settle", "poll a.c 256", "poll b.c 256"


def message(j, word, connections):
    """The lines of message j."""
    i, kind = word % connections + 1, word // 8 % 4
    length, address = 1 + word // 64 % 4096, BASE + 8 * (word // 262144 % 4096)
    if kind == 0:
        yield f"write a.q{i} {j} {LOCAL_A} {address} {length} {address} {REMOTE_B}"
    elif kind == 1:
        yield f"read a.q{i} {j} {LOCAL_A} {address} {length} {address} {REMOTE_B}"
    elif kind == 2:
        yield f"add a.q{i} {j} {LOCAL_A} {address} {address} {REMOTE_B} {length}"
    else:
        yield f"recv b.q{i} {j} {LOCAL_B} {address} 4096"
        yield f"send a.q{i} {j} {LOCAL_A} {address} {length}"
    if j % 16 == 1:
        yield from (f"go a.q{i}", f"expire a.q{i}")
    else:
        yield from ((f"go a.q{i}",), (f"go a.q{i}", f"go a.q{i}"), (), ("settle",))[word >> 30]
    if j % 16 == 0:
        yield from polls()


def move(k):
    """The lines of move k: from device 2 to 3, then back, and so on."""
    here, there = (2, 3) if k % 2 else (3, 2)
    return "stop b", f"restore b {there}", "settle", f"release b {here}"


def check_ranges(numbers):
    for (name, low, high), number in zip(RANGES, numbers):
        if not low <= number <= high:
            raise LookError(f"{name} is {number}, and its range is {low} to {high}")


def generated_script(seed, connections, messages, moves):
    """The script as bytes."""
    check_ranges((seed, connections, messages, moves))
    lines, words = list(opening(connections)), words_of(seed)
    after = [k * messages // (moves + 1) for k in range(1, moves + 1)]
    for j in range(messages + 1):
        if j:
            lines += message(j, next(words), connections)
        for k, place in enumerate(after, 1):
            if place == j:
                lines += move(k)
    lines += polls()
    return "".join(line + "\n" for line in lines).encode()
