"""Random scripts and schedules for comparisons with the model: right ones, and some with a fault or two."""
from .random_texts import written

# ---- Scripts


def spelled(draw, number):
    return "0" * draw.choice([0, 0, 0, 1, 20]) + str(number)


def command(draw, ids, log):
    """A command that may be anywhere, if this is still to be done with the log."""
    if log and draw.random() < (0.3 if log[0] == "init" else 0.08):
        return [log.pop(0)]
    words = ["patch", "patch", "unpatch", "set_handler", "remove_handler"]
    words += draw.choice([[], ["set_arg_handler", "remove_arg_handler"]])
    if ids > 0:
        names = ["patch_function", "patch_function", "patch_function", "unpatch_function", "unpatch_function"]
        words += [f"{name} {spelled(draw, draw.randint(1, ids))}" for name in names]
    return draw.choice(words).split()


def commands(draw, ids):
    """Commands up to `go`, and after it."""
    log = ["init", "finalize"]
    before = []
    if draw.random() < 0.7:
        before += [["set_handler"], [log.pop(0)]]
        before += [["patch"]] * (draw.random() < 0.5)
    before += [command(draw, ids, log) for _ in range(draw.choice([0, 0, 1, 2, 4]))]
    return before, [command(draw, ids, log) for _ in range(draw.choice([0, 1, 2, 4, 8, 16]))]


def waits(draw, threads, before, behind):
    """Adds a thread that is held, with its release, and perhaps an await for it."""
    thread, passing = draw.randint(1, threads), draw.choice([0, 1, 2, 5, 4_294_967_295])
    before.insert(draw.randint(0, len(before)), ["hold", str(thread), str(passing)])
    at = draw.randint(0, len(behind))
    behind.insert(at, ["release", str(thread)])
    if draw.random() < 0.6:
        count = max(0, passing + draw.choice([-1, 0, 0, 1]))
        behind.insert(draw.randint(0, at + 1), ["await", str(draw.randint(1, threads)), str(count)])


def live_commands(draw, ids, threads):
    """Commands for threads that run by themselves: some are held, and the patcher waits for some."""
    before, behind = commands(draw, ids)
    numbers = range(1, threads + 1)
    holds = {thread: draw.choice([0, 1, 2, 3, 5, 20, 4_294_967_295]) for thread in numbers}
    held = draw.sample(numbers, draw.choice([0, 0, 1, min(2, threads), threads]))
    for thread in held:
        before.insert(draw.randint(0, len(before)), ["hold", str(thread), str(holds[thread])])
        behind.insert(draw.randint(0, len(behind)), ["release", str(thread)])
    for _ in range(draw.choice([0, 1, 2, 4, 8])):
        at, thread = draw.randint(0, len(behind)), draw.choice(numbers)
        count = draw.choice([0, 1, 2, 3, 4, 6, 10, 30, 100, 1000])
        if ["release", str(thread)] in behind[at:] and draw.random() < 0.95:
            # A held thread doesn't make more passings than these.
            count = min(count, holds[thread])
        behind.insert(at, ["await", str(thread), str(count)])
    return [*before, ["go"], *behind]


def live_script(draw, ids, threads):
    """A script for threads that run by themselves, rarely with a fault."""
    lines = live_commands(draw, ids, threads)
    while draw.random() < 0.04:
        lines = faulty(draw, lines, draw.choice(WRONG_COMMANDS).split())
    return written(draw, lines)


WRONG_COMMANDS = [
    "patch 1", "Patch", "patch,", "patch_function", "patch_function 0", "patch_function 99", "patch_function x",
    "patch_function -1", "patch_function +1", "patch_function 0x1", "patch_function 4294967296", "unpatch_function 0",
    "unpatch_function 1 1", "unpatch_function 1025", "set_handler 1", "handler", "remove_handler 0", "set_arg_handler 1", "arg_handler", "init", "init 1", "finalize",
    "finalize now", "go", "go", "go 1", "start", "hold 1 0", "hold 0 0", "hold 1", "hold 17 0", "hold 1 x", "hold 17 x",
    "release 1", "release", "release 0", "release 1 1", "await 1 0", "await 1 4294967295", "await 0 1", "await 1",
    "await 1 4294967296", "await 17 1", "hold 1 0 0", "patch go", "__xray_patch", "run",
]  # fmt: skip


def one_too_many(draw, ids, threads):
    """A command on the function or the thread after the last."""
    name = draw.choice(["patch_function", "unpatch_function", "hold", "release", "await"])
    number = ids + 1 if name.endswith("function") else threads + 1
    return [name, str(number), *["0"] * (name in ("hold", "await"))]


def faulty(draw, lines, wrong):
    """Lines with this wrong one; or with a line missing, repeated or moved, often one that waits."""
    waiting = [at for at, (name, *_) in enumerate(lines) if name in ("hold", "release", "await")]
    at = draw.choice(waiting) if waiting and draw.random() < 0.7 else draw.randrange(len(lines))
    line = lines[at]
    rest = lines[:at] + lines[at + 1 :]
    other = draw.randint(0, len(rest))
    added = lines[:at] + [wrong] + lines[at:]
    moved = rest[:other] + [line] + rest[other:]
    twice = lines[:other] + [line] + lines[other:]
    return draw.choice([added, added, rest, moved, twice, draw.sample(lines, len(lines))])


def random_script(draw, ids, threads):
    """A script for an image with this many function ids and for this many threads, or nearly one."""
    before, behind = commands(draw, ids)
    fault_share = 0.12
    if draw.random() < 0.15:
        for _ in range(draw.choice([1, 1, 2])):
            waits(draw, threads, before, behind)
        fault_share = 0.5
    lines = [*before, ["go"], *behind]
    while lines and draw.random() < fault_share:
        wrong = one_too_many(draw, ids, threads) if draw.random() < 0.3 else draw.choice(WRONG_COMMANDS).split()
        lines = faulty(draw, lines, wrong)
    return written(draw, lines)


# ---- Schedules

def turn(draw, threads, most):
    count = spelled(draw, 4_294_967_295 if draw.random() < 0.02 else draw.randint(1, most))
    return draw.choice([["t", spelled(draw, draw.randint(1, threads)), count], ["p", count]])


WRONG_TURNS = [
    "t 1 0", "t 1", "t", "p", "p 0", "p 1 1", "t 17 1", "t 0 1", "t 1 4294967296", "p 4294967296", "t 1 +1", "p -1", "T 1 1",
    "x 1", "t 1 1 1", "t x 1", "t x 0", "t 1 1x", "p 0x1", "t1 1", "go", "p 1,", "t 1 1 ;", "t 4294967296 1", "t +1 1",
    "t 4294967297 1",
]  # fmt: skip


def random_schedule(draw, threads):
    most = draw.choice([1, 2, 6, 12, 12, 40])
    lines = [turn(draw, threads, most) for _ in range(draw.choice([0, 1, 2, 4, 8, 20, 60, 60]))]
    if draw.random() < 0.1:
        wrong = draw.choice([*WRONG_TURNS, f"t {threads + 1} 1", f"t {threads + 1} 1"])
        lines.insert(draw.randint(0, len(lines)), wrong.split(" "))
    return written(draw, lines) if lines else draw.choice([b"", b"\n", b"# nothing", b" \t\r\n"])
