"""A model of `soak`: the summary of a seed.

The inputs are those of soak_inputs. docs/commands/soak.md says what is done with them. The models of `asm`, `sim` and
`account` do it.
"""
import functools

from .asm_model import assembled
from .image_model import image_of
from .replay_model import commands_of, replayed, turns_of
from .report_model import account_of
from .soak_inputs import inputs_of
from .trace_model import Header, file_bytes, trace_of

THREADS = 4
OPTIONS = {
    "threads": THREADS, "fuel": 10_000_000, "passings": 65_536, "buffer-size": 4_096, "buffer-max": 64, "tick": 1,
    "tsc": 0, "frequency": 0, "cpus": 4, "migrate": 1_000, "pid": 1, "wall": 0,
}  # fmt: skip


def written(lines):
    """The bytes of a text with these lines."""
    return "".join(f"{line}\n" for line in lines).encode("ascii")


@functools.cache
def summary(seed):
    """What `soak SEED` prints."""
    text, script, schedule = (written(lines) for _, lines in inputs_of(seed))
    image = image_of(assembled(text, 1))
    ended, buffers = replayed(image, commands_of(script, image, THREADS), turns_of(schedule, THREADS), OPTIONS)
    content = file_bytes(buffers.trace(Header(OPTIONS["frequency"], OPTIONS["buffer-size"]), (0, 0), OPTIONS["pid"]))
    lines = [f"soak {seed}"]
    for number, (thread, recorded) in enumerate(zip(ended, buffers.threads), 1):
        events = thread.marks.count("+")
        lines.append(f"thread {number} {thread.end} passings {thread.passings} recorded {events} first {recorded.lost}")
    lines.append(f"recycled {sum(recorded.lost for recorded in buffers.threads)}")
    lines.append(f"trace {len(content)}")
    rows = account_of(trace_of(content))
    pairs, entries, exits = (sum(getattr(row, column) for row in rows) for column in ("count", "entries", "exits"))
    lines.append(f"pairs {pairs} entries {entries} exits {exits}")
    return written(lines).decode("ascii")
