"""Random runs of long loops that are patched all the time while threads run them, for `random_runs.py --loops`.

Each image is an endless loop over functions with sleds, which the limit of passings ends. The patcher never waits, or
only now and then for a thread. Many buffers are small, so most of these runs lose segments.
"""
from model.asm_model import assembled

from . import random_cases


def loop_text(draw):
    """A function that calls others forever."""
    names = [f"f{number}" for number in range(draw.randint(1, 12))]
    calls = [f"call {draw.choice(names)}" for _ in range(draw.randint(1, 6))]
    lines = ["base 0x1000", "fn main never", "again:", *calls, "jmp again"]
    for at, name in enumerate(names):
        lines += [f"fn {name} always", "add rax, rdi"]
        if names[at + 1 :] and draw.random() < 0.5:
            lines.append(f"{draw.choice(['call', 'tailjmp'])} {draw.choice(names[at + 1 :])}")
        lines.append("ret")
    return "\n".join(lines).encode("ascii"), len(names)


def patching(draw, ids, threads):
    """A script that patches and unpatches as often as it may."""
    lines = draw.choice(["set_handler init go", "patch set_handler init go", "init go set_handler"]).split()
    for at in range(draw.choice([100, 500, 1000])):
        one = draw.randint(1, ids)
        words = ["patch", "unpatch", "patch", "unpatch", f"patch_function {one}", f"unpatch_function {one}"]
        lines.append(draw.choice(words))
        if draw.random() < 0.01:
            lines.append(draw.choice(["remove_handler", "set_handler", f"await {draw.randint(1, threads)} {at * 20}"]))
    return "\n".join(lines[:1024]).encode("ascii") + b"\n"


def loop_case(draw):
    """A run of a loop on one to four threads."""
    threads = draw.choice([1, 2, 3, 4])
    text, ids = loop_text(draw)
    options = {
        "threads": threads,
        "fuel": 1_000_000,
        "passings": draw.choice([5_000, 10_000, 20_000]),
        "buffer-size": draw.choice([88, 200, 1000, 4096, 16_384]),
        "buffer-max": draw.choice([threads, threads + 1, threads + 2, 2 * threads, 5 * threads, 100]),
        "cpus": draw.choice([1, 1, 4]),
        "migrate": draw.choice([7, 1000, 1_048_576]),
        "wall": 0,
    }
    words = ["run", "i", "s", "t", "a", *(f"--{name}={value}" for name, value in options.items())]
    files = {b"i": assembled(text, 1), b"s": patching(draw, ids, threads)}
    return random_cases.Case([word.encode() for word in words], files)
