"""A model of what `soak` draws: the text, the script and the schedule of a number, as lists of lines.

It is written from crates/soak_inputs/README.md alone.
"""


class Draws:
    def __init__(self, number):
        self.state = number

    def draw(self, n):
        self.state = (self.state * 6364136223846793005 + 1442695040888963407) % 2**64
        return self.state // 2**33 % n


def text(draws):
    lines = ["base 0x1000"]
    for i in range(64):
        lines.append(f"fn f{i} always")
        for _ in range(1 + draws.draw(2)):
            callee = min(63, i + 1 + draws.draw(4)) if i < 63 else None
            lines += [f"mov eax, {draws.draw(256)}", "out 1"]
            if callee is not None:
                lines.append(f"call f{callee}")
        lines.append("ret")
    return lines


def script(draws):
    lines = ["patch", "set_handler", "init", "go"]
    for _ in range(100):
        change = draws.draw(4)
        if change == 0:
            lines.append(f"patch_function {1 + draws.draw(64)}")
        elif change == 1:
            lines.append(f"unpatch_function {1 + draws.draw(64)}")
        else:
            lines.append("remove_handler" if change == 2 else "set_handler")
    return lines


def schedule(draws):
    lines = []
    for _ in range(4000):
        party = draws.draw(5)
        lines.append(f"p {1 + draws.draw(8)}" if party == 0 else f"t {party} {1 + draws.draw(200)}")
    return lines


def inputs_of(number):
    draws = Draws(number)
    return [("text", text(draws)), ("script", script(draws)), ("schedule", schedule(draws))]
