"""A model of the plain machine: a thread of an image whose sleds are only counted, and its plain text.

It is written from docs/formats and docs/commands alone, and shares nothing with the program or its definitions.
"""
STACK_LIMIT = 65_536
OUTPUT_LIMIT = 65_536
WORD_64 = 1 << 64

RDI = 7
SHOWN = {
    "rax": 0, "rcx": 1, "rdx": 2, "rbx": 3, "rbp": 5, "rsi": 6, "rdi": 7,
    "r8": 8, "r9": 9, "r11": 11, "r12": 12, "r13": 13, "r14": 14, "r15": 15,
}  # fmt: skip


class Ended(Exception):
    """A thread has come to its end."""


class Thread:
    """A thread of an image whose sleds are only counted."""

    def __init__(self, image, number, fuel, passings):
        self.image = image
        self.number = number
        self.fuel = fuel
        self.passing_limit = passings
        self.registers = [0] * 16
        self.registers[RDI] = number
        self.zero_flag = 0
        self.stack = []
        self.output = bytearray()
        self.instructions = 0
        self.passings = 0
        self.place = image.start

    def run(self):
        """How the thread ends."""
        try:
            while True:
                self.step()
        except Ended as ended:
            return str(ended)

    def step(self):
        unit = self.image.units.get(self.place)
        if unit is None:
            raise Ended("bad-target")
        if unit.is_sled:
            if self.passings == self.passing_limit:
                raise Ended("passings")
            self.passings += 1
        if unit.name in ("entry", "align"):
            self.place = unit.end
            return
        if self.instructions == self.fuel:
            raise Ended("fuel")
        self.do(unit)
        self.instructions += 1

    def do(self, unit):
        """An instruction, or the `ret` of an exit sled."""
        registers = self.registers
        goes_to = unit.end
        match unit.name, unit.operands:
            case "mov", (target, number):
                registers[target] = number
            case "add", (target, source):
                self.set(target, registers[target] + registers[source])
            case "sub", (target, source):
                self.set(target, registers[target] - registers[source])
            case "push", (source,):
                self.push(registers[source])
            case "pop", (target,):
                if not self.stack:
                    raise Ended("stack-empty")
                registers[target] = self.stack.pop()
            case "call", (distance,):
                self.push(self.image.base + unit.end)
                goes_to += distance
            case "jmp", (distance,):
                goes_to += distance
            case "jnz", (distance,):
                goes_to += 0 if self.zero_flag else distance
            case ("ret" | "exit"), _:
                if not self.stack:
                    self.instructions += 1
                    raise Ended("returned")
                goes_to = self.stack.pop() - self.image.base
            case "out", _:
                if len(self.output) == OUTPUT_LIMIT:
                    raise Ended("output-full")
                self.output.append(registers[0] % 256)
        self.place = goes_to

    def set(self, target, value):
        self.registers[target] = value % WORD_64
        self.zero_flag = int(self.registers[target] == 0)

    @property
    def argument(self):
        """The first argument of a function that the thread enters."""
        return self.registers[RDI]

    def push(self, value):
        if len(self.stack) == STACK_LIMIT:
            raise Ended("stack-full")
        self.stack.append(value)


def plain_text(thread, end):
    registers = " ".join(f"{name}={thread.registers[register]:x}" for name, register in SHOWN.items())
    return (
        f"thread {thread.number} {end} instructions {thread.instructions} passings {thread.passings}\n"
        f"{registers} zf={thread.zero_flag}\n"
        f"output {thread.output.hex() or '-'}\n"
    )
