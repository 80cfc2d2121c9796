"""Runs of `xray` at a limit, or one past it: of images, scripts, schedules, traces, audits, options and what threads make."""
from model import check_model, forms_model, image_model, machine_model, replay_model, trace_model
from model import xray_model as model
from model.image_container import image_file

from .random_cases import Case
from .random_images import ENTRY_SLED, EXIT_SLED

PATCH = b"patch\ngo\nunpatch\n"
PUSH, OUT, JMP, ALIGNMENT = b"\x50", b"\xE6\x01", b"\xE9", b"\x90"
DISPLACEMENT = bytes(4)


def straight_file(body):
    """An image of one function with an entry sled and an exit sled."""
    code = ENTRY_SLED + DISPLACEMENT + body
    code += ALIGNMENT * (len(code) % 2)
    return image_file(code + EXIT_SLED + DISPLACEMENT, sleds=[(0, 0, 0), (len(code), 0, 1)])


def full_code(past):
    return Case([b"extract", b"i"], {b"i": image_file(PUSH * (image_model.CODE_LIMIT + past))})


def full_function_list(past):
    functions = [(place, f"f{place}".encode()) for place in range(image_model.FUNCTION_LIMIT + past)]
    return Case([b"extract", b"i"], {b"i": image_file(PUSH * len(functions), functions)})


def full_sled_map(past):
    count = image_model.SLED_LIMIT + past
    code = (EXIT_SLED + DISPLACEMENT + ALIGNMENT) * count
    return Case([b"extract", b"i"], {b"i": image_file(code, sleds=[(12 * sled, 0, 1) for sled in range(count)])})


def full_image_file(past):
    file = straight_file(b"")
    return Case([b"plain", b"i"], {b"i": file + bytes(model.IMAGE_LIMIT + past - len(file))})


def entered_file(count):
    """An image with this number of entry sleds. After the last one a thread comes to no unit."""
    code = (ENTRY_SLED + DISPLACEMENT + ALIGNMENT) * count
    return image_file(code, sleds=[(12 * sled, 0, 0) for sled in range(count)])


def replay(*options, image=straight_file(OUT), script=PATCH, schedule=b""):
    words = [b"sim", b"i", b"s", b"c", *(str(word).encode() for word in options)]
    return Case(words, {b"i": image, b"s": script, b"c": schedule})


def traced(*options, **inputs):
    """A replay that writes a trace and an audit."""
    return replay("t", "a", "--wall=0", *options, **inputs)


def full_outputs(past):
    return replay(image=straight_file(OUT * (machine_model.OUTPUT_LIMIT + past)))


def full_script(past):
    return replay(script=PATCH + b"#" * (model.SCRIPT_LIMIT + past - len(PATCH)))


def full_command_list(past):
    return replay(script=PATCH + b"patch\n" * (replay_model.COMMAND_LIMIT - 3 + past))


def full_micro_step_list(past):
    """As many micro steps as allowed after `go`. The schedule leaves one of them, or none."""
    script = b"go\n" + b"patch\n" * (replay_model.COMMAND_LIMIT - 1)
    steps = 4 * image_model.SLED_LIMIT * (replay_model.COMMAND_LIMIT - 1)
    return replay(image=entered_file(image_model.SLED_LIMIT), script=script, schedule=b"p %d\n" % (steps - 1 + past))


def full_schedule(past):
    return replay(schedule=b"p 2\n".ljust(model.SCHEDULE_LIMIT + past, b"#"))


def full_schedule_lines(past):
    return replay(schedule=b"t 1 1\n" * replay_model.LINE_LIMIT + b"#" * past)


def full_turns(past):
    most = replay_model.NUMBER_LIMIT
    return replay(schedule=b"t 1 1\np %d\nt 1 %d\n" % (most, most + past))


def full_wait(past):
    """A count that isn't a number is reported before a script that waits."""
    most = replay_model.NUMBER_LIMIT
    return replay(script=b"hold 1 %d\ngo\nawait 1 %d\nrelease 1\n" % (most, most + past))


def no_fuel(past):
    return replay("--fuel", past, schedule=b"t 1 9\n")


def full_fuel(past):
    return replay(f"--fuel={1_000_000_000 + past}")


def no_passings(past):
    return replay("--passings", past, schedule=b"t 1 9\n")


def full_passings(past):
    return replay(f"--passings={1_048_576 + past}")


def full_threads(past):
    """The last thread allowed runs first."""
    return replay("--threads", 16 + past, schedule=b"t 16 1\np 1\nt 16 9\np 9\n")


def full_stack(past):
    code = PUSH * (machine_model.STACK_LIMIT + past)
    return Case([b"plain", b"i", b"--fuel", str(machine_model.STACK_LIMIT + past).encode()], {b"i": image_file(code)})


def full_stack_without_fuel(past):
    """The fuel runs out one instruction before the stack is full, or with it. Then the end is `fuel`."""
    code = PUSH * (machine_model.STACK_LIMIT + 1)
    return Case([b"plain", b"i", b"--fuel", str(machine_model.STACK_LIMIT - past).encode()], {b"i": image_file(code)})


def full_output(past):
    code = OUT * (machine_model.OUTPUT_LIMIT + past) + b"\xC3"
    return Case([b"plain", b"i"], {b"i": image_file(code)})


TRACED = b"patch\nset_handler\ninit\ngo\n"


def least_buffer_size(past):
    return traced("--buffer-size", 88 - past, script=TRACED)


def largest_buffer_size(past):
    return traced("--buffer-max=1", "--buffer-size", 1_048_576 + past, script=TRACED)


def largest_trace(past):
    """127 full buffers of 528,400 bytes would be a trace of the greatest length that can be read."""
    return traced("--buffer-max=127", "--buffer-size", 528_400 + past, script=TRACED)


def a_buffer_each(past):
    return traced("--buffer-max", 16 - past, "--threads=16", "--buffer-size=88", script=TRACED)


def full_buffer_list(past):
    return traced("--buffer-max", 1024 + past, script=TRACED)


def latest_wall(past):
    return Case([*traced().words[:6], b"--wall", b"%d" % (model.LARGEST_64 + past)], traced(script=TRACED).files)


def last_counter(past):
    """The counter wraps after its last value."""
    return traced("--tsc", model.LARGEST_64 - 2 + past, "--tick=1", image=straight_file(OUT * 2), script=TRACED)


def last_cpu(past):
    return traced("--cpus", 65_535 + past, "--migrate=1", "--threads=2", script=TRACED)


def last_pid(past):
    return traced("--pid", 2_147_483_647 + past, script=TRACED)


def full_trace_file(past):
    """A trace that is too long isn't read."""
    header = trace_model.header_bytes(trace_model.Header(0, 88))
    return Case([b"account", b"t"], {b"t": header.ljust(model.TRACE_LIMIT + past, b"\1")})


def open_calls(count, more=0):
    """Threads 1 and 0, with one call less than this and with this many, and more in thread 0."""
    event = trace_model.Event(0, 1, trace_model.ENTRY, 5)
    blocks = [trace_model.Block(thread, (0, 0), 1, [event] * (count - thread + (more if thread == 0 else 0))) for thread in (1, 0)]
    return trace_model.file_bytes(trace_model.Trace(trace_model.Header(0, 88), blocks))


def deepest_calls(past):
    return Case([b"stack", b"t", b"--format=flame"], {b"t": open_calls(4096 + past)})


def most_trace_events(past):
    return Case([b"convert", b"t", b"--format=trace-event"], {b"t": open_calls(forms_model.MOST_EVENTS // 2, 1 + past)})


def last_basic_cpu(past):
    event = trace_model.Event(forms_model.MOST_BYTE + past, 1, trace_model.ENTRY, 5)
    trace = trace_model.Trace(trace_model.Header(0, 88), [trace_model.Block(1, (0, 0), 1, [event])])
    return Case([b"convert", b"t", b"--format=basic"], {b"t": trace_model.file_bytes(trace)})


def most_rows(past):
    return Case([b"account", b"t", b"--top", b"%d" % (replay_model.NUMBER_LIMIT + past)], {b"t": open_calls(3)})


def largest_seed(past):
    return Case([b"soak", b"%d" % (model.LARGEST_64 + past)], {})


SETUP = (
    b"xray-audit 1\nthreads=1 buffer-size=88 buffer-max=1 fuel=9 passings=9 tick=0 tsc=0 cpus=1 migrate=1 pid=0 wall=0.0 "
    b"frequency=0\n"
)


def checked(passings=2, marks=".2", recycled=0):
    """A check of an audit of one thread, beside an empty trace."""
    lines = f"thread 1 returned passings {passings} recorded 0 segments 0 first 0\nmarks {marks}\nrecycled {recycled}\n"
    files = {b"i": straight_file(OUT), b"s": TRACED, b"t": b"", b"a": SETUP + lines.encode()}
    return Case([b"check", b"i", b"s", b"t", b"a"], files)


def full_audit(past):
    case = checked()
    case.files[b"a"] = case.files[b"a"].ljust(model.AUDIT_LIMIT + past, b"\n")
    return case


def full_mark_list(past):
    return checked(marks=f".{check_model.MARK_LIMIT + past}")


def full_mark_runs(past):
    return checked(marks=f".{check_model.MARK_LIMIT - 2} n1 .{1 + past}")


def largest_count(past):
    return checked(passings=replay_model.NUMBER_LIMIT + past)


def largest_recycled_count(past):
    return checked(recycled=model.LARGEST_64 + past)


def full_order(past):
    """An order with two lines for each passing. One past the limit, a store follows the last passing.

    A thread passes 1,024 sleds again and again. Each one is patched or unpatched just before it is passed.
    """
    sleds, rounds = 1024, 256
    count = 2 * rounds * sleds
    code = (ENTRY_SLED + DISPLACEMENT + ALIGNMENT) * sleds
    code += JMP + (-len(code) - 5).to_bytes(4, "little", signed=True)
    setup = SETUP.replace(b"fuel=9 passings=9", b"fuel=1000 passings=%d" % count)
    marks = " ".join([f"n{sleds} .{sleds}"] * rounds)
    lines = f"thread 1 passings passings {count} recorded 0 segments 0 first 0\nmarks {marks}\nrecycled 0\n"
    files = {
        b"i": image_file(code, sleds=[(12 * sled, 0, 0) for sled in range(sleds)]),
        b"s": b"go\n" + b"patch\nunpatch\n" * rounds + b"set_handler\n" * past,
        b"a": setup + lines.encode(),
    }
    return Case([b"order", b"i", b"s", b"a", b"f", b"o"], files)


LIMITS = [
    full_code, full_function_list, full_sled_map, full_image_file, full_outputs, full_script, full_command_list,
    full_micro_step_list, full_schedule, full_schedule_lines, full_turns, full_wait, no_fuel, full_fuel, no_passings,
    full_passings, full_threads, full_stack, full_stack_without_fuel, full_output,
]  # fmt: skip
TRACE_LIMITS = [
    least_buffer_size, largest_buffer_size, largest_trace, a_buffer_each, full_buffer_list, latest_wall, last_counter, last_cpu,
    last_pid, full_trace_file, deepest_calls, most_rows, most_trace_events, last_basic_cpu, largest_seed,
]  # fmt: skip
CHECK_LIMITS = [full_audit, full_mark_list, full_mark_runs, largest_count, largest_recycled_count, full_order]


# Limits that a run beside the script also has.
RUN_LIMITS = [
    full_outputs, full_script, full_command_list, full_wait, no_fuel, full_fuel, no_passings, full_passings, full_threads,
    least_buffer_size, largest_buffer_size, largest_trace, a_buffer_each, full_buffer_list, latest_wall, last_counter, last_cpu,
    last_pid,
]  # fmt: skip


def limit_cases(forms):
    """The cases of a program with these commands, each at its limit and one past it, as functions without arguments."""
    kinds = [(kind, past) for kind in [*LIMITS, *TRACE_LIMITS, *CHECK_LIMITS] for past in (0, 1)]
    cases = [lambda kind=kind, past=past: with_outputs(kind(past), forms) for kind, past in kinds if is_known(kind(0), forms)]
    return cases + (run_limit_cases() if "run" in forms else [])


def run_limit_cases():
    """The cases of `run`, as functions without arguments."""
    return [lambda kind=kind, past=past: beside(kind(past)) for kind in RUN_LIMITS for past in (0, 1)]


def beside(case):
    """The same limit in a run beside the script, which has no schedule."""
    _, image, script, _, *rest = with_outputs(case, model.FORMS).words
    return Case([b"run", image, script, *rest], {image: case.files[image], script: case.files[script]})


def is_known(case, forms):
    """Whether the program has the case's command with all of its options."""
    command, *words = (word.decode() for word in case.words)
    options = [word.removeprefix("--").partition("=")[0] for word in words if word.startswith("--")]
    return command in forms and all(option in forms[command].options for option in options)


def with_outputs(case, forms):
    """A replay of three files also writes a trace, if the program's replays do."""
    if case.words[0] == b"sim" and forms["sim"].outputs and b"t" not in case.words:
        case.words[4:4] = [b"t", b"a"]
        case.words.append(b"--wall=0")
    return case
