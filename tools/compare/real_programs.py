#!/usr/bin/env python3
"""Compiles programs with clang, runs them, imports the logs that LLVM's runtime writes, and compares what comes of them.

usage: tools/compare/real_programs.py [PROGRAM] [--keep FOLDER] [--times N]
    PROGRAM: a built `xray`; without it only the model is compared
    --keep: where the logs, the maps and the traces are left
    --times: how often each program runs, 3 if left out

Debian's packages clang-14, libclang-rt-14-dev and llvm-14 have what is needed, and so have those of version 19. If neither is there,
this reports that and passes. The programs are in traced_programs: threads, recursion, tail calls, arguments, custom and typed events,
exceptions, patching while threads run, buffers that wrap, a flush while threads run, and the basic mode.

For each log, these have to hold:
- The trace of `import` is that of the model, byte for byte, and so is what is printed.
- Each thread has the events that `llvm-xray convert` prints of the log, in the order of their counters, and each event of a doubled
  block once. LLVM's tool shows no arguments of a basic log.
- `account`, `stack` and `convert` print what the model prints of the trace, with the names of `llvm-xray extract --symbolize`.
"""
import os
import pathlib
import shutil
import subprocess
import sys
import tempfile

sys.dont_write_bytecode = True  # the modules are in the repository, and their compiled forms aren't
sys.path.insert(0, str(pathlib.Path(__file__).resolve().parents[1]))
from command_line import CommandLine  # noqa: E402
from compare import llvm_logs  # noqa: E402
from model import import_model, map_model, report_model, trace_model  # noqa: E402
from model.image_model import Refused  # noqa: E402

VERSIONS = ["14", "19"]
PROGRAMS = pathlib.Path(__file__).parent / "traced_programs"
# With optimization LLVM's trampolines of typed events crash.
BUILT = ["-std=c++17", "-O0", "-fxray-instrument", "-fxray-instruction-threshold=1"]
BASIC = "patch_premain=true xray_mode=xray-basic xray_basic_func_duration_threshold_us=0"
# LLVM 14 reads no sled map of a program with typed events.
NAMELESS = ["typed"]
REPORTS = {
    "account": ["--format=csv", "--sort=sum"],
    "stack": ["--format=flame"],
    "convert": [],
}


def tools_of(version):
    """The compiler and the reader of a version of LLVM, if both are there."""
    names = [f"clang++-{version}", f"llvm-xray-{version}"]
    return names if all(map(shutil.which, names)) else None


def map_of(reader, program, sled_map):
    """The sled map of a compiled program, in a file."""
    sled_map.write_bytes(subprocess.run([reader, "extract", "--symbolize", program], check=True, capture_output=True).stdout)
    return sled_map


def log_of(program, folder):
    """The log of a run of a compiled program."""
    environment = {**os.environ, "XRAY_OPTIONS": f"xray_logfile_base={folder}/log. {BASIC if program.name == 'basic' else ''}"}
    environment["XRAY_BASIC_OPTIONS"] = "func_duration_threshold_us=0"
    subprocess.run([program], env=environment, check=True, timeout=60, capture_output=True)
    (log,) = folder.glob("log.*")
    return log


class Differs(Exception):
    """What a program leaves isn't what it has to be."""


def same(what, left, right):
    if left != right:
        raise Differs(what)


def check_events(log, reader):
    """The events of the model's trace are those of LLVM's reader."""
    os.environ["LLVM_XRAY"] = reader
    wrong = list(llvm_logs.differing(str(log)))
    same(f"events of the threads {wrong}", wrong, [])


def options_of(command):
    """The options of the reports, as the model takes them."""
    return {"sort": "sum", "sortorder": "asc", "top": None, "format": {"account": "csv", "stack": "flame", "convert": "yaml"}[command]}


def check_reports(xray, trace, sled_map):
    """What each report prints of a trace is what the model prints, with the names of a map if there is one."""
    names = map_model.names_of(sled_map.read_bytes()) if sled_map else {}
    named = [f"--map={sled_map}"] if sled_map else []
    read = trace_model.trace_of(trace.read_bytes())
    models = {"account": report_model.account_text, "stack": report_model.stack_text, "convert": report_model.yaml_text}
    for command, words in REPORTS.items():
        try:
            said, status = models[command](read, names, options_of(command)).encode("utf-8", "surrogateescape"), 0
        except Refused as refused:
            said, status = f"xray: {trace}: trace {refused.reason}\n".encode(), 2
        ran = subprocess.run([xray, command, trace, *named, *words], capture_output=True, timeout=600)
        same(command, (ran.returncode, ran.stdout if status == 0 else ran.stderr), (status, said))


def check_log(xray, log, trace, sled_map):
    """What the program leaves of a log is what the model makes of it."""
    logged = import_model.logged(log.read_bytes())
    made = trace_model.file_bytes(import_model.trace_made(logged))
    if xray is None:
        trace.write_bytes(made)
        return
    ran = subprocess.run([xray, "import", log, trace], capture_output=True, timeout=600)
    same("what import prints", (ran.returncode, ran.stdout.decode()), (0, import_model.facts(logged)))
    same("the trace", trace.read_bytes(), made)
    check_reports(xray, trace, sled_map)


def check_program(xray, source, version, folder, times):
    compiler, reader = tools_of(version)
    program = folder / source.stem
    subprocess.run([compiler, *BUILT, source, "-o", program, "-lpthread"], check=True)
    sled_map = None if source.stem in NAMELESS else map_of(reader, program, folder / "sleds.yaml")
    for number in range(times):
        run = folder / str(number)
        run.mkdir()
        log = log_of(program, run)
        check_events(log, reader)
        check_log(xray, log, run / "trace", sled_map)


def main():
    words = CommandLine(__doc__)
    words.add_program(None)
    words.add_argument("--keep")
    words.add_argument("--times", type=int, default=3)
    given = words.parse_args()
    xray = given.program
    versions = [version for version in VERSIONS if tools_of(version)]
    if not versions:
        print("no clang with XRay's runtime: nothing is compared")
        return 0
    wrong = 0
    with tempfile.TemporaryDirectory() as scratch:
        base = pathlib.Path(given.keep or scratch)
        for version in versions:
            for source in sorted(PROGRAMS.glob("*.cpp")):
                folder = base / version / source.stem
                folder.mkdir(parents=True)
                try:
                    check_program(xray, source, version, folder, given.times)
                    print(f"LLVM {version}: {source.stem}: agrees in {given.times} runs")
                except (Differs, Refused) as differs:
                    wrong += 1
                    print(f"LLVM {version}: {source.stem}: differs: {differs}")
    return bool(wrong)


if __name__ == "__main__":
    sys.exit(main())
