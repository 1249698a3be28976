"""What the benches share: a program is proved and built, run, and its instructions counted by valgrind."""
import json
import os
import re
import subprocess
import sys
import tempfile

TOP = os.path.dirname(os.path.dirname(os.path.abspath(__file__)))
NAME = f"benches/{os.path.basename(sys.argv[0])}"
CACHEGRIND = ["valgrind", "--tool=cachegrind", "--cache-sim=no", "--cachegrind-out-file=/dev/null"]
CALLGRIND = ["valgrind", "--tool=callgrind", "--callgrind-out-file=/dev/null"]
# What a whole reading is made by; and its parts, if the compiler made it a part of its callers. No part calls another one.
WHOLE = ["tocmark_reader::reader::find"]
PARTS = [
    "tocmark_reader::reader::find_blocks",
    "tocmark_reader::block_reading::BlockReading::next",
    "tocmark_reader::block_reading::BlockReading::rest",
]


def built(crate):
    """The path of a crate's program, which is proved and built where that isn't done."""
    folder = f"{TOP}/crates/{crate}"
    program = f"{folder}/out/{crate}"
    words = []
    # A program with files of its own is run without its arguments, which name them.
    if os.path.exists(f"{folder}/args") and not os.path.exists(f"{folder}/data"):
        with open(f"{folder}/args", encoding="utf-8") as file:
            words = file.read().split()
    command = ["rt", "run", "--", *words]
    made = subprocess.run(command, cwd=folder, stdin=subprocess.DEVNULL, capture_output=True, text=True)
    if made.returncode or not os.path.exists(program):
        sys.exit(f"{NAME}: the program can't be built:\n{made.stdout[-2000:]}{made.stderr[-2000:]}")
    return program


def run(words, text=""):
    """What a command did that read this text."""
    ran = subprocess.run(words, input=text.encode(), capture_output=True)
    if ran.returncode:
        sys.exit(f"{NAME}: {words[0]} ended with status {ran.returncode}")
    return ran


def counted(words, text=""):
    """What a command wrote, and the number of instructions that it took."""
    ran = run([*CACHEGRIND, *words], text)
    instructions = re.search(rb"I\s+refs:\s+([\d,]+)", ran.stderr)
    return ran.stdout.decode(), int(instructions[1].replace(b",", b""))


def said_and_counted_in_readings(words, text=""):
    """What a command wrote, and the number of instructions that it took in readings."""
    for names in WHOLE, PARTS:
        ran = run([*CALLGRIND, *(f"--toggle-collect={name}" for name in names), *words], text)
        count = int(re.search(rb"Collected : (\d+)", ran.stderr)[1])
        if count:
            return ran.stdout.decode(), count
    sys.exit(f"{NAME}: nothing is counted in {' and '.join(WHOLE + PARTS)}")


def counted_in_readings(words, text=""):
    """The number of instructions that a command took in readings."""
    return said_and_counted_in_readings(words, text)[1]


def reading(program, text, flags=None):
    """The number of events of a text, and the instructions of its reading. The program is `test_script`; with flags, as
    hexadecimal digits, it reads their extensions."""
    how = "" if flags is None else f"Reader extended\nFlags {flags}\n"
    said, count = said_and_counted_in_readings([program], f"{how}CountRead {json.dumps(text, ensure_ascii=False)}\n")
    return int(said.split()[0]), count


def ended(words, file=None):
    """The status of a command, what it wrote on standard error, its seconds of processor time, and the bytes that it took
    at most. A process begins with the memory of the one that starts it, so a small one is between."""
    watch = (
        "import os, sys; p = os.spawnv(os.P_NOWAIT, sys.argv[2], sys.argv[2:]); _, s, u = os.wait4(p, 0);"
        "open(sys.argv[1], 'w').write(f'{os.waitstatus_to_exitcode(s)} {u.ru_utime + u.ru_stime} {u.ru_maxrss}')"
    )
    with tempfile.NamedTemporaryFile("r") as told, open(file or os.devnull, "rb") as text:
        command = [sys.executable, "-I", "-S", "-c", watch, told.name, *words]
        ran = subprocess.run(command, stdin=text, stdout=subprocess.DEVNULL, stderr=subprocess.PIPE)
        status, seconds, memory = told.read().split()
    return int(status), ran.stderr.decode(), float(seconds), int(memory) * 1024
