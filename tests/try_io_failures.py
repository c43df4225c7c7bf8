"""Runs the line program on input and output that fail or stall, and says whether it does what it should.

    python3 tests/try_io_failures.py [PROGRAM]

PROGRAM is crates/sheet_lines/out/sheet_lines, which `rt run` leaves there, where none is given. A read or a write that
fails stops the program at once, with one line on standard error that says which; a call that would have to wait is tried
again, so that no byte is lost. The program's exit status is 0 even so, and that is looked at too. Ends with status 1 where
a case fails.
"""
import fcntl
import os
import signal
import subprocess
import sys
import threading
import time

ROOT = os.path.dirname(os.path.dirname(os.path.abspath(__file__)))
LINES = 100000
LIMIT = 120

READING = b"sheet_lines: reading standard input: "
WRITING = b"sheet_lines: writing standard output: "

failed = []


def say(name, good, told=""):
    print("%s: %s%s" % (name, "ok" if good else "FAILED", "" if good or not told else " (%s)" % told))
    if not good:
        failed.append(name)


def stopped(name, run, start, why=b""):
    """One line on standard error that starts so, and goes on with why to its end where why is given; and status 0."""
    one = run.stderr.startswith(start + why) and run.stderr.count(b"\n") == 1 and run.stderr.endswith(why + b"\n")
    say(name, one and run.returncode == 0, "status %d, standard error %r" % (run.returncode, run.stderr[:200]))


def full_device(program):
    with open("/dev/full", "wb") as out:
        run = subprocess.run([program], input=b"=ab\n", stdout=out, stderr=subprocess.PIPE, timeout=LIMIT)
    stopped("a write to a full device", run, WRITING, b"No space left on device")


def full_device_at_the_end(program):
    """The reply of a last line without a line feed."""
    with open("/dev/full", "wb") as out:
        run = subprocess.run([program], input=b"=ab", stdout=out, stderr=subprocess.PIPE, timeout=LIMIT)
    stopped("the last write to a full device", run, WRITING)


def stops_at_once(program):
    """After the first failed write nothing more is read: the writer of a long input sees its pipe closed."""
    with open("/dev/full", "wb") as out:
        started = subprocess.Popen([program], stdin=subprocess.PIPE, stdout=out, stderr=subprocess.PIPE)
        closed = False
        try:
            for _ in range(1000):
                started.stdin.write(b"=ab\n" * 1000)
                started.stdin.flush()
        except BrokenPipeError:
            closed = True
        try:
            started.stdin.close()
        except BrokenPipeError:
            pass
        told = started.stderr.read()
        started.wait(timeout=LIMIT)
    good = closed and told.count(b"\n") == 1
    say("it stops at the first failed write", good, "closed: %s, %r" % (closed, told[:200]))


def closed_output(program):
    run = subprocess.run(["sh", "-c", 'exec "$0" >&-', program], input=b"=ab\n", stderr=subprocess.PIPE, timeout=LIMIT)
    stopped("a write to a closed output", run, WRITING)


def nobody_reads(program, name, how):
    """A pipe that nobody reads is a write that fails, too: the program ignores the signal SIGPIPE."""
    started = subprocess.Popen(
        [program], stdin=subprocess.PIPE, stdout=subprocess.PIPE, stderr=subprocess.PIPE, restore_signals=False,
        preexec_fn=lambda: signal.signal(signal.SIGPIPE, how),
    )
    started.stdout.close()
    started.stdin.write(b"=ab\n")
    started.stdin.close()
    told = started.stderr.read()
    started.wait(timeout=LIMIT)
    good = told.startswith(WRITING) and told.count(b"\n") == 1 and started.returncode == 0
    say(name, good, "status %d, %r" % (started.returncode, told[:200]))


def a_folder(program):
    folder = os.open(ROOT, os.O_RDONLY)
    run = subprocess.run([program], stdin=folder, stdout=subprocess.PIPE, stderr=subprocess.PIPE, timeout=LIMIT)
    os.close(folder)
    stopped("a folder as input", run, READING)
    say("a folder as input: nothing is written", run.stdout == b"", repr(run.stdout[:200]))


def closed_input(program):
    run = subprocess.run(
        ["sh", "-c", 'exec "$0" <&-', program], stdout=subprocess.PIPE, stderr=subprocess.PIPE, timeout=LIMIT
    )
    stopped("a closed input", run, READING)


def full_pipe(program):
    """A pipe whose writing end doesn't wait, and a reader that is slow to start."""
    reader, writer = os.pipe()
    fcntl.fcntl(writer, fcntl.F_SETFL, fcntl.fcntl(writer, fcntl.F_GETFL) | os.O_NONBLOCK)
    started = subprocess.Popen([program], stdin=subprocess.PIPE, stdout=writer, stderr=subprocess.PIPE)
    os.close(writer)
    feeder = threading.Thread(target=lambda: started.communicate(b"=a b\n" * LINES))
    feeder.start()
    time.sleep(1)
    got = b""
    while True:
        part = os.read(reader, 1 << 16)
        if not part:
            break
        got += part
    feeder.join(LIMIT)
    os.close(reader)
    wanted = b"1 2 3\n" * LINES
    say("a full pipe that doesn't wait", got == wanted, "%d of %d bytes" % (len(got), len(wanted)))


def empty_pipe(program):
    """A pipe whose reading end doesn't wait, and a writer that is slow."""
    reader, writer = os.pipe()
    fcntl.fcntl(reader, fcntl.F_SETFL, fcntl.fcntl(reader, fcntl.F_GETFL) | os.O_NONBLOCK)
    started = subprocess.Popen([program], stdin=reader, stdout=subprocess.PIPE, stderr=subprocess.PIPE)
    os.close(reader)
    try:
        for part in b"=a", b"b\n=", b"ab c":
            time.sleep(0.3)
            os.write(writer, part)
    except BrokenPipeError:
        pass
    os.close(writer)
    out, told = started.communicate(timeout=LIMIT)
    say("an empty pipe that doesn't wait", (out, told) == (b"2\n2 3 4\n", b""), "%r, %r" % (out[:200], told[:200]))


def main():
    program = os.path.abspath(sys.argv[1] if len(sys.argv) > 1 else os.path.join(ROOT, "crates", "sheet_lines", "out", "sheet_lines"))
    full_device(program)
    full_device_at_the_end(program)
    stops_at_once(program)
    closed_output(program)
    nobody_reads(program, "a pipe that nobody reads", signal.SIG_DFL)
    nobody_reads(program, "a pipe that nobody reads, without the signal", signal.SIG_IGN)
    a_folder(program)
    closed_input(program)
    full_pipe(program)
    empty_pipe(program)
    sys.exit(1 if failed else 0)


main()
