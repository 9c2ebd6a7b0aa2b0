#!/usr/bin/env python3
"""Measures how many people who each wait for every answer share one volume through the broker, beside one program alone.

    bench/broker.py [--program PATH] [--folder FOLDER] [--clients N] [--seconds S] [--rounds N] [--silence MICROSECONDS]

In turn, the same number of rounds each:

- one client with `run 1`: it writes a line, reads the answer, and goes on;
- N clients of the broker, each with a thread and an object of its own, that do the same over a connection each;
- the same with one more client that sends lines without end and reads no answer.

Each line stores a word. The clients of the broker are spread over two processes. A round of the broker starts it anew, and counts after a
tenth of its time. It prints stores a second, and of an answer's time the median and the 99th percentile in microseconds; of each row the
median round counts. The last lines give the ratios, of which 6 and 0.8 are wanted.
"""

import argparse
import contextlib
import os
import pickle
import select
import signal
import socket
import statistics
import subprocess
import sys
import tempfile
import time
from pathlib import Path

CLIENT = Path(__file__).resolve().parents[1] / "clients/python"
sys.path.insert(0, str(CLIENT))

from tests import support  # noqa: E402  (first, since the folder of the tests says where the package is)
import mungi  # noqa: E402

PROCESSES = 2
# How long the broker may take to open the volume, in seconds.
PATIENCE = 120


def new_volume(path, clients, program):
    """A volume with a thread for each client, which may write to an object of its own: the threads with the bases of the objects."""
    fresh = mungi.new_volume(path, 4 * clients + 16, 1 << 40, program=program)
    made = []
    with mungi.Machine(path, 64, program) as machine:
        root = machine.root(fresh.treasury)
        start = root.create()
        right = start.grant("X")
        for _ in range(clients):
            own, used = root.create(), root.create_list()
            used.add(right)
            used.add(own.grant("RW"))
            made.append((root.new_thread(used, start.base).number, own.base))
            root.remove(own)
            root.remove(used)
    return made


def alone(path, seconds, program, made):
    """One client with `run 1`: the times of its answers, in seconds."""
    thread, base = made[0]
    times = []
    with subprocess.Popen([program, path, "run", "1"], stdin=subprocess.PIPE, stdout=subprocess.PIPE, bufsize=0) as run:
        source, sink = run.stdout.fileno(), run.stdin.fileno()
        os.write(sink, b"%d load 0x%x\n" % (thread, base))
        os.read(source, 4096)
        number = 0
        begun = before = time.perf_counter()
        while before - begun < seconds:
            number += 1
            os.write(sink, b"%d store 0x%x %d\n" % (thread, base + 8 * (number % 512), number))
            if os.read(source, 4096) != b"ok\n":
                sys.exit("broker: the program did not answer ok")
            now = time.perf_counter()
            times.append(now - before)
            before = now
        run.stdin.close()
    return times, before - begun


def drive(path, mine, seconds):
    """Some clients of the broker, in this process: the times of their answers, and how long it took."""
    peers = {}
    poll = select.epoll()
    for thread, base in mine:
        peer = socket.socket(socket.AF_UNIX)
        peer.connect(path)
        peers[peer.fileno()] = [peer, b"%d store 0x%x " % (thread, base), 0.0]
        poll.register(peer, select.EPOLLIN)
    times = []
    begun = time.perf_counter()
    for row in peers.values():
        row[2] = time.perf_counter()
        row[0].send(row[1] + b"0\n")
    now = begun
    while now - begun < seconds:
        for number, _ in poll.poll(1):
            row = peers[number]
            if row[0].recv(4096) != b"ok\n":
                sys.exit("broker: the broker did not answer ok")
            now = time.perf_counter()
            if now - begun > seconds / 10:
                times.append(now - row[2])
            row[2] = now
            row[0].send(row[1] + b"%d\n" % len(times))
    for row in peers.values():
        row[0].close()
    return times, now - begun - seconds / 10


def together(path, made, seconds, options, is_beside):
    """The clients of a broker, over some processes. With `is_beside` one more sends and never reads."""
    folder = path.parent
    users, place = folder / "users", str(folder / "socket")
    users.write_text(f"[user.{os.getuid()}]\nthreads = [{', '.join(str(thread) for thread, _ in made)}]\n")
    command = [sys.executable, "-m", "mungi.broker", str(path), place, str(users), "--program", options.program, "--silence", str(options.silence)]
    broker = subprocess.Popen(command, env=dict(os.environ, PYTHONPATH=str(CLIENT / "src")), stderr=subprocess.DEVNULL)
    try:
        for _ in range(PATIENCE * 10):
            if os.path.exists(place):
                break
            time.sleep(0.1)
        with contextlib.ExitStack() as stack:
            if is_beside:
                greedy = stack.enter_context(socket.socket(socket.AF_UNIX))
                greedy.connect(place)
                greedy.setblocking(False)
                line = b"%d load 0x%x\n" % made[0]
                with contextlib.suppress(BlockingIOError):
                    for _ in range(1 << 16):
                        greedy.send(line * 100)
            pipes = []
            for part in range(PROCESSES):
                source, sink = os.pipe()
                if os.fork() == 0:
                    # Only what was asked for is done here, whatever happens.
                    try:
                        os.close(source)
                        with os.fdopen(sink, "wb") as file:
                            pickle.dump(drive(place, made[part::PROCESSES], seconds), file)
                    finally:
                        os._exit(0)
                os.close(sink)
                pipes.append(os.fdopen(source, "rb"))
            parts = []
            for pipe in pipes:
                with pipe:
                    parts.append(pickle.load(pipe))
            for _ in pipes:
                os.wait()
        return [it for times, _ in parts for it in times], statistics.mean(took for _, took in parts)
    finally:
        broker.send_signal(signal.SIGTERM)
        broker.wait(PATIENCE)


def figures(rounds):
    """Of some rounds: stores a second, median and 99th percentile of the times, each of the median round."""
    rates = [len(times) / took for times, took in rounds]
    medians = [statistics.median(times) * 1e6 for times, _ in rounds]
    lasts = [statistics.quantiles(times, n=100)[98] * 1e6 for times, _ in rounds]
    return statistics.median(rates), statistics.median(medians), statistics.median(lasts)


def main():
    parser = argparse.ArgumentParser(description="Measures many clients of the broker beside one program alone.")
    parser.add_argument("--program", default=None)
    parser.add_argument("--folder", default=None, help="where the volume is made; else the system's folder for such files")
    parser.add_argument("--clients", type=int, default=64)
    parser.add_argument("--seconds", type=float, default=5)
    parser.add_argument("--rounds", type=int, default=3)
    parser.add_argument("--silence", type=float, default=100)
    options = parser.parse_args()
    options.program = options.program or support.PROGRAM
    if options.program is None:
        sys.exit("broker: there is no program: set MUNGI, or build it with the script mungi")
    with tempfile.TemporaryDirectory(dir=options.folder) as folder:
        path = Path(folder) / "volume"
        made = new_volume(path, options.clients, options.program)
        rows = {"one, run 1": [], f"{options.clients}, broker": [], "and one that never reads": []}
        names = list(rows)
        for _ in range(options.rounds):
            rows[names[0]].append(alone(path, options.seconds, options.program, made))
            rows[names[1]].append(together(path, made, options.seconds, options, False))
            rows[names[2]].append(together(path, made, options.seconds, options, True))
    print(f"{'clients':26}{'stores a second':>16}{'median, us':>12}{'99th, us':>12}")
    told = {}
    for name, rounds in rows.items():
        told[name] = figures(rounds)
        print(f"{name:26}{told[name][0]:16,.0f}{told[name][1]:12,.0f}{told[name][2]:12,.0f}")
    base, shared, beside = (told[name][0] for name in names)
    print(f"together over one alone: {shared / base:.2f}")
    print(f"with one that never reads over without: {beside / shared:.2f}")


if __name__ == "__main__":
    main()
