"""A device for nbdkit that loses what was not flushed, as one without power does. trials/device_faults runs it:

    nbdkit python losing_device.py medium=FILE [fault=KIND at=NUMBER] [after=FILE] [lasts=yes] [dies=NUMBER] [flush=nothing] [random=NUMBER] [counts=FILE]

FILE of `medium` is what outlives the device, and gives its size. What is written is kept in memory until a flush brings it there: a device that
is killed has lost it. Requests are counted from 1, and from when the file of `after` is there. At request `at` the fault comes:

    loses    the device ends, at a write or a flush, and nothing reaches the medium of what was not flushed
    tears    so too, and of each sector that was not flushed one of these is on the medium: what was there, what some write put, random bytes
    read     a read is answered with an error
    write    a write is answered with an error, and some of its sectors are written
    flush    a flush is answered with an error; of what was not flushed some reaches the medium, and the rest is gone

With `lasts=yes` later requests of that kind fail too. With `dies` the device loses power, and tears, at that write or flush after the fault. With `flush=nothing` a flush is answered and does nothing: such a device is broken, and
loses what was answered. `counts` gets the number of reads, writes and flushes when the device is ended in order.
"""
import errno
import os
import random
import signal

import nbdkit

API_VERSION = 2
BLOCK = 4096
SECTOR = 512
# What each fault counts.
COUNTED = {"loses": ("write", "flush"), "tears": ("write", "flush"), "read": ("read",), "write": ("write",), "flush": ("flush",)}

words = {}
made = {"read": 0, "write": 0, "flush": 0}
# The blocks that are not flushed, each with all that was written to it since the last flush, the newest last.
pending = {}
counted = 0
# How many writes and flushes came after the fault.
since = 0


def config(key, value):
    words[key] = value


def config_complete():
    global medium, size, at
    medium = os.open(words["medium"], os.O_RDWR)
    size = os.fstat(medium).st_size
    at = int(words.get("at", 0))
    random.seed(int(words.get("random", 0)))


def thread_model():
    return nbdkit.THREAD_MODEL_SERIALIZE_ALL_REQUESTS


def open(readonly):
    return 1


def get_size(_handle):
    return size


def can_flush(_handle):
    return True


def comes(kind):
    """Counts a request. Whether the fault comes at it."""
    global counted, since
    made[kind] += 1
    if counted >= at > 0 and kind != "read" and "dies" in words:
        since += 1
        if since == int(words["dies"]):
            tear(garbles=True)
            os.kill(os.getpid(), signal.SIGKILL)
    if kind not in COUNTED.get(words.get("fault"), ()) or "after" in words and not os.path.exists(words["after"]):
        return False
    counted += 1
    return counted == at or counted > at and words.get("lasts") == "yes"


def fails(kind):
    nbdkit.set_error(errno.EIO)
    raise RuntimeError(f"the {kind} {made[kind]} fails, as it was told to")


def newest(block):
    versions = pending.get(block)
    return versions[-1] if versions else os.pread(medium, BLOCK, block * BLOCK).ljust(BLOCK, b"\0")


def mixed(versions, garbles):
    """A block whose sectors each come from one of these blocks, or seldom hold random bytes."""
    parts = []
    for start in range(0, BLOCK, SECTOR):
        if garbles and random.random() < 0.05:
            parts.append(random.randbytes(SECTOR))
        else:
            parts.append(random.choice(versions)[start : start + SECTOR])
    return b"".join(parts)


def tear(garbles):
    """Brings some of what is not flushed to the medium."""
    for block, versions in pending.items():
        old = os.pread(medium, BLOCK, block * BLOCK).ljust(BLOCK, b"\0")
        os.pwrite(medium, mixed([old, *versions], garbles), block * BLOCK)


def lose_power():
    if words["fault"] == "tears":
        tear(garbles=True)
    os.kill(os.getpid(), signal.SIGKILL)


def pread(_handle, buffer, offset, _flags):
    if comes("read"):
        fails("read")
    done = 0
    while done < len(buffer):
        block, start = divmod(offset + done, BLOCK)
        part = newest(block)[start : start + len(buffer) - done]
        buffer[done : done + len(part)] = part
        done += len(part)


def pwrite(_handle, buffer, offset, _flags):
    is_fault = comes("write")
    data, done = bytes(buffer), 0
    while done < len(data):
        block, start = divmod(offset + done, BLOCK)
        part = data[done : done + BLOCK - start]
        old = newest(block)
        new = old[:start] + part + old[start + len(part) :]
        if is_fault and words["fault"] == "write":
            new = mixed([old, new], garbles=False)
        pending.setdefault(block, []).append(new)
        done += len(part)
    if is_fault and words["fault"] == "write":
        fails("write")
    if is_fault:
        lose_power()


def flush(_handle, _flags):
    is_fault = comes("flush")
    if is_fault and words["fault"] == "flush":
        tear(garbles=False)
        pending.clear()
        fails("flush")
    if is_fault:
        lose_power()
    if words.get("flush") == "nothing":
        return
    for block, versions in pending.items():
        os.pwrite(medium, versions[-1], block * BLOCK)
    pending.clear()


def cleanup():
    if "counts" in words:
        with os.fdopen(os.open(words["counts"], os.O_WRONLY | os.O_CREAT | os.O_TRUNC, 0o600), "w") as file:
            print(*made.values(), file=file)
