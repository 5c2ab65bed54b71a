"""Calls of quechotzal_days and quechotzal_append: what tools/model.py gives and what the door does.

A call is the function's name and its buffers: the record, the list, for quechotzal_append the one
interval more, and last the bytes that are lent for the days. What has to come of it is the answer
and the lent bytes afterwards.

The door is for x86-64. On another machine QUECHOTZAL_DOOR may name an archive of it that was made
for that machine. Without one there is no door to call.
"""
import ctypes
import subprocess
import tempfile
from struct import pack, unpack

import driven
import model

MODEL = {"quechotzal_days": model.summary, "quechotzal_append": model.append}
AROUND = b"\x5a" * 40


def answer(refusal=0, field=0, bits=0, days=0):
    """The answer's 32 bytes. No instant is asked for a summary, so the last number is 0."""
    return pack("<IIQQQ", refusal, field, bits, days, 0)


def refusal_in(answered):
    """The refusal's number in an answer, 0 for none."""
    return unpack("<I", answered[:4])[0]


# ---- the model

def bits_at_fault(record, refusal, field):
    """The bits of the number that comes with a refusal, 0 where none does."""
    if refusal in (3, 4):
        return unpack("<Q", record[8 * field : 8 * field + 8])[0]
    if refusal == 5:
        a, e = unpack("<dd", record[8:24])
        return unpack("<Q", pack("<d", a * (1 - e)))[0]
    return 0


def by_model(function, buffers):
    """What has to come of a call, by tools/model.py."""
    refused, after = MODEL[function](*buffers)
    record = buffers[0]
    if refused:
        return answer(*refused, bits_at_fault(record, *refused)), after
    r = model.read(record)
    return answer(days=len(model.days(r.t0, r.t1))), after


# ---- the door

def opened(test):
    """The door as a shared library, or None, and a line that says so, where there is no archive."""
    found = subprocess.run([driven.ROOT / "tools" / "door"], stdout=subprocess.PIPE, text=True)
    driven.count.check("tools/door ends well", found.returncode == 0)
    archive = found.stdout.strip()
    if not archive:
        print(f"{test}: the door was not tried: there is no archive of it for this machine")
        return None
    with tempfile.TemporaryDirectory() as folder:
        library = f"{folder}/libdoor.so"
        whole = ["-Wl,--whole-archive", archive, "-Wl,--no-whole-archive"]
        subprocess.run(["cc", "-shared", "-o", library, *whole], check=True)
        return ctypes.CDLL(library)


def called(door, function, buffers):
    """What is returned, and what the buffers hold afterwards. Each buffer lies between bytes of its
    own; where one of these changes, nothing counts as returned."""
    edge = len(AROUND)
    lent = [ctypes.create_string_buffer(AROUND + b + AROUND, 2 * edge + len(b)) for b in buffers]
    sizes = [ctypes.c_size_t(len(b)) for b in buffers]
    places = [part for room, size in zip(lent, sizes) for part in (ctypes.byref(room, edge), size)]
    returned = getattr(door, function)(*places)
    stayed = all(room.raw[:edge] == AROUND == room.raw[-edge:] for room in lent)
    return returned if stayed else None, [room.raw[edge:-edge] for room in lent]


def meets(door, function, buffers, expected):
    """Whether the door does what is expected of a call, and leaves every other byte as it was."""
    answered, after = expected
    room = b"\xa5" * len(answered)
    return called(door, function, [*buffers, room]) == (1, [*buffers[:-1], after, answered])
