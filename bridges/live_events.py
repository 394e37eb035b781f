"""The events that an operator gives, from a file, a pipe or standard input, as they come."""
import asyncio
import os
import re
import stat

PIECE = 65536
# Whether a session is up is seen here, and is not the operator's to say.
OF_SESSIONS = re.compile(rb"^ *(?:up|down) .*\n", re.M)


def opened(name):
    """The file of this name, `-` being standard input. A pipe is kept open where its writers come and go."""
    if name == "-":
        return 0
    if stat.S_ISFIFO(os.stat(name).st_mode):
        return os.open(name, os.O_RDWR | os.O_NONBLOCK)
    return os.open(name, os.O_RDONLY)


async def readable(file):
    """Waits until there is something to read. A file of a disk always has."""
    loop = asyncio.get_running_loop()
    ready = loop.create_future()
    try:
        loop.add_reader(file, lambda: ready.done() or ready.set_result(None))
    except PermissionError:
        return await asyncio.sleep(0)
    try:
        await ready
    finally:
        loop.remove_reader(file)


async def whole_lines_of(file):
    """Whole lines, as many as there are at a time; the last one may lack its end."""
    rest = b""
    while True:
        await readable(file)
        try:
            piece = os.read(file, PIECE)
        except BlockingIOError:
            continue
        if not piece:
            break
        whole, end, behind = piece.rpartition(b"\n")
        if end:
            yield rest + whole + end
            rest = behind
        else:
            rest += piece
    if rest:
        yield rest + b"\n"


def without_sessions(whole_lines):
    """The lines but those of sessions, and how many these were."""
    return OF_SESSIONS.subn(b"", whole_lines)
