"""The pipe of a session: what the run writes for it, on its way to the neighbor."""
import asyncio
import fcntl
import os

from live_frames import whole_messages

# How many bytes are read of a pipe at a time, and how large the system is asked to make it.
PIECE, PIPE_SIZE = 262144, 1048576


class Session:
    """A pipe under the name of the session's file. It is read to its end in any case, since the run would lose a session whose pipe
    is closed before. `kept` gets a copy, and the run is told how many messages came, and of the end."""

    def __init__(self, peer, path, kept, connection, run):
        self.peer, self.path, self.kept, self.connection, self.run = peer, path, kept, connection, run
        self.loop, self.rest = asyncio.get_running_loop(), b""
        os.mkfifo(path, 0o600)
        self.pipe = os.open(path, os.O_RDONLY | os.O_NONBLOCK)
        grow(self.pipe)
        self.reading = False
        self.resume()

    def resume(self):
        if not self.reading and self.pipe is not None:
            self.reading = True
            self.loop.add_reader(self.pipe, self.carry)

    def pause(self):
        """Leaves the pipe full, so that the run tells this neighbor the last state alone once it reads again."""
        if self.reading:
            self.reading = False
            self.loop.remove_reader(self.pipe)

    def is_left_full(self):
        return not self.reading

    def carry(self):
        """Hands whole messages on, so that a KEEPALIVE or NOTIFICATION may stand between them."""
        try:
            piece = os.read(self.pipe, PIECE)
        except BlockingIOError:
            return
        if not piece:
            return self.close()
        if self.kept is not None:
            self.kept.write(piece)
        if self.connection is not None:
            self.hand_on(self.rest + piece)

    def hand_on(self, stream):
        length, count = whole_messages(stream)
        self.rest = stream[length:]
        if count > 0:
            self.run.messages_came(self, count)
            self.connection.send(stream[:length])

    def leave(self):
        """The neighbor is gone: what comes is dropped."""
        self.connection, self.rest = None, b""
        self.resume()

    def finish(self):
        """The run is gone: what it left is taken to its end."""
        self.leave()
        while self.pipe is not None:
            self.carry()

    def close(self):
        self.pause()
        os.close(self.pipe)
        self.pipe = None
        os.unlink(self.path)
        if self.kept is not None:
            self.kept.close()
        self.run.sessions.discard(self)


def grow(pipe):
    """Asks for a larger pipe; without one there are more turns."""
    try:
        fcntl.fcntl(pipe, fcntl.F_SETPIPE_SZ, PIPE_SIZE)
    except OSError:
        pass
