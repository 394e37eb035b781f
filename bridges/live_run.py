"""The run behind the sessions: `ug_main run` with pipes as its events, its report and its sessions."""
import asyncio
import os
import subprocess
import sys
import tempfile

from live_flush import Flushing
from live_lines import Lines
from live_session import Session
from live_stall import Stall

EVENTS = "/dev/stdin"


class Writing(asyncio.Protocol):
    """Whether the pipe of the events takes more."""

    def __init__(self):
        self.has_room = asyncio.Event()
        self.has_room.set()

    def pause_writing(self):
        self.has_room.clear()

    def resume_writing(self):
        self.has_room.set()

    def connection_lost(self, error):
        self.has_room.set()


class Run:
    """One run of the program. `keep` gets a copy of all that goes in and comes out, where there is one."""

    def __init__(self, program, config, folder, keep, said, speaker, peers):
        self.program, self.config, self.folder, self.keep, self.said = program, config, folder, keep, said
        self.lines, self.sessions, self.full = Lines(), set(), asyncio.Event()
        self.process = self.pipe = self.writing = None
        self.flushing = Flushing(speaker.coalesce, self.flush) if knows_flush(program, config) else None
        self.stall = Stall(speaker, peers, self.sessions, self.say_on)

    async def start(self):
        """Begins the run, in a process group of its own, so that Ctrl-C ends the sessions first."""
        loop = asyncio.get_running_loop()
        reading, writing = os.pipe()
        words = [self.program, "run", self.config, EVENTS, self.folder, "--workers", "1"]
        self.process = await asyncio.create_subprocess_exec(*words, stdin=reading, stdout=subprocess.PIPE, process_group=0)
        os.close(reading)
        self.pipe, self.writing = await loop.connect_write_pipe(Writing, os.fdopen(writing, "wb", buffering=0))

    # ---- events

    def say(self, lines):
        """Says these lines, in this order."""
        self.write("".join(line + "\n" for line in lines).encode())

    def write(self, whole_lines):
        """Says these lines, unless the run would have too many with them."""
        if self.lines.have_room(whole_lines):
            self.put(whole_lines)
        else:
            self.full.set()

    def put(self, whole_lines):
        if self.pipe.is_closing() or not whole_lines:
            return
        self.stall.lines_came(whole_lines)
        self.pass_on(whole_lines)
        if self.flushing is not None:
            self.flushing.lines_came()

    def pass_on(self, whole_lines):
        self.lines.take(whole_lines)
        if self.keep is not None:
            self.keep.events.write(whole_lines)
        self.pipe.write(whole_lines)

    async def room(self):
        """Waits until the run has read what was written, but for a little."""
        await self.writing.has_room.wait()

    def say_on(self, lines):
        """Says what nobody asked for: it leads to no further such lines by itself."""
        text = "".join(line + "\n" for line in lines).encode()
        if not self.pipe.is_closing() and self.lines.have_room(text):
            self.pass_on(text)

    def flush(self):
        self.say_on(["flush"])

    def messages_came(self, session, count):
        self.stall.moved()
        if self.flushing is not None:
            self.flushing.messages_came(session, count)

    # ---- sessions

    def up(self, name, number, connection):
        """Begins a session: its pipe is there, and is read, before the run opens it."""
        file = f"{name}.{number}"
        kept = self.keep.session(file) if self.keep is not None else None
        session = Session(name, os.path.join(self.folder, file), kept, connection, self)
        self.sessions.add(session)
        self.say([f"up {name}"])
        return session

    def down(self, name, session):
        session.leave()
        self.put(f"down {name}\n".encode())

    # ---- the report

    async def report(self):
        """Hands the lines of the report on as they come, until the run ends. Gives its status."""
        async for line in self.process.stdout:
            sys.stdout.buffer.write(line)
            sys.stdout.buffer.flush()
            if self.keep is not None:
                self.keep.report.write(line)
            if line.startswith(b"line "):
                self.tell_refused(line.decode())
        status = await self.process.wait()
        for session in list(self.sessions):
            session.finish()
        return status

    def tell_refused(self, line):
        """The run counts the lines that it reads, `up` and `down` too: the text says which of the operator's it was."""
        number, _, *why = line.split()[1:]
        self.said("refused line", why=" ".join(why), number=int(number), text=self.lines.text(int(number)))

    # ---- the end

    def close(self):
        """No further event comes: the run ends behind what it has read."""
        self.stall.stop()
        if self.flushing is not None:
            self.flushing.stop()
        self.pipe.close()

    def kill(self):
        if self.process.returncode is None:
            self.process.kill()


def knows_flush(program, config):
    """Whether the program has the verb `flush`. One that doesn't leaves what waits by `coalesce` untold until the next event."""
    with tempfile.TemporaryDirectory() as folder:
        tried = subprocess.run([program, "run", config, EVENTS, folder], input=b"flush\n", capture_output=True, check=False)
    return not tried.stdout.startswith(b"line ")
