"""A live run for the tests: `bridges/live.py` as a process, with what it says, and its configuration."""
import contextlib
import ipaddress
import json
import pathlib
import signal
import subprocess
import tempfile
import threading
import time

from neighbor import PATIENCE

BRIDGES = pathlib.Path(__file__).resolve().parent.parent
LOCAL_AS, LOCAL_IDENTIFIER = 65001, "192.0.2.100"


def peer_text(name, address, asn, identifier, local="127.0.0.1", **options):
    """A `[[peer]]` of a configuration."""
    network = ipaddress.ip_network(f"{address}/{128 if ':' in address else 32}")
    fields = {"name": name, "as": asn, "router_id": identifier, "address": address, "local_address": local, "subnet": str(network), **options}
    return "\n[[peer]]\n" + "".join(f"{key} = {json.dumps(value)}\n" for key, value in fields.items())


def config_text(*peers, asn=LOCAL_AS, identifier=LOCAL_IDENTIFIER, further="", **settings):
    fields = {"as": asn, "router_id": identifier, **settings}
    return "[local]\n" + "".join(f"{key} = {json.dumps(value)}\n" for key, value in fields.items()) + further + "".join(peers)


class Follower:
    """The lines of a stream, as they come."""

    def __init__(self, stream):
        self.lines, self.change, self.over = [], threading.Condition(), False
        self.thread = threading.Thread(target=self.read, args=(stream,), daemon=True)
        self.thread.start()

    def read(self, stream):
        for line in stream:
            with self.change:
                self.lines.append(line.rstrip("\n"))
                self.change.notify_all()
        with self.change:
            self.over = True
            self.change.notify_all()

    def wait(self, found, what):
        """The first line of which `found` holds, once there is one."""
        with self.change:
            if not self.change.wait_for(lambda: any(map(found, self.lines)) or self.over, PATIENCE) or not any(map(found, self.lines)):
                raise AssertionError(f"was not said within {PATIENCE} s: {what}; last said: {self.lines[-3:]}")
            return next(line for line in self.lines if found(line))


class Live:
    """`live.py` over this configuration. It keeps all in `folder` and, unless `words` have it, listens at a port of the system."""

    def __init__(self, program, config, *words, keep=True):
        self.place = tempfile.TemporaryDirectory()
        self.folder, self.program = pathlib.Path(self.place.name), program
        (self.folder / "config").write_text(config)
        listen = () if "--listen" in words else ("--listen", "127.0.0.1:0", "--passive")
        kept = ("--keep", str(self.folder / "kept")) if keep else ()
        self.process = subprocess.Popen(
            [BRIDGES / "live.py", self.folder / "config", "--json", "--program", program, *kept, *listen, *words],
            stdin=subprocess.PIPE, stdout=subprocess.PIPE, stderr=subprocess.PIPE, text=True)
        self.said, self.report = Follower(self.process.stderr), Follower(self.process.stdout)
        self.places = [self.listens(number) for number in range(1, max(1, words.count("--listen")) + 1)]

    def __enter__(self):
        return self

    def __exit__(self, *_):
        """Ends it hard where it still runs: the second signal ends the run too."""
        for _ in range(2):
            self.process.terminate()
            time.sleep(0 if self.process.poll() is not None else 0.1)
        self.process.wait(PATIENCE)
        for stream in (self.process.stdin, self.process.stdout, self.process.stderr):
            with contextlib.suppress(BrokenPipeError):
                stream.close()
        self.place.cleanup()

    def listens(self, number):
        said = self.state("listens", number=number)
        return said["address"], said["port"]

    def state(self, state, peer=None, number=1, **fields):
        """The `number`th line that says this state, of this peer and with these fields."""
        wanted = {"state": state, **({"peer": peer} if peer else {}), **fields}

        def found(line):
            said = json.loads(line) if line.startswith("{") else {}
            return wanted.items() <= said.items()
        self.said.wait(lambda _: sum(map(found, self.said.lines)) >= number, f"{number} times {wanted}")
        return json.loads([line for line in self.said.lines if found(line)][number - 1])

    def count(self, state, peer):
        said = [json.loads(line) for line in list(self.said.lines)]
        return sum(line["state"] == state and line.get("peer") == peer for line in said)

    def say(self, *lines):
        self.write("".join(line + "\n" for line in lines))

    def write(self, text):
        self.process.stdin.write(text)
        self.process.stdin.flush()

    def reported(self, beginning, number=1):
        """The `number`th line of the report that begins so."""
        self.report.wait(lambda _: sum(line.startswith(beginning) for line in self.report.lines) >= number, beginning)
        return [line for line in self.report.lines if line.startswith(beginning)][number - 1]

    def synced(self, peer, number):
        """The line of this peer of the `number`th `sync`."""
        def of_peer():
            return [line for line in self.report.lines if line.startswith("sync ") and line.split()[2] == peer]
        self.report.wait(lambda _: len(of_peer()) >= number, f"sync {number} of {peer}")
        return of_peer()[number - 1]

    def end(self):
        """Ctrl-C, and the status behind it."""
        self.process.send_signal(signal.SIGINT)
        return self.process.wait(PATIENCE)

    def kept(self, session):
        return (self.folder / "kept/sessions" / session).read_bytes()

    def events(self):
        return (self.folder / "kept/events").read_text().splitlines()

    def rows(self, stream, *options):
        """What `check` reads of the bytes of a session: its rows, and its last line."""
        (self.folder / "stream").write_bytes(stream)
        *rows, last = subprocess.run([self.program, "check", *options, self.folder / "stream"], capture_output=True, text=True).stdout.splitlines()
        return rows, last
