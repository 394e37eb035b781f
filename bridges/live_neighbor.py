"""A neighbor over time: its connections, of which one at most has a session, and when it is called again (RFC 4271 sections 6.8 and 8)."""
import asyncio
import random

import live_refresh
from live_connection import Connection, State
from live_faults import Fault
from messages import ROUTE_REFRESH, UPDATE

FIRST_WAIT, LONGEST_WAIT, CALL_TIME = 1, 120, 30
MOST_CONNECTIONS = 4
# Requests that come faster are told as one.
REFRESH_INTERVAL = 1


class Neighbor:
    """`run` takes what happens, and `said` says it. `call` gives a socket that can call it and where to, and is None where it is only
    listened to."""

    def __init__(self, peer, speaker, run, said, call):
        self.peer, self.speaker, self.run, self.said, self.call = peer, speaker, run, said, call
        self.connections, self.session, self.number = set(), None, 0
        self.wait, self.timer, self.tasks, self.stopped = FIRST_WAIT, None, set(), False
        self.up_since, self.request, self.last_request = 0.0, None, 0.0

    # ---- connections

    def begin(self):
        """Calls the neighbor, unless it is only to be listened to."""
        self.call_after(0)

    def call_after(self, seconds):
        if self.call is not None and not self.stopped and self.timer is None:
            self.timer = asyncio.get_running_loop().call_later(seconds, self.begin_call)

    def begin_call(self):
        self.timer = None
        if not self.connections and not self.stopped:
            self.start(self.connect())

    def start(self, what):
        task = asyncio.create_task(what)
        self.tasks.add(task)
        task.add_done_callback(self.tasks.discard)

    async def connect(self):
        loop = asyncio.get_running_loop()
        try:
            sock, place = self.call(self.peer)
        except OSError as fault:
            return self.call_again(str(fault))
        try:
            await asyncio.wait_for(loop.sock_connect(sock, place), CALL_TIME)
            await loop.create_connection(lambda: self.connection(True), sock=sock)
        except (OSError, asyncio.TimeoutError) as fault:
            sock.close()
            self.call_again(str(fault) or "no answer")

    def takes_another(self):
        return len(self.connections) < MOST_CONNECTIONS

    def accept(self, sock):
        """Takes a connection that the neighbor opened."""
        self.start(asyncio.get_running_loop().connect_accepted_socket(lambda: self.connection(False), sock))

    def connection(self, outgoing):
        made = Connection(self, outgoing)
        self.connections.add(made)
        return made

    def call_again(self, why=None):
        """Waits twice as long after each call that came to nothing, up to two minutes (section 8.1, ConnectRetryTimer)."""
        if self.call is None or self.stopped or self.timer is not None:
            return
        seconds = self.wait * random.uniform(0.75, 1)
        self.wait = min(2 * self.wait, LONGEST_WAIT)
        self.said("waits", self.peer.name, why, seconds=round(seconds, 1))
        self.call_after(seconds)

    def resolve_collision(self, connection):
        """Another connection whose OPEN was right: a session that is up stays, and else the connection that the side of the higher
        identifier opened (section 6.8). Of two that the same side opened the later one stays."""
        ours = (int(self.speaker.identifier), self.speaker.asn) > (int(self.peer.identifier), self.peer.asn)
        for other in list(self.connections):
            if other is connection or other.state not in (State.OPEN_CONFIRM, State.ESTABLISHED):
                continue
            if other.state is State.ESTABLISHED or (other.outgoing != connection.outgoing and other.outgoing == ours):
                raise Fault(6, 7)
            other.end(Fault(6, 7))

    # ---- the session

    def established(self, connection):
        self.number += 1
        self.up_since = asyncio.get_running_loop().time()
        self.session = self.run.up(self.peer.name, self.number, connection)
        self.said("up", self.peer.name, session=self.number, hold_time=connection.hold_time)

    def hold_back(self, connection):
        if self.session is not None and self.session.connection is connection:
            self.session.pause()

    def go_on(self, connection):
        if self.session is not None and self.session.connection is connection:
            self.session.resume()

    def asked(self, whole):
        """A ROUTE-REFRESH of the neighbor becomes an event."""
        live_refresh.check(whole, self.peer)
        if not live_refresh.is_for(whole, self.peer):
            return
        if not live_refresh.is_plain(whole):
            self.tell_request()
            self.said("filter", self.peer.name)
            return self.run.say(live_refresh.lines_of(whole, self.peer))
        if self.request is None:
            loop = asyncio.get_running_loop()
            wait = max(0, self.last_request + REFRESH_INTERVAL - loop.time())
            self.request = loop.call_later(wait, self.tell_request), whole
            if wait == 0:
                self.tell_request()

    def tell_request(self):
        """Says the request that waits. What was asked meanwhile is answered by it too."""
        if self.request is not None:
            timer, whole = self.request
            timer.cancel()
            self.request, self.last_request = None, asyncio.get_running_loop().time()
            self.said("refresh", self.peer.name)
            self.run.say(live_refresh.lines_of(whole, self.peer))

    def ended(self, connection, state, why):
        """The connection is over: with it the session, where it had one."""
        if state is State.ESTABLISHED:
            if self.request is not None:
                self.request[0].cancel()
                self.request = None
            self.run.down(self.peer.name, self.session)
            self.session = None
            if asyncio.get_running_loop().time() - self.up_since >= self.wait:
                self.wait = FIRST_WAIT
            counts = connection.counts
            self.said("down", self.peer.name, why, session=self.number, dropped_updates=counts[UPDATE], requests=counts[ROUTE_REFRESH])
        elif not self.stopped:
            self.said("refused", self.peer.name, why)

    def gone(self, connection):
        """The connection is closed too."""
        self.connections.discard(connection)
        if not self.connections:
            self.call_again()

    # ---- the end

    def stop(self, fault):
        """Ends all connections for this fault, and calls no more."""
        self.stopped = True
        if self.timer is not None:
            self.timer.cancel()
        for connection in list(self.connections):
            connection.end(fault)
