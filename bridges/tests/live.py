#!/usr/bin/env python3
"""Tries live sessions by a neighbor of our own (neighbor.py), which does right and wrong things.

    live.py PROGRAM [NAME..]

The last line is `N passed, M failed`. NAME tries the tests of these names alone. What is drawn is drawn from SEED in the
environment, or else from 1.
"""
import concurrent.futures
import contextlib
import os
import random
import signal
import socket
import struct
import sys
import tempfile
import time
import traceback

import neighbor as bgp
from live_running import Live, config_text, peer_text
from neighbor import KEEPALIVE, OPEN, UPDATE, Neighbor, message

SEED = int(os.environ.get("SEED", "1"))
AT_A_TIME = 3
P1, P2, P3 = "127.0.0.11", "127.0.0.12", "127.0.0.13"
END_OF_RIB = bgp.MARKER + bytes.fromhex("0017" "02" "0000" "0000")


def one(**options):
    return peer_text("p1", P1, 65011, "192.0.2.11", **options)


def two(**options):
    return peer_text("p2", P2, 65012, "192.0.2.12", **options)


def three(**options):
    return peer_text("p3", P3, 65013, "192.0.2.13", **options)


def first(*further, **fields):
    return Neighbor(P1, 65011, "192.0.2.11", further=further, **fields)


def second(*further, **fields):
    return Neighbor(P2, 65012, "192.0.2.12", further=further, **fields)


def third(*further, **fields):
    return Neighbor(P3, 65013, "192.0.2.13", further=further, **fields)


def path(prefix, med=0, sender="local", next_hop="0.0.0.0"):
    return f"paths {prefix} id=1 from={sender} nh={next_hop} origin=igp as=- med={med}"


def prefix(number):
    return f"10.{number // 256}.{number % 256}.0/24"


def is_equal(name, got, wanted):
    if got != wanted:
        raise AssertionError(f"{name}: {got!r}, where {wanted!r} was wanted")


def has_rows(live, peer, count, *options):
    """Reads on until the bytes leave so many routes."""
    end = time.monotonic() + bgp.PATIENCE
    while len(live.rows(peer.stream, *options)[0]) != count:
        if time.monotonic() > end:
            raise AssertionError(f"{live.rows(peer.stream, *options)[1]}, where {count} routes were wanted")
        peer.read_on()


def ends_well(live):
    """Ctrl-C, a run that ends with 0, and an audit of what was kept that ends with 0."""
    is_equal("exit status", live.end(), 0)
    is_equal("status of the run", live.state("run ended")["status"], 0)
    is_equal("status of the audit", live.state("audit")["status"], 0)


# ---- OPEN

def open_is_as_the_configuration_has_it(program):
    config = config_text(one(add_path=True, extended=True, enhanced_refresh=True, orf=True), asn=4200000001)
    with Live(program, config) as live:
        peer = first()
        peer.connect(live.places[0])
        wanted = bgp.opening(4200000001, "192.0.2.100", [
            bgp.family(1), bgp.REFRESH, bgp.four_bytes(4200000001), bgp.orf(1, 1), bgp.EXTENDED, bgp.add_path(1, 2),
            bgp.ENHANCED_REFRESH], short=23456)
        is_equal("OPEN", peer.next(), wanted)
        peer.send(peer.open())
        data = bgp.orf(1, 1) + bgp.EXTENDED + bgp.add_path(1, 2) + bgp.ENHANCED_REFRESH
        is_equal("NOTIFICATION", peer.notification(), (2, 7, data))
        live.state("refused", "p1")
        peer.connect(live.places[0])
        peer.send(peer.open(capabilities=[*peer.capabilities, bgp.orf(1, 3), bgp.EXTENDED, bgp.add_path(1, 3), bgp.ENHANCED_REFRESH]))
        peer.next_of(KEEPALIVE)
        ends_well(live)


def faults_of_open():
    """Name, what is sent, and the NOTIFICATION that is to come."""
    peer, ok = first(), [bgp.family(1), bgp.four_bytes(65011)]
    right = peer.open()
    yield "version", peer.open(version=3), (2, 1, b"\0\4")
    yield "version above", peer.open(version=5), (2, 1, b"\0\4")
    yield "AS", peer.open(asn=65012, capabilities=[bgp.four_bytes(65012)]), (2, 2, b"")
    yield "AS of four bytes", peer.open(capabilities=[bgp.four_bytes(4200000000)]), (2, 2, b"")
    yield "hold time 1", peer.open(hold=1), (2, 6, b"")
    yield "hold time 2", peer.open(hold=2), (2, 6, b"")
    yield "identifier 0", peer.open(identifier="0.0.0.0"), (2, 3, b"")
    yield "identifier of another", peer.open(identifier="192.0.2.99"), (2, 3, b"")
    yield "parameter of authentication", peer.open(parameters=bytes([1, 1, 0])), (2, 4, b"")
    yield "unknown parameter", peer.open(parameters=bytes([9, 0])), (2, 4, b"")
    yield "length of the parameters", peer.open(length=3), (2, 0, b"")
    yield "parameter cut short", peer.open(parameters=bytes([2, 9, 1, 4])), (2, 0, b"")
    yield "half a parameter's head", peer.open(parameters=bytes([2])), (2, 0, b"")
    yield "capability cut short", peer.open(parameters=bytes([2, 3, 65, 4, 0])), (2, 0, b"")
    yield "AS number of three bytes", peer.open(capabilities=[bgp.family(1), bgp.capability(65, b"\0\0\1")]), (2, 0, b"")
    yield "another family alone", peer.open(capabilities=[bgp.family(2), ok[1]]), (2, 7, bgp.family(1))
    yield "no AS number of four bytes", peer.open(capabilities=[bgp.family(1)]), (2, 7, bgp.four_bytes(65001))
    yield "marker", message(OPEN, right[19:], marker=b"\xff" * 15 + b"\xfe"), (1, 1, b"")
    yield "length below a header", message(OPEN, length=18), (1, 2, struct.pack("!H", 18))
    yield "length below an OPEN", message(OPEN, length=28), (1, 2, struct.pack("!H", 28))
    yield "length above 4,096", message(OPEN, length=4097), (1, 2, struct.pack("!H", 4097))
    yield "length of a KEEPALIVE", message(KEEPALIVE, b"\0"), (1, 2, struct.pack("!H", 20))
    yield "type 0", message(0), (1, 3, b"\0")
    yield "type 6", message(6, bytes(10)), (1, 3, b"\6")
    yield "KEEPALIVE for an OPEN", message(KEEPALIVE), (5, 1, bytes([KEEPALIVE]))
    yield "UPDATE for a KEEPALIVE", right + END_OF_RIB, (5, 2, bytes([UPDATE]))
    yield "OPEN of a session that is up", right + message(KEEPALIVE) + right, (5, 3, bytes([OPEN]))


def faults_of_an_open_are_told(program):
    with Live(program, config_text(one(), two()), keep=False) as live:
        other = second()
        other.establish(live.places[0])
        for name, sent, wanted in faults_of_open():
            peer = first()
            peer.connect(live.places[0])
            peer.send(sent)
            is_equal(name, peer.notification(), wanted)
            peer.close()
        draw = random.Random(SEED)
        for _ in range(10):
            peer = first()
            peer.connect(live.places[0])
            peer.send(draw.randbytes(draw.randrange(19, 200)))
            is_equal("drawn bytes", peer.notification()[0], 1)
            peer.close()
        peer = first()
        peer.establish(live.places[0])
        live.state("up", "p1", number=2)
        is_equal("sessions that ended meanwhile", live.count("down", "p2"), 0)
        is_equal("exit status", live.end(), 0)


def an_open_without_families_is_ipv4(program):
    with Live(program, config_text(one()), keep=False) as live:
        peer = first()
        peer.capabilities = [bgp.four_bytes(65011)]
        peer.establish(live.places[0])
        live.state("up", "p1")


def who_is_no_peer_is_turned_away(program):
    with Live(program, config_text(one()), keep=False) as live:
        stranger = Neighbor("127.0.0.99", 65099, "192.0.2.99")
        stranger.connect(live.places[0])
        is_equal("NOTIFICATION", stranger.notification()[:2], (6, 5))
        live.state("refused", address="127.0.0.99")


# ---- sessions

def routes_are_told(program):
    """The bytes are those that the run wrote, and the table is the one that was said."""
    with Live(program, config_text(one(), two())) as live:
        peer, other = first(), second()
        peer.establish(live.places[0])
        live.say("down p1", "up p2", *(path(prefix(n), med=n // 10) for n in range(300)), "withdraw 12.0.0.0/8", "withdraw 10.0.0.0/24", "sync")
        is_equal("refused line", live.state("refused line")["text"], "withdraw 12.0.0.0/8")
        messages = live.reported("sync ").split()[-1]
        has_rows(live, peer, 299)
        is_equal("messages", live.rows(peer.stream)[1].split()[1], messages)
        other.establish(live.places[0])
        has_rows(live, other, 299)
        live.process.stdin.close()
        is_equal("lines of sessions left out", live.state("events are over")["left_out"], 2)
        ends_well(live)
        is_equal("NOTIFICATION", peer.notification(), (6, 2, b""))
        is_equal("kept bytes", live.kept("p1.1"), peer.stream)
        is_equal("rows", live.rows(live.kept("p2.1"))[0], live.rows(other.stream)[0])


def a_session_that_ends_comes_again(program):
    """Cut in the midst of a message, at drawn places; the next session has the whole table."""
    draw = random.Random(SEED)
    with Live(program, config_text(one(), two())) as live:
        live.say(*(path(prefix(n), med=n) for n in range(100)))
        other = second()
        other.establish(live.places[0])
        for session in range(1, 6):
            peer = first()
            peer.establish(live.places[0])
            live.state("up", "p1", session=session)
            peer.send(message(UPDATE, bytes(30))[:draw.randrange(1, 49)])
            if session % 2:
                has_rows(live, peer, 100)
            peer.close()
            live.state("down", "p1", session=session)
        has_rows(live, other, 100)
        is_equal("sessions of the other one", live.count("down", "p2"), 0)
        ends_well(live)


def the_hold_time_runs_out(program):
    """The lesser of both is kept: KEEPALIVEs come each third of it, and a silent neighbor is told 4/0."""
    with Live(program, config_text(one(), two())) as live:
        peer, other = first(hold=3), second(hold=0)
        other.establish(live.places[0])
        peer.establish(live.places[0])
        begun, alive = time.monotonic(), 0
        while (whole := peer.next())[18] != bgp.NOTIFICATION:
            alive += whole[18] == KEEPALIVE
        is_equal("NOTIFICATION", whole[19:], b"\4\0")
        if time.monotonic() - begun < 2.9 or alive < 2:
            raise AssertionError(f"{alive} KEEPALIVEs in {time.monotonic() - begun:.1f} s")
        live.state("down", "p1")
        is_equal("hold time", live.state("up", "p2")["hold_time"], 0)
        live.say(path("10.0.0.0/8"))
        has_rows(live, other, 1)
        ends_well(live)


def of_two_connections_one_stays(program):
    """A collision, with a neighbor of a lower and of a higher identifier; and beside a session that is up."""
    for identifier, theirs_stays in (("192.0.2.11", False), ("192.0.2.200", True)):
        peer, calling = first(), first()
        peer.identifier = calling.identifier = identifier
        config = config_text(peer_text("p1", P1, 65011, identifier))
        with Live(program, config, "--listen", f"127.0.0.1:{peer.listen()}") as live:
            peer.accept()
            peer.next_of(OPEN)
            calling.connect(live.places[0])
            calling.next_of(OPEN)
            peer.send(peer.open())
            peer.next_of(KEEPALIVE)
            calling.send(calling.open())
            stays, goes = (calling, peer) if theirs_stays else (peer, calling)
            is_equal("NOTIFICATION", goes.notification(), (6, 7, b""))
            stays.send(message(KEEPALIVE))
            live.state("up", "p1")
            goes.connect(live.places[0])
            goes.send(goes.open())
            is_equal("NOTIFICATION of a third", goes.notification(), (6, 7, b""))
            live.say(path("10.0.0.0/8"))
            has_rows(live, stays, 1)
            ends_well(live)


def a_neighbor_is_called_again(program):
    """Waits grow where nobody listens, and a neighbor that comes to listen gets its session."""
    peer = first()
    port = peer.listen()
    peer.listener.close()
    with Live(program, config_text(one()), "--listen", f"127.0.0.1:{port}") as live:
        waits = [live.state("waits", "p1", number=number)["seconds"] for number in (1, 2)]
        if not 0.7 <= waits[0] <= 1 or not 1.5 <= waits[1] <= 2:
            raise AssertionError(f"waits of {waits} s")
        peer.listen(port)
        peer.accept()
        peer.establish()
        live.state("up", "p1")
        ends_well(live)


MANY = 30000


def many_routes():
    """Routes that are more, each with attributes of its own, than any buffer on the way holds; one more ends them."""
    numbers = ",".join(str(65536 + n) for n in range(120))
    routes = [f"paths {prefix(n)} id=1 from=local nh=0.0.0.0 origin=igp as={numbers} med={n}" for n in range(MANY)]
    return [*routes, path("11.255.0.0/16", med=1)]


LAST_OF_MANY = bytes([16, 11, 255])


def who_does_not_read_holds_up_itself_alone(program):
    """One neighbor reads nothing, and the others have all. What is kept for it has a bound, and then it reads the last state."""
    with Live(program, config_text(one(), two(), three())) as live:
        slow, peer, other = first(), second(), third()
        for it in (slow, peer, other):
            it.establish(live.places[0])
        live.say(*many_routes())
        for it in (peer, other):
            it.read_until(lambda: it.stream.endswith(LAST_OF_MANY), "the last route")
        live.say("withdraw 11.255.0.0/16", path("11.254.0.0/16"))
        peer.read_until(lambda: peer.stream.endswith(bytes([16, 11, 254])), "a route told while one reads nothing")
        sizes = len(live.kept("p1.1")), len(live.kept("p2.1"))
        if sizes[0] > sizes[1] * 3 // 4:
            raise AssertionError(f"of {sizes[1]} bytes {sizes[0]} went to a neighbor that reads nothing")
        slow.read_until(lambda: slow.stream.endswith(bytes([16, 11, 254])), "the last route, of the slow one")
        is_equal("rows", len(live.rows(slow.stream)[0]), MANY + 1)
        is_equal("sessions that ended", live.count("down", "p1") + live.count("down", "p2"), 0)
        ends_well(live)


def a_session_ends_while_its_pipe_is_full(program):
    """What the run still writes for it is read, so that the run goes on, and a `sync` waits for nobody."""
    with Live(program, config_text(one(), two())) as live:
        slow, peer = first(), second()
        for it in (slow, peer):
            it.establish(live.places[0])
        live.say(*many_routes())
        peer.read_until(lambda: peer.stream.endswith(LAST_OF_MANY), "the last route")
        slow.close()
        live.state("down", "p1")
        live.say("sync")
        live.synced("p2", 1)
        slow.establish(live.places[0])
        slow.read_until(lambda: slow.stream.endswith(END_OF_RIB), "End-of-RIB")
        is_equal("rows", len(live.rows(slow.stream)[0]), MANY + 1)
        ends_well(live)


# ---- requests

def a_flood_of_requests_is_told_as_few(program):
    with Live(program, config_text(one(), two())) as live:
        peer, other = first(), second()
        peer.establish(live.places[0])
        other.establish(live.places[0])
        live.say(*(path(prefix(n), med=n) for n in range(50)), "sync")
        live.reported("sync")
        peer.send(bgp.refresh() * 3000)
        peer.read_until(lambda: peer.stream.count(bytes([24, 10, 0, 49])) >= 3, "the table three times")
        live.say(path("11.0.0.0/8"))
        has_rows(live, other, 51)
        has_rows(live, peer, 51)
        is_equal("sessions that ended", live.count("down", "p1") + live.count("down", "p2"), 0)
        ends_well(live)
        told = sum(line.startswith("receive p1 ") for line in live.events())
        if not 2 <= told <= 60:
            raise AssertionError(f"3,000 requests were told as {told}")


def requests_for_another_family_are_passed_over(program):
    with Live(program, config_text(one(enhanced_refresh=True))) as live:
        peer = first(bgp.ENHANCED_REFRESH)
        peer.establish(live.places[0])
        peer.send(bgp.refresh(afi=2), bgp.refresh(subtype=1), bgp.refresh(subtype=2), bgp.refresh())
        live.reported("refresh ")
        peer.read_until(lambda: peer.stream.endswith(bgp.refresh(subtype=2)), "the end of the refresh")
        peer.send(bgp.refresh(subtype=1, further=b"\0"))
        is_equal("NOTIFICATION", peer.notification(), (7, 1, bgp.refresh(subtype=1, further=b"\0")))
        ends_well(live)
        is_equal("requests", sum(line.startswith("receive") for line in live.events()), 1)


def filter_entry(action, number, least, most, length, *octets):
    return bytes([action]) + struct.pack("!I", number) + bytes([least, most, length, *octets])


def filter_of(when, *entries):
    block = b"".join(entries)
    return bgp.refresh(further=bytes([when, 64]) + struct.pack("!H", len(block)) + block)


def a_filter_of_the_neighbor_holds(program):
    """A short one; and one of 400 entries, which is longer than a line of events may be."""
    with Live(program, config_text(one(orf=True))) as live:
        peer = first(bgp.orf(1))
        peer.establish(live.places[0])
        live.say(*(path(prefix(n), med=n) for n in range(500)))
        has_rows(live, peer, 500)
        peer.send(filter_of(1, filter_entry(0, 10, 0, 0, 24, 10, 0, 7)))
        has_rows(live, peer, 1)
        entries = [filter_entry(0, n + 100, 0, 0, 24, 10, n // 256, n % 256) for n in range(360)]
        peer.send(filter_of(1, bytes([0x80])), filter_of(1, filter_entry(0x20, 1, 0, 32, 0), *entries))
        live.state("filter", "p1", number=3)
        live.say("sync")
        live.reported("sync ")
        ends_well(live)
        parts = [line.split()[2] for line in live.events() if line.startswith("orf p1 ")]
        is_equal("parts", [part[46:48] for part in parts], ["01", "01", "02", "01"])
        is_equal("refused lines", live.report.lines[-1].split()[-1], "0")


def updates_of_the_neighbor_are_dropped(program):
    with Live(program, config_text(one())) as live:
        peer = first()
        peer.establish(live.places[0])
        peer.send(message(UPDATE, bytes(4)) * 20000, message(UPDATE, bytes(4000)) * 500)
        live.say(path("10.0.0.0/8"))
        has_rows(live, peer, 1)
        peer.send(message(bgp.NOTIFICATION, b"\6\4"))
        down = live.state("down", "p1")
        is_equal("UPDATEs", down["dropped_updates"], 20500)
        is_equal("why", "6/4 Administrative Reset" in down["why"], True)
        ends_well(live)


# ---- the end

def a_run_that_is_full_ends(program):
    """Before the run would end for its limits, the sessions end as by Ctrl-C."""
    with Live(program, config_text(one())) as live:
        peer = first()
        peer.establish(live.places[0])
        live.say(path("10.0.0.0/8"))
        with contextlib.suppress(BrokenPipeError):
            live.write("#\n" * 2000000)
        live.state("is full")
        is_equal("NOTIFICATION", peer.notification(), (6, 2, b""))
        is_equal("status of the run", live.state("run ended")["status"], 0)
        is_equal("status of the audit", live.state("audit")["status"], 0)


def a_run_that_dies_ends_the_sessions(program):
    with Live(program, config_text(one()), keep=False) as live:
        peer = first()
        peer.establish(live.places[0])
        live.state("up", "p1")
        process = live.process.pid
        with open(f"/proc/{process}/task/{process}/children", encoding="utf-8") as children:
            os.kill(int(children.read()), signal.SIGKILL)
        is_equal("NOTIFICATION", peer.notification(), (6, 8, b""))
        is_equal("status of the run", live.state("run ended")["status"], -9)
        is_equal("exit status", live.process.wait(bgp.PATIENCE), 137)


# ---- the rest

def both_families(program):
    config = config_text(one(), peer_text("p6", "::1", 65016, "192.0.2.16", local="::1", family="ipv6"))
    with Live(program, config, "--listen", "127.0.0.1:0", "--listen", "[::1]:0", "--passive") as live:
        peer, other = first(), Neighbor("::1", 65016, "192.0.2.16", afi=2)
        peer.establish(live.places[0])
        other.establish(live.places[1])
        live.say(path("10.0.0.0/8"), path("2001:db8::/32", next_hop="::"))
        has_rows(live, peer, 1)
        has_rows(live, other, 1, "--ipv6")
        other.send(bgp.refresh(afi=2))
        live.reported("refresh ")
        ends_well(live)


def what_waits_is_told_while_nothing_comes(program):
    """With `coalesce` a burst is told behind its last event."""
    with Live(program, config_text(one(), coalesce=100)) as live:
        peer = first()
        peer.establish(live.places[0])
        peer.read_until(lambda: END_OF_RIB in peer.stream, "End-of-RIB")
        live.say(*(path(prefix(n)) for n in range(130)))
        has_rows(live, peer, 130)
        ends_well(live)


def knows_flush(program):
    """Whether the program has the verb at all."""
    with Live(program, config_text(one())) as live:
        live.say("flush")
        live.process.stdin.close()
        live.state("events are over")
        live.end()
        return not any(" 21 " in line for line in live.report.lines)


# Of Linux, and not named by the module socket.
TCP_MD5SIG = 14


def sign(address, key):
    """Has the segments to and from this address signed (RFC 2385)."""
    where = struct.pack("=HH4s", socket.AF_INET, 0, socket.inet_aton(address))
    value = struct.pack("=128sBBHI80s", where, 0, 0, len(key), 0, key)
    return lambda sock: sock.setsockopt(socket.IPPROTO_TCP, TCP_MD5SIG, value)


def is_not_taken(peer, place, prepare=None):
    try:
        peer.connect(place, prepare, patience=1.5)
    except TimeoutError:
        return
    raise AssertionError("the connection was taken")


def sessions_are_signed(program):
    with tempfile.NamedTemporaryFile("w") as keys:
        keys.write("p1 the secret of p1\n")
        keys.flush()
        with Live(program, config_text(one(), two()), "--md5", keys.name, "--listen", "127.0.0.1:0", "--passive", keep=False) as live:
            first().establish(live.places[0], sign("127.0.0.1", b"the secret of p1"))
            live.state("up", "p1")
            is_not_taken(first(), live.places[0])
            is_not_taken(first(), live.places[0], sign("127.0.0.1", b"another"))
            second().establish(live.places[0])
            live.state("up", "p2")


def hops(number):
    return lambda sock: sock.setsockopt(socket.IPPROTO_IP, socket.IP_TTL, number)


def who_is_far_away_is_not_heard(program):
    with Live(program, config_text(one()), "--ttl-security", "--listen", "127.0.0.1:0", "--passive", keep=False) as live:
        is_not_taken(first(), live.places[0], hops(254))
        first().establish(live.places[0], hops(255))
        live.state("up", "p1")


def a_signed_neighbor_is_called(program):
    """The call is signed, and from as near as can be."""
    peer = first()
    port = peer.listen()
    sign("127.0.0.1", b"secret")(peer.listener)
    hops(255)(peer.listener)
    peer.listener.setsockopt(socket.IPPROTO_IP, 21, 255)
    with tempfile.NamedTemporaryFile("w") as keys:
        keys.write("p1 secret\n")
        keys.flush()
        with Live(program, config_text(one()), "--md5", keys.name, "--ttl-security", "--listen", f"127.0.0.1:{port}", keep=False) as live:
            peer.accept()
            peer.establish()
            live.state("up", "p1")


TESTS = [
    open_is_as_the_configuration_has_it, faults_of_an_open_are_told, an_open_without_families_is_ipv4,
    who_is_no_peer_is_turned_away, routes_are_told, a_session_that_ends_comes_again, the_hold_time_runs_out,
    of_two_connections_one_stays, a_neighbor_is_called_again, who_does_not_read_holds_up_itself_alone,
    a_session_ends_while_its_pipe_is_full, a_flood_of_requests_is_told_as_few, requests_for_another_family_are_passed_over, a_filter_of_the_neighbor_holds,
    a_run_that_is_full_ends, a_run_that_dies_ends_the_sessions, updates_of_the_neighbor_are_dropped, both_families,
    what_waits_is_told_while_nothing_comes, sessions_are_signed, who_is_far_away_is_not_heard, a_signed_neighbor_is_called]

# What a program without `flush`, and a system without signatures or IPv6, doesn't do.
OF_FLUSH = [what_waits_is_told_while_nothing_comes, who_does_not_read_holds_up_itself_alone, a_session_ends_while_its_pipe_is_full]
OF_SIGNATURES = [sessions_are_signed, a_signed_neighbor_is_called]
OF_IPV6 = [both_families]


def can(family, attempt):
    """Whether the system lets a socket of this family do it."""
    try:
        with socket.socket(family) as sock:
            attempt(sock)
    except OSError:
        return False
    return True


def passed_over(program):
    """The tests that can't be tried here, which are said with the reason."""
    wanting = [
        ("since the program has no flush", OF_FLUSH, knows_flush(program)),
        ("for want of TCP MD5", OF_SIGNATURES, can(socket.AF_INET, sign("127.0.0.1", b"key"))),
        ("for want of IPv6", OF_IPV6, can(socket.AF_INET6, lambda sock: sock.bind(("::1", 0))))]
    for why, tests, is_there in wanting:
        if not is_there:
            print(f"passed over, {why}: {', '.join(test.__name__ for test in tests)}")
            yield from tests


def try_one(test, program):
    """Whether it passes; what went wrong is told."""
    begun = time.monotonic()
    try:
        test(program)
    except Exception as fault:
        print(f"{test.__name__} (SEED={SEED}): {type(fault).__name__} {fault}")
        traceback.print_exc()
        return False
    if "TIMES" in os.environ:
        print(f"{test.__name__}: {time.monotonic() - begun:.1f} s")
    return True


def main():
    program, *names = sys.argv[1:]
    tests = [test for test in TESTS if not names or test.__name__ in names]
    over = set(passed_over(program))
    tests = [test for test in tests if test not in over]
    with concurrent.futures.ThreadPoolExecutor(AT_A_TIME) as pool:
        passed = sum(pool.map(lambda test: try_one(test, program), tests))
    print(f"{passed} passed, {len(tests) - passed} failed")
    sys.exit(passed < len(tests))


if __name__ == "__main__":
    main()
