"""Rows for both auditors, whose answers were worked out by hand: what an audit reads, and what it has to tell."""

import os

HERE = os.path.dirname(os.path.abspath(__file__))
MARKER = b"\xff" * 16


class Files:
    """What an audit reads."""

    def __init__(self, config, events, report, sessions):
        self.config, self.events, self.report, self.sessions = config, events, report, dict(sessions)

    def copy(self):
        return Files(self.config, self.events, self.report, self.sessions)

    def write(self, folder):
        there = os.path.join(folder, "there")
        os.makedirs(there, exist_ok=True)
        for name in os.listdir(there):
            os.remove(os.path.join(there, name))
        for name, data in (("config", self.config), ("events", self.events), ("report", self.report)):
            with open(os.path.join(folder, name), "wb") as file:
                file.write(data)
        for name, data in self.sessions.items():
            with open(os.path.join(there, name), "wb") as file:
                file.write(data)
        return [os.path.join(folder, name) for name in ("config", "events", "report", "there")]

    def held(self, name):
        return self.sessions.get(name)


# ---- messages

END_OF_RIB = MARKER + bytes.fromhex("0017 02 0000 0000")


def route(origin, *places):
    text = bytes.fromhex("400101%02x 400206 0201 0000fde9 400304 c0000201" % origin)
    return message(2, b"\0\0" + len(text).to_bytes(2, "big") + text + b"".join(bytes([8, place]) for place in places))


def withdrawal(place):
    return message(2, bytes([0, 2, 8, place, 0, 0]))


def withdrawals(count):
    """A message that withdraws 0.0.0.0/0 so many times."""
    return message(2, count.to_bytes(2, "big") + bytes(count) + b"\0\0")


def message(kind, body):
    return MARKER + (19 + len(body)).to_bytes(2, "big") + bytes([kind]) + body


def refresh_mark(which, afi=1):
    return message(5, bytes([0, afi, which, 1]))


ROUTE, GONE = route(0, 10), withdrawal(10)
TEN, ELEVEN = "10.0.0.0/8 id=0", "11.0.0.0/8 id=0"
THREE = [END_OF_RIB, ROUTE, GONE]
RIGHT = "session p1 1 messages 3\nclimb 10.0.0.0/8 id=0 2@2 3@3\n"


def paths_line(place, origin="igp"):
    return "paths %d.0.0.0/8 id=1 from=local nh=0.0.0.0 origin=%s as=-\n" % (place, origin)


def refuted(kind, at, key):
    return 10, "status 10 refuted p1 1 %d %d %s\n" % (kind, at, key)


def unclear(line):
    return 11, "status 11 report %d\n" % line


# the same route with another AS path, and with communities
def route_by(numbers, *communities):
    path = bytes([2, len(numbers)]) + b"".join(n.to_bytes(4, "big") for n in numbers)
    text = bytes.fromhex("400101 00 4002") + bytes([len(path)]) + path + bytes.fromhex("400304 c0000201")
    if communities:
        text += bytes([0xC0, 8, 4 * len(communities)]) + b"".join(n.to_bytes(4, "big") for n in communities)
    return message(2, b"\0\0" + len(text).to_bytes(2, "big") + text + bytes([8, 10]))


def rows():
    """Name, answer, messages, lines of the report in front, lines of events, and what the configuration has besides."""
    alone = "up p1\n" + paths_line(10) + "withdraw 10.0.0.0/8\n"
    changed = "up p1\n" + paths_line(10) + paths_line(10, "egp")
    back = changed + paths_line(10)
    other = route(1, 10)
    both = message(2, bytes([0, 2, 8, 10]) + other[21:])
    bad = MARKER + bytes.fromhex("0013 04")
    longer = RIGHT.replace("messages 3", "messages 4").replace("climb", "climb 0.0.0.0/0 id=0\nclimb")

    def row(name, answer, messages, report="", events=alone, config=""):
        return name, answer if isinstance(answer, tuple) else (0, answer), b"".join(messages), report, events, config

    return [
        row("the run's own", RIGHT, THREE),
        row("without the third message", refuted(4, 2, TEN), THREE[:2]),
        row("another prefix in the second", refuted(2, 2, ELEVEN), [END_OF_RIB, route(0, 11), GONE]),
        row("a mark of a version that there never was", unclear(1), THREE, "sync 9 p1 1 1\n"),
        row("a lost session", "session p1 1 messages 1\n", [END_OF_RIB, ROUTE[:30]], "lost p1 1\n"),
        row("withdrawn twice", RIGHT.replace("messages 3", "messages 4"), THREE + [GONE]),
        row("a prefix that nobody has is withdrawn", RIGHT.replace("messages 3", "messages 4") + "climb 12.0.0.0/8 id=0\n", THREE + [withdrawal(12)]),
        row("the second and the third swapped", refuted(4, 3, TEN), [END_OF_RIB, GONE, ROUTE]),
        row("the second once more", refuted(2, 4, TEN), THREE + [ROUTE]),
        row("withdrawn and announced at once", RIGHT, [END_OF_RIB, ROUTE, both], events=changed),
        row("the last five bytes gone", refuted(4, 2, TEN), [END_OF_RIB, ROUTE, GONE[:-5]]),
        row("the last five bytes gone, and lost", "session p1 1 messages 2\nclimb 10.0.0.0/8 id=0 2@2\n", [END_OF_RIB, ROUTE, GONE[:-5]], "lost p1 1\n"),
        row("five bytes behind", refuted(1, 4, "-"), THREE + [b"\xff" * 5]),
        row("five bytes behind, and lost", RIGHT, THREE + [b"\xff" * 5], "lost p1 1\n"),
        row("a header of type 4 behind", refuted(1, 4, "-"), THREE + [bad]),
        row("a header of type 4 behind, and lost", refuted(1, 4, "-"), THREE + [bad], "lost p1 1\n"),
        row("a mark", RIGHT, THREE, "sync 2 p1 1 2\n"),
        row("a mark behind a message too many", refuted(3, 3, TEN), THREE, "sync 2 p1 1 3\n"),
        row("a mark of an empty table before all messages", RIGHT, THREE, "sync 3 p1 1 0\n"),
        row("a mark of a route before all messages", refuted(3, 0, TEN), THREE, "sync 2 p1 1 0\n"),
        row("a mark past the end", refuted(3, 3, "-"), THREE, "sync 3 p1 1 4\n"),
        row("a mark past the end, and lost", RIGHT, THREE, "sync 3 p1 1 4\nlost p1 1\n"),
        row("two marks amiss at the end", refuted(3, 3, "-"), THREE, "sync 3 p1 1 4\nsync 2 p1 1 3\n"),
        row("a number with a zero in front", unclear(1), THREE, "sync 3 p1 01 3\n"),
        row("two spaces", unclear(1), THREE, "sync  3 p1 1 3\n"),
        row("a session that there never was", unclear(1), THREE, "sync 3 p1 2 3\n"),
        row("session 0", unclear(1), THREE, "lost p1 0\n"),
        row("a loss without words", unclear(2), THREE, "sync 2 p1 1 2\nlost\n"),
        row("a number of 64 bits", refuted(3, 3, "-"), THREE, "sync 3 p1 1 18446744073709551615\n"),
        row("a number of more than 64 bits", unclear(1), THREE, "sync 3 p1 1 18446744073709551616\n"),
        row("a word more", unclear(1), THREE, "sync 3 p1 1 3 3\n"),
        row("another peer", unclear(1), THREE, "sync 3 p2 1 3\n"),
        row("a carriage return", unclear(1), THREE, "sync 3 p1 1 3\r\n"),
        row("lines that tell nothing", RIGHT, THREE, "synchro 3\n\n sync 9\nLOST p1 0\n"),
        row("a refresh", "session p1 1 messages 5\nclimb 10.0.0.0/8 id=0 2@2 4@3\n", [END_OF_RIB, ROUTE, refresh_mark(1), refresh_mark(2), GONE]),
        row("a refresh with the option", "session p1 1 messages 5\nclimb 10.0.0.0/8 id=0 2@2 4@3\n",
            [END_OF_RIB, ROUTE, refresh_mark(1), refresh_mark(2), GONE], config="enhanced_refresh = true\n"),
        row("there and back", "session p1 1 messages 4\nclimb 10.0.0.0/8 id=0 2@2 3@3 4@4\n", [END_OF_RIB, ROUTE, other, ROUTE], events=back),
        row("there and back, each twice", "session p1 1 messages 6\nclimb 10.0.0.0/8 id=0 2@2 4@3 6@4\n",
            [END_OF_RIB, ROUTE, ROUTE, other, other, ROUTE], events=back),
        row("back and there", refuted(2, 4, TEN), [END_OF_RIB, other, ROUTE, other], events=back),
        row("the least key", refuted(2, 2, TEN), [END_OF_RIB, route(2, 11, 10)], events="up p1\n" + paths_line(10) + paths_line(11)),
        row("a message of 4,096 bytes", longer, THREE + [withdrawals(4073)]),
        row("a message of 4,097 bytes", refuted(1, 4, "-"), THREE + [withdrawals(4074)]),
        row("a message of 4,097 bytes with the option", longer, THREE + [withdrawals(4074)], config="extended = true\n"),
        row("no messages", refuted(4, 0, TEN), [], events="up p1\n" + paths_line(10)),
        row("no messages, and no routes", "session p1 1 messages 0\n", []),
    ]


def row_of(origin, path="65001"):
    return "%s nh=192.0.2.1 origin=%s as=%s" % (TEN, origin, path)


def told(*lines, accepted=3, refused=()):
    """What is told with --explain: the refused lines, what was accepted, and then these lines."""
    return "".join(line + "\n" for line in [*refused, "accepted %d refused %d" % (accepted, len(refused)), *lines])


def wrong(*lines, accepted=3, refused=(), unheard=0):
    breaches = sum(line.startswith("breach") for line in lines)
    return 10, told(*lines, "status 10 breaches %d refused %d unheard %d" % (breaches, len(refused), unheard), accepted=accepted, refused=refused)


def rows_of_by():
    """As `rows`, of the lines `by` of a report."""
    alone = "up p1\n" + paths_line(10) + "withdraw 10.0.0.0/8\n"
    back = "up p1\n" + paths_line(10) + paths_line(10, "egp") + paths_line(10)
    other = route(1, 10)
    refreshed = [END_OF_RIB, ROUTE, refresh_mark(1), refresh_mark(2)]

    def row(name, answer, messages, report, events=alone):
        return name, answer if isinstance(answer, tuple) else (0, answer), b"".join(messages), report, events, ""

    return [
        row("in time", RIGHT, THREE, "by 2 p1 1 2\nby 3 p1 1 3\n"),
        row("newer than it has to be", RIGHT, THREE, "by 1 p1 1 2\n"),
        row("a withdrawal that is late", refuted(5, 2, TEN), THREE, "by 3 p1 1 2\n"),
        row("a withdrawal that was never sent", refuted(4, 2, TEN), THREE[:2], "by 3 p1 1 2\n"),
        row("a withdrawal that was never sent, and a message more", refuted(5, 2, TEN), THREE[:2] + [END_OF_RIB], "by 3 p1 1 2\n"),
        row("a route that is late", refuted(5, 1, TEN), THREE[:2], "by 2 p1 1 1\n", events="up p1\n" + paths_line(10)),
        row("a route that is late before all messages", refuted(5, 0, TEN), THREE[:2], "by 2 p1 1 0\n", events="up p1\n" + paths_line(10)),
        row("no route, as before it came", RIGHT, THREE, "by 1 p1 1 0\nby 1 p1 1 1\n"),
        row("no route, as after it went, and then it comes", refuted(2, 2, TEN), THREE, "by 2 p1 1 1\n"),
        row("no route and no word, as after it went", "session p1 1 messages 1\n", [END_OF_RIB], "by 2 p1 1 1\n"),
        row("a version before the session", RIGHT, THREE, "by 0 p1 1 3\n"),
        row("a version behind the session", RIGHT, THREE, "by 4 p1 1 3\n", events=alone + "down p1\n"),
        row("late for a version behind the session", refuted(5, 2, TEN), THREE, "by 4 p1 1 2\n", events=alone + "down p1\n"),
        row("a value that is both old and new", "session p1 1 messages 4\nclimb 10.0.0.0/8 id=0 2@2 3@3 4@4\n", [END_OF_RIB, ROUTE, other, ROUTE],
            "by 2 p1 1 2\n", events=back),
        row("a value that is both old and new, and can be new alone", refuted(2, 3, TEN), [END_OF_RIB, ROUTE, other, ROUTE], "by 3 p1 1 2\n", events=back),
        row("an older mark brings no route back", refuted(2, 4, TEN), [END_OF_RIB, other, ROUTE, other], "by 2 p1 1 3\n", events=back),
        row("the new value at once", "session p1 1 messages 2\nclimb 10.0.0.0/8 id=0 2@2\n", [END_OF_RIB, ROUTE], "by 3 p1 1 2\n", events=back),
        row("said again behind the mark", "session p1 1 messages 3\nclimb 10.0.0.0/8 id=0 2@2\n", [END_OF_RIB, ROUTE, ROUTE], "by 3 p1 1 2\n", events=back),
        row("two marks with nothing between", RIGHT, THREE, "by 2 p1 1 2\nby 2 p1 1 2\n"),
        row("two marks with nothing between, the second too late", refuted(5, 2, TEN), THREE, "by 2 p1 1 2\nby 3 p1 1 2\n"),
        row("two marks with nothing between, the other way about", refuted(5, 2, TEN), THREE, "by 3 p1 1 2\nby 2 p1 1 2\n"),
        row("a refresh that takes a route away", "session p1 1 messages 4\nclimb 10.0.0.0/8 id=0 2@2 4@3\n", refreshed, "by 3 p1 1 4\n"),
        row("a refresh that has begun", refuted(5, 3, TEN), refreshed, "by 3 p1 1 3\n"),
        row("both marks", refuted(3, 2, TEN), THREE + [END_OF_RIB], "by 3 p1 1 2\nsync 3 p1 1 2\n"),
        row("more than there are messages", refuted(5, 3, "-"), THREE, "by 3 p1 1 4\n"),
        row("more than there are messages, and lost", RIGHT, THREE, "by 3 p1 1 4\nlost p1 1\n"),
        row("late, and lost", refuted(5, 2, TEN), THREE, "lost p1 1\nby 3 p1 1 2\n"),
        row("a version that there never was", unclear(1), THREE, "by 4 p1 1 1\n"),
        row("a number with a zero in front", unclear(1), THREE, "by 3 p1 1 03\n"),
        row("a word less", unclear(1), THREE, "by 3 p1 1\n"),
        row("a session that there never was", unclear(1), THREE, "by 3 p1 2 3\n"),
        row("another word", RIGHT, THREE, "bye 9\nBY 9\n"),
    ]


def rows_without_order():
    """As `rows`, with --unordered, and with their answer without it."""
    both, three = "comm=3:9,9:9", "comm=9:9,3:9,9:9"
    head = "up p1\npaths 10.0.0.0/8 id=1 from=local nh=0.0.0.0 origin=igp "
    low, high = 3 << 16 | 9, 9 << 16 | 9
    right = "session p1 1 messages 1\nclimb 10.0.0.0/8 id=0 1@2\n"
    stuck = refuted(2, 1, TEN)
    of_set = bytes.fromhex("400101 00 400210 0201 0000fde9 0102 00000001 00000002 400304 c0000201")
    a_set = message(2, b"\0\0" + len(of_set).to_bytes(2, "big") + of_set + bytes([8, 10]))
    option = "send_community = true\n"
    return [
        ("communities in their order", (0, right), (0, right), route_by([65001], low, high), "", head + "as=- " + both + "\n", option),
        ("communities in another order", (0, right), stuck, route_by([65001], high, low), "", head + "as=- " + both + "\n", option),
        ("a community twice", (0, right), stuck, route_by([65001], low, high, low), "", head + "as=- " + three + "\n", option),
        ("a community less", stuck, stuck, route_by([65001], low), "", head + "as=- " + both + "\n", option),
        ("the numbers of an AS_SET in another order", (0, right), stuck, a_set, "", head + "as={2,1}\n", ""),
        ("the numbers of an AS_SET, one twice", (0, right), stuck, a_set, "", head + "as={2,1,2}\n", ""),
        ("the numbers of a sequence in another order", stuck, stuck, route_by([65001, 1, 2]), "", head + "as=2,1\n", ""),
    ]


def rows_explained():
    """As `rows`, with --explain."""
    alone = "up p1\n" + paths_line(10) + "withdraw 10.0.0.0/8\n"
    changed = "up p1\n" + paths_line(10) + paths_line(10, "egp")
    back = changed + paths_line(10)
    other = route(1, 10)
    igp, egp = row_of("igp"), row_of("egp")
    large = bytes.fromhex("400101 00 400206 0201 0000fde9 400304 c0000201 c0200c") + bytes(12)
    with_large = message(2, b"\0\0" + len(large).to_bytes(2, "big") + large + bytes([8, 10]))

    def row(name, answer, messages, report="", events=alone, config=""):
        return name, answer if isinstance(answer, tuple) else (0, answer), b"".join(messages), report, events, config

    def breach(kind, at, key, begin):
        return "breach p1 1 %d %d %s offset %d" % (kind, at, key, begin)

    never = ["  said " + igp, "  may 3 -"]
    early = ["  said " + igp, "  may 3 " + egp]
    climbed = ["session p1 1 messages 2", "climb 10.0.0.0/8 id=0 2@2"]
    five = "".join("paths 10.0.0.0/8 id=1 from=local nh=0.0.0.0 origin=igp as=%d\n" % n for n in range(1, 6))
    return [
        row("right", told() + RIGHT, THREE),
        row("a withdrawal that was never sent", wrong(breach(4, 2, TEN, 23), *never, *climbed), THREE[:2]),
        row("late, and then sent", wrong(breach(5, 2, TEN, 23), *never, "session p1 1 messages 3", "climb 10.0.0.0/8 id=0 2@2 3@3"),
            THREE, "by 3 p1 1 2\n"),
        row("late at each mark, and told once", wrong(breach(5, 2, TEN, 23), *never, breach(4, 4, TEN, 91), *never, "session p1 1 messages 4", climbed[1]),
            THREE[:2] + [END_OF_RIB] * 2, "by 3 p1 1 2\nby 3 p1 1 3\nsync 3 p1 1 3\n"),
        row("late, said again, and late again", wrong(breach(5, 2, TEN, 23), *never, breach(5, 3, TEN, 68), *never, "session p1 1 messages 4",
            "climb 10.0.0.0/8 id=0 2@2 4@3"), THREE[:2] + [ROUTE, GONE], "by 3 p1 1 2\nby 3 p1 1 3\n"),
        row("an old value", wrong(breach(2, 4, TEN, 113), "  said " + egp, "  may 4 " + igp, "session p1 1 messages 5",
            "climb 10.0.0.0/8 id=0 2@3 3@4", accepted=4), [END_OF_RIB, other, ROUTE, other, ROUTE], events=back),
        row("an old value that stays", wrong(breach(2, 3, TEN, 68), *early, breach(4, 5, TEN, 136), *early,
            "session p1 1 messages 5", "climb 10.0.0.0/8 id=0 2@3"), [END_OF_RIB, other, ROUTE, END_OF_RIB, END_OF_RIB], "by 3 p1 1 4\n", changed),
        row("an old value, said again", wrong(breach(2, 3, TEN, 68), *early, breach(2, 4, TEN, 113), *early,
            "session p1 1 messages 5", "climb 10.0.0.0/8 id=0 2@3"), [END_OF_RIB, other, ROUTE, ROUTE, other], events=changed),
        row("a value that is both old and new", wrong(breach(2, 3, TEN, 68), "  said " + egp, "  may 4 " + igp, "session p1 1 messages 4",
            "climb 10.0.0.0/8 id=0 2@2", accepted=4), [END_OF_RIB, ROUTE, other, ROUTE], "by 3 p1 1 2\n", back),
        row("four values", wrong(breach(2, 1, TEN, 0), "  said " + igp, "  may 0 -",
            *("  may %d %s" % (n + 1, row_of("igp", "65001,%d" % n)) for n in (1, 2, 3)), "session p1 1 messages 2",
            "climb 10.0.0.0/8 id=0 2@6", accepted=6), [ROUTE, route_by([65001, 5])], events="up p1\n" + five),
        row("not at a mark", wrong(breach(3, 1, TEN, 0), "  said -", "  may 2 " + igp, "session p1 1 messages 3", "climb 10.0.0.0/8 id=0 2@2 3@3"),
            THREE, "sync 2 p1 1 1\n"),
        row("a mark before all messages", wrong(breach(5, 0, TEN, 0), "  said -", "  may 2 " + igp, *climbed, accepted=2),
            THREE[:2], "by 2 p1 1 0\n", "up p1\n" + paths_line(10)),
        row("late, and newer ones would do", wrong(breach(5, 1, TEN, 0), "  said -", "  may 2 " + igp, "  may 3 " + egp, "session p1 1 messages 3",
            "climb 10.0.0.0/8 id=0 2@2 3@3"), [END_OF_RIB, ROUTE, other], "by 2 p1 1 1\n", changed),
        row("a refresh in between", wrong(breach(5, 3, TEN, 68), *never, "session p1 1 messages 4", "climb 10.0.0.0/8 id=0 2@2 4@3"),
            [END_OF_RIB, ROUTE, refresh_mark(1), refresh_mark(2)], "by 3 p1 1 3\nby 3 p1 1 4\n"),
        row("fewer messages than all marks say", wrong(breach(3, 3, "-", 68), breach(5, 3, "-", 68), "session p1 1 messages 3",
            "climb 10.0.0.0/8 id=0 2@2 3@3"), THREE, "sync 3 p1 1 4\nsync 3 p1 1 5\nby 3 p1 1 4\nby 3 p1 1 9\n"),
        row("bytes that can't be read", wrong(breach(1, 4, "-", 93), "session p1 1 messages 3", "climb 10.0.0.0/8 id=0 2@2 3@3"), THREE + [b"\xff" * 5]),
        row("a line that is refused", wrong(*RIGHT.splitlines(), refused=["line 2 refused 21 bad-verb"]), THREE,
            events="up p1\nupp p1\n" + paths_line(10) + "withdraw 10.0.0.0/8\n"),
        row("nobody comes up", wrong("unheard p1 1", accepted=1, refused=["line 1 refused 21 bad-verb"], unheard=1), THREE, events="upp p1\n" + paths_line(10)),
        row("attributes that aren't compared", told("uncompared p1 1 1", "session p1 1 messages 2", "climb 10.0.0.0/8 id=0 1@2 2@3"), [with_large, GONE]),
        row("a report that isn't clear", unclear(1), THREE, "sync 9 p1 1 1\n", events="upp p1\n" + alone),
    ]


def c1():
    with open(os.path.join(HERE, "../examples/configurations/c1.toml"), "rb") as file:
        return file.read()


def files_of(data, report, events, config):
    return Files(c1() + config.encode(), events.encode(), (report + "accepted 3 refused 0\n").encode(), {"p1.1": data})


def option_files():
    """Rows of what may not be there yet: the options, name, answer and files."""
    for name, answer, *parts in rows_of_by():
        yield [], "by: " + name, answer, files_of(*parts)
    for name, answer, without, *parts in rows_without_order():
        yield ["--unordered"], name, answer, files_of(*parts)
        yield [], name + ", in order", without, files_of(*parts)
    for name, answer, *parts in rows_explained():
        yield ["--explain"], "explained: " + name, answer, files_of(*parts)
    name, _, _, *parts = rows_without_order()[1]
    row = row_of("igp") + " comm=3:9,9:9"
    lacking = files_of(route_by([65001], 9 << 16 | 9, 3 << 16 | 9) + GONE, *parts[1:])
    lines = ["breach p1 1 %d 2 %s offset 56" % (kind, TEN) for kind in (2, 4)]
    lines = [line for breach in lines for line in (breach, "  said -", "  may 2 " + row)]
    answer = wrong(*lines, "session p1 1 messages 2", "climb 10.0.0.0/8 id=0 1@2", accepted=2)
    yield ["--explain", "--unordered"], "explained, without an order", answer, lacking
    again = Files(c1(), b"up p1\ndown p1\nup p1\n", b"", {"p1.1": END_OF_RIB[:-1], "p1.3": END_OF_RIB})
    yield ["--explain"], "the second session isn't there", (3, told("breach p1 1 1 1 - offset 0", "status 3 read")), again
    again = again.copy()
    again.sessions = {"p1.1": END_OF_RIB, "p1.2": b"", "p1.3": END_OF_RIB}
    sessions = ["session p1 1 messages 1", "session p1 2 messages 0"]
    yield ["--explain"], "a session more", wrong("unheard p1 3", *sessions, unheard=1), again


def row_files():
    for name, answer, *parts in rows():
        yield name, answer, files_of(*parts)
    whole = Files(c1(), b"up p1\n", b"accepted 1 refused 0\n", {"p1.1": END_OF_RIB})
    lacking = whole.copy()
    lacking.sessions = {}
    lacking.report = b"sync 1 p1 1 7\n"
    yield "a session that isn't there", (3, "status 3 read\n"), lacking
    lacking = lacking.copy()
    lacking.report = b"sync 2 p1 1 7\n"
    yield "a line that is unclear, and a session that isn't there", unclear(1), lacking
    none = whole.copy()
    none.events, none.sessions = b"# nobody\n", {}
    yield "no sessions", (0, ""), none
    again = whole.copy()
    again.events, again.sessions = b"up p1\ndown p1\nup p1\n", {"p1.1": b"", "p1.2": END_OF_RIB[:-1]}
    yield "the second session", (10, "status 10 refuted p1 2 1 1 -\n"), again
    long = whole.copy()
    long.report = b"\n" * 2000000 + b"sync 9 p1 1 1\n"
    yield "a report of a line too many", (7, "status 7 too-long\n"), long
    long = whole.copy()
    long.report = b"\n" * 1999999 + b"sync 9 p1 1 1\n\n"
    yield "a report of a line too many behind an unclear one", unclear(2000000), long
    long = whole.copy()
    long.events = b"up p1\n" + b"\n" * 2000000
    yield "a line of events too many", (7, "status 7 too-long\n"), long
    long = whole.copy()
    long.config = c1() + b"#" * (1048577 - len(c1()))
    yield "a byte of the configuration too many", (7, "status 7 too-long\n"), long
    broken = long.copy()
    broken.config = c1() + b"\nno = 1\n"
    yield "a configuration that is refused", (2, "status 2 config 4 peer.0.no\n"), broken
