#!/usr/bin/env python3
"""Compares `audit` with the plain, slow auditor of tests/auditor.py.

    audit.py rows PROGRAM                   rows whose answers were worked out by hand, of both auditors
    audit.py drawn PROGRAM COUNT            so many drawn runs, and as many sessions of a drawn other speaker, each as it is and with drawn damage
    audit.py one PROGRAM NUMBER FOLDER      the drawn run of that number alone; what differs first is left in FOLDER
    audit.py same PROGRAM CONFIG EVENTS REPORT DIR    these files

The last line says how many passed and failed. Every draw follows from its number.
"""

import os
import resource
import subprocess
import sys
import tempfile

import auditor
from audit_rows import END_OF_RIB, MARKER, ROUTE, Files, c1, message, option_files, refresh_mark, row_files, withdrawal
from auditor import Worlds, differing, judged
from heard import Heard
from model import Dice, Entry, Path, attributes_by, config_text, configured, event_line, lines_of, prefix


def program_answer(program, words):
    done = subprocess.run([program, "audit"] + words, capture_output=True)
    return done.returncode, (done.stdout + done.stderr).decode("latin-1")


def known_to(program):
    """Which of the options the program has, and whether it reads `by` lines."""
    known = {option for option in ("--explain", "--unordered") if program_answer(program, [option] + ["nowhere"] * 4)[0] == 3}
    with tempfile.TemporaryDirectory() as folder:
        unclear = Files(c1(), b"up p1\n", b"by\n", {"p1.1": END_OF_RIB}).write(folder)
        return known | ({"by"} if program_answer(program, unclear)[0] == 11 else set())


class Tests:
    """Counts what passed and failed, and what was answered."""

    def __init__(self):
        self.passed = self.failed = 0
        self.answers = {}
        self.kept = None
        self.known = set()

    def compare(self, name, want, got, files=None):
        if want == got:
            self.passed += 1
        else:
            self.failed += 1
            print("%s: wants %d %r, and gets %d %r" % ((name,) + tuple(part for status, text in (want, got) for part in (status, shown(text)))))
            if self.kept is not None and files is not None:
                files.write(self.kept)
                sys.exit("the files are left in " + self.kept)
        words = want[1].split()
        if words[:3] == ["status", "10", "refuted"]:
            self.count("10 kind %s%s" % (words[5], " -" if words[-1] == "-" else ""))
        else:
            self.count(str(want[0]))

    def count(self, answer):
        self.answers[answer] = self.answers.get(answer, 0) + 1

    def end(self):
        print("%d passed, %d failed" % (self.passed, self.failed))
        return 0 if self.failed == 0 else 1


def shown(text):
    return text if len(text) < 400 else text[:400] + ".."


def needed_of(options, files):
    """What a program has to know for these files."""
    return set(options) | ({"by"} if any(line.startswith(b"by ") for line in lines_of(files.report)) else set())


# ---- rows by hand

def try_rows(tests, program):
    with tempfile.TemporaryDirectory() as folder:
        for name, answer, files in row_files():
            words = files.write(folder)
            tests.compare(name, answer, program_answer(program, words))
            if answer[0] != 2:
                tests.compare(name + ", slowly", answer, auditor.audit(*words))
        passed_over = 0
        for options, name, answer, files in option_files():
            words = files.write(folder)
            tests.compare(name + ", slowly", answer, auditor.command(["audit"] + options + words))
            if needed_of(options, files) <= tests.known:
                tests.compare(name, answer, program_answer(program, options + words))
            else:
                passed_over += 1
        if passed_over:
            print("%d rows of options that the program doesn't have were asked of the slow auditor alone" % passed_over)
        for missing in range(4):
            words = Files(c1(), b"up p1\n", b"", {"p1.1": END_OF_RIB}).write(folder)
            words[missing] = os.path.join(folder, "nowhere")
            tests.compare("%s isn't there" % ("CONFIG", "EVENTS", "REPORT", "DIR")[missing], (3, "status 3 read\n"), program_answer(program, words))
        words = Files(c1(), b"up p1\n", b"", {"p1.1": END_OF_RIB}).write(folder)
        for name, said in (("no words", []), ("three words", words[:3]), ("five words", words + words[3:]), ("an option", words + ["--workers"]),
                           ("another option", ["--add-path"] + words)):
            tests.compare(name, (1, "status 1 usage\n"), program_answer(program, said))
        tests.compare("words behind --", (0, "session p1 1 messages 1\n"), program_answer(program, ["--"] + words))


# ---- what another speaker may write

def attribute(dice, flags, kind, value):
    if len(value) > 255 or dice.once_in(4):
        return bytes([flags | 0x10, kind]) + len(value).to_bytes(2, "big") + value
    return bytes([flags, kind, len(value)]) + value


def numbers_written(numbers):
    return b"".join(n.to_bytes(4, "big") for n in numbers)


def attributes_written(dice, a, more):
    """Each attribute, in any order, and mostly no other ones."""
    origin, segments, next_hop, med, local_pref, atomic, aggregator, communities, originator, clusters = a
    path = b"".join(bytes([1 if is_set else 2, len(numbers)]) + numbers_written(numbers) for is_set, numbers in segments)
    texts = [attribute(dice, 0x40, 1, bytes([origin])), attribute(dice, 0x40, 2, path)] + more
    if next_hop[0] == 4:
        texts.append(attribute(dice, 0x40, 3, next_hop[1].to_bytes(4, "big")))
    for kind, flags, value in ((4, 0x80, med), (5, 0x40, local_pref)):
        if value is not None:
            texts.append(attribute(dice, flags, kind, value.to_bytes(4, "big")))
    if atomic:
        texts.append(attribute(dice, 0x40, 6, b""))
    if aggregator is not None:
        texts.append(attribute(dice, 0xC0, 7, numbers_written([aggregator[0], aggregator[1][1]])))
    if communities or dice.once_in(10):
        texts.append(attribute(dice, 0xC0, 8, numbers_written(communities)))
    if originator is not None:
        texts.append(attribute(dice, 0x80, 9, numbers_written([originator[1]])))
    if clusters:
        texts.append(attribute(dice, 0x80, 10, numbers_written(bits for _, bits in clusters)))
    if dice.once_in(6):
        texts.append(attribute(dice, 0xC0, 32, bytes(12)))
    shuffle(dice, texts)
    return b"".join(texts)


def shuffle(dice, items):
    for i in range(len(items) - 1, 0, -1):
        j = dice.below(i + 1)
        items[i], items[j] = items[j], items[i]


def routes_written(peer, keys):
    text = b""
    for (family, bits, length), identifier in keys:
        size = (length + 7) // 8
        text += identifier.to_bytes(4, "big") if peer.has("add_path") else b""
        text += bytes([length]) + bits.to_bytes(4 if family == 4 else 16, "big")[:size]
    return text


def update(dice, peer, withdrawn, announced, a):
    before, behind = routes_written(peer, withdrawn), routes_written(peer, announced)
    if peer.family == 4:
        among = attributes_written(dice, a, []) if announced else b""
        return message(2, len(before).to_bytes(2, "big") + before + len(among).to_bytes(2, "big") + among + behind)
    more = []
    if announced:
        more.append(attribute(dice, 0x80, 14, b"\0\2\1\x10" + a[2][1].to_bytes(16, "big") + b"\0" + behind))
    if withdrawn or not announced:
        more.append(attribute(dice, 0x80, 15, b"\0\2\1" + before))
    among = attributes_written(dice, a, more) if announced else b"".join(more)
    return message(2, b"\0\0" + len(among).to_bytes(2, "big") + among)


def with_fault(dice, text):
    """The text of an UPDATE in which an attribute is twice, or another byte of one is wrong."""
    withdrawn = int.from_bytes(text[19:21], "big")
    at = 23 + withdrawn
    size = int.from_bytes(text[at - 2:at], "big")
    among = text[at:at + size]
    head = 4 if among[0] & 0x10 else 3
    first = among[:head + int.from_bytes(among[2:head], "big")]
    among = dice.one_of([among + first, bytes([among[0] ^ 0x20]) + among[1:], bytes([among[0] ^ 0x40]) + among[1:], bytes([0x40, 33, 0]) + among,
                         bytes([0x80, 33, 0]) + among, bytes([0x40, 1, 1, 3]) + among, among[:-1], among + b"\0"])
    return message(2, text[19:at - 2] + len(among).to_bytes(2, "big") + among + text[at + size:])


def spoken(dice, worlds, peer, n):
    """The messages of a session of a speaker that packs and skips as it likes, and now and then is wrong."""
    past = worlds.past(peer.name, n)
    keys = sorted({key for table in past for key in table})
    strange = [((peer.family, 0, 7), 0)] if dice.once_in(5) else []
    values = sorted({value for table in past for value in table.values()}, key=repr)
    faulty = dice.once_in(3)
    marks = dice.one_of([2, 8, 8])
    texts, at = [], 0
    for step in range(dice.below(10)):
        if dice.once_in(marks):
            texts.append(refresh_mark(1 + dice.below(2), 1 if peer.family == 4 else 2))
            continue
        if dice.once_in(8):
            texts.append(update(dice, peer, [], [], None) if dice.once_in(2) else message(5, bytes([0, 1, 0, 1])))
            continue
        at = dice.below(len(past)) if faulty and dice.once_in(6) else at + dice.below(len(past) - at)
        if step > 4 and dice.once_in(2):
            at = len(past) - 1
        table = past[at]
        some = [key for key in keys + strange if not dice.once_in(4)]
        shuffle(dice, some)
        withdrawn = [key for key in some if key not in table]
        groups = {}
        for key in some:
            if key in table:
                value = dice.one_of(values) if faulty and dice.once_in(6) else table[key]
                groups.setdefault(value, []).append(key)
        for value, those in groups.items():
            early = withdrawn + [key for key in those if dice.once_in(6)]
            text = update(dice, peer, early, those, value)
            texts.append(with_fault(dice, text) if faulty and dice.once_in(12) else text)
            withdrawn = []
        if withdrawn:
            texts.append(update(dice, peer, withdrawn, [], None))
    return texts


def spoken_files(dice, config, events):
    """Sessions of another speaker over these events, and a report of marks that mostly hold."""
    worlds = Worlds(config.decode(), events)
    sessions, lines = {}, []
    for peer in worlds.last.peers.values():
        for n in range(1, peer.sessions + 1):
            data = b"".join(spoken(dice, worlds, peer, n))
            is_lost = dice.once_in(4)
            if is_lost:
                lines.append("lost %s %d" % (peer.name, n))
                data = data[:len(data) - dice.below(40)]
            sessions["%s.%d" % (peer.name, n)] = data
            tables, _ = Heard(peer, data).tables(worlds.alike)
            versions = [v for v, session in enumerate(worlds.session[peer.name]) if session == n]
            for _ in range(dice.below(4)):
                v, handed = dice.one_of(versions), dice.below(len(tables))
                if dice.once_in(8) or not differing(tables[handed], worlds.tables[peer.name][v]):
                    lines.append("sync %d %s %d %d" % (v, peer.name, n, handed))
    lines += ["line 3 refused 22 bad-words", "accepted 1 refused 0"]
    shuffle(dice, lines)
    return Files(config, events, "".join(line + "\n" for line in lines).encode(), sessions)


# ---- drawn runs

PLACES = ["0.0.0.0/0", "10.0.0.0/16", "10.3.0.0/16", "10.0.129.0/24", "10.70.0.0/16", "10.1.2.0/24", "172.16.1.0/28", "192.168.3.0/24",
          "192.168.3.7/32", "203.0.113.0/24", "::/0", "2001:db8:1::/48", "2001:db8:2::/64", "2001:db8:2:1::/64"]
LISTS = [[Entry(5, True, prefix("0.0.0.0/0"), le=32)], [Entry(5, False, prefix("10.0.0.0/8"), le=32), Entry(7, True, prefix("0.0.0.0/0"), le=32)],
         [Entry(9, True, prefix("10.0.0.0/9"), ge=16)]]


class Drawn:
    """A world of some of the day's peers, and lines of events over a few prefixes and attributes."""

    def __init__(self, dice):
        self.dice = dice
        self.world = configured()
        names = list(self.world.peers)
        for name in names:
            if dice.below(len(names)) >= 3 and len(self.world.peers) > 1:
                del self.world.peers[name]
        self.names = list(self.world.peers)
        for peer in self.world.peers.values():
            self.vary(peer)
        families = {peer.family for peer in self.world.peers.values()}
        self.places = [prefix(text) for text in PLACES if prefix(text)[0] in families or dice.once_in(6)]
        shuffle(dice, self.places)
        del self.places[1 + dice.below(8):]
        self.kept = {family: [self.attributes(family) for _ in range(1 + dice.below(5))] for family in (4, 6)}
        self.config = config_text(self.world, coalesce=1 + dice.below(6), queue_limit=20 + dice.below(20), slow_after=1 + dice.below(20)).encode()

    def vary(self, peer):
        """Some options are others than the day's."""
        for flag in ("add_path", "extended", "enhanced_refresh", "send_community", "next_hop_self"):
            if self.dice.once_in(4):
                peer.flags[flag] = not peer.has(flag)
        if peer.family == 4:
            peer.flags["orf"] = self.dice.once_in(2)

    def attributes(self, family):
        sender = self.dice.one_of(self.names + [None, None])
        return sender, attributes_by(self.dice, family, sender)

    def paths(self, family):
        numbers = [1 + n for n in range(4)]
        shuffle(self.dice, numbers)
        return [Path(number, *self.dice.one_of(self.kept[family])) for number in numbers[:1 + self.dice.below(3)]]

    def event(self):
        dice = self.dice
        a = dice.below(100)
        place, name = dice.one_of(self.places), dice.one_of(self.names)
        if a < 45:
            return "paths", place, self.paths(place[0])
        if a < 57:
            return "withdraw", place
        if a < 69:
            return ("down" if self.world.peers[name].is_up and dice.once_in(2) else "up"), name
        if a < 77:
            return dice.one_of(["refresh", "receive"]), name
        if a < 83:
            return "policy", name, dice.one_of(list(self.world.policies) + [None])
        if a < 88:
            return "list", dice.one_of(list(self.world.lists)), dice.one_of(LISTS)
        entry = Entry(1 + dice.below(3), not dice.once_in(3), prefix(dice.one_of(["10.0.0.0/8", "0.0.0.0/0"])), le=dice.one_of([16, 32]))
        return "orf", name, dice.once_in(2), [(dice.one_of(["add", "add", "remove", "clear"]), entry)]

    def lines(self):
        for name in self.names:
            if not self.dice.once_in(3):
                yield self.said(("up", name))
        for _ in range(10 + self.dice.below(90)):
            a = self.dice.below(20)
            if a == 0:
                yield self.dice.one_of(["", "# quiet", "up", "announce 10.0.0.0/8", "withdraw 10.0.0.0/33", "paths 10.0.0.0/8 id=1"])
            elif a == 1:
                yield "sync"
            else:
                yield self.said(self.event())

    def said(self, event):
        if self.world.verdict(event) is None:
            self.world.take(event)
        return event_line(event)


def limited(size):
    """Before a program is begun: its files may have so many bytes, and one that would have more is a fault of a call."""
    def begin():
        if size is not None:
            resource.setrlimit(resource.RLIMIT_FSIZE, (size, size))
    return begin


def run_files(program, folder, config, events, workers, limit):
    """What a run leaves, and what it ended with."""
    words = Files(config, events, b"", {}).write(folder)
    # Python begins with the signal of that limit ignored, and so does what it begins where signals aren't restored
    done = subprocess.run([program, "run", words[0], words[1], words[3], "--workers", workers], stdout=subprocess.PIPE, stderr=subprocess.STDOUT,
                          restore_signals=False, preexec_fn=limited(limit))
    sessions = {}
    for name in os.listdir(words[3]):
        with open(os.path.join(words[3], name), "rb") as file:
            sessions[name] = file.read()
    return Files(config, events, done.stdout, sessions), done.returncode


# ---- damage

def cut_into(data):
    """The messages of a session, as far as they can be told, and the rest as one more."""
    texts = []
    while len(data) >= 19 and 19 <= int.from_bytes(data[16:18], "big") <= len(data):
        size = int.from_bytes(data[16:18], "big")
        texts.append(data[:size])
        data = data[size:]
    return texts + [data] if data else texts


def with_session(change):
    """A damage of one session's bytes."""
    def damage(dice, files):
        names = sorted(name for name, data in files.sessions.items() if data)
        if names:
            name = dice.one_of(names)
            files.sessions[name] = change(dice, files.sessions[name])
    return damage


def with_messages(change):
    """A damage of one session's messages."""
    def damage(dice, data):
        texts = cut_into(data)
        change(dice, texts)
        return b"".join(texts)
    return with_session(damage)


def with_report(change):
    """A damage of the report's lines."""
    def damage(dice, files):
        lines = lines_of(files.report)
        if lines:
            change(dice, lines)
        files.report = b"".join(line + b"\n" for line in lines)
    return damage


def with_events(change):
    """Another course of events."""
    def damage(dice, files):
        lines = lines_of(files.events)
        change(dice, lines)
        files.events = b"".join(line + b"\n" for line in lines)
    return damage


def a_place(dice, data):
    return dice.below(len(data))


def cut(dice, data):
    return data[:a_place(dice, data)]


def changed_byte(dice, data):
    at = a_place(dice, data)
    return data[:at] + bytes([dice.below(256)]) + data[at + 1:]


def changed_bit(dice, data):
    at = a_place(dice, data)
    return data[:at] + bytes([data[at] ^ 1 << dice.below(8)]) + data[at + 1:]


def changed_body(dice, data):
    """A byte behind some message's header changes."""
    texts = cut_into(data)
    at = dice.below(len(texts))
    if len(texts[at]) > 23:
        place = 23 + dice.below(len(texts[at]) - 23)
        texts[at] = texts[at][:place] + bytes([texts[at][place] ^ 1 << dice.below(8)]) + texts[at][place + 1:]
    return b"".join(texts)


def swapped_bytes(dice, data):
    one, other = sorted((a_place(dice, data), a_place(dice, data)))
    return data if one == other else data[:one] + data[other:other + 1] + data[one + 1:other] + data[one:one + 1] + data[other + 1:]


def repeated_bytes(dice, data):
    at = a_place(dice, data)
    end = at + 1 + dice.below(30)
    return data[:end] + data[at:]


def left_out_bytes(dice, data):
    at = a_place(dice, data)
    return data[:at] + data[at + 1 + dice.below(30):]


def put_behind(dice, data):
    return data + dice.one_of([b"\xff" * 5, bytes(3), MARKER + bytes.fromhex("0013 04"), MARKER + bytes.fromhex("0017 02 0000 0001"),
                               END_OF_RIB, refresh_mark(1), refresh_mark(2), refresh_mark(2, 2), withdrawal(10), withdrawal(12), ROUTE])


def swapped_messages(dice, texts):
    one, other = dice.below(len(texts)), dice.below(len(texts))
    texts[one], texts[other] = texts[other], texts[one]


def repeated_message(dice, texts):
    texts.insert(dice.below(len(texts) + 1), dice.one_of(texts))


def dropped_message(dice, texts):
    del texts[dice.below(len(texts))]


def inserted_message(dice, texts):
    texts.insert(dice.below(len(texts) + 1), dice.one_of([refresh_mark(1), refresh_mark(2), refresh_mark(1, 2), refresh_mark(2, 2), END_OF_RIB]))


def a_refresh(dice, texts):
    at = dice.below(len(texts) + 1)
    end = at + dice.below(len(texts) + 1 - at)
    texts.insert(end, refresh_mark(2))
    texts.insert(at, refresh_mark(1))


def cut_at_message(dice, texts):
    del texts[dice.below(len(texts)):]


def a_line_of(dice, lines, verb):
    found = [at for at, line in enumerate(lines) if line.split(b" ")[0] == verb]
    return dice.one_of(found) if found else None


def moved_mark(dice, lines):
    at = a_line_of(dice, lines, b"sync")
    if at is not None:
        words = lines[at].split(b" ")
        which = dice.one_of([1, 1, 3, 4, 4])
        words[which] = str(max(0, int(words[which]) + dice.one_of([-2, -1, 1, 1, 2, 5]))).encode()
        lines[at] = b" ".join(words)


def mark_of_another(dice, lines):
    one, other = a_line_of(dice, lines, b"sync"), a_line_of(dice, lines, b"sync")
    if one is not None:
        words, words2 = lines[one].split(b" "), lines[other].split(b" ")
        which = 1 + dice.below(4)
        words[which], words2[which] = words2[which], words[which]
        lines[one], lines[other] = b" ".join(words), b" ".join(words2)


def spelled_otherwise(dice, lines):
    at = a_line_of(dice, lines, dice.one_of([b"sync", b"lost"]))
    if at is not None:
        words = lines[at].split(b" ")
        which = dice.below(len(words))
        text = words[which]
        words[which] = dice.one_of([b"0" + text, b"+" + text, text + b"\r", text + b" ", b" " + text, b"", text.upper(), text + b"0" * 19,
                                    b"18446744073709551615", b"18446744073709551616", text + b"\t", b"-1", b"0x1"])
        lines[at] = b" ".join(words)


def a_word_less(dice, lines):
    at = a_line_of(dice, lines, dice.one_of([b"sync", b"lost"]))
    if at is not None:
        words = lines[at].split(b" ")
        del words[dice.below(len(words))]
        lines[at] = b" ".join(words)


def a_word_more(dice, lines):
    at = a_line_of(dice, lines, dice.one_of([b"sync", b"lost"]))
    if at is not None:
        lines[at] += b" 1"


def dropped_line(dice, lines):
    del lines[dice.below(len(lines))]


def repeated_line(dice, lines):
    lines.insert(dice.below(len(lines) + 1), dice.one_of(lines))


def dropped_losses(dice, lines):
    lines[:] = [line for line in lines if not line.startswith(b"lost")]


def changed_report_byte(dice, files):
    if files.report:
        files.report = changed_byte(dice, files.report)


def cut_report(dice, files):
    if files.report:
        files.report = cut(dice, files.report)


def invented_loss(dice, files):
    if files.sessions:
        peer, n = dice.one_of(sorted(files.sessions)).rsplit(".", 1)
        files.report += ("lost %s %s\n" % (peer, n)).encode()


def lost_and_cut(dice, files):
    names = sorted(name for name, data in files.sessions.items() if data)
    if names:
        name = dice.one_of(names)
        files.sessions[name] = cut(dice, files.sessions[name])
        files.report = ("lost %s %s\n" % tuple(name.rsplit(".", 1))).encode() + files.report


def lost_and_short(dice, files):
    """A lost session that has whole messages alone, fewer than its marks count."""
    names = sorted(name for name, data in files.sessions.items() if data)
    if names:
        name = dice.one_of(names)
        texts = cut_into(files.sessions[name])
        files.sessions[name] = b"".join(texts[:dice.below(len(texts))])
        files.report += ("lost %s %s\n" % tuple(name.rsplit(".", 1))).encode()


def a_file_less(dice, files):
    if files.sessions:
        del files.sessions[dice.one_of(sorted(files.sessions))]


def files_swapped(dice, files):
    if len(files.sessions) > 1:
        one, other = (dice.one_of(sorted(files.sessions)) for _ in range(2))
        files.sessions[one], files.sessions[other] = files.sessions[other], files.sessions[one]


def swapped_lines(dice, lines):
    if len(lines) > 1:
        at = dice.below(len(lines) - 1)
        lines[at], lines[at + 1] = lines[at + 1], lines[at]


DAMAGES = ([with_session(change) for change in (cut, changed_byte, changed_bit, changed_body, changed_body, swapped_bytes, repeated_bytes, left_out_bytes,
                                                put_behind, put_behind)]
           + [with_messages(change) for change in (swapped_messages, swapped_messages, repeated_message, repeated_message, dropped_message,
                                                   dropped_message, inserted_message, a_refresh, cut_at_message)]
           + [with_report(change) for change in (moved_mark, moved_mark, moved_mark, moved_mark, mark_of_another, mark_of_another, spelled_otherwise,
                                                 spelled_otherwise, a_word_less, a_word_more, dropped_line, repeated_line, dropped_losses)]
           + [changed_report_byte, cut_report, invented_loss, lost_and_cut, lost_and_cut, lost_and_short, lost_and_short, a_file_less, files_swapped]
           + [with_events(dropped_line), with_events(swapped_lines)])


# ---- the comparison

def try_files(tests, program, folder, name, files, worlds):
    if worlds is None or files.events != worlds[0]:
        worlds = (files.events, Worlds(files.config.decode(), files.events))
    words = files.write(folder)
    answers = {option: judged(worlds[1], files.report, files.held, explain=option) for option in (False, True)}
    tests.compare(name + ", explained", (0, first_of(*answers[False])), (0, first_of_explained(*answers[True])), files)
    for option, answer in answers.items():
        options = ["--explain"] if option else []
        if needed_of(options, files) <= tests.known:
            tests.compare(" ".join([name] + options), answer, program_answer(program, options + words), files)
        elif not option:
            tests.compare(name + ", slowly", answer, answer)
    if "--unordered" in tests.known and needed_of([], files) <= tests.known:
        answer = judged(Worlds(files.config.decode(), files.events, unordered=True), files.report, files.held)
        tests.compare(name + ", without an order", answer, program_answer(program, ["--unordered"] + words), files)
    return worlds


def first_of(status, text):
    """What an audit tells first: its certificate, its first breach, or how else it ends."""
    return text.replace("status 10 refuted ", "") if status == 10 else text


def first_of_explained(status, text):
    """The same of one with --explain."""
    lines = text.splitlines()
    breaches = [line for line in lines if line.startswith("breach ")]
    if breaches:
        return breaches[0][len("breach "):breaches[0].rindex(" offset")] + "\n"
    if status in (0, 10):
        return "".join(line + "\n" for line in lines if line.split()[0] in ("session", "climb"))
    return lines[-1] + "\n"


def marks_that_follow(dice, files):
    """Lines `by` that follow from the lines `sync`: of that version or an earlier one, at that message or a later one."""
    lines = []
    for words in (line.split(b" ") for line in lines_of(files.report)):
        if words[0] == b"sync":
            messages = len(cut_into(files.sessions["%s.%s" % (words[2].decode(), words[3].decode())]))
            version, handed = max(0, int(words[1]) - dice.below(3)), int(words[4])
            if handed < messages:
                lines.append("by %d %s %s %d\n" % (version, words[2].decode(), words[3].decode(), handed + dice.below(messages - handed)))
    return "".join(lines).encode()


def some_marks(dice, worlds, files):
    """Lines `by` of any versions and messages of the sessions."""
    lines = []
    for name in sorted(files.sessions):
        peer, n = name.rsplit(".", 1)
        versions = [v for v, session in enumerate(worlds.session[peer]) if session == int(n)] + [0, worlds.last.version]
        for _ in range(dice.below(4)):
            lines.append("by %d %s %s %d\n" % (dice.one_of(versions), peer, n, dice.below(len(cut_into(files.sessions[name])) + 1)))
    return "".join(lines).encode()


def refused_in(report):
    return [line.decode() for line in lines_of(report) if line.startswith(b"line ")]


def try_number(tests, program, number, damages):
    """A drawn run with its damages, and sessions of another speaker over the same events."""
    dice = Dice(number * 7919 + 17)
    drawn = Drawn(dice)
    events = "".join(line + "\n" for line in drawn.lines()).encode()
    limit = 200 + dice.below(2000) if number % 4 == 3 else None
    with tempfile.TemporaryDirectory() as folder:
        files, status = run_files(program, folder, drawn.config, events, str(number % 2), limit)
        name = "run %d" % number
        worlds = (events, Worlds(drawn.config.decode(), events))
        tests.compare(name + ", lines that are refused", (0, str(worlds[1].refused)), (0, str(refused_in(files.report))))
        right = judged(worlds[1], files.report, files.held)
        tests.compare(name + ", ends", (0, "True"), (right[0], str(status in (0, 8))), files)
        try_files(tests, program, folder, name, files, worlds)
        marked = files.copy()
        marked.report += marks_that_follow(dice, files)
        tests.compare(name + ", with marks that follow", (right[0], ""), (judged(worlds[1], marked.report, marked.held)[0], ""), marked)
        for damage in range(damages):
            damaged = files.copy()
            for _ in range(1 if damage % 4 else 2):
                dice.one_of(DAMAGES)(dice, damaged)
            try_files(tests, program, folder, "%s, damage %d" % (name, damage), damaged, worlds)
        for speaker in range(damages // 4):
            other = spoken_files(dice, drawn.config, events)
            try_files(tests, program, folder, "%s, speaker %d" % (name, speaker), other, worlds)
            marked = other.copy()
            marked.report += some_marks(dice, worlds[1], other)
            try_files(tests, program, folder, "%s, speaker %d, marked" % (name, speaker), marked, worlds)
            dice.one_of(DAMAGES)(dice, other)
            try_files(tests, program, folder, "%s, speaker %d, damaged" % (name, speaker), other, worlds)


WANTED = ["0", "3", "10 kind 1 -", "10 kind 2", "10 kind 3", "10 kind 3 -", "10 kind 4", "10 kind 5", "11"]


def try_drawn(tests, program, count, damages):
    for number in range(count):
        try_number(tests, program, number, damages)
    print("answers: " + ", ".join("%s %d" % answer for answer in sorted(tests.answers.items())))
    for answer in WANTED:
        tests.compare("a drawn file with the answer " + answer, (0, "there"), (0, "there" if answer in tests.answers else "missing"))


def main():
    tests = Tests()
    what, program = sys.argv[1], os.path.abspath(sys.argv[2])
    tests.known = known_to(program)
    if what == "rows":
        try_rows(tests, program)
    elif what == "drawn":
        try_drawn(tests, program, int(sys.argv[3]), int(os.environ.get("DAMAGES", "16")))
    elif what == "one":
        tests.kept = sys.argv[4]
        try_number(tests, program, int(sys.argv[3]), int(os.environ.get("DAMAGES", "16")))
    else:
        tests.compare("the files", auditor.audit(*sys.argv[3:7]), program_answer(program, sys.argv[3:7]))
    return tests.end()


if __name__ == "__main__":
    sys.exit(main())
