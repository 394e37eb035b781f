"""The faults of BGP that end a session, as a NOTIFICATION tells them (RFC 4271 sections 4.5 and 6)."""
import struct

from messages import HEADER, MARKER

NOTIFICATION = 3
NAMES = {
    (1, 1): "Connection Not Synchronized", (1, 2): "Bad Message Length", (1, 3): "Bad Message Type",
    (2, 0): "Malformed OPEN", (2, 1): "Unsupported Version Number", (2, 2): "Bad Peer AS", (2, 3): "Bad BGP Identifier",
    (2, 4): "Unsupported Optional Parameter", (2, 6): "Unacceptable Hold Time", (2, 7): "Unsupported Capability",
    (3, 1): "Malformed Attribute List", (3, 2): "Unrecognized Well-known Attribute", (3, 3): "Missing Well-known Attribute",
    (3, 4): "Attribute Flags Error", (3, 5): "Attribute Length Error", (3, 6): "Invalid ORIGIN Attribute",
    (3, 8): "Invalid NEXT_HOP Attribute", (3, 9): "Optional Attribute Error", (3, 10): "Invalid Network Field", (3, 11): "Malformed AS_PATH",
    (4, 0): "Hold Timer Expired",
    (5, 1): "Unexpected Message in OpenSent", (5, 2): "Unexpected Message in OpenConfirm", (5, 3): "Unexpected Message in Established",
    (6, 1): "Maximum Number of Prefixes Reached", (6, 2): "Administrative Shutdown", (6, 3): "Peer De-configured",
    (6, 4): "Administrative Reset", (6, 5): "Connection Rejected", (6, 6): "Other Configuration Change",
    (6, 7): "Connection Collision Resolution", (6, 8): "Out of Resources",
    (7, 1): "Invalid Message Length", (8, 0): "Send Hold Timer Expired"}
FAMILIES = {1: "Message Header Error", 2: "OPEN Message Error", 3: "UPDATE Message Error", 4: "Hold Timer Expired",
            5: "Finite State Machine Error", 6: "Cease", 7: "ROUTE-REFRESH Message Error", 8: "Send Hold Timer Expired"}


def name_of(code, subcode):
    return NAMES.get((code, subcode), FAMILIES.get(code, "unknown"))


class Fault(Exception):
    """What the other side did, or what ends the session here; `data` is what section 6 asks for."""

    def __init__(self, code, subcode, data=b"", why=""):
        self.code, self.subcode, self.data, self.why = code, subcode, data, why
        super().__init__(str(self))

    def __str__(self):
        return f"{self.code}/{self.subcode} {name_of(self.code, self.subcode)}" + (f" ({self.why})" if self.why else "")

    def message(self):
        return MARKER + struct.pack("!HBBB", HEADER + 2 + len(self.data), NOTIFICATION, self.code, self.subcode) + self.data


def told_by(message):
    """What a NOTIFICATION of the other side says."""
    code, subcode = message[19], message[20]
    return f"{code}/{subcode} {name_of(code, subcode)}"
