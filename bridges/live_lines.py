"""The lines that a run was told: how many, how near to its limits, and the last of them by number (docs/RUNNING.md)."""
import collections

MOST_LINES, MOST_BYTES = 2_000_000, 1_073_741_824
# What is kept back for the end of each session, and how many bytes of lines are remembered.
LAST_LINES, LAST_BYTES = 200, 65536
REMEMBERED = 4_194_304


class Lines:
    def __init__(self):
        self.count, self.bytes = 0, 0
        self.pieces, self.held = collections.deque(), 0

    def take(self, whole_lines):
        """Counts these lines, and remembers them for a while."""
        self.pieces.append((self.count + 1, whole_lines))
        self.held += len(whole_lines)
        self.count += whole_lines.count(b"\n")
        self.bytes += len(whole_lines)
        while self.held > REMEMBERED and len(self.pieces) > 1:
            self.held -= len(self.pieces.popleft()[1])

    def have_room(self, whole_lines):
        """Whether the run may have these too."""
        return (self.count + whole_lines.count(b"\n") <= MOST_LINES - LAST_LINES
                and self.bytes + len(whole_lines) <= MOST_BYTES - LAST_BYTES)

    def text(self, number):
        """The line of this number, as far as it is remembered."""
        for first, piece in reversed(self.pieces):
            if first <= number:
                found = piece.split(b"\n")[number - first:][:1]
                return found[0].decode(errors="replace") if found else None
        return None
