"""The frames of a journal's file, by the layout of docs/formats/journal-file.md; nothing here is taken from a program."""

# What stands ahead of the first gate of a journal.
HEAD = b"GGBJOURN1"


def number_in(body, begin, end):
    return int.from_bytes(body[begin:end], "big")


def frames_of(file, gate=len(HEAD)):
    """The gates and the bodies of a file's frames from a gate on, and whether the last gate is open, though no whole frame follows."""
    gates, bodies = [], []
    while file[gate] == 1:
        end = gate + 5 + number_in(file, gate + 1, gate + 5)
        if not gate + 5 < end <= gate + 1029 or end >= len(file):
            return [*gates, gate], bodies, True
        gates.append(gate)
        bodies.append(file[gate + 5 : end])
        gate = end
    return [*gates, gate], bodies, False
