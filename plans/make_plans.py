#!/usr/bin/env python3
"""Writes the sample plans, NAME.plan, and what the program must print for each, NAME.expected, into the folder of this script.

What is expected is written out in the table below; nothing here works it out. docs/PLAN_FILE.md has the format.
"""

from pathlib import Path


def two(number):
    """A number in two bytes, the lower one first."""
    return number.to_bytes(2, "little")


def record(kind, body):
    """A record of any kind and body, good or not."""
    return two(len(body)) + two(kind) + body


def deadline(ticks):
    """Kind 1, 6 bytes."""
    return record(1, two(ticks))


def step(time, label=""):
    """Kind 2, 6 bytes and the label."""
    return record(2, two(time) + label.encode("ascii"))


def edge(start, end):
    """Kind 3, 6 bytes."""
    return record(3, bytes([start, end]))


def block(cores, ticks):
    """Kind 4, 7 bytes."""
    return record(4, bytes([cores]) + two(ticks))


def hold_back(cores, start, end):
    """Kind 5, 9 bytes."""
    return record(5, bytes([cores]) + two(start) + two(end))


def late(ticks):
    """Kind 6, 6 bytes."""
    return record(6, two(ticks))


# Each sample: its name, its parts end to end, and the lines that are expected.
SAMPLES = [
    # ---- Accepted and certified ----

    # Six steps of a hide, on two cores for ten ticks.
    ("hide",
     [deadline(10),
      step(1, "scan"), step(3, "flaws-left"), step(2, "flaws-mid"), step(4, "flaws-right"), step(2, "nesting"), step(1, "knife-path"),
      edge(0, 1), edge(0, 2), edge(0, 3), edge(1, 4), edge(2, 4), edge(3, 5), edge(4, 5),
      block(2, 10)],
     ["volume 13", "length 7", "deadline 10", "least 13", "certified"]),

    # The shortest accepted file, 19 bytes.
    ("smallest",
     [deadline(1), step(1), block(1, 1)],
     ["volume 1", "length 1", "deadline 1", "least 1", "certified"]),

    # The longest accepted file, 8,021 bytes: every label full, every kind; 64 steps with more than 1,024 edges have an implied one.
    ("largest",
     [deadline(20000)]
     + [step(1 + n, f"flaw-search-{n:04}") for n in range(0, 32)]
     + [step(1 + n, f"nesting-row-{n:04}") for n in range(32, 64)]
     + [edge(start, end) for start in range(0, 32) for end in range(32, 64)]
     + [block(cores, 313) for cores in range(1, 65)]
     + [hold_back(1, 0, 65535), late(32)],
     ["volume 2080", "length 96", "deadline 20000", "least 625056", "certified"]),

    # Each value the greatest that its place takes, and the label of the least and the greatest byte; the job sees the second block only.
    ("greatest_values",
     [deadline(20000), step(20000, "!~!~!~!~!~!~!~!~"), block(64, 20000), block(64, 20000), hold_back(64, 65534, 65535), late(20000)],
     ["volume 20000", "length 20000", "deadline 20000", "least 20000", "certified"]),

    # Without edges the length is the greatest time; the least yield is just the volume.
    ("just_certified",
     [deadline(15), step(5), step(5), step(5), step(5), step(5), step(1), block(2, 9), block(3, 6)],
     ["volume 26", "length 5", "deadline 15", "least 26", "certified"]),

    # After the last block there are no cores; the deadline is five ticks later.
    ("supply_ends_early",
     [deadline(10), step(5), block(2, 5)],
     ["volume 5", "length 5", "deadline 10", "least 5", "certified"]),

    # The records of the next three without hold-back and late: the widths are 1 1 3 3 3 3 2 2.
    ("whole_supply",
     [deadline(8), step(2), step(3), step(1), edge(0, 1), block(1, 2), block(3, 4), block(2, 6)],
     ["volume 6", "length 5", "deadline 8", "least 9", "certified"]),

    # Three cores held back from tick 3 until before tick 5: the widths are 1 1 3 0 0 3 2 2.
    ("held_back",
     [deadline(8), step(2), step(3), step(1), edge(0, 1), block(1, 2), block(3, 4), block(2, 6), hold_back(3, 3, 5)],
     ["volume 6", "length 5", "deadline 8", "least 6", "certified"]),

    # Late by 6 ticks: the widths are 2 2 2 2 2 2 0 0.
    ("late",
     [deadline(8), step(2), step(3), step(1), edge(0, 1), block(1, 2), block(3, 4), block(2, 6), late(6)],
     ["volume 6", "length 5", "deadline 8", "least 7", "certified"]),

    # ---- 11: accepted, but not certified ----

    # Both, and the window is in the job's own ticks: the widths are 2 2 2 0 0 2 0 0.
    ("held_back_and_late",
     [deadline(8), step(2), step(3), step(1), edge(0, 1), block(1, 2), block(3, 4), block(2, 6), hold_back(3, 3, 5), late(6)],
     ["volume 6", "length 5", "deadline 8", "least 4", "refused 11"]),

    # One core less at one tick than just_certified.
    ("uncertified",
     [deadline(15), step(5), step(5), step(5), step(5), step(5), step(1), block(2, 10), block(3, 5)],
     ["volume 26", "length 5", "deadline 15", "least 25", "refused 11"]),

    # The longest path is longer than the deadline, whatever the cores.
    ("path_past_deadline",
     [deadline(2), step(3), block(4, 2)],
     ["volume 3", "length 3", "deadline 2", "least 2", "refused 11"]),

    # ---- 1: a record cut short ----

    # Three bytes of a header.
    ("cut_header",
     [bytes([0x02, 0x00, 0x01])],
     ["refused 1 at 0"]),

    # The body of the second record is to have three bytes and has two.
    ("cut_body",
     [deadline(10), bytes([0x03, 0x00, 0x02, 0x00, 0x05, 0x00])],
     ["refused 1 at 6"]),

    # Of an unknown kind too: 1 comes before 2.
    ("cut_and_unknown",
     [deadline(10), bytes([0x01, 0x00, 0x09, 0x00])],
     ["refused 1 at 6"]),

    # A byte after the last record.
    ("byte_left_over",
     [deadline(1), step(1), block(1, 1), bytes([0x00])],
     ["refused 1 at 19"]),

    # 65,537 bytes, of which the program reads the first 65,536: what it reads ends within the record.
    ("longer_than_read",
     [record(7, bytes(65533))],
     ["refused 1 at 0"]),

    # ---- 2: an unknown kind ----

    # Kind 7, after all that a file needs.
    ("unknown_kind",
     [deadline(1), step(1), block(1, 1), record(7, two(1))],
     ["refused 2 at 19"]),

    # Kind 0, and no body.
    ("kind_zero",
     [record(0, b"")],
     ["refused 2 at 0"]),

    # Kind 257: the higher byte of the kind counts.
    ("kind_high_byte",
     [record(257, two(10))],
     ["refused 2 at 0"]),

    # One record of 65,536 bytes, which the program reads to its end.
    ("as_long_as_read",
     [record(7, bytes(65532))],
     ["refused 2 at 0"]),

    # ---- 3: a body of the wrong length ----

    # A deadline in three bytes.
    ("body_length",
     [record(1, bytes([10, 0, 0]))],
     ["refused 3 at 0"]),

    # A deadline in one byte.
    ("deadline_too_short",
     [record(1, bytes([10]))],
     ["refused 3 at 0"]),

    # A step in one byte.
    ("step_too_short",
     [deadline(10), record(2, bytes([1]))],
     ["refused 3 at 6"]),

    # A step in 19 bytes: its label has 17.
    ("label_too_long",
     [deadline(10), step(1, "flaw-search-right")],
     ["refused 3 at 6"]),

    # An edge in one byte.
    ("edge_too_short",
     [deadline(10), step(1), step(1), record(3, bytes([0]))],
     ["refused 3 at 18"]),

    # An edge in three bytes.
    ("edge_too_long",
     [deadline(10), step(1), step(1), record(3, bytes([0, 1, 0]))],
     ["refused 3 at 18"]),

    # A block in two bytes.
    ("block_too_short",
     [deadline(10), step(1), record(4, bytes([2, 10]))],
     ["refused 3 at 12"]),

    # A block in four bytes.
    ("block_too_long",
     [deadline(10), step(1), record(4, bytes([2, 10, 0, 0]))],
     ["refused 3 at 12"]),

    # Hold-back in four bytes.
    ("hold_back_too_short",
     [deadline(10), step(1), block(1, 10), record(5, bytes([1, 0, 0, 1]))],
     ["refused 3 at 19"]),

    # Hold-back in six bytes.
    ("hold_back_too_long",
     [deadline(10), step(1), block(1, 10), record(5, bytes([1, 0, 0, 1, 0, 0]))],
     ["refused 3 at 19"]),

    # Late in one byte.
    ("late_too_short",
     [deadline(10), step(1), block(1, 10), record(6, bytes([1]))],
     ["refused 3 at 19"]),

    # Late in three bytes.
    ("late_too_long",
     [deadline(10), step(1), block(1, 10), record(6, bytes([1, 0, 0]))],
     ["refused 3 at 19"]),

    # A deadline in 258 bytes: the higher byte of the length counts.
    ("length_high_byte",
     [record(1, two(10) + bytes(256))],
     ["refused 3 at 0"]),

    # Of a falling kind too: 3 comes before 4.
    ("body_length_and_falling",
     [deadline(10), step(1), record(1, bytes([10, 0, 0]))],
     ["refused 3 at 12"]),

    # ---- 4: a kind out of order or repeated ----

    # A step after a block.
    ("falling_kind",
     [deadline(10), step(1), block(1, 10), step(1)],
     ["refused 4 at 19"]),

    # Hold-back after late.
    ("hold_back_after_late",
     [deadline(10), step(1), block(1, 10), late(1), hold_back(1, 0, 1)],
     ["refused 4 at 25"]),

    # The deadline after a step: the step may come first, but no kind may fall after it.
    ("deadline_after_step",
     [step(1), deadline(10), block(1, 10)],
     ["refused 4 at 6"]),

    # The deadline twice.
    ("second_deadline",
     [deadline(10), deadline(10), step(1), block(1, 10)],
     ["refused 4 at 6"]),

    # Hold-back twice.
    ("second_hold_back",
     [deadline(10), step(1), block(1, 10), hold_back(1, 0, 1), hold_back(1, 2, 3)],
     ["refused 4 at 28"]),

    # Late twice.
    ("second_late",
     [deadline(10), step(1), block(1, 10), late(1), late(1)],
     ["refused 4 at 25"]),

    # A 65th step after an edge: 4 comes before 6.
    ("falling_and_without_room",
     [deadline(10)] + [step(1)] * 64 + [edge(0, 1), step(1)],
     ["refused 4 at 396"]),

    # The second deadline is out of range too: 4 comes before 5.
    ("second_deadline_out_of_range",
     [deadline(10), deadline(0)],
     ["refused 4 at 6"]),

    # ---- 6: no room ----

    # A 65th step.
    ("step_without_room",
     [deadline(10)] + [step(1)] * 65 + [block(1, 10)],
     ["refused 6 at 390"]),

    # A 65th step, of time 0: 6 comes before 5.
    ("step_without_room_out_of_range",
     [deadline(10)] + [step(1)] * 64 + [step(0), block(1, 10)],
     ["refused 6 at 390"]),

    # A 65th block.
    ("block_without_room",
     [deadline(10), step(1)] + [block(1, 1)] * 65,
     ["refused 6 at 460"]),

    # A 65th block, of 0 cores: 6 comes before 5.
    ("block_without_room_out_of_range",
     [deadline(10), step(1)] + [block(1, 1)] * 64 + [block(0, 1)],
     ["refused 6 at 460"]),

    # ---- 5: a value out of range ----

    # A deadline of 0 ticks.
    ("deadline_zero",
     [deadline(0), step(1), block(1, 10)],
     ["refused 5 at 0"]),

    # A deadline of 20,001 ticks.
    ("deadline_too_great",
     [deadline(20001), step(1), block(1, 10)],
     ["refused 5 at 0"]),

    # A worst-case time of 0 ticks.
    ("time_zero",
     [deadline(10), step(0), block(1, 10)],
     ["refused 5 at 6"]),

    # A worst-case time of 20,001 ticks.
    ("time_too_great",
     [deadline(10), step(20001), block(1, 10)],
     ["refused 5 at 6"]),

    # A label that begins with a blank, byte 32.
    ("label_blank",
     [deadline(10), step(1, " scan"), block(1, 10)],
     ["refused 5 at 6"]),

    # A label of 16 bytes, the last of which is 127.
    ("label_delete",
     [deadline(10), step(1, "flaw-search-001\x7f"), block(1, 10)],
     ["refused 5 at 6"]),

    # A block of 65 cores.
    ("cores_out_of_range",
     [deadline(10), step(1), block(65, 10)],
     ["refused 5 at 12"]),

    # A block of 0 cores.
    ("cores_zero",
     [deadline(10), step(1), block(0, 10)],
     ["refused 5 at 12"]),

    # A block of 0 ticks.
    ("ticks_zero",
     [deadline(10), step(1), block(1, 0)],
     ["refused 5 at 12"]),

    # A block of 20,001 ticks.
    ("ticks_too_great",
     [deadline(10), step(1), block(1, 20001)],
     ["refused 5 at 12"]),

    # Hold-back of 0 cores.
    ("hold_back_zero",
     [deadline(10), step(1), block(1, 10), hold_back(0, 0, 1)],
     ["refused 5 at 19"]),

    # Hold-back of 65 cores.
    ("hold_back_too_great",
     [deadline(10), step(1), block(1, 10), hold_back(65, 0, 1)],
     ["refused 5 at 19"]),

    # A window that ends where it begins.
    ("window_empty",
     [deadline(10), step(1), block(1, 10), hold_back(1, 4, 4)],
     ["refused 5 at 19"]),

    # A window that ends before it begins.
    ("window_falling",
     [deadline(10), step(1), block(1, 10), hold_back(1, 5, 4)],
     ["refused 5 at 19"]),

    # Late by 0 ticks.
    ("late_zero",
     [deadline(10), step(1), block(1, 10), late(0)],
     ["refused 5 at 19"]),

    # Late by 20,001 ticks.
    ("late_too_great",
     [deadline(10), step(1), block(1, 10), late(20001)],
     ["refused 5 at 19"]),

    # The second and the third record are bad: the first bad one decides, though its number is the greater.
    ("two_bad_records",
     [deadline(10), step(0), record(7, two(1))],
     ["refused 5 at 6"]),

    # The edge from 0 to 2 is implied, but the block is a bad record, which decides.
    ("implied_edge_and_bad_block",
     [deadline(10), step(1), step(1), step(1), edge(0, 1), edge(0, 2), edge(1, 2), block(0, 10)],
     ["refused 5 at 42"]),

    # ---- 7: an edge that does not rise, or a step of it missing ----

    # From 1 to 0.
    ("edge_falling",
     [deadline(10), step(1), step(1), edge(1, 0), block(1, 10)],
     ["refused 7 at 18"]),

    # From 1 to 1.
    ("edge_to_itself",
     [deadline(10), step(1), step(1), edge(1, 1), block(1, 10)],
     ["refused 7 at 18"]),

    # From 0 to 2, of two steps.
    ("edge_missing_step",
     [deadline(10), step(1), step(1), edge(0, 2), block(1, 10)],
     ["refused 7 at 18"]),

    # From 5 to 6, of two steps.
    ("edge_missing_steps",
     [deadline(10), step(1), step(1), edge(5, 6), block(1, 10)],
     ["refused 7 at 18"]),

    # ---- 8: an edge twice ----

    # From 0 to 1 again, with another edge between.
    ("edge_twice",
     [deadline(10), step(1), step(1), step(1), edge(0, 1), edge(0, 2), edge(0, 1), block(1, 10)],
     ["refused 8 at 36"]),

    # ---- 9: no deadline, no step or no block ----

    # No bytes.
    ("empty",
     [],
     ["refused 9 at 0"]),

    # It begins with a step, which alone is no refusal by 4.
    ("no_deadline",
     [step(1), block(1, 10)],
     ["refused 9 at 13"]),

    # No step.
    ("no_step",
     [deadline(10), block(1, 10)],
     ["refused 9 at 13"]),

    # No block.
    ("no_block",
     [deadline(10), step(1)],
     ["refused 9 at 12"]),

    # No block, and an implied edge: 9 comes before 10.
    ("no_block_and_implied_edge",
     [deadline(10), step(1), step(1), step(1), edge(0, 1), edge(0, 2), edge(1, 2)],
     ["refused 9 at 42"]),

    # ---- 10: an implied edge ----

    # From 0 to 2, since 0 is an ancestor of 1, which the next edge makes a predecessor of 2.
    ("implied_edge",
     [deadline(10), step(1), step(1), step(1), edge(0, 1), edge(0, 2), edge(1, 2), block(1, 10)],
     ["refused 10 at 30"]),

    # From 0 to 3, since 0 is an ancestor of 2 by way of 1.
    ("implied_edge_by_path",
     [deadline(10), step(1), step(1), step(1), step(1), edge(0, 1), edge(1, 2), edge(2, 3), edge(0, 3), block(1, 10)],
     ["refused 10 at 48"]),

    # From 1 to 3 and from 0 to 3: the first in file order is named.
    ("two_implied_edges",
     [deadline(10), step(1), step(1), step(1), step(1), edge(0, 1), edge(1, 3), edge(0, 3), edge(1, 2), edge(2, 3), block(1, 10)],
     ["refused 10 at 36"]),
]


def main():
    folder = Path(__file__).resolve().parent
    for name, parts, lines in SAMPLES:
        (folder / f"{name}.plan").write_bytes(b"".join(parts))
        (folder / f"{name}.expected").write_bytes("".join(line + "\n" for line in lines).encode("ascii"))

    # The gate runs the program on this one.
    certify = folder.parent / "crates" / "certify"
    if certify.is_dir():
        (certify / "stdin").write_bytes((folder / "hide.plan").read_bytes())
        (certify / "stdout").write_bytes((folder / "hide.expected").read_bytes())


if __name__ == "__main__":
    main()
