"""The worked guest of docs/FORMATS.md, as bytes: its trace, and what comes of it, by hand."""

from checks.lib.traces import header, record

RECORDS = [
    record(0, 0, 0, b"\x01"),
    record(5, 1, 15, b"\x02"),
    record(1200, 1, 0, b"\x03"),
    record(2500, 3, 2, b"\x04\x05"),
    record(2500, 1, 0, b"\x00"),
]
A = header(4, 5) + b"".join(RECORDS)
assert len(A) == 102
# The memory after all writes, and before tick 2000.
A_IMAGE = b"\x01" + bytes(15) + bytes(15) + b"\x02" + bytes(16) + b"\x00\x00\x04\x05" + bytes(12)
A_AT_2000 = b"\x01" + bytes(15) + b"\x03" + bytes(14) + b"\x02" + bytes(16) + bytes(16)
# With the rates 2 to 4, the increment 1, the threshold 1 and 8 rounds at most.
A_REPORT = b"""\
trace pages 4 size 16 writes 5
window 0 writes 2 pages 2 again 0 fresh 2
window 1 writes 1 pages 1 again 1 fresh 0
window 2 writes 2 pages 2 again 1 fresh 1
hot 2 pages 1
page 1
round 0 from 0 to 2000 rate 2 pages 4 sent 4 dirtied 2
round 1 from 2000 to 3000 rate 2 pages 2 sent 2 dirtied 2
round 2 from 3000 to 3667 rate 3 pages 2 sent 2 dirtied 0
stop few at 3667 pages 0 down 0 total 8
"""
# In version 2, with page 1 released in place of its last write.
C = header(4, 5, version=2) + b"".join(RECORDS[:4]) + record(2500, 1, 0, b"")


def damaged():
    """Traces that are refused, each with its line, by the tables of docs/FORMATS.md."""
    rest = b"".join(RECORDS)
    yield b"", "E1"
    yield A[:15], "E1"
    yield b"PCWS" + A[4:], "E2"
    yield header(4, 5, version=0) + rest, "E3"
    yield header(4, 5, version=3) + rest, "E3"
    yield header(4, 5, magic=b"QCWT", version=3) + rest, "E2"
    yield header(4, 5, shift=3) + rest, "E4"
    yield header(4, 5, shift=13) + rest, "E4"
    yield header(4, 5, reserved=b"\1\0") + rest, "E5"
    yield header(4, 5, reserved=b"\0\1") + rest, "E5"
    yield header(0, 5) + rest, "E6"
    yield header(65_537, 5) + rest, "E6"
    yield header(4, 1_048_577) + rest, "E7"
    yield A[:16], "E8 record 0"
    yield A[:-1], "E8 record 4"
    yield header(4, 6) + rest, "E8 record 5"
    yield header(4, 2) + record(5, 0, 0, b"x") + record(4, 0, 0, b"x"), "E9 record 1"
    yield header(4, 1) + record(1 << 40, 0, 0, b"x"), "E10 record 0"
    yield header(4, 1) + record(0, 4, 0, b"x"), "E11 record 0"
    yield header(4, 1) + record(0, 0, 0, b""), "E12 record 0"
    yield header(4, 5) + C[16:], "E12 record 4"
    yield header(4, 5, version=2) + b"".join(RECORDS[:4]) + record(2500, 1, 1, b""), "E12 record 4"
    yield header(4, 1, version=2) + record(0, 0, 17, b""), "E12 record 0"
    yield header(4, 1, version=2) + record(0, 4, 0, b""), "E11 record 0"
    yield header(4, 2, version=2) + record(5, 0, 0, b"") + record(4, 0, 0, b""), "E9 record 1"
    yield header(4, 1, version=2) + record(0, 0, 0, b"")[:15], "E8 record 0"
    yield C + b"\0", "E14"
    yield header(4, 1) + record(0, 0, 15, b"xy"), "E13 record 0"
    yield header(4, 1) + record(0, 0, 0, b"x", 17), "E8 record 0"
    yield A + b"\0", "E14"
    yield header(4, 4) + rest, "E14"
    yield header(4, 0) + b"\0", "E14"
    for number, other, name in (
        (4, record(2500, 1, 0, b"\0", 65_535), "E8"),
        (4, record(0, 1, 0, b"\0"), "E9"),
        (4, record(1 << 40, 1, 0, b"\0"), "E10"),
        (3, record(2500, 4, 2, b"\4\5"), "E11"),
        (0, record(0, 0, 0, b"\1", 0), "E12"),
        (1, record(5, 1, 16, b"\2"), "E13"),
    ):
        yield header(4, 5) + b"".join([*RECORDS[:number], other, *RECORDS[number + 1 :]]), f"{name} record {number}"
