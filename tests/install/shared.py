"""Asks the shared library that is named, through ctypes. What it must answer is worked out by hand from SPECIFICATION,
"When a row is better" and "The calls".

    python3 shared.py LIBRARY
"""
import ctypes
import struct
import sys

VALUE, LOWEST, BETWEEN, NEG, PRIOR = 0, 1, 4, 6, 17
DISLIKED = 2
NO_PLACE = 0xFFFFFFFF


def record(kind, p=0, q=0, u=0, v=0):
    return struct.pack("<4B2i", kind, p, q, 0, u, v)


def reply(*names):
    return type("reply", (ctypes.Structure,), {"_fields_": [(name, ctypes.c_uint32) for name in names]})


def fields(got):
    return tuple(getattr(got, name) for name, _ in got._fields_)


library = ctypes.CDLL(sys.argv[1])
table_and_columns = [ctypes.c_char_p, ctypes.c_size_t, ctypes.c_size_t]
library.fnb_check.restype = reply("refusal", "place", "records", "top", "columns", "column_count")
library.fnb_check.argtypes = table_and_columns
for query in library.fnb_query_direct, library.fnb_query_by_parts:
    query.restype = reply("refusal", "place", "value")
    query.argtypes = table_and_columns + [
        ctypes.POINTER(ctypes.c_int32), ctypes.c_size_t, ctypes.c_size_t, ctypes.c_uint8,
        ctypes.POINTER(ctypes.c_uint16), ctypes.c_size_t,
    ]

# 10 to 16 bar (column 0), then a brand that is not -9 (column 3), then the price (column 1); by size (column 2).
table = b"".join([
    record(BETWEEN, 0, u=10, v=16),  # 0
    record(NEG, 3),  # 1
    record(VALUE, DISLIKED, u=-9),  # 2: of record 1
    record(PRIOR, 0, 1),  # 3
    record(LOWEST, 1),  # 4
    record(PRIOR, 3, 4),  # 5
])
TOP, BY_SIZE = 5, 1 << 2
rows = [
    # bar, price, size, brand
    [12, 300, 1, 7],  # 0: kept; 12 and 16 bar are at distance 0 and not equal
    [16, 90, 1, 7],  # 1: kept
    [16, 95, 1, 7],  # 2: row 1 costs less
    [16, 40, 1, -9],  # 3: row 1 is of a brand that is not disliked
    [9, 50, 1, 7],  # 4: row 0 is from 10 to 16 bar
    [20, 40, 2, 7],  # 5: row 6 is at distance 2, this one at distance 4
    [8, 70, 2, 7],  # 6: kept
    [-2147483648, -5, 3, 7],  # 7: kept, alone in its size
]
ANSWERS = [0, 1, 1, 1, 0, 6, 6, 7]
BEFORE = 7777

run = (ctypes.c_int32 * (4 * len(rows)))(*(number for row in rows for number in row))


def answers(query, columns):
    entries = (ctypes.c_uint16 * (len(rows) + 1))(*[BEFORE] * (len(rows) + 1))
    return fields(query(table, len(table), columns, run, len(run), TOP, BY_SIZE, entries, len(entries))), list(entries)


def expect(what, got, expected):
    if got != expected:
        sys.exit(f"{what}: {got}, not {expected}")


# The top reads the columns 0, 1 and 3: 1 + 2 + 8.
expect("check", fields(library.fnb_check(table, len(table), 4)), (0, NO_PLACE, 6, TOP, 11, 3))
expect("check, two columns", fields(library.fnb_check(table, len(table), 2)), (5, 1, 0, 0, 0, 0))
for query in library.fnb_query_direct, library.fnb_query_by_parts:
    expect("query", answers(query, 4), ((0, NO_PLACE, 4), ANSWERS + [BEFORE]))
    expect("query, nine columns", answers(query, 9), ((1, NO_PLACE, 0), [BEFORE] * (len(rows) + 1)))
