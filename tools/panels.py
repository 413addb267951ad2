"""Writes the panel files that the programs are shipped with, from the format alone: tools/panels.py FOLDER NAME .., or all of them."""
import struct
import sys


def panel(rows, columns, parts, numbers, name):
    """The bytes of a panel file; numbers are the parts of all samples, row by row."""
    assert len(numbers) == rows * columns * parts
    head = struct.pack("<HBBBH", 3, rows, columns, parts, rows * columns)
    return head + struct.pack(f"<{len(numbers)}i", *numbers) + struct.pack("<H", len(name)) + name


def changed(file, at, *new):
    return file[:at] + bytes(new) + file[at + len(new):]


heights = panel(2, 2, 1, [4, 0, 0, 0], b"A")
points = panel(3, 2, 3, [v for r in range(3) for c in range(2) for v in (1000 * c, 1000 * r, 250 * (r - 1) * (2 * c - 1))], b"Half shell, left")
tabletop = panel(64, 64, 1, [100000 if (r, c) == (63, 63) else (r - 32) * (c - 32) for r in range(64) for c in range(64)],
                 b"Tabletop 64 by 64 with a name of 40 char")
longest = panel(64, 64, 3, [v for r in range(64) for c in range(64) for v in (1000 * c - 32000, 1000 * r - 32000, r * c % 97 - 48)],
                b"The longest panel file: 49,201 bytes....")
saddle = panel(9, 8, 1, [40 * (r - 4) * (c - 3) + 7 * (r * c % 5) for r in range(9) for c in range(8)], b"Saddle")
files = {
    "heights": heights,
    "points": points,
    "saddle": saddle,
    "tabletop": tabletop,
    "longest": longest,
    "longer": longest + bytes(800),
    "empty": b"",
    "cut_short": heights[:9],
    "wrong_sizes_count": changed(heights, 0, 4),
    "wrong_rows": changed(heights, 2, 65),
    "wrong_columns": changed(heights, 3, 1),
    "wrong_parts": changed(heights, 4, 2),
    "wrong_samples_count": changed(heights, 5, 5),
    "wrong_part": changed(heights, 19, 0xA1, 0x86, 0x01, 0x00),
    "wrong_name_count": changed(heights, 23, 41),
    "wrong_name_byte": changed(heights, 25, 10),
    "left_over": heights + b"\n",
}
for name in sys.argv[2:] or files:
    with open(f"{sys.argv[1]}/{name}.panel", "wb") as out:
        out.write(files[name])
