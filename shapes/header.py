"""The shapes as a header for C."""
import composing

SETS, MOSAICS = "PSMND", "MN"
ACCENTS = range(0x40, 0x50)
TEXT = """\
/* Made by shapes/make of shapes/signs.txt: how each sign looks in a cell of twelve by ten dots. A sign is ten lines from the top, each a
 * number whose highest of twelve bits is the left dot. */
#ifndef TAMLIGUB_SIGNS_H
#define TAMLIGUB_SIGNS_H

#include <stdint.h>

/* By the number of the set, as tamligub.h numbers them, and by the code less 20 (hexadecimal). */
static const uint16_t tamligub_signs[5][96][10] = {@signs@};

/* Lined mosaics, of the sets 2 and 3. */
static const uint16_t tamligub_lined[2][96][10] = {@lined@};

/* Signs of the primary set with an accent: by the lower half of the accent's code, and by the code less 20. */
static const uint16_t tamligub_accented[16][96][10] = {@accented@};

/* The picture behind the screen has two shades: red, green and blue of the one in the upper left and lower right quarter of a cell, and of
 * the other. */
static const uint8_t tamligub_behind[2][3] = {@behind@};

#endif
"""


def table(codes):
    """A set: a line for each sign."""
    return "{\n" + "".join("    {%s},\n" % ", ".join(f"0x{line:03X}" for line in codes[code]) for code in composing.CODES) + "}"


def tables(sets):
    return ", ".join(map(table, sets))


def text(shapes, picture):
    """What the header holds, with the two shades as digits."""
    accented = [shapes.sets.get(f"P+{accent:02X}", shapes.sets["P"]) for accent in ACCENTS]
    shades = ["{%s}" % ", ".join(str(part) for part in bytes.fromhex(shade)) for shade in picture]
    parts = {
        "signs": tables(shapes.sets[name] for name in SETS), "lined": tables(shapes.lined[name] for name in MOSAICS),
        "accented": tables(accented), "behind": ", ".join(shades),
    }
    found = TEXT
    for name, part in parts.items():
        found = found.replace(f"@{name}@", part)
    return found
