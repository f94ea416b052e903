"""Builds the texts that the programs print, from literal fields.

Each function is written from the tables of docs/FORMAT.md, and not from the programs.
"""

TYPES = {
    0x0: "deleted", 0x1: "bootblock", 0x2: "cbfs header", 0x10: "legacy stage", 0x11: "stage",
    0x20: "simple elf", 0x21: "fit_payload", 0x30: "optionrom", 0x40: "bootsplash", 0x50: "raw",
    0x51: "vsa", 0x52: "mbi", 0x53: "microcode", 0x60: "fsp", 0x61: "mrc", 0xAA: "cmos_default",
    0xAB: "spd", 0xAC: "mrc_cache", 0x1AA: "cmos_layout", 0xFFFFFFFF: "null",
}
COMPRESSIONS = {0: "none", 1: "LZMA", 2: "LZ4"}


def rows(*lines):
    """Returns lines of fields that tabs separate.

    In an argument, a blank separates two fields, and an underscore stands for a blank:
    `rows("remark - - 0x0 flashmap")`.
    """
    return "".join(line.replace(" ", "\t").replace("_", " ") + "\n" for line in lines)


def layout(size, areas, name="BOARD", map_at=0):
    """Returns the output of `layout` for an image of this size with these areas."""
    lines = [f"fmap\t{map_at:#x}\t{name}\t{size}\t{len(areas)}\n"]
    for area in areas:
        lines.append(f"{shown(area.name)}\t{area.offset:#x}\t{area.size}\t{area.flags:#x}\n")
    return "".join(lines)


def shown(name):
    """Returns a name as it is printed: other bytes than 0x21 to 0x7e and `\\` are escaped."""
    plain = range(0x21, 0x7F)
    return "".join(chr(c) if c in plain and c != 0x5C else f"\\x{c:02x}" for c in name)


def listing(size, components):
    """Returns the output of `print` for a region with these uncompressed components, by position.

    An empty entry covers each run of free bytes; one that ends with the region keeps four bytes.
    """
    lines, end = [], 0
    for position, one in sorted(components.items()):
        if end < position:
            lines.append(f"(empty)\t{end:#x}\tnull\t{position - end - 28}\tnone\n")
        kind = TYPES.get(one.type, hex(one.type))
        lines.append(f"{shown(one.name)}\t{position:#x}\t{kind}\t{one.length}\tnone\n")
        end = position + len(one.bytes)
    if end < size:
        lines.append(f"(empty)\t{end:#x}\tnull\t{size - end - 32}\tnone\n")
    return "".join(lines)
