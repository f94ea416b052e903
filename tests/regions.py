"""Changes regions as docs/FORMAT.md states, and lists them: a second model of the commands.

    cells(region)                            its cells, in order
    with_component(region, at, component)    the region after an addition at a position
    without_component(region, name)          the region after a removal
    listing(region)                          the output of `print`
    rows(cells, is_verbose)                  that of `print -v` for cells
    runs(cells)                              the runs of free cells
"""

from tests.image import FreeEntry
from tests.reading import cut
from tests.texts import COMPRESSIONS, TYPES, shown


def cells(region):
    """Returns the cells of a region, up to the first position without an entry.

    The entries are valid; otherwise the test is wrong.
    """
    found = cut(region)
    if found.damage:
        raise ValueError(found.refusal())
    return found.cells


def runs(cells):
    """Returns the start and the end of each run of free cells."""
    found = []
    for cell in cells:
        if cell.is_free() and found and found[-1][1] == cell.position:
            found[-1] = found[-1][0], cell.end
        elif cell.is_free():
            found.append((cell.position, cell.end))
    return found


def run_around(region, start, end):
    """Returns the start and the end of a range with all free cells that are adjacent to it."""
    free = [cell for cell in cells(region) if cell.is_free()]
    for cell in reversed(free):
        start = cell.position if cell.end == start else start
    for cell in free:
        end = cell.end if cell.position == end else end
    return start, end


def free_bytes(region, start, end):
    """Returns the bytes of an empty entry in this range of the region, or no bytes."""
    if start == end:
        return b""
    return FreeEntry(end - start, keeps=region[-4:] if end == len(region) else b"").bytes


def without_component(region, name):
    """Returns the region without the first component with this name."""
    removed = next(cell for cell in cells(region) if cell.name == name and not cell.is_free())
    start, end = run_around(region, removed.position, removed.end)
    return region[:start] + free_bytes(region, start, end) + region[end:]


def with_component(region, at, component):
    """Returns the region with a component at a position in free space.

    The last four bytes of the region stay, unless the component has a content or a gap there.
    """
    inside = next(cell for cell in cells(region) if cell.position <= at < cell.end)
    start, end = run_around(region, inside.position, inside.end)
    used = component.bytes[: component.content_offset + component.length]
    stop = at + len(component.bytes)
    cell = used.ljust(stop - at, b"\xff")
    if stop == len(region):
        kept = max(stop - 4, at + len(used))
        cell = cell[: kept - at] + region[kept:]
    return (region[:start] + free_bytes(region, start, at) + cell
            + free_bytes(region, stop, end) + region[end:])


# ---- Lists


def row(cell):
    """Returns the row of a cell, as `print` prints it."""
    name = "(empty)" if cell.is_free() else shown(cell.name)
    kind = TYPES.get(cell.type, hex(cell.type))
    packing = cell.compression()
    packed = COMPRESSIONS.get(packing, hex(packing))
    return f"{name}\t{cell.position:#x}\t{kind}\t{cell.head[0]}\t{packed}\n"


def details(cell):
    """Returns the lines below the row of a cell, as `print -v` prints them."""
    if cell.is_free():
        return ""
    lines = [f"\tattr\t0x{tag:08x}\t{len(data)}\n" for tag, data in cell.attributes()]
    state = cell.hash_state()
    if state == "unsupported":
        lines.append("\thash\tunsupported\n")
    elif state != "absent":
        algorithm, result = state.split()
        lines.append(f"\thash\t{algorithm}\t{cell.stored_digest()[1].hex()}\t{result}\n")
    return "".join(lines)


def rows(cells, is_verbose=False):
    """Returns what `print` prints for cells, or `print -v`."""
    return "".join(row(cell) + (details(cell) if is_verbose else "") for cell in cells)


def listing(region):
    """Returns the output of `print` for a region without damage."""
    return rows(cells(region))
