"""What the tools on cells share: tables of worked cells, names of types, and copies of crates."""
import shutil

# A type whose variant is not its name with each word capitalised.
VARIANTS = {"$divfloor": "DivFloor", "$modfloor": "ModFloor"}


def variant(cell_type):
    """The name of a type of cell in the crates."""
    words = cell_type.removeprefix("$").split("_")
    return VARIANTS.get(cell_type, "".join(word.capitalize() for word in words))


def lines_of(table):
    """The fields of each line of a table, with its place."""
    for number, line in enumerate(table.read_text().splitlines(), start=1):
        if line and not line.startswith("#"):
            yield f"{table.name}:{number}: {line}", line.split()


def select_widths(cell_type, width, selector):
    """The widths of A, B, S and Y of a cell that selects."""
    return {
        "$mux": (width, width, selector, width),
        "$pmux": (width, width * selector, selector, width),
        "$bmux": (width << selector, 0, selector, width),
        "$demux": (width, 0, selector, width << selector),
        "$bwmux": (width, width, width, width),
        "$bweqx": (width, width, 0, width),
    }[cell_type]


def copy_crates(here, repository, names, added, kept=True):
    """Copies crates to another folder, with what earlier checks of them kept or without, and lists them with one more."""
    left_out = None if kept else shutil.ignore_patterns("out")
    for name in names:
        shutil.copytree(here / "crates" / name, repository / "crates" / name, symlinks=True, ignore=left_out)
    lines = [line for line in (here / "crates.txt").read_text().splitlines() if line.partition(":")[0] in names]
    (repository / "crates.txt").write_text("\n".join([*lines, added]) + "\n")
    shutil.copy(here / "HANDLES", repository / "HANDLES")
