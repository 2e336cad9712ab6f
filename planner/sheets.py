"""Makes an instance of a planner's sheets, and a sheet of the plan that comes of it. Sheets are CSV files, or workbooks (.xlsx).

`own` reads sites (columns: name, fixed cost, and perhaps capacity, status, throughput cost, and x, y or lat, lon), customers
(name, demand, and perhaps x, y or lat, lon) and lanes, and writes the instance in the suite's own form and a file of names. An
empty capacity is none, an empty status free. Lanes are a table with a row for each site and a column for each customer, or rows
of from, to and cost, or are made of the distances by a rate: straight ones of x and y, or along great circles of lat and lon. The
word `none` is a lane that isn't there, and so is one that has no row.

`table` reads a plan, a plan text or a JSON report, with the file of names, and writes who serves whom, how full each open site
is, and the totals.

Cells are parted by semicolons, tabs or commas. Decimal commas and decimal points are told apart column by column. What can't be
told, a bad cell, a name that is unknown or stands twice: all is refused at once, each with file, row and column.
"""
import argparse
from collections.abc import Callable

from . import names as names_file, own as own_form, table as tables
from .answers import read_answer, take_answer
from .cells import run
from .names import Names
from .region import options_of, read_sheets, said_of, sheets_of, take_sheets


def own(args: argparse.Namespace) -> None:
    """Makes an instance of sheets."""
    region = read_sheets(args)
    own_form.write(args.instance, own_form.of_places(region.sites, region.customers, region.lanes, region.count))
    numbered = dict(enumerate(region.sites, 1)), dict(enumerate(region.customers, 1))
    used = [(it, names_file.checksum(it)) for it in sheets_of(args)]
    names_file.write(args.names, Names(*numbered, region.rule, args.instance, used, options_of(args)))
    print(said_of(region))


def table(args: argparse.Namespace) -> None:
    """Writes a plan as a sheet."""
    plan, names = read_answer(args, args.table)
    tables.write(args.table, plan, names, args.comma)
    print(tables.said_of(plan))


def parser() -> argparse.ArgumentParser:
    about, _, more = __doc__.partition("\n\n")
    top = argparse.ArgumentParser(prog="sheets", description=about, epilog=more, formatter_class=argparse.RawDescriptionHelpFormatter)
    commands = top.add_subparsers(required=True, metavar="own | table")

    def command(does: Callable[[argparse.Namespace], None], what: str) -> argparse.ArgumentParser:
        added = commands.add_parser(does.__name__, help=what, description=what[:1].upper() + what[1:] + ".")
        added.set_defaults(do=does)
        return added

    take_sheets(command(own, "makes an instance of sheets"), "the file to write in the suite's own form",
                "the file to write with names, ids and coordinates")
    to_table = command(table, "writes a plan as a sheet")
    take_answer(to_table, "table", "the CSV file to write")
    to_table.add_argument("--comma", action="store_true", help="writes decimal commas, and semicolons between cells")
    return top


def main(words: list[str] | None = None) -> None:
    """The command `sheets` with its words."""
    args = parser().parse_args(words)
    args.do(args)


if __name__ == "__main__":
    run(main)
