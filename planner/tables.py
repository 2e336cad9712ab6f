"""The rows of a planner's tables, of CSV files and of workbooks, as texts."""
import csv
import io
import os
import re
import unicodedata
from typing import Any

from .cells import Refusal

# What a spreadsheet shows where a formula fails.
ERRORS = "#N/A", "#REF!", "#VALUE!", "#DIV/0!", "#NAME?", "#NUM!", "#NULL!"
BOOKS, OTHER_BOOKS = (".xlsx", ".xlsm"), (".xls", ".xlsb", ".ods", ".numbers")
UTF16 = b"\xff\xfe", b"\xfe\xff"


class Typed(str):
    """A number of a workbook: it has a point before its decimals, whatever a spreadsheet shows."""


def clean(cell: str) -> str:
    """A cell with single spaces, and letters with marks as one."""
    return " ".join(unicodedata.normalize("NFC", cell).split())


def file_of(path: str) -> str:
    """The file that holds a table: without the name of a worksheet."""
    book, mark, _ = path.rpartition("#")
    return book if mark and book.lower().endswith(BOOKS) and not os.path.exists(path) else path


def read_table(path: str, encoding: str = "utf-8-sig", role: str = "") -> list[list[str]]:
    """The rows of a CSV file or of a worksheet, from the one with the titles. `role` is what is sought in a workbook of several
    worksheets: "sites", say."""
    file = file_of(path)
    if file.lower().endswith(BOOKS):
        return worksheet(file, path[len(file) + 1:], role)
    if file.lower().endswith(OTHER_BOOKS):
        raise Refusal(f"{path}: workbooks of this kind aren't read; save the sheet as CSV, or the workbook as .xlsx")
    return csv_rows(path, text_of(path, encoding))


def text_of(path: str, encoding: str) -> str:
    with open(path, "rb") as file:
        told = file.read()
    try:
        # A file of spreadsheets that is called Unicode text says by its first bytes what it is.
        return told.decode("utf-16" if told.startswith(UTF16) else encoding)
    except (UnicodeDecodeError, LookupError):
        raise Refusal(f"{path}: it isn't written in {encoding}; --encoding says in what it is, as cp1252") from None


def csv_rows(path: str, text: str) -> list[list[str]]:
    """The rows of a text whose cells are parted by semicolons, tabs or commas: by what stands most often between the titles, or what
    a first line such as `sep=;` says, which no spreadsheet counts as a row."""
    said = re.match(r'"?sep=([;,\t|])"?[;,\t|]*(?:\r\n|\n|\r)', text, re.I)
    text = text[said.end():] if said else text
    first = re.sub(r'"[^"]*"', "", re.match(r'(?:"[^"]*"|[^"\r\n])*', text)[0])
    lines = csv.reader(io.StringIO(text, newline=""), delimiter=said[1] if said else max(";\t,", key=first.count), strict=True)
    try:
        return [[clean(it) for it in cells] for cells in lines]
    except csv.Error as fault:
        raise Refusal(f"{path}, line {lines.line_num + bool(said)}: {fault}") from None


def worksheet(path: str, name: str, role: str) -> list[list[str]]:
    """The rows of a worksheet, all as long as the longest."""
    try:
        import openpyxl
    except ImportError:
        raise Refusal(f"{path}: workbooks are read by openpyxl, which isn't installed; save the sheet as CSV") from None
    with open(path, "rb") as file:
        told = file.read()
    try:
        values, formulas = (openpyxl.load_workbook(io.BytesIO(told), read_only=True, data_only=it) for it in (True, False))
    except Exception as fault:
        raise Refusal(f"{path}: this is no workbook that can be read ({fault})") from None
    title = chosen(path, values.sheetnames, name, role)
    rows = [[*pair] for pair in zip(values[title].iter_rows(values_only=True), formulas[title].iter_rows(values_only=True))]
    wide = max((len(row) for row, _ in rows), default=0)
    return [[*map(cell_of, row, made), *[""] * (wide - len(row))] for row, made in rows]


def chosen(path: str, titles: list[str], name: str, role: str) -> str:
    """The worksheet that is meant: the one that is named, the only one, or the one whose title is the role."""
    found = [it for it in titles if it.strip().lower() == (name or role).lower()]
    if len(found) == 1 or (not name and len(titles) == 1):
        return (found or titles)[0]
    raise Refusal(f"{path}: it has the worksheets {', '.join(titles)}; {path}#{titles[0]} names one")


def cell_of(value: Any, made: Any) -> str:
    """The text of a value, beside what it was made of."""
    if value is None:
        return "" if made is None else "#VALUE!"
    if isinstance(value, (int, float)) and not isinstance(value, bool):
        return Typed(repr(value))
    return clean(str(value))
