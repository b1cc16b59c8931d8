"""The rows of a register's file, read and written by Python's SQLite."""
import pathlib
import shutil
import sqlite3
import tempfile

TABLES = ("meta", "databases", "records", "postings", "blocks", "dict")


def opened(folder):
    """The folder's register; what a crash would leave of it is of no account here."""
    connection = sqlite3.connect(folder / "books.db", isolation_level=None)
    connection.execute("PRAGMA synchronous = OFF")
    return connection


def all_rows(folder):
    """The rows of each table, of a copy: the file is left as the program left it. Texts are bytes."""
    with tempfile.TemporaryDirectory(prefix="zebraidx-rows-") as name:
        for file in folder.glob("books.db*"):
            shutil.copy(file, name)
        connection = opened(pathlib.Path(name))
        connection.text_factory = bytes
        found = {it: sorted(connection.execute(f"SELECT * FROM {it}")) for it in TABLES}
        connection.close()
    return found
