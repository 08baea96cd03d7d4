#!/usr/bin/python3
"""Makes tables in SQLite of archives: to_sqlite.py DIR FILE [QUERY]

FILE, which is made, gets a table for each event with a column for each field, and before them `_trace`, `_stream`, `_moment` and
`_serial`. Arrays are JSON; numbers above 2^63 - 1, which SQLite doesn't have, are text. The rows of a QUERY are printed."""
import json
import sqlite3
import sys

from records import in_json, records

LARGEST = 2**63 - 1


def column(value):
    if isinstance(value, list):
        return json.dumps(in_json(value))
    return str(value) if isinstance(value, int) and value > LARGEST else value


def fill(base, folder):
    tables = set()
    for it in records(folder):
        row = {"_trace": it.trace, "_stream": it.stream, "_moment": it.moment, "_serial": it.serial, **it.fields}
        names = ", ".join(f'"{name}"' for name in row)
        if it.event not in tables:
            base.execute(f'create table "{it.event}" ({names})')
            tables.add(it.event)
        places = ", ".join("?" * len(row))
        base.execute(f'insert into "{it.event}" ({names}) values ({places})', [column(value) for value in row.values()])
    base.commit()


def main(folder, file, *queries):
    base = sqlite3.connect(file)
    fill(base, folder)
    for query in queries:
        for row in base.execute(query):
            print(*row, sep="|")


if __name__ == "__main__":
    if len(sys.argv) < 3:
        sys.exit(__doc__)
    main(*sys.argv[1:])
