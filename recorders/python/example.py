#!/usr/bin/env python3
"""Two requests and a cache beside SQLite, in the order in which the cache keeps an old row:

    recorders/python/example.py TRACE

The reader misses, and loads the row. Before it puts the row into the cache the writer changes it, commits and drops the
key. So the cache has the old row from then on, and `hib judge` says so of the last answer.
"""
import sqlite3
import sys

from cache_trace import Trace


class Shelf(dict):
    """A cache in memory, with a client's calls."""

    def set(self, key, value):
        self[key] = value

    def delete(self, key):
        self.pop(key, None)


def connect():
    return sqlite3.connect('file:shop?mode=memory&cache=shared', uri=True, isolation_level=None)


def title(connection):
    return connection.execute('select title from book where id = 1').fetchone()[0]


def main():
    if len(sys.argv) != 2 or sys.argv[1].startswith('-'):
        print(__doc__)
        return 0 if sys.argv[1:] in (['-h'], ['--help']) else 2
    shelf, connection = Shelf(), connect()
    connection.execute('create table book(id integer primary key, title text)')
    connection.execute("insert into book values(1, 'Dune')")
    trace = Trace(sys.argv[1])
    reader, writer, late = trace.session('reader'), trace.session('writer'), trace.session('late')

    cache = reader.cache(shelf)
    assert cache.get('Book 1') is None
    loaded = reader.database(connection).load('Book 1', lambda: title(connection))

    database = writer.database(connect())
    database.execute('begin')
    database.write('Book 1', 'Dune Messiah', lambda: database.execute("update book set title = 'Dune Messiah' where id = 1"))
    database.commit()
    writer.cache(shelf).delete('Book 1')

    cache.set('Book 1', loaded)
    print(late.cache(shelf).get('Book 1'))
    trace.close()
    return 0


if __name__ == '__main__':
    sys.exit(main())
