"""Records what a cache answers and what a database commits, a JSON line a call, for `hib judge` (docs/TRACES.md).

A trace is opened once. Each thread, or each request, speaks through a session of its own:

    trace = Trace('shop.jsonl')
    session = trace.session()
    cache = session.cache(client)                # any client with get, set and delete
    database = session.database(connection)      # any DB-API connection

    title = cache.get('Book 1')
    if title is None:
        title = database.load('Book 1', lambda: query(connection))
        cache.set('Book 1', title)

    database.write('Book 1', 'Dune', lambda: update(connection), base=title)
    database.commit()
    cache.delete('Book 1')

A line is written when its call has returned, with the instants before and after it by one clock. What a row holds isn't
written: a value stands in the trace as a digest of its `repr`. It needs Python 3.8, and nothing else.
"""
import hashlib
import itertools
import json
import threading
import time

NONE = object()


def digest(value):
    """What tells a value apart from others, in 16 hexadecimal digits."""
    return hashlib.blake2b(repr(value).encode(), digest_size=8).hexdigest()


class Trace:
    """The file of a trace. Threads may share it. `tell` makes a text of a value that rows are told apart by."""

    def __init__(self, path, tell=digest, clock=time.monotonic_ns):
        self.tell, self.clock = tell, clock
        self._file, self._lock = open(path, 'a', encoding='utf-8'), threading.Lock()
        self._numbers = itertools.count(1)

    def session(self, name=None):
        """A session of this name, which one thread at a time speaks through."""
        return Session(self, name or 's%d' % next(self._numbers))

    def line(self, **members):
        """Writes a line, whole."""
        text = json.dumps({k: v for k, v in members.items() if v is not None}) + '\n'
        with self._lock:
            self._file.write(text)

    def close(self):
        """Ends the trace: no more lines are written."""
        with self._lock:
            self._file.close()


class Session:
    """What one thread or request does, with one transaction after the other."""

    def __init__(self, trace, name):
        self.trace, self.name, self._transaction = trace, name, 1

    def cache(self, client):
        """The client of a cache, whose calls are recorded."""
        return Cache(self, client)

    def database(self, connection):
        """A connection to a database, whose commits are recorded."""
        return Database(self, connection)

    def timed(self, call, *arguments, **named):
        """What a call answers, and the instants before and after it."""
        begin = self.trace.clock()
        answer = call(*arguments, **named)
        return answer, begin, self.trace.clock()

    def note(self, operation, begin, end, key=None, value=NONE, outcome=None, base=NONE):
        """Writes the line of a call."""
        self.trace.line(
            session=self.name, tx='%s/%d' % (self.name, self._transaction), op=operation,
            key=key if key is None else str(key), value=None if value is NONE else self.trace.tell(value),
            base=None if base is NONE else self.trace.tell(base), begin=begin, end=end, outcome=outcome)

    def next_transaction(self):
        """What comes now is of another transaction."""
        self._transaction += 1


class Cache:
    """A cache's client. `get`, `set` and `delete` are recorded, all else is handed on."""

    def __init__(self, session, client):
        self._session, self._client = session, client

    def get(self, key, *rest, **named):
        answer, begin, end = self._session.timed(self._client.get, key, *rest, **named)
        if answer is None:
            self._session.note('miss', begin, end, key)
        else:
            self._session.note('hit', begin, end, key, answer)
        return answer

    def set(self, key, value, *rest, **named):
        answer, begin, end = self._session.timed(self._client.set, key, value, *rest, **named)
        self._session.note('put', begin, end, key, value, 'refused' if answer is False else 'stored')
        return answer

    def delete(self, key, *rest, **named):
        answer, begin, end = self._session.timed(self._client.delete, key, *rest, **named)
        self._session.note('drop', begin, end, key)
        return answer

    def __getattr__(self, name):
        return getattr(self._client, name)


class Database:
    """A connection. `commit` and `rollback` are recorded; of a row that is read or written its reader or writer says so."""

    def __init__(self, session, connection):
        self._session, self._connection = session, connection

    def load(self, key, read):
        """The value that `read()` answers, recorded as what the database had at this key."""
        value, begin, end = self._session.timed(read)
        if value is not None:
            self._session.note('load', begin, end, key, value)
        return value

    def write(self, key, value, do, base=NONE):
        """Does `do()`, recorded as a write of this value at this key. `base` is the value that the new one rests on, if the
        writer has read one."""
        answer, begin, end = self._session.timed(do)
        self._session.note('write', begin, end, key, value, base=base)
        return answer

    def commit(self):
        begin, outcome = self._session.trace.clock(), 'unknown'
        try:
            self._connection.commit()
            outcome = 'committed'
        finally:
            self._session.note('commit', begin, self._session.trace.clock(), outcome=outcome)
            self._session.next_transaction()

    def rollback(self):
        _, begin, end = self._session.timed(self._connection.rollback)
        self._session.note('rollback', begin, end, outcome='done')
        self._session.next_transaction()

    def __getattr__(self, name):
        return getattr(self._connection, name)
