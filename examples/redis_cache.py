#!/usr/bin/env python3
"""Fills a Redis cache first with short values and then with longer ones, and ends the server.

    redis-server examples/redis_cache.conf &
    examples/redis_cache.py redis.sock [--short N] [--long N] [--rate N]

Each of N keys is set once, first those with values of 240 bytes (175000 by default) and then those with values of 492
bytes (42500 by default), at most 10000 keys a second: the server's clock for the use of keys has seconds. Python's
standard library is enough. The status is 1 if the server can't be reached or gives an error.
"""

import argparse
import socket
import sys
import time

SHORT = 240  # bytes of a value
LONG = 492
COMMANDS = 500  # sent at once
WAIT = 10  # seconds for the server to start


def connected(path):
    """A connection to the server's socket, which the server may be about to make."""
    end = time.monotonic() + WAIT
    while True:
        connection = socket.socket(socket.AF_UNIX)
        try:
            connection.connect(path)
            return connection
        except OSError:
            connection.close()
            if time.monotonic() > end:
                raise
            time.sleep(0.05)


def command(*words):
    """A command in the protocol of Redis."""
    return b"*%d\r\n" % len(words) + b"".join(b"$%d\r\n%s\r\n" % (len(word), word) for word in words)


def fill(connection, answers, name, count, length, rate):
    """Sets this many keys to values of this length, at most `rate` of them a second."""
    value = b"v" * length
    begin = time.monotonic()
    for first in range(0, count, COMMANDS):
        last = min(first + COMMANDS, count)
        time.sleep(max(0.0, begin + first / rate - time.monotonic()))
        connection.sendall(b"".join(command(b"SET", b"%s:%d" % (name, key), value) for key in range(first, last)))
        for _ in range(first, last):
            answer = answers.readline()
            if answer != b"+OK\r\n":
                raise OSError(f"the server answered {answer.decode(errors='replace').strip() or 'nothing'}")


def main():
    parser = argparse.ArgumentParser(description="Fills a Redis cache with short and then with longer values.")
    parser.add_argument("socket", help="the socket of the server")
    parser.add_argument("--short", type=int, default=175000, help="keys with values of 240 bytes")
    parser.add_argument("--long", type=int, default=42500, help="keys with values of 492 bytes")
    parser.add_argument("--rate", type=int, default=10000, help="keys set in a second, at most")
    words = parser.parse_args()
    try:
        with connected(words.socket) as connection, connection.makefile("rb") as answers:
            fill(connection, answers, b"short", words.short, SHORT, words.rate)
            fill(connection, answers, b"long", words.long, LONG, words.rate)
            connection.sendall(command(b"SHUTDOWN", b"NOSAVE"))
            answers.read()
    except OSError as error:
        print(f"redis_cache.py: {error}", file=sys.stderr)
        return 1
    return 0


if __name__ == "__main__":
    sys.exit(main())
