"""A client of `meshrun live`: sends the same commands to a session and to an allocator, and compares the answers.

An allocator under test is a class with the commands of `Allocator`, or with the few calls of `AllocatorByAddress`:

    import live_client

    class Mine(live_client.AllocatorByAddress):
        ...

    def start():
        return live_client.Comparison(live_client.Session("crates/meshrun/out/meshrun"), Mine())

    with start() as comparison:
        entries, difference = live_client.fuzz(comparison, seed=1, lines=5000)
    if difference is not None:
        found = live_client.shrink(entries, difference, start)
        print(found.report())
        print(found.job, end="")

What is played is a list of entries. An entry is a text of one of these forms:

    run W COMMAND     worker W attempts COMMAND on both sides, and the answers are compared
    own NUMBER        the allocator makes a step of its own. The session isn't asked
    any other line    a line of the mesher, such as `step 512`, for the session only

COMMAND is spelt as in a job file (docs/FORMAT.md). But `peek CELL+OFF` and `poke CELL+OFF BYTE` name an address by a
live object and an offset, since each side has its own addresses. If a command is blocked, the worker's next `run`
attempts the blocked command again instead of its own. So the played lines are always those of a job file, and the same
entries always give the same answers if the allocator is deterministic.

`examples/fuzz_live.py` is a user of this module. Needs the standard library only.
"""

import abc
import collections
import ctypes
import itertools
import math
import random
import subprocess
import typing

MAX_LENGTH = 2048  # of an object of the session
MESHER_CLASSES = (512, 1024, 2048)
CELLS = 20
COMMANDS = ("new", "put", "get", "free", "alias", "addr", "peek", "poke", "copy")
# Answers after which the worker attempts the same command again.
RETRIED = ("blocked", "history full")
# Answers that depend on the session's pages and addresses. The allocator isn't asked.
NOT_COMPARED = ("refused 3 NO_PAGES", "refused 4 NO_ADDRESSES")


class Refused(Exception):
    """An allocator's refusal of a command, with the number and the name of docs/FORMAT.md: Refused("6 FREED")."""


class Allocator(abc.ABC):
    """What an allocator under test implements: the nine commands of docs/FORMAT.md, and a step of its own.

    Cells 0 to 255 hold references to objects. A command on a cell without a reference raises Refused("5 EMPTY"), on a
    reference to an object that was freed Refused("6 FREED"), on bytes past the object's length Refused("7 OUTSIDE"),
    and the first of these three if several hold. A refused command changes nothing. Any other exception, and any
    other answer than the session's, is a difference.

    Objects have serials, 0, 1, .. in the order in which `new` made them. Addresses are the allocator's own. The only
    thing that is compared of them is that an object's address stays the same while the object is live.
    """

    @abc.abstractmethod
    def new(self, cell, length, word):
        """Makes an object of `length` zero bytes, and stores its reference in the cell. Returns its address.

        `word` is a random number that may pick the place. Raises Refused("1 ZERO") for length 0, and
        Refused("2 TOO_LARGE") for a length above MAX_LENGTH. An allocator that is out of memory can't be compared any
        further: give the session fewer pages than the allocator has.
        """

    @abc.abstractmethod
    def put(self, cell, off, data):
        """Stores bytes in the cell's object, from `off` on."""

    @abc.abstractmethod
    def get(self, cell, off, length):
        """Returns `length` bytes of the cell's object, from `off` on."""

    @abc.abstractmethod
    def free(self, cell):
        """Frees the cell's object. The cell, and any other cell with the same reference, keeps the stale reference."""

    @abc.abstractmethod
    def alias(self, to, source):
        """Stores the reference of the cell `source`, whose object must be live, in the cell `to` too."""

    @abc.abstractmethod
    def addr(self, cell):
        """Returns the address of the cell's object, the one that `new` returned."""

    @abc.abstractmethod
    def peek(self, serial, off):
        """Returns the byte at an address, the one `off` bytes after the start of a live object."""

    @abc.abstractmethod
    def poke(self, serial, off, data):
        """Stores the byte `data` at an address, the one `off` bytes after the start of a live object."""

    @abc.abstractmethod
    def copy(self, to, to_off, source, off, length):
        """Copies `length` bytes of the object of the cell `source` into the object of the cell `to`.

        The ranges may overlap: the stored bytes are those that the source had before the command.
        """

    def step(self, number):
        """Makes a step of the allocator's own work, such as a step of a mesh. A random number picks among choices.

        The step must depend on nothing but the number and the calls so far.
        """

    def close(self):
        """Called once, after the last command."""


class AllocatorByAddress(Allocator):
    """An allocator that knows addresses only, as `malloc` does. Cells, serials, bounds and refusals are kept here."""

    def __init__(self):
        self.cells = {}  # of each cell, a serial
        self.objects = []  # of each serial, the address and the length, or None if it was freed

    @abc.abstractmethod
    def reserve(self, length, word):
        """Returns the address of a new object of 1 to MAX_LENGTH zero bytes."""

    @abc.abstractmethod
    def release(self, address):
        """Frees the object that begins at the address."""

    @abc.abstractmethod
    def load(self, address, length):
        """Returns bytes of one live object."""

    @abc.abstractmethod
    def store(self, address, data):
        """Stores bytes in one live object."""

    def new(self, cell, length, word):
        if length == 0:
            raise Refused("1 ZERO")
        if length > MAX_LENGTH:
            raise Refused("2 TOO_LARGE")
        address = self.reserve(length, word)
        self.cells[cell] = len(self.objects)
        self.objects.append((address, length))
        return address

    def put(self, cell, off, data):
        [serial] = self.serials_of(cell)
        self.store(self.place(serial, off, len(data)), data)

    def get(self, cell, off, length):
        [serial] = self.serials_of(cell)
        return self.load(self.place(serial, off, length), length)

    def free(self, cell):
        [serial] = self.serials_of(cell)
        address, _ = self.objects[serial]
        self.objects[serial] = None
        self.release(address)

    def alias(self, to, source):
        [self.cells[to]] = self.serials_of(source)

    def addr(self, cell):
        [serial] = self.serials_of(cell)
        return self.place(serial, 0, 0)

    def peek(self, serial, off):
        return self.load(self.place(serial, off, 1), 1)

    def poke(self, serial, off, data):
        self.store(self.place(serial, off, 1), data)

    def copy(self, to, to_off, source, off, length):
        target, origin = self.serials_of(to, source)
        to_address, address = self.place(target, to_off, length), self.place(origin, off, length)
        self.store(to_address, self.load(address, length))

    def serials_of(self, *cells):
        """The serials of the live objects of these cells."""
        if any(cell not in self.cells for cell in cells):
            raise Refused("5 EMPTY")
        serials = [self.cells[cell] for cell in cells]
        if any(self.objects[serial] is None for serial in serials):
            raise Refused("6 FREED")
        return serials

    def place(self, serial, off, length):
        """The address of bytes of a live object."""
        address, object_length = self.objects[serial]
        if off + length > object_length:
            raise Refused("7 OUTSIDE")
        return address + off


class GlibcAllocator(AllocatorByAddress):
    """The C library's `malloc` and `free`, or two functions of the same types of another shared library."""

    def __init__(self, library=None, malloc="malloc", free="free"):
        super().__init__()
        functions = ctypes.CDLL(library)
        self.malloc, self.free_memory = functions[malloc], functions[free]
        self.malloc.argtypes, self.malloc.restype = [ctypes.c_size_t], ctypes.c_void_p
        self.free_memory.argtypes, self.free_memory.restype = [ctypes.c_void_p], None

    def reserve(self, length, word):
        address = self.malloc(length)
        if address is None:
            raise Refused("3 NO_PAGES")
        ctypes.memset(address, 0, length)
        return address

    def release(self, address):
        self.free_memory(address)

    def load(self, address, length):
        return ctypes.string_at(address, length)

    def store(self, address, data):
        ctypes.memmove(address, data, len(data))

    def close(self):
        for address, _ in filter(None, self.objects):
            self.release(address)


class SessionError(Exception):
    """The session ended too early, or did not accept a line."""


class Session:
    """A running `meshrun live`, with the lines that it was asked and its answers."""

    def __init__(self, program, pages=64, history=65536, workers=3):
        self.pages, self.history, self.workers = pages, history, workers
        words = [program, "live", "--pages", str(pages), "--history", str(history), "--workers", str(workers)]
        self.process = subprocess.Popen(words, stdin=subprocess.PIPE, stdout=subprocess.PIPE)
        self.asked = []

    def ask(self, line):
        """Sends a line. Returns its answer."""
        try:
            self.process.stdin.write(f"{line}\n".encode())
            self.process.stdin.flush()
        except BrokenPipeError:
            raise SessionError(f"{line}: the session has ended") from None
        answer = self.process.stdout.readline().decode()
        if not answer.endswith("\n"):
            raise SessionError(f"{line}: no answer")
        if answer.startswith("fault "):
            raise SessionError(f"{line}: {answer[:-1]}")
        self.asked.append((line, answer[:-1]))
        return answer[:-1]

    def end(self):
        """Ends the session. Returns its status."""
        try:
            self.process.stdin.close()
        except BrokenPipeError:
            pass  # it has ended
        self.process.stdout.close()
        return self.process.wait()

    def job(self):
        """The lines as a job file. A command that was retried is in its script once."""
        scripts = [[] for _ in range(self.workers)]
        is_retried = [False] * self.workers
        plan = []
        for line, answer in self.asked:
            if line.startswith("run "):
                _, worker, command = line.split(" ", 2)
                if not is_retried[int(worker)]:
                    scripts[int(worker)].append(command)
                is_retried[int(worker)] = answer in RETRIED
                line = f"run {worker}"
            plan.append(line)
        head = ["mesh 2", f"pages {self.pages}", f"history {self.history}", f"workers {self.workers}"]
        body = [text for worker, script in enumerate(scripts) for text in (f"worker {worker}", *script)]
        return "".join(f"{text}\n" for text in (*head, *body, "plan", *plan, "end"))


class Difference(typing.NamedTuple):
    """An answer that differs."""

    command: str
    proved: str
    allocator: str

    @property
    def kind(self):
        """What both answers are, without their bytes and numbers. Shrinking keeps it."""
        return tuple(text if text.startswith("refused ") else text.split()[0] for text in (self.proved, self.allocator))

    def __str__(self):
        return f"{self.command}: {self.proved!r} of the proved heap, {self.allocator!r} of the allocator"


class Comparison:
    """A session and an allocator to which the same entries are played, and what is known of the objects."""

    def __init__(self, session, allocator):
        self.session, self.allocator = session, allocator
        self.cells = {}  # of each cell, the serial of its object
        self.lengths = {}  # of the serial of each live object, its length
        self.addresses, self.own_addresses = [], []  # of each serial, the address in the session and in the allocator
        self.waiting = {}  # of each worker whose last command was blocked, this command
        self.compared = 0

    def __enter__(self):
        return self

    def __exit__(self, *_):
        self.session.end()
        self.allocator.close()

    def play(self, entry):
        """Plays an entry. Returns a Difference, or None."""
        word, _, rest = entry.partition(" ")
        if word == "run":
            worker, _, command = rest.partition(" ")
            return self.run(int(worker), command)
        if word == "own":
            answer = answer_of(lambda: self.own_step(int(rest)))
            return None if answer == "done" else Difference(entry, "done", answer)
        self.session.ask(entry)
        return None

    def run(self, worker, command):
        """Attempts a worker's command on both sides, or its last one again if this one was blocked."""
        command = self.waiting.pop(worker, None) or self.with_address(command)
        if command is None:
            return None
        answer = self.session.ask(f"run {worker} {command}")
        if answer in RETRIED:
            self.waiting[worker] = command
        if answer in RETRIED or answer in NOT_COMPARED:
            return None
        word, *fields = command.split(" ")
        proved = self.proved_answer(fields, answer)
        own = answer_of(lambda: self.own_answer(word, fields))
        self.compared += 1
        if proved != own:
            return Difference(command, proved, own)
        self.keep(word, fields, proved)
        return None

    def with_address(self, command):
        """A command as the session spells it, with an address for CELL+OFF. None if no live object has this byte."""
        word, place, *data = command.split(" ")
        if word not in ("peek", "poke"):
            return command
        cell, off = map(int, place.split("+"))
        if off >= self.length_of(cell):
            return None
        return " ".join([word, f"{self.addresses[self.cells[cell]] + off:x}", *data])

    def proved_answer(self, fields, answer):
        """The session's answer without its address."""
        words = answer.split(" ")
        if words[0] == "object":
            self.addresses.append(int(words[3], 16))
            return f"object {words[1]}"
        if words[0] == "at":
            return self.same_or_other(fields, self.addresses, int(words[1], 16))
        return answer

    def own_answer(self, word, fields):
        """The allocator's answer to a command, as the session spells it, without its address."""
        if word in ("peek", "poke"):
            arguments = [*self.place_of(int(fields[0], 16)), *map(bytes.fromhex, fields[1:])]
        elif word == "put":
            arguments = [int(fields[0]), int(fields[1]), bytes.fromhex(fields[2])]
        else:
            arguments = map(int, fields)
        returned = getattr(self.allocator, word)(*arguments)
        if word == "new":
            self.own_addresses.append(returned)
            return f"object {len(self.own_addresses) - 1}"
        if word == "addr":
            return self.same_or_other(fields, self.own_addresses, returned)
        if word in ("get", "peek"):
            return f"{'bytes' if word == 'get' else 'byte'} {returned.hex()}"
        return "done"

    def own_step(self, number):
        self.allocator.step(number)
        return "done"

    def same_or_other(self, fields, addresses, address):
        """What is compared of the address of a cell's object: whether it is the one that the object had at first."""
        first = addresses[self.cells[int(fields[0])]]
        return "same address" if address == first else f"other address {address:x} than {first:x}"

    def keep(self, word, fields, answer):
        """Keeps what a command changed, if it wasn't refused."""
        if word == "new" and answer.startswith("object "):
            serial = int(answer.split(" ")[1])
            self.cells[int(fields[0])] = serial
            self.lengths[serial] = int(fields[1])
        elif word == "free" and answer == "done":
            del self.lengths[self.cells[int(fields[0])]]
        elif word == "alias" and answer == "done":
            self.cells[int(fields[0])] = self.cells[int(fields[1])]

    def length_of(self, cell):
        """The length of a cell's object, or 0 if there is none or it was freed."""
        return self.lengths.get(self.cells.get(cell), 0)

    def place_of(self, address):
        """The serial and the offset of an address of the session."""
        for serial, length in self.lengths.items():
            if 0 <= address - self.addresses[serial] < length:
                return serial, address - self.addresses[serial]
        raise Refused("8 STRAY")


def answer_of(call):
    """The text that a call of the allocator returns, or one for what it raises."""
    try:
        return call()
    except Refused as refused:
        return f"refused {refused}"
    except Exception as error:  # a fault of the allocator under test
        return f"{type(error).__name__}: {error}"


class RandomEntries:
    """Makes random entries one by one, each after the one before was played. The same seed makes the same entries."""

    def __init__(self, comparison, seed):
        self.comparison = comparison
        self.rng = random.Random(seed)
        self.last = {}  # of each worker, its last entry
        self.stores = collections.deque(maxlen=40)
        self.pairs = []  # that the last search found: a class and two groups
        self.meshing = set()  # classes

    def entry(self):
        """The next entry. A worker whose command was blocked attempts it again."""
        if self.rng.random() < 0.2:
            return f"own {self.rng.getrandbits(16)}"
        if self.rng.random() < 0.35:
            return self.mesher_line()
        worker = self.rng.randrange(self.comparison.session.workers)
        if worker not in self.comparison.waiting:
            self.last[worker] = f"run {worker} {self.command()}"
        return self.last[worker]

    def played(self, entry):
        """Learns from the session's answer to an entry of the mesher what it may do next."""
        word, *fields = entry.split(" ")
        if word in ("run", "own"):
            return
        _, answer = self.comparison.session.asked[-1]
        if word == "pair":
            self.pairs = [(int(fields[0]), *pair.split(":")) for pair in answer.split(" ")[4:]]
        elif word == "begin":
            size, *_ = self.pairs.pop()
            if answer.startswith("left "):
                self.meshing.add(size)
        elif word in ("step", "cancel") and answer.endswith("left 0"):
            self.meshing.discard(int(fields[0]))

    def mesher_line(self):
        """Searches for pairs, begins a mesh, makes a step, or cancels."""
        rng = self.rng
        if self.meshing and rng.random() < 0.8:
            return f"{'cancel' if rng.random() < 0.05 else 'step'} {rng.choice(sorted(self.meshing))}"
        if self.pairs:
            _, source, target = self.pairs[-1]
            return f"begin {source} {target}"
        return f"pair {rng.choice(MESHER_CLASSES)} 8 {rng.getrandbits(16)} {rng.getrandbits(16)}"

    def command(self):
        """A command. Most are on live objects, and some are refused."""
        rng = self.rng
        cell, other = rng.randrange(CELLS), rng.randrange(CELLS)
        off, length = rng.choice((0, 0, rng.randrange(40), rng.randrange(2100))), rng.randint(1, 32)
        data = rng.randbytes(rng.randint(1, 8))
        kind = rng.choices(COMMANDS, (12, 10, 10, 6, 1, 1, 2, 2, 2))[0]
        if kind in ("new", "alias") and self.comparison.length_of(cell):
            kind = "free" if rng.random() < 0.4 else "put"
        if kind == "new":
            return f"new {cell} {rng.choice((500, 1000, 2048, rng.randrange(2100)))} {rng.getrandbits(16)}"
        if kind == "put":
            self.stores.append((cell, off, len(data)))
            return f"put {cell} {off} {data.hex()}"
        if kind == "get":
            if self.stores and rng.random() < 0.7:
                cell, off, length = rng.choice(self.stores)
            return f"get {cell} {off} {length}"
        if kind == "alias":
            return f"alias {cell} {other}"
        if kind == "copy":
            return f"copy {cell} {off} {other} {off // 2} {length}"
        if kind in ("peek", "poke"):
            return self.by_address(kind, data) or f"addr {cell}"
        return f"{kind} {cell}"

    def by_address(self, kind, data):
        """A load or a store of a byte of a live object by its address, or None if no object is live."""
        live = [cell for cell in range(CELLS) if self.comparison.length_of(cell)]
        if not live:
            return None
        cell = self.rng.choice(live)
        place = f"{cell}+{self.rng.randrange(self.comparison.length_of(cell))}"
        return f"peek {place}" if kind == "peek" else f"poke {place} {data[:1].hex()}"


def fuzz(comparison, seed, lines):
    """Plays random entries until the session has answered this many lines, or an answer differs.

    Returns the entries, and the Difference or None.
    """
    random_entries = RandomEntries(comparison, seed)
    entries = []
    while len(comparison.session.asked) < lines:
        entries.append(random_entries.entry())
        difference = comparison.play(entries[-1])
        if difference is not None:
            return entries, difference
        random_entries.played(entries[-1])
    return entries, None


def play(comparison, entries):
    """Plays entries until an answer differs. Returns the played entries, and the Difference or None."""
    for count, entry in enumerate(entries, 1):
        difference = comparison.play(entry)
        if difference is not None:
            return entries[:count], difference
    return entries, None


class Shrunk:
    """A list of entries whose last one has an answer that differs, while it is cut down."""

    def __init__(self, entries, difference, start, most_sessions):
        self.entries, self.difference = entries, difference
        self.start, self.most_sessions = start, most_sessions
        self.entries_at_first = len(entries)
        self.sessions = 0
        self.tried = set()  # hashes of the lists that were played
        self.is_minimal = False  # whether it is known that no entry can be removed
        self.job = ""

    def keep(self, entries):
        """Plays entries in a session of their own, and keeps them if an answer differs in the same way."""
        key = hash(tuple(entries))
        if key in self.tried or self.sessions == self.most_sessions:
            return False
        self.tried.add(key)
        self.sessions += 1
        with self.start() as comparison:
            entries, difference = play(comparison, entries)
        if difference is None or difference.kind != self.difference.kind:
            return False
        self.entries, self.difference, self.job = entries, difference, comparison.session.job()
        self.is_minimal = False
        return True

    def begin_late(self):
        """Tries to keep only the last entries: sixteen of them, then twice as many, and so on."""
        count = 16
        while count < len(self.entries) and not self.keep(self.entries[-count:]):
            count *= 2

    def remove_each(self, size):
        """Tries to remove each run of this many entries, the last ones first. Returns whether it removed one."""
        has_removed = False
        stop = len(self.entries) - 1  # the last entry is the one that differs
        while stop > 0:
            first = max(0, stop - size)
            if self.keep(self.entries[:first] + self.entries[stop:]):
                has_removed = True
            stop = min(first, len(self.entries) - 1)
        return has_removed

    def remove_single(self):
        """Tries to remove each entry. Returns whether it removed one."""
        has_removed = self.remove_each(1)
        self.is_minimal = not has_removed and self.sessions < self.most_sessions
        return has_removed

    def remove_together(self, count):
        """Tries to remove this many entries at once, wherever they are, if the sessions suffice for it.

        Returns whether it did.
        """
        entries = self.entries
        if math.comb(len(entries) - 1, count) > self.most_sessions - self.sessions:
            return False
        places = itertools.combinations(range(len(entries) - 1), count)
        return any(self.keep([entry for k, entry in enumerate(entries) if k not in some]) for some in places)

    def simplify(self):
        """Tries to replace the numbers of the allocator's steps, and those that pick slots, by 0 or 1.

        Returns whether it replaced one.
        """
        return any([self.simplify_entry(place) for place in range(len(self.entries))])

    def simplify_entry(self, place):
        """Tries to replace the last number of the entry at this place, if it picks something, by 0 or 1."""
        *fields, number = self.entries[place].split(" ") if place < len(self.entries) else [""]
        if "own" not in fields and "new" not in fields:
            return False
        simpler = [" ".join([*fields, str(least)]) for least in range(min(2, int(number)))]
        return any(self.keep([*self.entries[:place], entry, *self.entries[place + 1:]]) for entry in simpler)

    def remove_all(self):
        """Removes entries until no entry can be removed, or no session is left."""
        self.begin_late()
        self.keep([entry for entry in self.entries if entry.startswith(("run ", "own "))])
        self.keep([by_first_worker(entry) for entry in self.entries])
        self.keep(["own 0" if entry.startswith("own ") else entry for entry in self.entries])
        for word in COMMANDS:
            *others, last = self.entries
            self.keep([entry for entry in others if word not in entry.split(" ")] + [last])
        size = len(self.entries) // 2
        while size > 1:
            self.remove_each(size)
            size = min(size, len(self.entries)) // 2
        while self.sessions < self.most_sessions and (
            self.remove_single() or self.simplify() or self.remove_together(2) or self.remove_together(3)
        ):
            pass

    def report(self):
        """The entries, and in how many sessions they were found."""
        end = "each of them matters" if self.is_minimal else "more may be removed in more sessions"
        count = f"{self.entries_at_first} entries shrunk to {len(self.entries)} in {self.sessions} sessions: {end}"
        return "\n".join([count, *self.entries, str(self.difference)])


def by_first_worker(entry):
    """The entry, with worker 0 for its worker."""
    word, *fields = entry.split(" ")
    return " ".join(["run", "0", *fields[1:]]) if word == "run" else entry


def shrink(entries, difference, start, most_sessions=400):
    """Cuts down entries whose last one differs, until each of them matters. Returns what is left, a Shrunk.

    `start` returns a fresh Comparison: each attempt has a session and an allocator of its own. The difference that is
    left is of the same kind. Returns None if the difference doesn't come back when the same entries are played again.
    """
    shrunk = Shrunk(entries, difference, start, most_sessions)
    if not shrunk.keep(entries):
        return None
    shrunk.remove_all()
    return shrunk
