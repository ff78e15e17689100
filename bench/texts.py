"""The texts that the benchmark gives the program: schedules, and what a server printed.

A kernel takes a size and gives a Work: the text in front of the work, the work, how often it is done in it, how much it is
each time, the size where none is said, and the command."""
from dataclasses import dataclass

SCHEMA = (
    "class State\nfield players map Player\nfield numbers array number\nfield held array Player\nfield chain Link\n"
    "class Player\nfield name string\nfield x number\nfield y number\nfield health number view\n"
    "class Link\nfield next Link\nroot State\n"
)
ROOM = "room00001"
# How many frames, requests and rooms the kernels of hubs have, how often a thing gets a number, how many messages there are.
FRAMES, REQUESTS, ROOMS, PUTS, MESSAGES = 200_000, 20_000, 20_000, 100, 1_000


@dataclass
class Work:
    front: str
    work: str
    times: int = 1
    amount: int | None = None
    command: tuple = ("replay",)

    def before(self):
        """The text of what comes before the work, alone."""
        return self.front + "end\n"

    def whole(self):
        return self.front + self.work + "end\n"


class Draws:
    """Numbers below limits."""

    def __init__(self):
        self.state = 42

    def below(self, limit):
        self.state = (self.state * 6364136223846793005 + 1442695040888963407) % 2**64
        return (self.state >> 33) % limit


def named(letter, number):
    """An id."""
    return f"{letter}{number:08}"


def head(rooms="room game max 64 seat 15000 patch 50 keep 60000\n", schema=SCHEMA):
    return f"{schema}process proc00001\n{rooms}events\n"


def acts(*lines, room=ROOM):
    return "".join(f"act {room} {line}\n" for line in lines)


def ask(method, name, body="{}", room=ROOM, session="s00000000"):
    return f"ask 1 /matchmake/{method}/{name} {body} {room} {session}\n"


def opened(conn, session, token, room=ROOM, old=None):
    """A connection is opened and its JOIN_ROOM acknowledged; old is the token of a kept seat."""
    behind = f"&reconnectionToken={old}" if old else ""
    return f"open {conn} /proc00001/{room}?sessionId={session}{behind} {token}\nframe {conn} 0a\n"


def clients(count):
    """So many clients come into the room, which the first one makes."""
    return "".join(
        ask("joinOrCreate", "game", session=named("s", client)) + opened(100 + client, named("s", client), named("t", client))
        for client in range(count)
    )


def tick(room=ROOM):
    return f"tick {room}\n"


# ---- reading and writing


def parse(size):
    """Nothing but lines `at MS`, the shortest that a schedule has, in a text of so many bytes."""
    front = head()
    return Work(front, "at 7\n" * ((size - len(front) - 4) // 5))


def toall(size, sessions):
    """Messages of so many bytes to so many live clients, and how many bytes are printed of each."""
    front = head() + clients(sessions) + tick()
    line = acts(f"toall 1 c5{size - 3:04x}{'ab' * (size - 3)}")
    return front, line


def print_(size):
    """So many bytes are printed: messages of 4 KiB to 64 clients."""
    front, line = toall(4096, 64)
    return Work(front, line * (size // (64 * 2 * 4096)))


# ---- one room


def rows(kind, count):
    return acts(f"make {kind}") * count


def collection(field):
    return acts(f"makefor 0 {field}", f"put 0 {field} #1")


def coming(count):
    """So many players come into the map."""
    return "".join(acts("make 1", f"putkey 1 '{named('p', index)} #{index + 2}") for index in range(count))


def watched(clients_, front):
    return head() + clients(clients_) + front


def puts(draws, players, numbers, count):
    return "".join(acts(f"put {draws.below(players) + 2} {1 + draws.below(numbers)} {draws.below(1000)}") for _ in range(count))


def things(players):
    return Work(watched(1, collection(0) + coming(players)), puts(Draws(), players, 2, players * PUTS))


def players(count):
    going = "".join(acts(f"delkey 1 '{named('p', index)}") for index in range(count))
    return Work(watched(1, collection(0)), coming(count) + going)


def pushes(count):
    return "".join(acts(f"push 1 {number}") for number in range(count))


def numbers_back(count):
    return Work(watched(1, collection(1)), pushes(count) + "".join(acts(f"delat 1 {place}") for place in reversed(range(count))))


def numbers_front(count):
    return Work(watched(1, collection(1) + pushes(count)), acts("delat 1 0") * count)


def chain_up(count):
    links = "".join(acts(f"put {number} 0 #{number + 1}") for number in reversed(range(1, count)))
    return Work(watched(1, rows(2, count)), links + acts("put 0 3 #1"))


def held_swept(count):
    return Work(watched(1, collection(2) + rows(1, 1)), acts("push 1 #2") * count + acts("unset 0 2") + tick())


def rows_swept(count):
    return Work(watched(1, rows(1, count)), tick())


def shown(client, place):
    return f"{named('s', client)} {place * 25 + client % 25 + 2} -1"


def views(sessions, turning, rounds):
    def work(count):
        front = head() + clients(sessions) + collection(0) + coming(count)
        front += "".join(acts(*(f"put {index + 2} {field} {index}" for field in (1, 2, 3))) for index in range(count))
        front += "".join(acts(f"viewadd {shown(client, place)}") for client in range(sessions) for place in range(count // 25))
        draws, parts = Draws(), []
        for turn in range(rounds):
            word = "viewdel" if turn % 2 == 0 else "viewadd"
            parts.append(puts(draws, count, 3, count // 100))
            parts.append("".join(acts(f"{word} {shown(client, 0)}") for client in range(turning)) + tick())
        return Work(front + tick(), "".join(parts), rounds, 1)

    return work


def turns(size):
    """A number in one of 63 fields, then a tick, in a text of so many bytes; each tick gives a patch."""
    fields = "".join(f"field f{n} number\n" for n in range(63))
    front = head(schema=f"class State\n{fields}root State\n") + clients(1) + tick()
    parts, left, number = [], size - len(front) - 4, 0
    while True:
        lines = acts(f"put 0 {number % 63} {number}") + tick()
        left -= len(lines)
        if left < 0:
            return Work(front, "".join(parts))
        parts.append(lines)
        number += 1


def returns(sessions):
    """All clients lose their connections, come back by their tokens, and are sent the whole state anew."""
    rounds, parts = 100, []
    for turn in range(rounds):
        base = 100 + turn * sessions
        parts.append("".join(f"drop {base + client}\n" for client in range(sessions)))
        for client in range(sessions):
            old, new = named("t", turn * sessions + client), named("t", (turn + 1) * sessions + client)
            parts.append(opened(base + sessions + client, named("s", client), new, old=old))
        parts.append(tick())
    front = head() + clients(sessions) + collection(0) + coming(25) + tick()
    return Work(front, "".join(parts), rounds, 1)


def to_all(sessions):
    front, line = toall(256, sessions)
    return Work(front, line * MESSAGES, MESSAGES, 1)


# ---- schemas and bodies


def read_schema(classes):
    fields = "".join(f"field f{n} number\n" for n in range(63))
    schema = "".join(f"class C{number}\n{fields}" for number in range(classes)) + "root C0\n"
    work = Work("", "")
    work.before = lambda: head(schema="class C0\nroot C0\n") + "end\n"
    work.whole = lambda: head(schema=schema) + "end\n"
    return work


def bodies(size):
    """Bodies of so many KiB: opening brackets, a key that is repeated, a number of that many digits."""
    size, times = size * 1024, 40
    key = '"key":1,'
    texts = ["[" * size, "{" + key * (size // len(key)) + '"key":1}', '{"key":' + "7" * (size - 8) + "}"]
    return Work(head(), "".join(ask("join", "game", body=text) for text in texts) * times, times)


# ---- hubs


def hall(filters=""):
    return head(f"room hall max 8 seat 15000 patch 50 keep 0{filters}\n")


def filled(count, left, body=lambda _: "{}", modes=1):
    """So many rooms of eight clients each; so many places of the newest of each mode are left."""
    parts = []
    for room in range(count):
        here = 8 - left if room + modes >= count else 8
        for client in range(here):
            number = room * 8 + client
            method, name = ("create", "hall") if client == 0 else ("joinById", named("r", room))
            made = named("r", room) if client == 0 else named("x", 0)
            parts.append(ask(method, name, body(room), made, named("s", number)))
            parts.append(opened(number + 10, named("s", number), named("t", number), named("r", room)))
    return "".join(parts)


def hub_frames(count):
    """Messages of clients of all rooms, in no order."""
    frames = "".join(f"frame {number * 7919 % (count * 8) + 10} 0d05c0\n" for number in range(FRAMES))
    return Work(hall() + filled(count, 0), frames, FRAMES, 1)


def guest(room, body="{}"):
    """A guest asks for a seat in any room, gets one in the newest that fits, and is kicked."""
    return ask("joinOrCreate", "hall", body, named("x", 0), named("g", 0)) + acts(f"kick {named('g', 0)} 4001", room=room)


def hub_requests(count):
    return Work(hall() + filled(count, 1), guest(named("r", count - 1)) * REQUESTS, REQUESTS, 1)


def requests(count):
    """The same among rooms of ten modes."""

    def body(room):
        return f'{{"mode":"m{room % 10}"}}'

    guests = "".join(guest(named("r", count - 10 + number % 10), body(count - 10 + number % 10)) for number in range(REQUESTS))
    return Work(hall(" filter mode") + filled(count, 1, body, 10), guests, REQUESTS, 1)


def other_rooms(count):
    """The same among rooms of one client each, all open, each of a mode of its own: the newest has the mode asked for."""

    def body(room):
        return f'{{"mode":"m{room}"}}'

    return Work(hall(" filter mode") + filled(count, 7, body, count), guest(named("r", count - 1), body(count - 1)) * REQUESTS, REQUESTS, 1)


def joins(count):
    """So many players ask for a seat in any room of four, and get the next one."""
    front = head("room four max 4 seat 15000 patch 50 keep 0\n")
    return Work(front, "".join(ask("joinOrCreate", "four", "{}", named("r", player), named("s", player)) for player in range(count)))


def hub_moments(count):
    """Rooms are made a millisecond after one another, and lapse so."""
    rounds, parts = ROOMS // count, []
    for turn in range(rounds):
        base = (turn + 1) * 10_000_000
        for room in range(count):
            parts.append(f"at {base + room}\n" + ask("create", "hall", "{}", named("r", room), named("s", room)))
        parts.extend(f"at {base + room + 15_000}\n" for room in range(count))
    return Work(hall(), "".join(parts), rounds)


# ---- what a client decodes

SWITCH, MARK, ADD, DELETE, REPLACE = 255, bytes((213, 1)), 128, 64, 0


def number(value):
    """A number as `@colyseus/schema` spells it."""
    if 0 <= value < 0x80:
        return bytes((value,))
    if -0x20 <= value < 0:
        return bytes((value + 0x100,))
    for code, size in ((0xCC, 1), (0xCD, 2), (0xCE, 4)):
        if 0 <= value < 1 << 8 * size:
            return bytes((code,)) + value.to_bytes(size, "little")
    for code, size in ((0xD0, 1), (0xD1, 2), (0xD2, 4)):
        if -(1 << 8 * size - 1) <= value < 0:
            return bytes((code,)) + value.to_bytes(size, "little", signed=True)
    raise ValueError(value)


def coded(code, value):
    return bytes((code,)) + number(value)


def text(word):
    return bytes((0xA0 + len(word),)) + word.encode()


def full_state(count):
    """So many players in a map, each with a name, its index, and that below zero."""
    parts = [coded(ADD, 1), coded(SWITCH, 1)]
    for index in range(count):
        parts.append(coded(ADD, index) + text(f"sess{index:05}") + number(index + 2) + MARK)
    for index in range(count):
        parts.append(coded(SWITCH, index + 2) + bytes((ADD,)) + text(f"player {index}") + coded(ADD + 1, index) + coded(ADD + 2, -index))
    return b"".join(parts)


def full_numbers(count):
    return coded(ADD + 1, 1) + coded(SWITCH, 1) + b"".join(coded(ADD, at) + number(at) for at in range(count))


def changes(count, first):
    """Every tenth of players gets a number."""
    return b"".join(coded(SWITCH, change * 10 + 2) + coded(REPLACE + 1, first + change) for change in range(count))


def deletes(count, step):
    """An item is taken out, and the root looked at, again and again."""
    return b"".join(coded(SWITCH, 1) + coded(DELETE, turn * step) + coded(SWITCH, 0) for turn in range(count))


JOINED = SCHEMA + "send 2 0a09746f6b656e3030303106736368656d61\n"


def sent(code, state):
    return f"send 2 {code:02x}{state.hex()}\n"


def viewed(front, work, times):
    """As often as a text of 16 MiB has room for, at most so often."""
    times = max(1, min(times, (15_000_000 - len(front)) // len(work)))
    return Work(front, work * times, times, command=("view", "2"))


def decode_full(count):
    return viewed(JOINED, sent(14, full_state(count)), 20)


def decode_patch(count):
    return viewed(JOINED + sent(14, full_state(10_000)), sent(15, changes(count, 1_000_000)) + sent(15, changes(count, 0)), 100)


def decode_deletes(count):
    return viewed(JOINED, sent(14, full_state(count)) + sent(15, deletes(count, 2)), 20)


def decode_turns(count):
    return viewed(JOINED, sent(14, full_numbers(count)) + sent(15, deletes(count, 0)), 20)


KERNELS = {
    "parse": (parse, (8 << 20, 16 << 20)),
    "print": (print_, (8 << 20, 16 << 20)),
    "turns": (turns, (8 << 20, 16 << 20)),
    "things": (things, (200, 400)),
    "players": (players, (4_000, 8_000)),
    "numbers_back": (numbers_back, (32_767, 65_535)),
    "numbers_front": (numbers_front, (32_767, 65_535)),
    "chain_up": (chain_up, (5_000, 10_000)),
    "held_swept": (held_swept, (32_500, 65_000)),
    "rows_swept": (rows_swept, (8_000, 16_000)),
    "read_schema": (read_schema, (128, 256)),
    "bodies": (bodies, (32, 64)),
    "views_few": (views(8, 8, 400), (100, 200)),
    "views_many": (views(64, 0, 20), (2_500, 5_000)),
    "returns": (returns, (32, 64)),
    "to_all": (to_all, (32, 64)),
    "requests": (requests, (500, 1_000)),
    "hub_frames": (hub_frames, (100, 1_000)),
    "hub_requests": (hub_requests, (500, 1_000, 4_000)),
    "other_rooms": (other_rooms, (500, 1_000, 4_000)),
    "joins": (joins, (75_000, 150_000)),
    "hub_moments": (hub_moments, (500, 1_000)),
    "decode_full": (decode_full, (5_000, 10_000, 71_500, 143_000)),
    "decode_patch": (decode_patch, (500, 1_000)),
    "decode_deletes": (decode_deletes, (20_000, 40_000)),
    "decode_turns": (decode_turns, (20_000, 40_000)),
}
