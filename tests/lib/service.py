#!/usr/bin/env python3
"""Tries tools/serve.py, with workers of its own. tests/examples.sh calls it for each check.

Usage: service.py CHECK SERVE TABLE GAMES, in an empty folder. PBOOK names the program. KILLS is how
often a collector of the check `workers` is killed, and SEED draws other workers.
"""

import collections
import contextlib
import os
import pathlib
import random
import re
import select
import signal
import socket
import subprocess
import sys
import threading
import time

CHECK, SERVE, TABLE, GAMES = sys.argv[1:]
PBOOK, PATIENCE = os.environ["PBOOK"], float(os.environ.get("PATIENCE") or 300)
LINES = pathlib.Path(GAMES).read_bytes().split(b"\n")[:-1]
JOURNAL, BOOK = pathlib.Path("-journal"), pathlib.Path("-book")
SEED, KILLS = (int(os.environ.get(name) or due) for name, due in (("SEED", 1), ("KILLS", 4)))


class Service:
    """A running serve.py, in a session of its own."""

    all = []

    def __init__(self, at="127.0.0.1:0", table=TABLE, program=PBOOK, by=(), words=()):
        # Such names as begin as options do come behind `--`.
        names = ["--", table, BOOK, JOURNAL] if at else [table, f"./{BOOK}", f"./{JOURNAL}"]
        self.process = subprocess.Popen(
            [*by, SERVE, *words, *(["--at", at] if at else []), *names, "-q"],
            stderr=subprocess.PIPE,
            start_new_session=True, env={**os.environ, "PBOOK": program})
        Service.all.append(self)
        self.said = self.process.stderr.readline()
        # What pbook says of a wrong table may come before or behind it.
        at = re.search(rb"serve\.py: at (\S+):(\d+)", self.said)
        self.address = (at[1].decode().strip("[]"), int(at[2])) if at else None

    def connect(self, room=None):
        return Connection(self.address, room)

    def child(self):
        """The process of its collector."""
        process = self.process.pid
        return int(pathlib.Path(f"/proc/{process}/task/{process}/children").read_text().split()[0])

    def ends(self, due):
        """Makes sure that it ends with this status. What it says besides is kept."""
        self.said += self.process.stderr.read()
        status = self.process.wait(PATIENCE)
        assert status == due, (status, self.said)

    def stops(self):
        self.process.terminate()
        self.ends(0)


class Connection:
    """A worker's connection, for which the system keeps about so many bytes of answers."""

    def __init__(self, address, room=None):
        self.socket = socket.socket(socket.AF_INET6 if ":" in address[0] else socket.AF_INET)
        if room:
            self.socket.setsockopt(socket.SOL_SOCKET, socket.SO_RCVBUF, room)
        self.socket.settimeout(PATIENCE)
        self.socket.connect(address)
        self.answers = self.socket.makefile("rb")

    def send(self, text):
        self.socket.sendall(text)

    def ask(self, line):
        """The answer to a line."""
        self.send(line + b"\n")
        return self.answers.readline()

    def cut(self, at_once):
        """Ends it, and where it has to be at once by a reset."""
        if at_once:
            self.socket.setsockopt(socket.SOL_SOCKET, socket.SO_LINGER, b"\1\0\0\0\0\0\0\0")
        self.answers.close()
        self.socket.close()


def collected(lines):
    """The replies and the book of a run of `pbook collect` over these lines."""
    made = subprocess.run([PBOOK, "collect", "-q", TABLE, "due"], stdout=subprocess.PIPE,
                          input=b"".join(it + b"\n" for it in lines), check=True)
    return made.stdout, pathlib.Path("due").read_bytes()


def answers():
    """Lines that come at once are answered in their order, and the book is that of one run."""
    lines = LINES[:80]
    replies, book = collected(lines)
    service = Service()
    worker = service.connect()
    worker.send(b"".join(it + b"\n" for it in lines))
    assert b"".join(worker.answers.readline() for _ in lines) == replies
    # As `nc -N` does, which ends its side before it reads.
    again = service.connect()
    again.send(LINES[0] + b"\n")
    again.socket.shutdown(socket.SHUT_WR)
    assert again.answers.read() == replies.partition(b"\n")[0] + b"\n"
    service.stops()
    assert BOOK.read_bytes() == book


def ends():
    """A signal to it, or to all processes, makes the book. Else the status is that of pbook."""
    _, book = collected(LINES[:9])
    for number in (signal.SIGINT, signal.SIGTERM):
        for kill in (os.kill, os.killpg):
            BOOK.unlink(missing_ok=True)
            service = Service()
            worker = service.connect()
            for line in LINES[:9]:
                assert worker.ask(line).startswith(b"ok ")
            kill(service.process.pid, number)
            service.ends(0)
            assert worker.answers.read() == b"" and BOOK.read_bytes() == book
    journal = JOURNAL.read_bytes()
    # Where none is named, the address is one that no other machine reaches, also of a port in use.
    service = Service(at=None)
    assert b" 127.0.0.1:7464" in service.said, service.said
    service.process.terminate()
    service.process.wait(PATIENCE)
    # One without a host would be every address of the machine.
    for at in ("7464", ":7464", "[]:7464"):
        service = Service(at=at)
        assert service.said == f"serve.py: {at}: --at wants HOST:PORT\n".encode(), service.said
        service.ends(1)
    if any(" lo\n" in it.read_text() for it in pathlib.Path("/proc/net").glob("if_inet6")):
        service = Service("[::1]:0")
        assert b" [::1]:" in service.said and service.connect().ask(b"") == b"refused - shape\n"
        service.stops()
    else:
        print("no IPv6 is to be had here")
    # The port is taken: no second collector is started, and the first one goes on.
    service = Service()
    second = Service("{}:{}".format(*service.address))
    second.ends(1)
    assert second.said.startswith(b"serve.py: ") and b"already in use" in second.said, second.said
    assert service.connect().ask(LINES[0]).startswith(b"ok ")
    os.kill(service.child(), signal.SIGKILL)
    service.ends(128 + signal.SIGKILL)
    assert JOURNAL.read_bytes() == journal
    for due, words in ((1, {"at": "here"}), (1, {"at": "127.0.0.1:99999"}),
                       (1, {"program": "./none"}), (1, {"table": GAMES})):
        Service(**words).ends(due)
    JOURNAL.unlink()
    Service().ends(3)


def limits():
    """What is no line of pbook's is refused, what isn't whole is dropped, and others go on."""
    service = Service()
    worker = service.connect()
    start = LINES[0].split(b"\t")[2]
    blank = b"w\t1-0\t" + start + b"\t"
    for size, due in ((8192, b"refused w "), (8193, b"refused - long"), (8194, b"refused - long"),
                      (20000, b"refused - long"), (999_000, b"refused - long")):
        assert worker.ask(blank + b"e" * (size - len(blank))).startswith(due), size
        assert worker.ask(LINES[0]).startswith(b"ok "), size
    assert worker.ask(b"") == b"refused - shape\n"
    assert worker.ask(b"caf\xe9\t1-0\t" + start + b"\t") == b"refused - id\n"
    assert worker.ask(b"w1\t1-0\t" + start + b"\te2e4\r") == b"ok w1 2\n"
    # One whose end comes alone.
    worker.send(blank + b"e" * (16384 - len(blank)))
    time.sleep(0.2)
    assert worker.ask(b"") == b"refused - long\n"
    # A line that comes in pieces, and lines of which the last one isn't whole.
    for piece in (LINES[1][:5], LINES[1][5:90], LINES[1][90:]):
        worker.send(piece)
        time.sleep(0.1)
    assert worker.ask(b"").startswith(b"ok ")
    for at_once in (False, True):
        half = service.connect()
        half.send(LINES[2] + b"\n" + LINES[3][:-5])
        assert half.answers.readline().startswith(b"ok ")
        half.cut(at_once)
    assert worker.ask(LINES[4]) == b"ok " + LINES[4].split(b"\t")[0] + b" 5\n"
    # What never ends is dropped.
    endless = service.connect()
    with contextlib.suppress(ConnectionError):
        for _ in range(2000):
            endless.send(b"e" * 1000)
        assert endless.answers.read() == b""
        raise AssertionError("it is not dropped")
    assert worker.ask(LINES[0]).startswith(b"ok ")
    service.stops()
    assert len(JOURNAL.read_bytes().split(b"\n")) == 6
    # Workers beyond the files that it may open wait until others have gone.
    service = Service(by=("sh", "-c", 'ulimit -n 16 && exec "$@"', "sh"))
    workers = [service.connect() for _ in range(30)]
    while len(os.listdir(f"/proc/{service.process.pid}/fd")) < 15:
        time.sleep(0.1)
    clock = (~service.process.pid << 3) | 2  # the system's for its time of a processor
    used = time.clock_gettime(clock)
    time.sleep(2)
    assert time.clock_gettime(clock) - used < 0.2
    for worker in workers:
        assert worker.ask(LINES[0]).startswith(b"ok ")
        worker.cut(False)
    service.stops()


def browsers():
    """A request that a stranger's page has a browser send gets no game in. Another line may."""
    service, game, tail = Service(), LINES[0] + b"\n", b"\r\nAccept: */*\r\n\r\n"
    for request in (b"POST / HTTP/1.1" + tail, b"\r\n\n\nGET /?a=b HTTP/1.0" + tail, b"get  /\n",
                    b"OPTIONS * HTTP/1.1" + tail, b"CONNECT a:1 HTTP/1.1" + tail, b"GET h://a\n",
                    b"PUT /" + b"a" * 9000 + tail, b"\x16\x03\1\2\0\1\0\1\xfc\3\3\n"):
        for at in (0, 2, len(request) - 1):
            with contextlib.suppress(ConnectionError):
                worker = service.connect()
                worker.send(request[:at])
                time.sleep(0.05 if at else 0)
                worker.send(request[at:] + game)
                for answer in worker.answers:
                    assert answer == b"refused - shape\n" and request[0] == 13, (request, answer)
    assert JOURNAL.read_bytes() == b""
    worker = service.connect()
    for odd in (b"no game", b"GET", b"GET\t/ HTTP/1.1", game[:-1].replace(b"\t", b" "),
                b"w1 HTTP/1.1", b"a" * 9000 + b" / HTTP/1.1"):
        assert worker.ask(odd).startswith(b"refused "), odd
    assert worker.ask(b"GET" + LINES[0][LINES[0].index(b"\t"):]) == b"ok GET 1\n"
    service.stops()


def turns():
    """Beside workers that send all at once, one that asks line by line is answered in turn."""
    service = Service()
    os.kill(service.process.pid, signal.SIGSTOP)
    floods = [service.connect() for _ in range(32)]
    for it in floods:
        it.send(b"\n" * 4000)
    worker = service.connect()
    worker.send(LINES[0] + b"\n")
    os.kill(service.process.pid, signal.SIGCONT)
    assert worker.answers.readline().startswith(b"ok ")
    assert all(worker.ask(line).startswith(b"ok ") for line in LINES[1:5])
    assert 32 <= sum(len(it.socket.recv(64000)) // 16 for it in floods) < 64000
    service.stops()


def idle():
    """A worker from which no line comes is dropped, and one that asks now and then is not."""
    service = Service(words=("--idle", "2"))
    slow, worker = service.connect(), service.connect()
    assert slow.ask(LINES[0]).startswith(b"ok ")
    while not select.select([slow.socket], [], [], 0.1)[0]:
        assert worker.ask(LINES[1]).startswith(b"ok ")
        slow.send(b"e")
    assert slow.answers.read() == b"" and worker.ask(LINES[0]).startswith(b"ok ")
    service.stops()


# Runs serve.py where the system keeps few bytes of what workers have yet to take, with so many
# seconds for its end. More may come after a look at what has come.
NARROW = sys.executable, "-B", "-c", """
import os, socket, sys, time
seconds, *sys.argv = sys.argv[1:]
sys.path.insert(0, os.path.dirname(sys.argv[0]))
import serve
class Narrow(serve.Worker):
    def __init__(self, connection):
        connection.setsockopt(socket.SOL_SOCKET, socket.SO_SNDBUF, 4096)
        super().__init__(connection)
def recv(self, *words):
    came = super(socket.socket, self).recv(*words)
    time.sleep(0.1 if words[1:] and b"\\n" not in came else 0)
    return came
socket.socket.recv = recv
serve.Worker, serve.PATIENCE = Narrow, int(seconds)
serve.main()
"""


def frozen():
    """A collector that stands still, in a line or not, keeps no signal from ending the service."""
    for more in (b"", LINES[1] + b"\n"):
        service = Service(by=(*NARROW, "2"))
        worker, child = service.connect(), service.child()
        assert worker.ask(LINES[0]).startswith(b"ok ")
        os.kill(child, signal.SIGSTOP)
        worker.send(more)
        time.sleep(0.2)
        service.process.terminate()
        assert service.process.wait(PATIENCE) == 1
        assert service.process.stderr.readline().startswith(b"serve.py: pbook is left to itself")
        with contextlib.suppress(ProcessLookupError):
            os.kill(child, signal.SIGKILL)
        service.ends(1)
        assert JOURNAL.read_bytes() == LINES[0] + b"\n"


def slow():
    """Workers that take no answers, or stop in a line, keep no other one waiting."""
    service = Service(by=(*NARROW, "300"))
    idle, deaf, worker = service.connect(), service.connect(4096), service.connect()
    idle.send(LINES[0][:9])
    deaf.send(b"\n" * 6000)
    for line in LINES[:5]:
        assert worker.ask(line).split()[:2] == [b"ok", line.split(b"\t")[0]]
    # The system asks whether the idle one's machine is still there, by the timer 02.
    port = ":{:04X}".format(service.address[1])
    rows = [it.split() for it in pathlib.Path("/proc/net/tcp").read_text().split("\n")[1:-1]]
    assert any(it[1].endswith(port) and it[3] == "01" and it[5][:2] == "02" for it in rows), rows
    for _ in range(6000):
        assert deaf.answers.readline() == b"refused - shape\n"
    assert idle.ask(LINES[0][9:]).startswith(b"ok ")
    worker.send(LINES[5][:9])
    time.sleep(0.05)
    worker.send(LINES[5][9:] + b"\n" + LINES[6] + b"\n")
    assert [worker.answers.readline()[:3] for _ in "ab"] == [b"ok "] * 2
    service.stops()


class Worker(threading.Thread):
    """Sends its games until each is answered, through connections that break."""

    def __init__(self, lines, number):
        super().__init__(daemon=True)
        self.lines, self.dice = lines, random.Random(SEED * 1000 + number)
        self.connection, self.numbers, self.wrong = None, {}, []

    def run(self):
        for line in self.lines:
            while not self.try_once(line):
                pass
            while self.dice.random() < 0.2:
                self.try_once(self.dice.choice(self.lines[: len(self.numbers)]))

    def try_once(self, line):
        """Sends a line in one of several ways, and says whether an answer came."""
        fate, text = self.dice.random(), line + b"\n"
        # Where a move ends, what comes before it is a game too.
        at = self.dice.choice((self.dice.randrange(1, len(text)), text.rindex(b" ")))
        try:
            self.connection = self.connection or Connection(ADDRESS)
            if fate < 0.1:  # cut within the line
                self.connection.send(text[:at])
                raise ConnectionError
            if fate < 0.2:  # sent, and not waited for
                self.connection.send(text)
                raise ConnectionError
            if fate < 0.3:  # in two pieces
                self.connection.send(text[:at])
                time.sleep(0.002)
                text = text[at:]
            self.connection.send(text)
            answer = self.connection.answers.readline()
            if not answer.endswith(b"\n"):
                raise ConnectionError
        except OSError:
            if self.connection:
                self.connection.cut(self.dice.random() < 0.5)
            self.connection = None
            time.sleep(0.01)
            return False
        words, name = answer.split(), line.split(b"\t")[0]
        if words[:2] != [b"ok", name] or self.numbers.setdefault(name, words[2]) != words[2]:
            self.wrong.append(answer)
        return True


def workers():
    """Sixteen workers, and a collector that is killed: each game has one line and its number."""
    global ADDRESS
    # Their first plies, as a program with a check in the place of each proof is slow.
    games = [b" ".join(it.partition(b"\t")[2].split(b" ")[:12]) for it in LINES[121:221]]
    dice = random.Random(SEED)
    sets = [[b"w%d-%d\t" % (n, at) + dice.choice(games) for at in range(3 * KILLS)]
            for n in range(16)]
    service, kills = Service(), 0
    ADDRESS = service.address
    running = [Worker(lines, number) for number, lines in enumerate(sets)]
    for it in running:
        it.start()
    while kills < KILLS and any(it.is_alive() for it in running):
        time.sleep(dice.random())
        kills += 1
        os.kill(service.child(), signal.SIGKILL)
        service.ends(128 + signal.SIGKILL)
        service = Service("{}:{}".format(*ADDRESS))
    for it in running:
        it.join(PATIENCE)
    service.stops()
    assert not any(it.is_alive() or it.wrong for it in running), [it.wrong for it in running]
    # The journal, but for lines that kills have torn, is made of what was sent, each game once.
    sent = [it for lines in sets for it in lines]
    held = [it for it in JOURNAL.read_bytes().split(b"\n")[:-1] if not it.endswith(b"\t\t\t\t")]
    assert collections.Counter(held) == collections.Counter(sent)
    numbers = {it.split(b"\t")[0]: b"%d" % number for number, it in enumerate(held, 1)}
    assert numbers == {name: it for worker in running for name, it in worker.numbers.items()}
    assert BOOK.read_bytes() == collected(sent)[1]
    print(f"{len(held)} games, {kills} kills")


ADDRESS = None
JOURNAL.write_bytes(b"")
try:
    globals()[CHECK]()
finally:
    # A check that fails leaves none behind.
    for it in Service.all:
        if it.process.poll() is None:
            os.killpg(it.process.pid, signal.SIGKILL)
