"""Shared by the tests over loopback, the load test and the benchmarks: origins, proxies, clients' answers, datagrams.

A proxy is a process on free ports. Where the environment has CLIENT_THREADS, that many of its threads serve clients. Whoever starts one ends it: by its last answer (`end`), by as many requests as it still
answers (`finish`), or by its process id (`kill`). What a test leaves running is ended after it.
"""
import contextlib
import ctypes
import hashlib
import hmac
import json
import os
import resource
import select
import shutil
import socket
import struct
import subprocess
import sys
import tempfile
import threading
import time

import failures
import unsteady

# The program, how many of its threads serve clients unless a test or the usual number decides, and the tests of a file in order.
PROGRAM = os.path.abspath(sys.argv[1]) if len(sys.argv) > 1 else None
THREADS = {"client_threads": int(os.environ["CLIENT_THREADS"])} if "CLIENT_THREADS" in os.environ else {}
TESTS = []
# How many times as fast the time of a hastened proxy passes.
HASTE = 20
# What the test on each thread has started.
STARTED = threading.local()


class Skipped(Exception):
    """Something that a test needs is missing."""


def test(function):
    TESTS.append(function)
    return function


def check(seen, wanted, what=""):
    if seen != wanted:
        raise AssertionError(f"{what}: {seen!r}, wanted {wanted!r}")


def holds(truth, what):
    if not truth:
        raise AssertionError(what)


def until(truth, seconds=30.0, what="it did not come about"):
    """Waits until a condition holds. Returns after how many seconds it did."""
    began = time.monotonic()
    while not truth():
        holds(time.monotonic() - began < seconds, f"{what} within {seconds} s")
        time.sleep(0.02)
    return time.monotonic() - began


def until_is(number, wanted, seconds=30.0, what="it"):
    """Waits until a number, or another value, is the one that is wanted; a failure says which it was at last. Returns after how many seconds."""
    began = time.monotonic()
    while (seen := number()) != wanted:
        holds(time.monotonic() - began < seconds, f"{what}: {seen!r}, wanted {wanted!r} within {seconds} s")
        time.sleep(0.02)
    return time.monotonic() - began


def settled(number, seconds=0.5):
    """Waits until a number has not changed for so many seconds. Returns it."""
    began = since = time.monotonic()
    seen = number()
    while time.monotonic() - since < seconds:
        holds(time.monotonic() - began < 60, "a number goes on changing")
        time.sleep(0.02)
        now = number()
        if now != seen:
            seen, since = now, time.monotonic()
    return seen


SOCK_DIAG, DUMP, NETLINK_DONE, NETLINK_ERROR, ESTABLISHED, CLOSE_WAIT, ALL_BUT_TIME_WAIT = 20, 0x301, 3, 2, 1, 8, 0xfff & ~(1 << 6)


def tcp_sockets(port, address, is_other_side=False):
    """The kernel's TCP sockets with this end, their own one or the other side's: each its state, and how many octets nobody has read; of one that
    listens, how many connections have not been accepted. 0.0.0.0 is any address."""
    try:
        return asked_sockets(port, address, is_other_side)
    except OSError:
        return listed_sockets(port, address, is_other_side)


def listed_sockets(port, address, is_other_side):
    """As `tcp_sockets`, by /proc/net/tcp, which is long where many connections have ended."""
    words = struct.unpack(f"={4 if ':' in address else 1}I", socket.inet_pton(socket.AF_INET6 if ":" in address else socket.AF_INET, address))
    end = f":{port:04X}" if address == "0.0.0.0" else "".join(f"{it:08X}" for it in words) + f":{port:04X}"
    with open("/proc/net/tcp6" if ":" in address else "/proc/net/tcp") as it:
        rows = [line.split() for line in it.readlines()[1:] if end in line]
    return [(int(row[3], 16), int(row[4].split(":")[1], 16)) for row in rows if row[2 if is_other_side else 1].endswith(end)]


def asked_sockets(port, address, is_other_side):
    """As `tcp_sockets`, by sock_diag(7)."""
    family = socket.AF_INET6 if ":" in address else socket.AF_INET
    wanted = socket.inet_pton(family, address)
    ends = struct.pack(">HH", *((0, port) if is_other_side else (port, 0)))
    first = 16 + 8 + (16 if is_other_side else 0)         # where the address stands in a message (inet_diag_msg)
    found = []
    with socket.socket(socket.AF_NETLINK, socket.SOCK_RAW, 4) as s:
        s.sendall(struct.pack("=IHHIIBBHI", 72, SOCK_DIAG, DUMP, 0, 0, family, socket.IPPROTO_TCP, 0, ALL_BUT_TIME_WAIT) + ends + bytes(44))
        while True:
            octets = s.recv(1 << 20)
            while octets:
                length, kind = struct.unpack_from("=IH", octets)
                if kind == NETLINK_ERROR:
                    raise OSError("sock_diag")
                if kind == NETLINK_DONE:
                    return found
                if octets[first:first + len(wanted)] == wanted or address == "0.0.0.0":
                    found.append((octets[17], struct.unpack_from("=I", octets, 72)[0]))
                octets = octets[length + 3 & ~3:]


def unread(port, is_sender=False, address="127.0.0.1"):
    """How many octets on connections to this TCP port of an address, or from it, nobody has read; each connection to it that has not been
    accepted counts as one."""
    return sum(count for _, count in tcp_sockets(port, address, is_sender))


def at_once(count, function):
    """Calls a function with 0, 1, .. on so many threads. Returns the results."""
    seen = [None] * count

    def ask(n):
        seen[n] = function(n)

    threads = [threading.Thread(target=ask, args=(n,)) for n in range(count)]
    for it in threads:
        it.start()
    for it in threads:
        it.join()
    return seen


def processor_seconds(pid):
    """The processor time of a process, with all its threads, to the nanosecond."""
    return time.clock_gettime(~pid << 3 | 2)        # the number of its CPU clock, as clock_getcpuclockid(3) makes it


@contextlib.contextmanager
def standing_still(thread):
    """Stops one thread of a process meanwhile, by ptrace."""
    libc = ctypes.CDLL(None, use_errno=True)
    if libc.ptrace(16, thread, None, None):
        raise Skipped("a thread can't be stopped here (ptrace)")
    os.waitpid(thread, 0x40000000)
    try:
        yield
    finally:
        libc.ptrace(17, thread, None, None)


def threads_seconds(pid):
    """The processor time of each thread of a process in seconds, by the thread's id."""
    seconds = {}
    for thread in map(int, os.listdir(f"/proc/{pid}/task")):
        with open(f"/proc/{pid}/task/{thread}/schedstat") as it:
            seconds[thread] = int(it.read().split()[0]) / 1e9
    return seconds


WAITED = {}     # what `owed` has seen of each thread: what it waited so far, and, under its number, what others of that number had waited before it


def owed(*pids):
    """For how many seconds so far threads of these processes were ready to run and had no processor, all threads together that were seen, also
    those that have ended. What took longer because others had the processors took longer by at most what this grew by meanwhile; with
    nothing beside it that is next to nothing."""
    for pid in pids:
        for thread in os.listdir(f"/proc/{pid}/task"):
            with contextlib.suppress(OSError), open(f"/proc/{pid}/task/{thread}/schedstat") as it:
                seconds, (last, gone) = int(it.read().split()[1]) / 1e9, WAITED.get((pid, thread), (0.0, 0.0))
                WAITED[pid, thread] = (seconds, gone + (last if seconds < last else 0.0))
    return sum(last + gone for (pid, _), (last, gone) in WAITED.items() if pid in pids)


def busiest(before, after):
    """The thread whose processor time has grown most, and by how many seconds."""
    grown = {thread: seconds - before.get(thread, 0.0) for thread, seconds in after.items()}
    return max(grown.items(), key=lambda it: it[1])


def free_port(kind=socket.SOCK_STREAM, address="127.0.0.1"):
    with socket.socket(socket.AF_INET, kind) as s:
        s.bind((address, 0))
        return s.getsockname()[1]


# ---- an origin

class Origin:
    """Answers one request on each connection, by a table of paths. Counts requests, and clients that left a silent path."""

    def __init__(self, pages, delay=0.0):
        self.pages, self.delay, self.asked, self.heads, self.left = pages, delay, [], [], []
        self.socket = socket.create_server(("127.0.0.1", 0), backlog=512)
        self.port = self.socket.getsockname()[1]
        threading.Thread(target=self.run, daemon=True).start()

    def run(self):
        while True:
            try:
                connection, _ = self.socket.accept()
            except OSError:
                return
            threading.Thread(target=self.answer, args=(connection,), daemon=True).start()

    def answer(self, connection):
        try:
            head = b""
            while b"\r\n\r\n" not in head:
                piece = connection.recv(65536)
                if not piece:
                    return
                head += piece
            path = head.split(b" ")[1].decode()
            self.heads.append(head)
            self.asked.append(path)
            self.give(connection, path)
        except OSError:
            pass
        finally:
            connection.close()

    def give(self, connection, path):
        page = self.pages.get(path, self.pages.get("*"))
        if page is None:
            connection.recv(1)          # silent until the other side goes
            self.left.append(path)
            return
        if self.delay:
            time.sleep(self.delay)
        if callable(page):
            page(connection)
        else:
            connection.sendall(page)

    def url(self, path):
        return f"http://127.0.0.1:{self.port}{path}"


def page(body, *fields, status="200 OK"):
    head = "".join(f"{field}\r\n" for field in fields)
    return f"HTTP/1.1 {status}\r\nContent-Length: {len(body)}\r\n{head}\r\n".encode() + body


# ---- a proxy

def written(settings, folder):
    path = os.path.join(folder, "config.json")
    with open(path, "w") as it:
        json.dump(settings, it)
    return path


def preloaded(folder, name):
    """The library of tests/NAME.c, to be preloaded before a proxy, in this folder. `None` without a compiler."""
    compiler = shutil.which("gcc") or shutil.which("clang")
    if not compiler:
        return None
    shim, source = os.path.join(folder, f"{name}.so"), os.path.join(os.path.dirname(os.path.abspath(__file__)), f"{name}.c")
    subprocess.run([compiler, "-O2", "-shared", "-fPIC", "-o", shim, source], check=True)
    return shim


def hastened(folder):
    """The environment of a proxy whose time passes 20 times as fast (tests/haste.c) from when the function is called that is returned with it.
    Without a compiler it passes no faster."""
    shim, octet = preloaded(folder, "haste"), os.path.join(folder, "haste")
    with open(octet, "wb") as it:
        it.write(b"\0")

    def begin():
        with open(octet, "r+b") as it:
            it.write(b"\1")

    return ({"LD_PRELOAD": shim, "HASTE": str(HASTE), "HASTE_FROM": octet} if shim else {}), begin


def lingering(folder, micros):
    """The environment of a proxy in which each look at the clock takes so long (tests/linger.c). Without a compiler it takes no longer."""
    shim = preloaded(folder, "linger")
    return {"LD_PRELOAD": shim, "LINGER": str(micros)} if shim else {}


class Proxy:
    """A proxy that ends after so many answers. `files` is its limit of open files, `environment` what its environment has beside this one's."""

    environment = {}

    def __init__(self, stop_after, address="127.0.0.1", files=None, environment=None, **settings):
        self.address, self.folder, self.environment = address, tempfile.TemporaryDirectory(), environment or {}
        for _ in range(5):
            self.ports = {key: free_port(kind, address) for key, kind in [
                ("icp_port", socket.SOCK_DGRAM), ("htcp_port", socket.SOCK_DGRAM),
                ("http_port", socket.SOCK_STREAM), ("admin_port", socket.SOCK_STREAM)]}
            self.settings = {
                "address": address, **self.ports, "name": "edge", "allowed": ["127.0.0.0/8"], "miss_nofetch": False, "origin": True,
                "entries": 1000, "octets": 67108864, "body_limit": 4194304, "volume": 4096, "stop_after": stop_after, "keys": [],
                "neighbours": [], **THREADS, **settings}
            said = self.start(files)
            if said is None:
                return
            is_taken = "config fault 4" in said or "is the same port" in said
            if not is_taken or "http_port" in settings:
                break
        raise AssertionError(f"not ready: {said!r}")

    def start(self, files):
        """Starts the process. Returns its output if it does not get ready."""
        limit = None if files is None else (lambda: resource.setrlimit(resource.RLIMIT_NOFILE, (files, files)))
        self.process = subprocess.Popen([PROGRAM, "serve", written(self.settings, self.folder.name)], stdin=subprocess.DEVNULL,
                                        stdout=subprocess.PIPE, stderr=subprocess.PIPE, text=True, preexec_fn=limit,
                                        env={**os.environ, **self.environment})
        line = self.process.stdout.readline()
        if line == "ready\n":
            self.warnings, self.start_line = self.told_at_the_start()
            STARTED.__dict__.setdefault("proxies", []).append(self)
            return None
        self.process.wait(10)
        return line + self.process.stderr.read()

    def told_at_the_start(self):
        """The lines on standard error before the one that tells of the start, and that one; none where it had nothing."""
        warnings = []
        if not select.select([self.process.stderr], [], [], 0)[0]:
            return warnings, ""
        for line in iter(self.process.stderr.readline, ""):
            if line.startswith("cache_main "):
                return warnings, line
            warnings.append(line)
        return warnings, ""

    def end(self, wanted=0, seconds=20):
        """Waits until it ends after the last answer: the book settles, so the status is 0."""
        try:
            status = self.process.wait(seconds)
        except subprocess.TimeoutExpired:
            self.process.kill()
            raise AssertionError("it had not ended")
        said = self.process.stderr.read()
        check((status, said), (wanted, ""), "status and standard error")

    def finish(self, seconds=60):
        """Uses up its remaining answers with trivial requests, and waits until it ends."""
        asks = b"GET https://a/ HTTP/1.1\r\nHost: a\r\n\r\n" * 50
        began = time.monotonic()
        while self.process.poll() is None and time.monotonic() - began < seconds:
            try:
                with socket.create_connection((self.address, self.ports["http_port"]), timeout=1) as s:
                    s.sendall(asks)
                    octets = b""
                    while octets.count(b"HTTP/1.1 ") < 50:
                        piece = s.recv(65536)
                        if not piece:
                            break
                        octets += piece
            except OSError:
                time.sleep(0.05)
        self.end()

    def kill(self):
        if self.process.poll() is None:
            self.process.kill()
        self.process.wait()

    def connect(self, seconds=10, source=None):
        return socket.create_connection((self.address, self.ports["http_port"]), seconds, source and (source, 0))

    def raw(self, octets, seconds=10):
        with self.connect(seconds) as s:
            s.sendall(octets)
            return whole(s)

    def get(self, url, *fields, method="GET", seconds=10):
        host = url.split("/")[2] if "//" in url else "x"
        head = "".join(f"{field}\r\n" for field in fields)
        return self.raw(f"{method} {url} HTTP/1.1\r\nHost: {host}\r\nConnection: close\r\n{head}\r\n".encode(), seconds)

    def admin(self, method, path, body=b""):
        return self.admin_raw(method, path, f"Host: 127.0.0.1:{self.ports['admin_port']}", body=body)

    def admin_raw(self, method, target, *fields, body=b"", version="HTTP/1.1"):
        """A request to the administration with these fields."""
        head = "".join(f"{field}\r\n" for field in (*fields, "Connection: close", f"Content-Length: {len(body)}"))
        with socket.create_connection(("127.0.0.1", self.ports["admin_port"]), timeout=10) as s:
            s.sendall(f"{method} {target} {version}\r\n{head}\r\n".encode() + body)
            return whole(s)

    def has_read_all(self):
        """Whether it has accepted all its clients' connections, and has read what they sent."""
        return sum(unread(self.ports["http_port"], address=it) for it in self.addresses()) == 0

    def addresses(self):
        """The addresses at which it has its port for clients."""
        return [self.address] + [it for it in [self.settings.get("http_address6")] if it]

    def clients(self):
        """How many connections to its port for clients it has not closed."""
        return sum(state in (ESTABLISHED, CLOSE_WAIT) for it in self.addresses() for state, _ in tcp_sockets(self.ports["http_port"], it))

    def udp(self, port, payload, seconds=10.0):
        with socket.socket(socket.AF_INET, socket.SOCK_DGRAM) as s:
            s.bind((self.address, 0))
            s.settimeout(seconds)
            s.sendto(payload, (self.address, self.ports[port]))
            try:
                return s.recv(65536)
            except socket.timeout:
                return None

    def resident(self):
        """Its resident memory in octets."""
        with open(f"/proc/{self.process.pid}/statm") as it:
            return int(it.read().split()[1]) * resource.getpagesize()

    def sockets(self):
        """The number of its open files."""
        return len(os.listdir(f"/proc/{self.process.pid}/fd"))

    def processor_seconds(self):
        with open(f"/proc/{self.process.pid}/stat") as it:
            fields = it.read().rsplit(")", 1)[1].split()
        return (int(fields[11]) + int(fields[12])) / os.sysconf("SC_CLK_TCK")


class Answer:
    def __init__(self, octets):
        head, _, self.body = octets.partition(b"\r\n\r\n")
        lines = head.decode("latin1").split("\r\n")
        self.status = int(lines[0].split(" ")[1]) if lines[0].startswith("HTTP/1.1 ") else None
        self.fields = {}
        for line in lines[1:]:
            name, _, value = line.partition(":")
            self.fields.setdefault(name.lower(), []).append(value.strip())

    def field(self, name):
        return ", ".join(self.fields[name]) if name in self.fields else None


def rest(s):
    """Everything that is still received on a connection."""
    pieces = []
    while True:
        piece = s.recv(65536)
        if not piece:
            return b"".join(pieces)
        pieces.append(piece)


def whole(s):
    return Answer(rest(s))


def closed(s):
    """Waits until the other side closes the connection. Returns after how many seconds, or None after its time limit."""
    began = time.monotonic()
    try:
        while s.recv(65536):
            pass
    except ConnectionError:
        pass
    except socket.timeout:
        return None
    return time.monotonic() - began


# ---- servers that read contents, and octets that go both ways

class Server:
    """Calls a function with each connection that it accepts, on a thread of its own, and closes the connection then."""

    def __init__(self, serve, address="127.0.0.1", port=0):
        self.serve, self.accepted, self.host = serve, 0, f"[{address}]" if ":" in address else "127.0.0.1"
        self.socket = socket.create_server((address, port), family=socket.AF_INET6 if ":" in address else socket.AF_INET, backlog=512)
        self.port = self.socket.getsockname()[1]
        threading.Thread(target=self.run, daemon=True).start()

    def run(self):
        while True:
            try:
                connection, _ = self.socket.accept()
            except OSError:
                return
            self.accepted += 1
            threading.Thread(target=self.one, args=(connection,), daemon=True).start()

    def one(self, connection):
        with connection:
            try:
                self.serve(connection)
            except OSError:
                pass

    def url(self, path):
        return f"http://{self.host}:{self.port}{path}"


class Received:
    """A request as a server receives it. `content` grows as it is read; `is_whole` is whether all of it came, `is_over` that no more
    will come. `fault` says what was no HTTP/1.1."""

    def __init__(self, head, connection, file):
        self.head, self.connection, self.file = head, connection, file
        self.content, self.is_whole, self.is_over, self.fault = bytearray(), False, threading.Event(), None
        lines = head.decode("latin1").split("\r\n")
        self.method, self.target, self.version = (lines[0].split(" ") + ["", ""])[:3]
        self.fields = fields_of(lines[1:])

    def field(self, name):
        return ", ".join(self.fields[name]) if name in self.fields else None

    def reset(self):
        """Ends the connection so that the other side is told of a reset."""
        self.file.close()
        reset(self.connection)

    def read(self, most=1 << 62):
        """Reads what there is still to come of the content, or about so many octets of it."""
        try:
            if "transfer-encoding" in self.fields:
                self.read_chunks()
            else:
                self.read_length(int(self.field("content-length") or 0), most)
        except (ValueError, OSError) as fault:
            self.fault = fault
        finally:
            if self.is_whole or most == 1 << 62:
                self.is_over.set()
        return bytes(self.content)

    def read_length(self, length, most):
        wanted = min(length, len(self.content) + most)
        while len(self.content) < wanted:
            piece = self.file.read1(min(65536, wanted - len(self.content)))
            if not piece:
                return
            self.content += piece
        self.is_whole = len(self.content) == length

    def read_chunks(self):
        while True:
            size = int(self.file.readline().split(b";")[0].strip() or b"-", 16)
            left = size
            while left:
                piece = self.file.read1(min(65536, left))
                if not piece:
                    return
                self.content += piece
                left -= len(piece)
            if not size:
                while self.file.readline().strip():
                    pass
                self.is_whole = True
                return
            if self.file.readline() != b"\r\n":
                raise ValueError("no end of a chunk")


def tunnels_of(clients, port):
    """The statuses of tunnels that these connections ask for at the same time."""
    def status(s):
        try:
            return read_head(s).status
        except OSError as fault:
            return type(fault).__name__

    for s in clients:
        s.sendall(f"CONNECT 127.0.0.1:{port} HTTP/1.1\r\nHost: x\r\n\r\n".encode())
        s.settimeout(3)
    return [status(s) for s in clients]


def connections_of_many(proxy, count):
    """So many connections of clients, eight of each address."""
    return [socket.create_connection((proxy.address, proxy.ports["http_port"]), timeout=10, source_address=(f"127.0.2.{1 + n // 8}", 0)) for n in range(count)]


class Recorder(Server):
    """A server that reads each request with its content, and answers with what `answer(request)` returns; where that is None it has
    answered by itself. It reads on behind its answer, so a second request on the connection is seen. With `is_early` the answer is
    asked for before the content is read."""

    def __init__(self, answer, address="127.0.0.1", is_early=False, port=0):
        self.answer, self.is_early, self.requests = answer, is_early, []
        super().__init__(self.requests_of, address, port)

    def requests_of(self, connection):
        with connection.makefile("rb") as file:
            while (head := self.head_of(file)) and self.one_request(Received(head, connection, file)):
                pass

    def head_of(self, file):
        head = b""
        while not head.endswith(b"\r\n\r\n"):
            line = file.readline()
            if not line:
                return None
            head += line
        return head[:-4]

    def one_request(self, request):
        """Reads and answers a request. Returns whether another one may follow."""
        self.requests.append(request)
        if not self.is_early and request.read() is not None and not request.is_whole:
            return False
        given = self.answer(request)
        if given is not None:
            request.connection.sendall(given)
        return b"\r\nconnection: close\r\n" not in (given or b"").lower() and not request.file.closed

    def targets(self):
        return [it.target for it in self.requests]


def fields_of(lines):
    """The values of the fields of a head, by their names in lower case."""
    fields = {}
    for line in lines:
        name, _, value = line.partition(":")
        fields.setdefault(name.lower(), []).append(value.strip())
    return fields


def in_chunks(octets, size=10_000, extension=b""):
    """Octets in the chunked coding (RFC 9112, section 7.1), with the last chunk."""
    pieces = [octets[at:at + size] for at in range(0, len(octets), size)]
    return b"".join(b"%x%s\r\n%s\r\n" % (len(it), extension, it) for it in pieces) + b"0\r\n\r\n"


def content_of(octets):
    """The content of an answer with a head, and whether it is complete by its framing."""
    head, _, rest_of_it = octets.partition(b"\r\n\r\n")
    fields = fields_of(head.decode("latin1").split("\r\n")[1:])
    if "transfer-encoding" not in fields:
        return rest_of_it, "content-length" not in fields or len(rest_of_it) == int(fields["content-length"][0])
    content = b""
    while True:
        line, _, rest_of_it = rest_of_it.partition(b"\r\n")
        if not line:
            return content, False
        size = int(line.split(b";")[0], 16)
        if not size:
            return content, rest_of_it.endswith(b"\r\n")
        content, rest_of_it = content + rest_of_it[:size], rest_of_it[size + 2:]


def read_head(s):
    """Reads from a connection until a head has come. Returns it as an answer, with what came behind it as its body."""
    octets = b""
    while b"\r\n\r\n" not in octets:
        piece = s.recv(65536)
        if not piece:
            raise AssertionError(f"closed after {octets!r}")
        octets += piece
    return Answer(octets)


def reset(s):
    """Closes a connection so that the other side is told of a reset."""
    s.setsockopt(socket.SOL_SOCKET, socket.SO_LINGER, struct.pack("ii", 1, 0))
    s.close()


# ---- datagrams

def icp(opcode, number, url, front=b""):
    payload = front + url.encode() + b"\0"
    return struct.pack(">BBHIII4s", opcode, 2, 20 + len(payload), number, 0, 0, bytes(4)) + payload


def query(number, url):
    return icp(1, number, url, bytes(4))


def htcp_tst(number, url):
    """An unsigned HTCP TST request for a GET."""
    def counted(text):
        return struct.pack(">H", len(text)) + text
    specifier = counted(b"GET") + counted(url.encode()) + counted(b"HTTP/1.1") + counted(b"")
    data = struct.pack(">HBBI", 8 + len(specifier), 0x10, 2, number) + specifier
    return struct.pack(">HBB", 4 + len(data) + 2, 0, 0) + data + struct.pack(">H", 2)


def countstr(text):
    return struct.pack(">H", len(text)) + text


def htcp_clr(source, target, url, secret, name=b"group", now=None, lasts=30):
    """A signed HTCP CLR (RFC 2756, sections 2.7 and 6): a key of None leaves the signature out."""
    now = int(time.time()) if now is None else now
    specifier = countstr(b"GET") + countstr(url.encode()) + countstr(b"HTTP/1.1") + countstr(b"")
    data = struct.pack(">HBBI", 10 + len(specifier), 0x40, 2, 7) + struct.pack(">H", 0) + specifier
    times = struct.pack(">II", now, now + lasts)
    if secret is None:
        auth = struct.pack(">H", 2)
    else:
        ends = b"".join(socket.inet_aton(address) + struct.pack(">H", port) for address, port in (source, target))
        signature = hmac.new(secret, ends + bytes(2) + times + data + countstr(name), hashlib.md5).digest()
        auth = times + countstr(name) + countstr(signature)
        auth = struct.pack(">H", 2 + len(auth)) + auth
    return struct.pack(">HBB", 4 + len(data) + len(auth), 0, 0) + data + auth


# ---- names

def with_silent_names(name):
    """Runs a test of the calling file where the only name server never answers, in a network and mount namespace of its own."""
    with_names(name, "/etc/resolv.conf", "nameserver 127.0.0.1\noptions timeout:30 attempts:2\n")


@contextlib.contextmanager
def silent_at(port, *lasts):
    """Has these addresses answer no attempt to connect to this port: their queues are full."""
    waiting = []
    for last in lasts:
        address = (f"127.0.0.{last}", port)
        full = socket.socket()
        full.bind(address)
        full.listen(0)
        waiting += [full, *(socket.socket() for _ in range(4))]
        for s in waiting[-4:]:
            s.setblocking(False)
            s.connect_ex(address)
    try:
        yield
    finally:
        for s in waiting:
            s.close()


def with_names(name, path, text):
    """Runs a test of the calling file in a network and mount namespace of its own, in which this text stands at the path."""
    tools = shutil.which("unshare") and shutil.which("ip") and shutil.which("mount")
    mounted = f'ip link set lo up && mount --bind "$2" {path}'
    with tempfile.NamedTemporaryFile("w") as it:
        it.write(text)
        it.flush()
        inside = ["sh", "-c", f'{mounted} && exec python3 "$0" "$1" "$3"', sys.argv[0], PROGRAM, it.name, name]
        if not tools or subprocess.run(["unshare", "-rmn", *inside[:2], mounted, *inside[3:]], capture_output=True).returncode:
            raise Skipped("no namespace with its own names can be made here (unshare -rmn, ip and mount are needed)")
        ran = subprocess.run(["unshare", "-rmn", *inside], capture_output=True, text=True, timeout=150)
    check(ran.stdout.splitlines()[-1:], ["1 passed, 0 failed"], ran.stdout + ran.stderr)


def silent_names():
    """The socket of a name server that never answers."""
    s = socket.socket(socket.AF_INET, socket.SOCK_DGRAM)
    s.bind(("127.0.0.1", 53))
    s.settimeout(10)
    return s


class Names:
    """A name server that tells 127.0.0.1 for every name, after some time; nothing for names that begin with 'silent', that there is no
    such name for those that are `gone`, and of those that begin with 'held' once `tell` is called, also what is asked of these later. It
    counts the questions for addresses of each."""

    def __init__(self, delay=0.0):
        self.delay, self.asked, self.gone, self.is_silent = delay, [], set(), False
        self.held, self.told, self.holds = {}, set(), threading.Lock()
        self.socket = socket.socket(socket.AF_INET, socket.SOCK_DGRAM)
        self.socket.bind(("127.0.0.1", 53))
        threading.Thread(target=self.run, daemon=True).start()

    def run(self):
        while True:
            octets, sender = self.socket.recvfrom(4096)
            name, end = octets[13:13 + octets[12]].decode(), octets.index(b"\0", 12) + 5
            is_address = octets[end - 4:end - 2] == b"\0\1"
            if is_address:
                self.asked.append(name)
            if self.is_silent or name.startswith("silent"):
                continue
            is_told = is_address and name not in self.gone
            told = b"\xc0\x0c\0\1\0\1\0\0\0\0\0\4\x7f\0\0\1" if is_told else b""
            flags = b"\x81\x83" if name in self.gone else b"\x81\x80"
            reply = octets[:2] + flags + b"\0\1" + (b"\0\1" if is_told else b"\0\0") + bytes(4) + octets[12:end] + told
            if name.startswith("held") and self.is_held(name, reply, sender):
                continue
            threading.Timer(self.delay, self.socket.sendto, (reply, sender)).start()

    def is_held(self, name, reply, sender):
        """Whether this is answered only once the name is told."""
        with self.holds:
            if name in self.told:
                return False
            self.held.setdefault(name, []).append((reply, sender))
            return True

    def tell(self, name):
        """Answers the questions about a name that is held, and those that are on their way: of two, for addresses of either family, the
        second may come once the first was seen."""
        with self.holds:
            self.told.add(name)
            replies = self.held.pop(name, [])
        for reply, sender in replies:
            self.socket.sendto(reply, sender)

    def names(self):
        """The names that were asked for."""
        return set(self.asked)


def ask_for_names(proxy, names, seconds=10):
    """So many connections with a private request each, for a page of a host of this name."""
    connections = []
    for name in names:
        s = proxy.connect(seconds)
        s.sendall(f"GET http://{name}.example/ HTTP/1.1\r\nHost: x\r\nCookie: a=b\r\nConnection: close\r\n\r\n".encode())
        connections.append(s)
    return connections


def names_asked(server, count):
    """The next so many names that the name server was asked for, each once."""
    seen = set()
    while len(seen) < count:
        octets = server.recv(4096)
        seen.add(octets[13:13 + octets[12]].decode())
    return seen


# ---- running tests

def run_one(function):
    """Runs one test, and ends what it leaves running; what a failure leaves is kept before. Returns whether it passed, and the line to print."""
    began = time.monotonic()
    try:
        function()
        return True, f"{function.__name__}: ok, {time.monotonic() - began:.1f} s"
    except Skipped as why:
        return True, f"{function.__name__}: skipped, {why}"
    except Exception as fault:  # noqa: BLE001
        where = failures.keep(function.__name__, STARTED.__dict__.get("proxies", []))
        return False, f"FAILED: {function.__name__}: {type(fault).__name__}: {fault} ({where})"
    finally:
        for proxy in STARTED.__dict__.pop("proxies", []):
            proxy.kill()


def run_all(chosen, places):
    """Runs tests, so many at the same time. Returns those that passed and those that failed."""
    passed, failed, left = [], [], iter(chosen)

    def run(function):
        is_well, line = run_one(function)
        (passed if is_well else failed).append(function)
        print(line, flush=True)

    if places == 1:
        for function in chosen:
            run(function)
    else:
        at_once(min(places, len(chosen)), lambda _: [run(function) for function in left])
    return passed, failed


def passes_alone(function):
    """Whether a test that failed passes when it is run once more by itself, which tells an unsteady one from a broken one and excuses neither."""
    if function.__name__.startswith("inside"):      # who has it run in a namespace does this
        return False
    is_well, line = run_one(function)
    print(f"once more by itself: {line}", flush=True)
    return is_well


def excused(names):
    """Prints which of these tests passed by themselves alone, and returns those whose list says that they may for now (tests/unsteady.txt)."""
    known = unsteady.listed(os.path.basename(sys.argv[0]))
    told = [f"{it} (listed until {known[it][0]}: {known[it][1]})" if it in known else it for it in names]
    print(f"{len(names)} unsteady, failed and passed by themselves: {', '.join(told)}")
    return [it for it in names if it in known]


def run_tests(side_by_side=False, most=64):
    """Runs the file's tests, or those that are named, one by one or so many at the same time. The last line has the counts: a test that failed
    counts as failed, whatever it does when it is run once more, unless it is excused, which counts as neither."""
    if unsteady.faults():
        print("".join(f"FAILED: {it}\n" for it in unsteady.faults()) + "0 passed, 1 failed")
        sys.exit(1)
    names = sys.argv[2:]
    chosen = [it for it in TESTS if not names or it.__name__ in names]
    passed, failed = run_all(chosen, min(most, len(chosen)) if side_by_side else 1)
    alone = [it.__name__ for it in failed if passes_alone(it)]
    count = len(failed) - len(excused(alone) if alone else [])
    print(f"{len(passed)} passed, {count} failed")
    sys.exit(1 if count or not chosen else 0)
