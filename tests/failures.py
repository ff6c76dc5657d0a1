"""What a failing test leaves is kept under build/logs/failures, in a folder for each failure, named by file, test and time.

In it are `traceback`, and for each proxy that the test has started and not ended `proxy-N` with: its process and ports, its standard error,
its threads and what each waits for, its open descriptors, the rows of /proc/net with one of its ports, and what its administration
tells (/stats, /stats/clients, /metrics). All is taken while the proxies run. The newest folders stay, at most MOST.
"""
import contextlib
import os
import shutil
import socket
import sys
import time
import traceback
from pathlib import Path

TOP = Path(__file__).resolve().parent.parent
FOLDER = TOP / "build" / "logs" / "failures"
MOST = 40
TOLD = ("/stats", "/stats/clients", "/metrics")
TABLES = ("tcp", "tcp6", "udp", "udp6")


def keep(test, proxies):
    """Keeps what the exception that is being handled leaves. Returns its folder, or why there is none."""
    moment = time.time()
    name = f"{Path(sys.argv[0]).name}.{test}.{time.strftime('%m%d-%H%M%S', time.localtime(moment))}.{int(moment % 1 * 1e6):06}-{os.getpid()}"
    folder = FOLDER / name
    try:
        folder.mkdir(parents=True)
        (folder / "traceback").write_text(traceback.format_exc())
        for n, proxy in enumerate(proxies):
            write_proxy(folder / f"proxy-{n}", proxy)
        forget_old()
    except Exception as fault:  # noqa: BLE001, since what is wrong here must not hide the failure
        return f"not all is kept: {type(fault).__name__}: {fault}"
    return f"kept: {folder.relative_to(TOP)}"


def forget_old():
    """Removes the oldest folders over MOST. Others may do so at the same time."""
    for old in sorted(FOLDER.iterdir(), key=lambda it: it.stat().st_mtime)[:-MOST]:
        shutil.rmtree(old, ignore_errors=True)


def write_proxy(folder, proxy):
    folder.mkdir()
    pid, ports = proxy.process.pid, getattr(proxy, "ports", {})
    for name, taken in [("process", lambda: f"{pid}, status {proxy.process.poll()}, ports {ports}\n"), ("stderr", lambda: unread_of(proxy.process.stderr)),
                        ("threads", lambda: threads_of(pid)), ("descriptors", lambda: descriptors_of(pid)),
                        ("sockets", lambda: sockets_of(pid, set(ports.values()))), ("told", lambda: told_by(ports.get("admin_port")))]:
        try:
            text = taken()
        except (OSError, ValueError) as fault:
            text = f"{type(fault).__name__}: {fault}\n"
        (folder / name).write_text(text)


def unread_of(pipe):
    """What has been written to a pipe, or a file, and nobody has read."""
    if pipe is None:
        return "it is no pipe\n"
    os.set_blocking(pipe.fileno(), False)
    octets = b""
    with contextlib.suppress(BlockingIOError):
        while piece := os.read(pipe.fileno(), 65536):
            octets += piece
    os.set_blocking(pipe.fileno(), True)
    return octets.decode(errors="replace")


def threads_of(pid):
    """The name of each thread, its state, its processor time in nanoseconds, and the kernel's function that it waits in."""
    lines = []
    for thread in sorted(Path(f"/proc/{pid}/task").iterdir(), key=lambda it: int(it.name)):
        state = (thread / "stat").read_text().rpartition(")")[2].split()[0]
        words = [(thread / file).read_text().strip() for file in ("comm", "schedstat", "wchan")]
        lines.append(f"{thread.name} {state} {' '.join(words)}\n")
    return "".join(lines)


def descriptors_of(pid):
    folder = Path(f"/proc/{pid}/fd")
    return "".join(f"{number} {os.readlink(folder / number)}\n" for number in sorted(os.listdir(folder), key=int))


def sockets_of(pid, ports):
    """The rows of the process's network namespace that have one of these ports, at either end."""
    rows = []
    for table in TABLES:
        lines = Path(f"/proc/{pid}/net/{table}").read_text().splitlines()
        rows += [table, lines[0], *(it for it in lines[1:] if ports & {int(end.split(":")[1], 16) for end in it.split()[1:3]})]
    return "\n".join(rows) + "\n"


def told_by(port):
    """What the administration answers, each within two seconds."""
    if port is None:
        return "it has no administration\n"
    texts = []
    for path in TOLD:
        with socket.create_connection(("127.0.0.1", port), timeout=2) as s, contextlib.suppress(TimeoutError):
            s.sendall(f"GET {path} HTTP/1.1\r\nHost: 127.0.0.1:{port}\r\nConnection: close\r\n\r\n".encode())
            octets = b""
            while piece := s.recv(65536):
                octets += piece
            texts.append(f"== {path}\n{octets.decode(errors='replace')}\n")
    return "".join(texts)
