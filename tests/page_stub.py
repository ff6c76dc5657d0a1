"""A server that gives the administration's page with made-up figures, to look at it: python3 tests/page_stub.py [PORT]

The figures go up and down with the time, so the pictures fill as they would. tests/page uses it as a module.
"""
import http.server
import importlib.machinery
import importlib.util
import json
import math
import os
import sys
import threading
import time

BOUNDS = [0.001, 0.0025, 0.005, 0.01, 0.025, 0.05, 0.1, 0.25, 0.5, 1.0, 2.5, 5.0, 10.0, 30.0]
COURSES = {"hit": 1.0, "miss": 0.25, "collapsed": 0.08, "bypass": 0.12, "refused": 0.03}
NEIGHBOURS = [("10.0.0.9:3130", "icp", True, 12.375, 0, False), ("10.0.0.10:4827", "htcp", True, 0.5, 3, True),
              ("192.168.100.200:13130", "icp", False, None, 20, False)]
FILTER = "ldb [28]\njeq #1, L2, L3\nL2: ret #228\nL3: ret #65535\n"
# What a page must show as text, and never run.
HOSTILE = "ld [12] <img src=x onerror=alert(1)><script>document.title='taken'</script>\nret #0\n"


def tool():
    """tools/page as a module."""
    where = os.path.join(os.path.dirname(os.path.dirname(os.path.abspath(__file__))), "tools", "page")
    spec = importlib.util.spec_from_loader("page_tool", importlib.machinery.SourceFileLoader("page_tool", where))
    made = importlib.util.module_from_spec(spec)
    spec.loader.exec_module(made)
    return made


def risen(seconds, speed, period):
    """A counter after so many seconds: about `speed` a second, more and less over a period."""
    return int(speed * (seconds - period / 8 * math.sin(seconds * 2 * math.pi / period)))


def histogram(count, middle):
    """Cumulative counts whose half lies near a time in seconds."""
    parts = [1 / (1 + (middle / bound) ** 1.8) for bound in BOUNDS]
    return {"buckets": [[bound, int(count * part)] for bound, part in zip(BOUNDS, parts)] + [["+Inf", count]], "sum": count * middle, "count": count}


def clients_of(uptime, speed):
    answers = {course: risen(uptime, speed * part, 90 + 40 * n) for n, (course, part) in enumerate(COURSES.items())}
    every, forwarded = sum(answers.values()), answers["miss"] + answers["bypass"]
    fetched = {"whole": forwarded, "refused": forwarded // 50, "failed": forwarded // 200}
    return {
        "uptime": int(uptime), "answers": answers,
        "statuses": {"1xx": 0, "2xx": every * 9 // 10, "3xx": every // 40, "4xx": every // 30, "5xx": every // 200, "none": every // 900},
        "octets": {"clients": every * 18_000, "origins": forwarded * 21_000, "neighbours": forwarded * 4_000},
        "fetches": {"origins": fetched, "neighbours": {key: it // 5 for key, it in fetched.items()}},
        "seconds": {"hits": histogram(answers["hit"], 0.0016), "forwarded": histogram(forwarded, 0.12),
                    "fetches": histogram(forwarded, 0.11)},
        "connections": 210 + int(40 * math.sin(uptime / 30)), "waiting": 7, "fetching": 12, "log": None}


class Stub:
    """Serves the page on 127.0.0.1. `missing` are paths that answer 404, `texts` what filters answer, `speed` hits a second;
    where `step` is set, so many of its seconds go by from one question for /stats/clients to the next, and no others."""

    def __init__(self, port=0, speed=180.0, step=None):
        made = tool()
        self.page, self.policy = made.page().encode(), made.policy()
        self.speed, self.step, self.missing, self.asked = speed, step, set(), []
        self.start(4000.0)
        self.texts = {"/filter/icp": FILTER, "/filter/htcp": "none\n", "/filter/neighbour/1": HOSTILE}
        stub = self

        class Handler(http.server.BaseHTTPRequestHandler):
            def do_GET(self):
                stub.answer(self)

            def log_message(self, *_):
                pass

        self.server = http.server.ThreadingHTTPServer(("127.0.0.1", port), Handler)
        self.port = self.server.server_address[1]
        threading.Thread(target=self.server.serve_forever, daemon=True).start()

    def start(self, uptime):
        self.began, self.uptime = time.monotonic() - uptime, uptime

    def end(self):
        self.server.shutdown()
        self.server.server_close()

    def body(self, path):
        """The kind and the text of what a path answers."""
        uptime = time.monotonic() - self.began
        if self.step:
            self.uptime = uptime = self.uptime + self.step * (path == "/stats/clients")
        counters = {"judged": risen(uptime, 40, 70), "rejected": risen(uptime, 3, 50), "cut": int(uptime / 30), "malformed": int(uptime / 300)}
        keys = ("end", "protocol", "up", "time_ms", "misses", "filter")
        figures = {"/stats/clients": clients_of(uptime, self.speed), "/stats": {"icp": counters, "htcp": {key: it // 7 for key, it in counters.items()}},
                   "/stats/neighbours": [dict(zip(keys, it)) for it in NEIGHBOURS]}
        if path in self.missing:
            return None
        if path == "/":
            return "text/html; charset=utf-8", self.page
        if path in figures:
            return "application/json", json.dumps(figures[path]).encode() + b"\n"
        return ("text/plain", self.texts[path].encode()) if path in self.texts else None

    def answer(self, request):
        self.asked.append(request.path)
        found = self.body(request.path)
        kind, body = found or ("text/plain", b"no such path\n")
        try:
            self.send(request, found is not None, kind, body)
        except OSError:
            pass        # the page has gone

    def send(self, request, is_found, kind, body):
        request.send_response(200 if is_found else 404)
        request.send_header("Content-Type", kind)
        request.send_header("Content-Length", str(len(body)))
        if request.path == "/":
            request.send_header("Content-Security-Policy", self.policy)
        request.end_headers()
        request.wfile.write(body)


if __name__ == "__main__":
    shown = Stub(int(sys.argv[1]) if len(sys.argv) > 1 else 8088)
    print(f"http://127.0.0.1:{shown.port}/", flush=True)
    threading.Event().wait()
