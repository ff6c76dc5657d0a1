"""How requests and answers are read and passed on by RFC 9110, RFC 9112 and docs/OPERATING.md: what tests/passage_fuzz compares the
proxy with. It knows nothing of the program.

A message that is read has a verdict:

- GOOD: there is one reading, and it is passed on so;
- DOUBTFUL: a recipient may refuse it, or repair it and read it as is said here;
- REFUSED: it is refused; what stands behind it is a request of its own;
- BAD: it is refused, and nothing behind it is read;
- BROKEN: its content is none by its framing, so nobody may take it for complete;
- SHORT: its octets end before it does, so nobody may take it for complete.
"""
import re

GOOD, DOUBTFUL, REFUSED, BAD, BROKEN, SHORT = "good", "doubtful", "refused", "bad", "broken", "short"
TCHAR = rb"[!#$%&'*+.^_`|~0-9A-Za-z-]"
NAME = re.compile(TCHAR + rb"+")
REQUEST_LINE = re.compile(rb"(" + TCHAR + rb"+) ([\x21-\x7e]+) HTTP/1\.([01])")
LOOSE_VERSION = re.compile(rb"HTTP/1\.([0-9])")
STATUS_LINE = re.compile(rb"HTTP/1\.([01]) ([0-9]{3}) [\t\x20-\x7e\x80-\xff]*")
LOOSE_STATUS_LINE = re.compile(rb"HTTP/1\.([0-9])[ \t]+([0-9]{3})(?:[ \t][^\r\n]*)?", re.DOTALL)
CHUNK_SIZE = re.compile(rb"([ \t]*)([0-9A-Fa-f]+)([ \t]*)(;.*)?", re.DOTALL)
QUOTED = rb'"(?:[\t \x21\x23-\x5b\x5d-\x7e\x80-\xff]|\\[\t \x21-\x7e\x80-\xff])*"'
EXTENSIONS = re.compile(rb"(?:[ \t]*;[ \t]*" + TCHAR + rb"+(?:[ \t]*=[ \t]*(?:" + TCHAR + rb"+|" + QUOTED + rb"))?)*")
CONTROLS = re.compile(rb"[\x00-\x08\x0a-\x1f\x7f]")
HOST = re.compile(rb"(?:[A-Za-z0-9._~%!$&'()*+,;=-]*|\[[0-9A-Fa-f:.]+\])(?::[0-9]*)?")
URL = re.compile(rb"http://127\.0\.0\.1:([1-9][0-9]*)(/[A-Za-z0-9._~%!$&'()*+,;=:@/-]*)?(\?[A-Za-z0-9._~%!$&'()*+,;=:@/?-]*)?(#[!-~]*)?")
AUTHORITY = re.compile(rb"127\.0\.0\.1:([1-9][0-9]{0,4})")
LOOSE_AUTHORITY = re.compile(rb"[^/\\?#@]+:0*([0-9]{1,5})")
LOOSE_URL = re.compile(rb"(?i)http:[/\\]*([^/\\?#]*)([^?#]*)(\?[^#]*)?(?:#.*)?", re.DOTALL)
# What is for one hop (RFC 9110, section 7.6.1), and what authenticates to one proxy alone (section 11.7).
HOP_FIELDS = {b"connection", b"keep-alive", b"proxy-connection", b"te", b"trailer", b"transfer-encoding", b"upgrade",
              b"proxy-authorization", b"proxy-authenticate", b"proxy-authentication-info"}
# The lengths above which a recipient may refuse a head, its number of fields, a target, and a chunk's extensions.
LONG_HEAD, MANY_FIELDS, LONG_TARGET, LONG_LINE = 8_000, 64, 8_192, 200
MANY_NAMES = 64
# What a request may have as a content that is not passed on.
COLLECTED = 65_536


def worse(*verdicts):
    """The worst of these verdicts."""
    order = (GOOD, DOUBTFUL, REFUSED, BROKEN, SHORT, BAD)
    return max(verdicts, key=order.index)


# ---- heads

class Head:
    """The lines of a head. `may_wait` is whether a recipient may think that it has not ended, `end` is the place behind it, `is_long`
    whether it may be refused for its size."""

    def __init__(self, lines, verdict, may_wait, began, end):
        self.lines, self.verdict, self.may_wait, self.end = lines, verdict, may_wait, end
        self.is_long = end - began > LONG_HEAD or len(lines) > MANY_FIELDS


def head_at(octets, at):
    """The head from this place on, or None where the octets end before it does (RFC 9112, section 2.2: a line may end with LF alone,
    empty lines may stand before it)."""
    began, lines, verdict, may_wait = at, [], GOOD, False
    while (end := octets.find(b"\n", at)) >= 0:
        line, at = octets[at:end], end + 1
        ends_well = line.endswith(b"\r") and not line.endswith(b"\r\r")
        may_wait = may_wait or not ends_well
        line = line.rstrip(b"\r")
        verdict = verdict if ends_well and (line or lines) else DOUBTFUL
        if line:
            lines.append(line)
        elif lines:
            return Head(lines, verdict, may_wait, began, at)
    return None


def fields_of(lines, is_answer):
    """The fields of a head in order, their names in lower case; and its verdict. A name with a blank behind it is none in a request,
    and loses the blank in an answer (RFC 9112, section 5.1); a folded value goes on behind a blank (section 5.2)."""
    fields, verdict = [], GOOD
    for line in lines:
        name, colon, value = line.partition(b":")
        if line[:1] in b" \t":
            verdict = worse(verdict, DOUBTFUL)
            if fields:
                fields[-1] = fields[-1][0], fields[-1][1] + b" " + line.strip(b" \t")
            continue
        if is_answer and name != name.rstrip(b" \t"):
            verdict, name = worse(verdict, DOUBTFUL), name.rstrip(b" \t")
        if not colon or not NAME.fullmatch(name):
            verdict = worse(verdict, DOUBTFUL if is_answer else BAD)
            continue
        verdict = worse(verdict, DOUBTFUL if CONTROLS.search(value) else GOOD)
        fields.append((name.lower(), value.strip(b" \t")))
    return fields, verdict


def values_of(fields, name):
    return [value for other, value in fields if other == name]


def elements_of(fields, name):
    """The elements of a list that is a field (RFC 9110, section 5.6.1), in lower case."""
    elements = [it.strip(b" \t").lower() for value in values_of(fields, name) for it in value.split(b",")]
    return [it for it in elements if it]


def length_of(fields):
    """What Content-Length says (RFC 9112, section 6.3), and its verdict."""
    elements = [it.strip(b" \t") for value in values_of(fields, b"content-length") for it in value.split(b",")]
    if not elements:
        return None, GOOD
    if not all(re.fullmatch(rb"[0-9]+", it) for it in elements) or len({int(it) for it in elements}) > 1:
        return None, BAD
    return int(elements[0]), GOOD if len(elements) == 1 and len(elements[0]) <= 20 and int(elements[0]) < 1 << 64 else DOUBTFUL


def is_chunked(fields, drops_content=False):
    """Whether there is a Transfer-Encoding, and its verdict: chunked alone is known here. Who drops a content has to know no more than
    where it ends, so that chunked is the last one."""
    values = values_of(fields, b"transfer-encoding")
    if not values:
        return False, GOOD
    codings = [it.strip(b" \t").lower() for value in values for it in value.split(b",")]
    known = [re.sub(rb"[ \t]*;.*", b"", it, flags=re.DOTALL) for it in codings if it]
    if known != [b"chunked"]:
        return True, DOUBTFUL if drops_content and known[-1:] == [b"chunked"] and known.count(b"chunked") == 1 else BAD
    return True, GOOD if codings == [b"chunked"] else DOUBTFUL


# ---- contents

class Content:
    """A content as its framing has it: what there is of it, and the place behind it. `is_all` is whether nothing of it is missing."""

    def __init__(self, octets, end, verdict, is_all):
        self.octets, self.end, self.verdict, self.is_all = octets, end, verdict, is_all


def counted_at(octets, at, length):
    is_all = len(octets) - at >= length
    return Content(octets[at:at + length], at + length, GOOD if is_all else SHORT, is_all)


def size_of(line):
    """The size that a chunk's line says, and its verdict (RFC 9112, section 7.1)."""
    parts = CHUNK_SIZE.fullmatch(line)
    if not parts or b"\n" in line:
        return None, BROKEN
    before, digits, behind, extensions = parts.groups()
    is_plain = not before and len(digits) < 16 and len(line) < LONG_LINE and (extensions is not None or not behind)
    return int(digits, 16), GOOD if is_plain and EXTENSIONS.fullmatch(behind + (extensions or b"")) else DOUBTFUL


def chunks_at(octets, at):
    """A content in the chunked coding. Its trailers are dropped."""
    pieces, verdict = [], GOOD
    while True:
        end = octets.find(b"\n", at)
        if end < 0:
            return Content(b"".join(pieces), len(octets), SHORT, False)
        line = octets[at:end]
        size, said = size_of(line[:-1]) if line.endswith(b"\r") else (None, BROKEN)
        verdict, at = worse(verdict, said), end + 1
        if size is None:
            return Content(b"".join(pieces), at, BROKEN, False)
        if not size:
            return trailers_at(octets, at, b"".join(pieces), verdict)
        pieces.append(octets[at:at + size])
        ending, at = octets[at + size:at + size + 2], at + size + 2
        if ending != b"\r\n":
            is_short = b"\r\n".startswith(ending)
            return Content(b"".join(pieces), at, SHORT if is_short else BROKEN, False)


def trailers_at(octets, at, content, verdict):
    """What stands behind the last chunk."""
    began = at
    while (end := octets.find(b"\n", at)) >= 0:
        line, at = octets[at:end + 1], end + 1
        if line in (b"\r\n", b"\n"):
            return Content(content, at, verdict if line == b"\r\n" else worse(verdict, DOUBTFUL), True)
        is_field = NAME.fullmatch(line.partition(b":")[0]) and b":" in line and line.endswith(b"\r\n") and not CONTROLS.search(line[:-2])
        verdict = verdict if is_field and at - began < LONG_LINE else worse(verdict, DOUBTFUL)
    return Content(content, len(octets), SHORT, True)


# ---- requests

class Message:
    """A message that was read. `is_strict` is whether all of it is by the grammar, and no more than a limit makes it doubtful; `end` is
    the place behind it, and `closes` whether it is the last one of its connection."""

    def __init__(self, verdict, why=""):
        self.verdict, self.why, self.is_strict, self.end, self.closes, self.fields, self.content = verdict, why, True, None, True, [], b""

    def judge(self, verdict, why, is_strict=False):
        self.is_strict = self.is_strict and (is_strict or verdict in (GOOD, SHORT))
        if worse(self.verdict, verdict) != self.verdict:
            self.verdict, self.why = verdict, why


class Request(Message):
    """A request that was read. `may_wait` is whether a recipient may wait for more of its head, `has_all` whether its content is all
    there, `may_come` whether it may come to a server, and there with this port and path. Of a CONNECT (`is_tunnel`) the content is all
    that stands behind it."""

    def __init__(self, verdict, why="", may_wait=False):
        super().__init__(verdict, why)
        self.may_wait, self.method, self.target, self.version = may_wait, b"", b"", b"1.1"
        self.has_all, self.may_come, self.is_tunnel, self.next, self.port, self.path = False, False, False, None, None, None


def start_of(request, line):
    """Reads a request line (RFC 9112, section 3): its words may have other blanks between them."""
    parts = REQUEST_LINE.fullmatch(line)
    words = parts.groups() if parts else line.split()
    if not parts:
        version = LOOSE_VERSION.fullmatch(words[-1]) if words else None
        if len(words) != 3 or not version or not NAME.fullmatch(words[0]):
            return request.judge(BAD, "no request line")
        words = words[0], words[1], version[1]
        request.judge(DOUBTFUL, "a loose request line")
    request.method, request.target, request.version = words[0], words[1], b"1." + words[2]


def judge_host(request):
    """A request has one Host (RFC 9112, section 3.2); where its target has the host, Host is not looked at (section 3.2.2)."""
    hosts = values_of(request.fields, b"host")
    if len(hosts) > 1 or any(not HOST.fullmatch(it) for it in hosts) or not hosts and request.version != b"1.0":
        request.judge(DOUBTFUL, "not one Host")


def judge_framing(request):
    """Whether the content comes in chunks, and its length."""
    (has_chunks, of_coding), (length, of_length) = is_chunked(request.fields, request.method == b"GET"), length_of(request.fields)
    request.judge(of_coding, "its Transfer-Encoding")
    request.judge(of_length, "its Content-Length")
    if has_chunks and values_of(request.fields, b"content-length"):
        request.judge(DOUBTFUL, "a length beside chunks")
        request.closes = True
    if has_chunks and request.version == b"1.0":
        request.judge(DOUBTFUL, "chunks by HTTP/1.0")
        request.closes = True
    return has_chunks, length or 0


def request_at(octets, at):
    """The request from this place on, or None where there is nothing."""
    if at >= len(octets):
        return None
    head = head_at(octets, at)
    if head is None:
        return Request(SHORT, "its head")
    request = Request(GOOD, may_wait=head.may_wait)
    request.judge(head.verdict, "its head")
    start_of(request, head.lines[0])
    request.fields, verdict = fields_of(head.lines[1:], False)
    request.judge(verdict, "its fields")
    request.judge(DOUBTFUL if head.is_long else GOOD, "a long head", True)
    options = elements_of(request.fields, b"connection")
    request.closes = b"close" in options or request.version == b"1.0" and b"keep-alive" not in options
    has_chunks, length = judge_framing(request)
    if request.verdict == BAD:
        return request
    if request.method == b"CONNECT":
        return opened_at(request, octets, head.end)
    content = chunks_at(octets, head.end) if has_chunks else counted_at(octets, head.end, length)
    request.content, request.has_all, request.end = content.octets, content.is_all, content.end
    request.judge(content.verdict, "its content")
    return request


def opened_at(request, octets, at):
    """A CONNECT: it has no content, whatever its fields say (RFC 9110, section 9.3.6). Where it is refused, and no field says
    that there is one, what stands behind it may be the next request."""
    has_framing = values_of(request.fields, b"content-length") or values_of(request.fields, b"transfer-encoding")
    request.judge(DOUBTFUL if has_framing else GOOD, "a framing of nothing")
    is_empty = not has_framing or length_of(request.fields)[0] == 0 and not values_of(request.fields, b"transfer-encoding")
    request.next = at if is_empty and not request.closes else None
    request.content, request.end, request.has_all, request.is_tunnel, request.closes = octets[at:], len(octets), True, True, True
    return request


def judge_tunnel(request):
    """Where a tunnel leads."""
    parts, loose = AUTHORITY.fullmatch(request.target), LOOSE_AUTHORITY.fullmatch(request.target)
    request.judge(GOOD if parts else DOUBTFUL if loose else REFUSED, "its target")
    request.port = int(loose[1]) if loose else None
    judge_host(request)
    if len(elements_of(request.fields, b"connection")) > MANY_NAMES or values_of(request.fields, b"expect"):
        request.judge(DOUBTFUL, "an expectation, or names in Connection")


def judge_meaning(request, methods):
    """What a proxy that passes on these methods makes of a request whose framing is good."""
    parts, loose = URL.fullmatch(request.target), LOOSE_URL.fullmatch(request.target)
    if request.method not in methods:
        return request.judge(REFUSED, "its method")
    if request.is_tunnel:
        return judge_tunnel(request)
    if not loose or b"@" in loose[1] or re.search(rb"[^\x21-\xff]|\x7f", request.target) or not is_text(request.target):
        return request.judge(REFUSED, "its target")
    request.may_come = True
    if not parts or len(request.target) > LONG_TARGET - 16:
        request.judge(DOUBTFUL, "its target")
    port = re.search(rb":0*([0-9]{1,5})$", loose[1])
    request.port, request.path = int(port[1]) if port else 80, normal(loose[2], loose[3] or b"")
    judge_host(request)
    if len(elements_of(request.fields, b"connection")) > MANY_NAMES:
        request.judge(DOUBTFUL, "names in Connection")
    if any(it != b"100-continue" for it in elements_of(request.fields, b"expect")):
        request.judge(DOUBTFUL, "an expectation")
    if request.method == b"GET" and len(request.content) > COLLECTED:
        request.judge(DOUBTFUL, "a long content")
    return judge_hops(request)


def is_text(octets):
    """Whether octets are UTF-8."""
    return octets.decode(errors="replace").encode() == octets


def judge_hops(request):
    """Max-Forwards counts in OPTIONS (RFC 9110, section 7.6.2)."""
    hops = values_of(request.fields, b"max-forwards")
    if request.method == b"OPTIONS" and hops:
        is_number = len(hops) == 1 and re.fullmatch(rb"[0-9]{1,9}", hops[0])
        request.may_come = not is_number or int(hops[0]) > 0
        request.judge((GOOD if request.may_come else REFUSED) if is_number else DOUBTFUL, "its hops")


def normal(path, query):
    """A path and a query as the URL standard writes them: without dots, and with the octets escaped that it escapes."""
    kept = []
    for part in re.sub(rb"\\", b"/", path).split(b"/")[1:]:
        plain = re.sub(rb"(?i)%2e", b".", part)
        is_up, is_here = plain == b"..", plain == b"."
        kept = kept[:-1] if is_up else kept if is_here else [*kept, part]
    if path and (is_up or is_here):
        kept.append(b"")
    return escaped(b"/" + b"/".join(kept), b' "<>^`{|}') + escaped(query, b' "<>\'')


def escaped(octets, signs):
    return re.sub(rb"[^\x21-\x7e]|[" + re.escape(signs) + rb"]", lambda it: b"%%%02X" % it[0][0], octets)


def requests_in(octets, methods):
    """What these octets of a client are, up to the first request behind which nothing is read."""
    requests, at, is_behind_tunnel = [], 0, False
    while (request := request_at(octets, at)) is not None:
        requests.append(request)
        request.judge(DOUBTFUL if is_behind_tunnel else GOOD, "behind a tunnel")
        if request.verdict != BAD and request.method:
            judge_meaning(request, methods)
        is_refused = request.verdict == REFUSED and request.next is not None
        is_behind_tunnel = is_behind_tunnel or is_refused
        if not is_refused and (request.verdict in (BAD, BROKEN, SHORT) or request.closes):
            break
        at = request.next if is_refused else request.end
    return requests


# ---- answers

class Answer(Message):
    """An answer that was read. `is_broken` is whether its content is cut: then `content` is what came of it. So many came before it
    that are none (`interim`)."""

    def __init__(self, verdict, why=""):
        super().__init__(verdict, why)
        self.status, self.is_broken, self.interim = None, False, 0


def answer_at(octets, at, method, ending):
    """The answer from this place on to a request with this method. `ending` is how the connection ends: "fin", "rst", or "open"."""
    answer, status = Answer(GOOD), 100
    while 100 <= status < 200:
        head = head_at(octets, at)
        if head is None:
            answer.judge(SHORT, "its head")
            return answer
        answer.judge(head.verdict, "its head")
        status = status_of(answer, head.lines[0])
        if answer.verdict == BAD or status == 101:
            answer.judge(BAD, "its status")
            return answer
        answer.fields, verdict = fields_of(head.lines[1:], True)
        answer.judge(verdict, "its fields")
        answer.judge(DOUBTFUL if head.is_long else GOOD, "a long head", True)
        answer.interim, at = answer.interim + 1, head.end
    answer.status, answer.interim = status, answer.interim - 1
    if answer.interim > 4:
        answer.judge(DOUBTFUL, "many before it", True)
    options = elements_of(answer.fields, b"connection")
    answer.judge(DOUBTFUL if len(options) > MANY_NAMES else GOOD, "names in Connection", True)
    is_old = head.lines[0].startswith(b"HTTP/1.0")
    answer.closes = b"close" in options or is_old and b"keep-alive" not in options
    # Its framing counts as faulty (RFC 9112, section 6.1).
    answer.judge(DOUBTFUL if is_old and is_chunked(answer.fields)[0] else GOOD, "chunks of HTTP/1.0")
    take_content(answer, octets, at, method, ending)
    return answer


def status_of(answer, line):
    """Reads a status line (RFC 9112, section 4)."""
    parts = STATUS_LINE.fullmatch(line)
    loose = parts or LOOSE_STATUS_LINE.fullmatch(line)
    if not loose:
        answer.judge(BAD, "no status line")
        return 0
    status = int(loose[2])
    answer.judge(GOOD if parts and 100 <= status < 600 else DOUBTFUL, "a loose status line", bool(parts) and status >= 100)
    return status if status >= 100 else 600


def take_content(answer, octets, at, method, ending):
    """The content of an answer (RFC 9112, section 6.3). One that is reset may be cut."""
    (has_chunks, of_coding), (length, of_length) = is_chunked(answer.fields), length_of(answer.fields)
    if method == b"HEAD" or answer.status in (204, 304) or method == b"CONNECT" and answer.status < 300:
        answer.end = at
        is_odd = of_coding != GOOD or of_length != GOOD or has_chunks and (length is not None or answer.status == 204)
        return answer.judge(DOUBTFUL if is_odd else GOOD, "a framing of nothing")
    answer.judge(of_coding, "its Transfer-Encoding")
    answer.judge(DOUBTFUL if has_chunks and of_length == BAD else of_length, "its Content-Length")
    if has_chunks and values_of(answer.fields, b"content-length"):
        answer.judge(DOUBTFUL, "a length beside chunks")
    if answer.verdict == BAD:
        return None
    is_counted = has_chunks or length is not None
    content = Content(octets[at:], len(octets), GOOD, ending != "rst")
    if is_counted:
        content = chunks_at(octets, at) if has_chunks else counted_at(octets, at, length)
    answer.content, answer.end = content.octets, content.end
    answer.is_broken = not content.is_all or content.verdict in (BROKEN, SHORT)
    is_odd = ending == "rst" or answer.status == 205 and content.octets or answer.is_broken
    answer.judge(content.verdict if content.verdict == DOUBTFUL else GOOD, "its content")
    return answer.judge(DOUBTFUL if is_odd else GOOD, "its content", content.verdict != BROKEN)


# ---- what is passed on

def own_elements(fields, name):
    return [it.strip(b" \t") for value in values_of(fields, name) for it in value.split(b",") if it.strip(b" \t")]


def plain(fields, without):
    """Fields to compare, sorted: control characters and blanks in their values count as one blank."""
    return sorted((name, re.sub(rb"[\x00-\x20\x7f]+", b" ", value).strip()) for name, value in fields if name not in without)


def end_to_end(fields):
    """The fields that are not for one hop."""
    named = set(elements_of(fields, b"connection"))
    return [(name, value) for name, value in fields if name not in HOP_FIELDS and name not in named]


def faults_of_request(sent, seen, name):
    """What is wrong with the head of a request as a server has it, which a client sent so, through a proxy of this name."""
    faults = [f"{it} reaches the server" for it in HOP_FIELDS - {b"transfer-encoding", b"connection"} if values_of(seen.fields, it)]
    if elements_of(seen.fields, b"connection") not in ([], [b"close"]):
        faults.append("Connection reaches the server")
    if sent.method != seen.method:
        faults.append(f"the method {seen.method}")
    if values_of(seen.fields, b"host") != [b"127.0.0.1:%d" % sent.port]:
        faults.append(f"the Host {values_of(seen.fields, b'host')}")
    passed = end_to_end(sent.fields)
    via = own_elements(passed, b"via") if sent.method != b"GET" else own_elements(seen.fields, b"via")[:-1]
    if own_elements(seen.fields, b"via") not in ([*via, b"1.1 " + name], [*via, b"1.0 " + name]):
        faults.append(f"Via is {values_of(seen.fields, b'via')}")
    return faults + faults_of_fields(sent, passed, seen)


def faults_of_fields(sent, passed, seen):
    """What is wrong with the fields that go from end to end. A GET for all takes none of them along, so fewer may arrive."""
    made = {b"host", b"via", b"cdn-loop", b"content-length", b"transfer-encoding", b"connection", b"expect"}
    if sent.method == b"OPTIONS":
        made.add(b"max-forwards")
    wanted, came = plain(passed, made), plain(seen.fields, made)
    odd = [it for it in came if it not in wanted] if sent.method == b"GET" else came if came != wanted else []
    faults = [f"the fields {odd}, wanted {wanted}"] if odd or sent.method not in (b"GET",) and came != wanted else []
    hops, left = values_of(sent.fields, b"max-forwards"), values_of(seen.fields, b"max-forwards")
    if sent.verdict == GOOD and sent.method == b"OPTIONS" and hops and left != [b"%d" % (int(hops[0]) - 1)]:
        if b"max-forwards" not in elements_of(sent.fields, b"connection"):
            faults.append(f"Max-Forwards {hops} is passed on as {left}")
    return faults


def faults_of_answer(sent, seen, method):
    """What is wrong with an answer as a client has it, which a server sent so."""
    kept_here = HOP_FIELDS - {b"transfer-encoding", b"connection", b"keep-alive"}
    faults = [f"{it} reaches the client" for it in kept_here if values_of(seen.fields, it)]
    if seen.status != sent.status:
        faults.append(f"the status {seen.status}, sent was {sent.status}")
    made = {b"via", b"cache-status", b"date", b"content-length", b"transfer-encoding", b"connection", b"keep-alive", b"age"}
    wanted, came = plain(end_to_end(sent.fields), made), plain(seen.fields, made)
    if came != wanted:
        faults.append(f"the fields {came}, sent were {wanted}")
    if not sent.content.startswith(seen.content):
        faults.append(f"the content {seen.content[:80]}, sent was {sent.content[:80]}")
    lengths = length_of(sent.fields)[0], length_of(seen.fields)[0]
    if method == b"HEAD" and sent.status != 205 and None not in lengths and lengths[0] != lengths[1]:
        faults.append(f"lengths {lengths}")
    return faults
