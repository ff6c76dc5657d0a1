"""Requests and answers that are nearly well-formed: what tests/passage_fuzz sends.

A draft is a message in parts. Each mutation changes something of a draft, by a generator of random numbers that is given to it, and
each is written for requests, for answers, or for both. What stands in a draft's octets last is judged by tests/passage_rules alone, so
a mutation may well leave a good message.
"""

METHODS = [b"POST"] * 9 + [b"PUT"] * 5 + [b"PATCH"] * 3 + [b"DELETE"] * 3 + [b"OPTIONS"] * 3 + [b"HEAD"] * 4 + [b"GET"] * 7
REASONS = {200: b"OK", 201: b"Created", 204: b"No Content", 205: b"Reset Content", 206: b"Partial Content", 304: b"Not Modified",
           404: b"Not Found", 500: b"Oh"}
BLANKS = [b" ", b"\t", b"  ", b"\x0b", b"\x0c", b"\xa0", b"\x85", b"\0", b"\x7f", b"\x01"]
LINE_ENDS = [b"\n", b"\r", b"\r\r\n", b"\n\r", b"\0", b"\r\n\r\n", b"\r\n ", b"\r\n\t", b""]
NUMBERS = [
    b"+%d", b"-%d", b"0x%x", b"%d.0", b"%d ", b" %d", b"\t%d\t", b"00%d", b"%d,", b",%d", b"%d, %d", b"%d;", b"\"%d\"", b"%d\x0b",
    b"%d\0", b"\x00%d", b"%de0", b"1844674407370955161%d", b"18446744073709551616%d", b"000000000000000000000000%d", b"%d 0", b"0 %d",
    b"%d\r\n 0", b"\xa0%d", b"%d_0", b"0%o", b"", b"  "]
SIZES = [
    b"+%x", b"-%x", b"0x%x", b"0X%x", b"%xh", b"%xg", b" %x", b"%x ", b"\t%x", b"%x\t", b"00%x", b"000000000000000000000000%x", b"%x_0",
    b"%x.0", b"\"%x\"", b"%x\0", b"\0%x", b"%x\x0b", b"%x\r", b"1%016x", b"ffffffffffffff%02x", b"ffffffffffffffff", b"7fffffffffffffff",
    b"8000000000000000", b"fffffffffffffffffffffffff%x", b"%x 0", b"0 %x", b"", b"-0", b"%x,", b"%d.", b"\xef\xbb\xbf%x", b"\xa0%x"]
CODINGS = [
    b"Chunked", b"CHUNKED", b"chunked ", b"\tchunked", b"\x0bchunked", b"chunked\x0b", b"chunked, chunked", b"gzip, chunked",
    b"chunked, gzip", b"identity", b"identity, chunked", b"chunked, identity", b"xchunked", b"chunkedx", b"chunked;a=b", b"chunked ;q=0",
    b"chunked,", b",chunked", b", , chunked", b'"chunked"', b"chu nked", b"chunked\0", b"\0chunked", b"", b"chunked\r\n ",
    b"\r\n chunked", b"gzip", b"trailers", b"chunked\n", b"chunked\rx", b"'chunked'", b"[chunked]", b"ch\xc5\xbfunked", b"cow, chunked",
    b"chunked\xa0"]
CODING_NAMES = [
    b"Transfer-Encoding", b"transfer-encoding", b"TRANSFER-ENCODING", b"Transfer-Encoding ", b"Transfer-Encoding\t",
    b" Transfer-Encoding", b"Transfer_Encoding", b"Transfer-Encoding\0", b"X: a\nTransfer-Encoding", b"X: a\rTransfer-Encoding",
    b"Transfer-Encodin\xc4\xa1", b"\0Transfer-Encoding", b"Transfer-Encoding\x0b"]
EXTENSIONS = [
    b";", b";a", b";a=b", b"; a = b", b";a=\"b;c\"", b";a=\"b\\\"c\"", b";a=\"b", b";a\nb", b";a\rb", b";\n", b";a=b;c=d;e", b" ;a",
    b";=b", b";a=", b";" + b"a" * 300, b";a=" + b"b" * 9000, b";a=\0", b";a=\x80", b"a=b", b" a=b", b";a=\"b\nc\"", b";a=\"\r\n\"",
    b"\\\n"]
TRAILERS = [
    b"X-A: b\r\n", b"Content-Length: 99\r\n", b"Transfer-Encoding: chunked\r\n", b"X-A: b\n", b"X-A\r\n", b" x\r\n", b"X: a\r\n b\r\n",
    b"X : a\r\n", b"Host: a\r\n", b"X: \0\r\n", b"X: a\r\n" * 50, b"X: a\r\n" * 500, b"X: " + b"a" * 70_000 + b"\r\n", b"\n", b"\rX: a\r\n",
    b": a\r\n", b"GET http://127.0.0.1:1/ HTTP/1.1\r\n", b"X: a"]
HOPS = [
    b"Keep-Alive: timeout=5", b"TE: trailers", b"TE: trailers, deflate", b"Upgrade: websocket", b"Upgrade: h2c",
    b"Proxy-Connection: keep-alive", b"Proxy-Authorization: Basic YTpi", b"Trailer: X-A", b"Proxy-Authenticate: Basic",
    b"Proxy-Authentication-Info: a=b", b"HTTP2-Settings: AAMAAABkAAQAoAAAAAIAAAAA", b"KEEP-ALIVE: 1", b"te:chunked"]
NAMED = [
    b"X-A", b"x-b", b"Cookie", b"Host", b"Content-Length", b"Transfer-Encoding", b"Via", b"Content-Type", b"close", b"keep-alive",
    b"Connection", b"Max-Forwards", b"Expect", b"x-a ", b"\tX-B", b"", b"X-A;q=1", b"\"X-A\"", b"x a", b"Keep-Alive", b"upgrade", b"TE",
    b"Set-Cookie", b"ETag", b"X-Mark", b"Date", b"Age", b"Cache-Status", b"Cache-Control"]
ODD_TARGETS = [
    b"\0", b"\t", b"\x7f", b"\x80", b"\xff", b"\xc3\xa9", b"\"", b"<", b">", b"\\", b"^", b"`", b"{", b"|", b"}", b"[", b"]", b"#a",
    b"#", b"%", b"%00", b"%zz", b"%0d%0a", b"%2e%2e/", b"../", b"/../", b"/./", b"//", b"?", b"??", b"'", b";a=b", b"@", b":", b"*",
    b"\r", b"\n", b" ", b"\x0b", b"%2f", b"&#10;", b"a" * 9000]
SCHEMES = [
    b"HTTP://", b"http:/", b"http:", b"http:///", b"https://", b"ftp://", b"http://a@", b"http://a:b@", b"http:\\\\", b"//", b"/", b"*",
    b"", b"http://127.0.0.1:1@", b"hTtP://", b"http ://", b"ws://", b"http://[::1]", b"http://127.1:", b"http://0x7f000001:"]
ODD_METHODS = [
    b"post", b"Post", b"POSTS", b"POST\0", b" POST", b"P\tOST", b"TRACE", b"CONNECT", b"PRI", b"PROPFIND", b"", b"get", b"GET\x0b",
    b"P(ST", b"M-SEARCH", b"QUERY", b"X" * 300, b"\xefPOST", b"head", b"LINK"]
VERSIONS = [
    b"HTTP/1.0", b"HTTP/1.2", b"HTTP/1.9", b"HTTP/2.0", b"HTTP/0.9", b"HTTP/1", b"HTTP/1.", b"HTTP/1.10", b"http/1.1", b"HTTP/01.1",
    b"HTTP/1.01", b"HTTP/1,1", b"HTTP /1.1", b"HTTP/ 1.1", b"", b"HTTPS/1.1", b"ICY", b"HTTP/3", b"HTTP/1.1 ", b"HTTP/1.1\t",
    b"HTTP/1.\xb1", b"HTTP/-1.1"]
HOSTS = [
    b"127.0.0.1:DECOY", b"decoy.example", b"", b"a b", b"a@b", b"127.0.0.1:DECOY\0", b"a, b", b"[::1]", b"a/b", b"a:b", b"\x80",
    b"127.0.0.1:99999"]
NUMBERS_OF_HOPS = [
    b"0", b"1", b"5", b"00", b"010", b"-1", b"+1", b"", b"a", b"0x1", b"1.5", b"1, 2", b"4294967296", b"18446744073709551616",
    b"2147483648", b" 7 ", b"0\0"]
STATUSES = [
    b"000", b"099", b"100", b"101", b"102", b"103", b"199", b"204", b"205", b"304", b"600", b"999", b"1000", b"2000", b"20", b"2",
    b"2 0", b"+20", b"-20", b"0xc8", b"abc", b"", b"2e2", b"200.0", b"\xb2\xb0\xb0", b"206", b"401", b"407", b"416", b"426", b"500",
    b"503", b"511", b"200\0"]
INTERIM = [
    b"HTTP/1.1 100 Continue\r\n\r\n", b"HTTP/1.1 102 Processing\r\n\r\n", b"HTTP/1.1 103 Early Hints\r\nLink: </a>\r\n\r\n",
    b"HTTP/1.1 199 X\r\n\r\n", b"HTTP/1.0 100 Continue\r\n\r\n", b"HTTP/1.1 100 Continue\r\nContent-Length: 5\r\n\r\n",
    b"HTTP/1.1 100 Continue\r\nTransfer-Encoding: chunked\r\n\r\n",
    b"HTTP/1.1 101 Switching Protocols\r\nUpgrade: x\r\nConnection: upgrade\r\n\r\n", b"HTTP/1.1 100\r\n\r\n",
    b"HTTP/1.1 100 Continue\r\nConnection: close\r\n\r\n", b"HTTP/1.1 100 Continue\r\nX-Mark: none\r\n\r\n"]
ODD_FIELDS = [
    b": a", b"X", b"X Y: a", b"X: a\0b", b"X: a\rb", b"X: a\nb", b"X\0: a", b"X: \x01\x02", b"X: \x7f", b"(X): a", b"X\x80: a",
    b"X: \x80\xff", b" X: a", b"\tX: a", b"X :a", b"X\t: a", b"X:", b"X:\x0b", b"@: a", b"X: a\r\n b", b"X: a\r\n\t\r\n b", b"X:a:b",
    b"\"X\": a", b"X=Y: a", b":", b":Content-Length: 3", b"Content-Length", b"X: " + b"x" * 3000, b"X: a\r\r\n", b"{}: 1", b"\x0bX: a"]


class Draft:
    """A message in parts: the words of its start, its fields' lines, and its content, either as it stands or in chunks. A chunk has
    the text of its size, extensions, octets, and an end. `front` stands before it, `behind` after it."""

    def __init__(self, words, lines, content):
        self.front, self.words, self.gaps, self.lines, self.line_end = b"", words, [b" ", b" "], lines, b"\r\n"
        self.content, self.chunks, self.trailers, self.behind = content, None, b"", b""
        self.change = lambda octets: octets

    def cut_into_chunks(self, random):
        at, self.chunks = 0, []
        while at < len(self.content):
            size = random.choice((1, 3, 16, 17, 100, 1000, 40_000))
            piece, at = self.content[at:at + size], at + size
            self.chunks.append([b"%x" % len(piece), b"", piece, b"\r\n"])
        self.chunks.append([b"0", b"", b"", b""])

    def body(self):
        if self.chunks is None:
            return self.content
        return b"".join(size + extension + b"\r\n" + octets + end for size, extension, octets, end in self.chunks) + self.trailers + b"\r\n"

    def head(self):
        start = self.words[0] + self.gaps[0] + self.words[1] + self.gaps[1] + self.words[2]
        return self.front + self.line_end.join([start, *self.lines, b"", b""])

    def octets(self):
        return self.change(self.head() + self.body()) + self.behind


FOR_REQUESTS, FOR_ANSWERS = [], []


def of_requests(function):
    FOR_REQUESTS.append(function)
    return function


def of_answers(function):
    FOR_ANSWERS.append(function)
    return function


def of_both(function):
    return of_answers(of_requests(function))


def formatted(text, number):
    """A number as one of these texts says it."""
    return text % ((number,) * text.count(b"%")) if text.count(b"%") else text


def put_in(draft, random, *lines):
    """Puts lines between the fields, in this order."""
    for line in lines:
        draft.lines.insert(random.randrange(len(draft.lines) + 1), line)


def some_line(draft, random):
    """The place of one of the fields. There is one, at least."""
    if not draft.lines:
        draft.lines.append(b"X-A: 1")
    return random.randrange(len(draft.lines))


def without(lines, name):
    return [it for it in lines if not it.lower().startswith(name)]


def replaced(octets, random, old, new):
    """Octets in which one place of those that have these octets has others."""
    count = octets.count(old)
    if not count:
        return octets
    parts = octets.split(old)
    at = random.randrange(count) + 1
    return old.join(parts[:at]) + new + old.join(parts[at:])


# ---- framing

@of_both
def a_further_length(draft, random):
    length = len(draft.content)
    other = random.choice([length, length, 0, 1, length + 1, max(length - 1, 0), 5, 10 ** 6])
    line = random.choice([b"Content-Length: %d", b"content-length:%d", b"Content-Length: %d, %d", b"CONTENT-LENGTH : %d", b"Content_Length: %d",
                          b"Content-Length\0: %d"])
    put_in(draft, random, formatted(line, other))


@of_both
def another_length(draft, random):
    length = len(draft.content)
    value = formatted(random.choice(NUMBERS), random.choice((length, length, length + 1, max(length - 1, 0), 0)))
    draft.lines = without(draft.lines, b"content-length") + [b"Content-Length: " + value]
    random.shuffle(draft.lines)


@of_both
def a_coding(draft, random):
    name = random.choice(CODING_NAMES) if random.random() < 0.4 else b"Transfer-Encoding"
    coding = random.choice(CODINGS) if random.random() < 0.8 else b"chunked"
    if draft.chunks is None and random.random() < 0.6:
        draft.cut_into_chunks(random)
    if random.random() < 0.6:
        draft.lines = without(draft.lines, random.choice((b"transfer-encoding", b"content-length")))
    put_in(draft, random, name + random.choice((b":", b": ", b" :", b":\t")) + coding)


@of_both
def a_length_beside_chunks(draft, random):
    if draft.chunks is None:
        draft.cut_into_chunks(random)
    length = random.choice((len(draft.content), len(draft.body()), 0, 3, 300))
    draft.lines = without(without(draft.lines, b"content-length"), b"transfer-encoding")
    put_in(draft, random, b"Transfer-Encoding: chunked", b"Content-Length: %d" % length)


@of_both
def no_framing(draft, random):
    draft.lines = without(without(draft.lines, b"content-length"), b"transfer-encoding")


def in_chunks(draft, random):
    """Has the draft's content come in chunks. Returns one of them."""
    if draft.chunks is None:
        draft.cut_into_chunks(random)
        draft.lines = without(draft.lines, b"content-length")
        put_in(draft, random, b"Transfer-Encoding: chunked")
    return random.choice(draft.chunks)


@of_both
def a_chunk_size(draft, random):
    chunk = in_chunks(draft, random)
    chunk[0] = formatted(random.choice(SIZES), len(chunk[2]))


@of_both
def a_wrong_chunk_size(draft, random):
    chunk = in_chunks(draft, random)
    chunk[0] = b"%x" % max(0, len(chunk[2]) + random.choice((-2, -1, 1, 2, 3, 16, 1 << 20)))


@of_both
def a_chunk_extension(draft, random):
    in_chunks(draft, random)[1] = random.choice(EXTENSIONS)


@of_both
def a_chunk_end(draft, random):
    chunk = in_chunks(draft, random)
    chunk[3] = random.choice((b"\n", b"\r", b"", b"\r\n\r\n", b"\r\r\n", b"xx", b"\n\r", b" \r\n", b"\0\0", b"0\r\n\r\n"))


@of_both
def a_line_end_of_a_chunk(draft, random):
    chunk = in_chunks(draft, random)
    chunk[1] += random.choice((b"\n", b"\r", b"\n\n", b"\r\r", b"\r\n", b"\n\r"))


@of_both
def trailers(draft, random):
    in_chunks(draft, random)
    draft.trailers = random.choice(TRAILERS)


@of_both
def no_last_chunk(draft, random):
    in_chunks(draft, random)
    draft.chunks[-1:] = [] if len(draft.chunks) > 1 else draft.chunks


# ---- heads

@of_both
def a_field(draft, random):
    put_in(draft, random, random.choice(ODD_FIELDS))


@of_both
def a_fold(draft, random):
    at = some_line(draft, random)
    name, colon, value = draft.lines[at].partition(b":")
    draft.lines[at] = name + colon + random.choice((b"\r\n ", b"\r\n\t", b"\n ", b"\r\n\r\n ", b" \r\n ")) + value


@of_both
def a_blank_before_the_colon(draft, random):
    at = some_line(draft, random)
    draft.lines[at] = draft.lines[at].replace(b":", random.choice(BLANKS) + b":", 1)


@of_both
def a_blank_before_a_name(draft, random):
    at = some_line(draft, random)
    draft.lines[at] = random.choice(BLANKS) + draft.lines[at]


@of_both
def line_ends(draft, random):
    if random.random() < 0.3:
        draft.line_end = random.choice((b"\n", b"\n", b"\r\r\n", b"\r"))
    else:
        end = random.choice(LINE_ENDS)
        draft.change = lambda octets: replaced(octets, random, b"\r\n", end)


@of_both
def a_control(draft, random):
    at, sign = random.randrange(len(draft.head())), random.choice((b"\0", b"\0", b"\x01", b"\x0b", b"\x7f", b"\r", b"\n", b"\x80"))
    draft.change = lambda octets: octets[:at] + sign + octets[at:]


@of_both
def fields_of_one_hop(draft, random):
    put_in(draft, random, *random.sample(HOPS, random.randrange(1, 4)))


@of_both
def names_in_connection(draft, random):
    names = random.sample(NAMED, random.randrange(1, 6))
    put_in(draft, random, b"Connection: " + b",".join(names))
    if random.random() < 0.3:
        put_in(draft, random, b"connection:" + b" , ".join(random.sample(NAMED, 2)))
    if random.random() < 0.02:
        put_in(draft, random, b"Connection: " + b",".join(b"x-%d" % it for it in range(80)))


@of_both
def many_fields(draft, random):
    count = random.choice((20, 90, 101, 130))
    put_in(draft, random, *(random.choice((b"X-%d: a", b"Set-Cookie: %d=a", b"X: %d")) % it for it in range(count)))


@of_both
def a_long_head(draft, random):
    if random.random() < 0.2:
        put_in(draft, random, b"X-Long: " + b"x" * random.choice((8_000, 30_000, 60_000, 66_000)))


@of_both
def blanks_of_the_start(draft, random):
    draft.gaps[random.randrange(2)] = random.choice([*BLANKS, b"", b"\r\n ", b" \n"])


@of_both
def an_empty_line_before(draft, random):
    draft.front = random.choice((b"\r\n", b"\n", b"\r\n\r\n", b"\r", b" \r\n", b"\0", b"\r\n" * 9, b"\xef\xbb\xbf"))


@of_both
def random_octets(draft, random):
    def change(octets):
        octets = bytearray(octets)
        for _ in range(random.choice((1, 1, 2, 4))):
            at = random.randrange(len(octets)) if random.random() < 0.3 else random.randrange(min(len(octets), len(draft.head()) + 40))
            one(octets, at, random)
        return bytes(octets)
    draft.change = change


def one(octets, at, random):
    """Changes some octets at a place."""
    kind = random.randrange(6)
    if kind == 0:
        octets[at] ^= 1 << random.randrange(8)
    elif kind == 1:
        octets[at] = random.choice(b"\0\t\n\r :;,=0123456789axX\x7f\x80\xff")
    elif kind == 2:
        octets[at:at] = bytes([random.choice(b"\0\t\n\r :;,\"0aA\x80")]) * random.choice((1, 1, 2))
    elif kind == 3:
        del octets[at:at + random.choice((1, 1, 2, 8))]
    elif kind == 4:
        octets[at:at] = octets[at:at + random.randrange(1, 40)]
    else:
        other = random.randrange(len(octets))
        octets[at:at + 1], octets[other:other + 1] = octets[other:other + 1], octets[at:at + 1]


# ---- requests alone

@of_requests
def a_method(draft, random):
    draft.words[0] = random.choice(ODD_METHODS)


@of_requests
def a_target(draft, random):
    target, odd = draft.words[1], random.choice(ODD_TARGETS)
    at = target.find(b"/", 7) + 1 if random.random() < 0.7 else random.randrange(len(target))
    at = random.choice((at, len(target)))
    draft.words[1] = target[:at] + odd + target[at:]


@of_requests
def a_scheme(draft, random):
    draft.words[1] = random.choice(SCHEMES) + draft.words[1][7:]


@of_requests
def a_version(draft, random):
    draft.words[2] = random.choice(VERSIONS)


@of_requests
def a_host(draft, random):
    kept, line = without(draft.lines, b"host"), b"Host: " + random.choice(HOSTS)
    draft.lines = random.choice(([*kept], [line, *kept], [line, *draft.lines], [*draft.lines, line]))


@of_requests
def hops(draft, random):
    if random.random() < 0.7:
        draft.words[0] = b"OPTIONS"
    for _ in range(random.choice((1, 1, 1, 2))):
        put_in(draft, random, b"Max-Forwards: " + random.choice(NUMBERS_OF_HOPS))


@of_requests
def an_expectation(draft, random):
    put_in(draft, random, b"Expect: " + random.choice((b"100-continue", b"100-Continue", b"100-continue, 100-continue", b"200-ok", b"",
                                                       b"100-continue;a=b", b"x", b"100-continue\0")))


@of_requests
def marks_of_proxies(draft, random):
    put_in(draft, random, random.choice((
        b"Via: 1.0 fred, 1.1 b.example (c)", b"Via: 1.1 edge", b"Via: ", b"Via: \"", b"CDN-Loop: other; a=b", b"CDN-Loop: edge",
        b"CDN-Loop: edge; x=\"", b"CDN-Loop: ,", b"Forwarded: for=a", b"X-Forwarded-For: a", b"Via: 1.1 a\r\n b")))


@of_requests
def a_request_line_within(draft, random):
    put_in(draft, random, random.choice((
        b"X: a\nBAIT\n\n", b"X: a\r\n\r\nBAIT", b"X: a\rBAIT", b"X: a\0\nBAIT", b"BAIT", b"X: a\r\n BAIT", b"X: a\n\nBAIT")))


# ---- answers alone

@of_answers
def a_status(draft, random):
    draft.words[1] = random.choice(STATUSES)


@of_answers
def a_version_of_an_answer(draft, random):
    draft.words[0] = random.choice(VERSIONS)


@of_answers
def answers_before(draft, random):
    draft.front = b"".join(random.choice(INTERIM) for _ in range(random.choice((1, 1, 2, 3, 9, 40))))


@of_answers
def an_answer_behind(draft, random):
    draft.behind = random.choice((
        b"HTTP/1.1 200 OK\r\nContent-Length: 6\r\n\r\nforged", b"forged", b"\r\n", b"\0", b"HTTP/1.1 100 Continue\r\n\r\n", b"0\r\n\r\n"))


@of_answers
def a_status_without_content(draft, random):
    draft.words[1] = random.choice((b"204", b"304", b"205"))


@of_answers
def no_content(draft, random):
    draft.content, draft.chunks = b"", None
