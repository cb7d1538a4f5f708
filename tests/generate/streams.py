"""Random streams: what connections send, one behind another, to a desk that serves them. They ask what a random script
asks, in one of the many forms in which HTTP says it, or with a fault."""

from collections import namedtuple

from plain.scripts import items_of

from .scripts import random_script

# what a connection sends, in pieces, and whether it leaves its end open where it can do without
Stream = namedtuple("Stream", "pieces stays_open")

# a request of HTTP; its fields are lines, and a body of None is none
Request = namedtuple("Request", "method target version fields body")

MOST_HEAD = 8_192
MOST_FIELDS = 64
MOST_STREAMS = 120

# the paths of the lines of a script that have one of another name
PATHS = {b"op": b"ops", b"sent": b"out"}


def request_of(line, body):
    """A line of a script and its body as a request. What stands behind the BIC of a question is its body."""
    word, *parts = line.split(b" ")
    if word in (b"status", b"holdings"):
        return Request(b"POST", b"/" + b"/".join([word, *parts[:1]]), b"HTTP/1.1", [], b" ".join(parts[1:]))
    target = b"/" + b"/".join([PATHS.get(word, word), *parts])
    is_post = word in (b"op", b"in")
    return Request(b"POST" if is_post else b"GET", target, b"HTTP/1.1", [], body or b"" if is_post else None)


# forms that harm nothing

HARMLESS_FIELDS = (
    (b"Host: 127.0.0.1", b"Host:", b"User-Agent: curl/8.5.0", b"Accept: */*")
    + (b"accept:text/plain; q=0.5,\t*/*;q=0.1", b"Content-Type: text/plain", b"Expect: 100-continue")
    + (b"Connection: keep-alive", b"Content-Lengths: 5", b"Content: 5", b"Length: 5", b"X-Content-Length: 7")
    + (b"Transfer-Encodings: chunked", b"TE: trailers, chunked", b"!#$%&'*+-.^_`|~09azAZ: x")
    + (b"A: \xc3\xa4\xff\x80", b'B: "a\\"b", c: d', b"C:\t \tx\t y \t", b"D:::", b"Upgrade: h2c")
)
BODY_FIELDS = b"Content-Length: 5", b"Content-Length: x", b"Transfer-Encoding: chunked"


def in_any_case(chance, text):
    return b"".join(chance.pick((it.lower(), it.upper())) for it in (text[at : at + 1] for at in range(len(text))))


def length_field(chance, length):
    name = in_any_case(chance, b"Content-Length") if chance.happens(20) else b"Content-Length"
    blanks = (b" ", b" ", b" ", b"", b"\t", b"  \t ") if chance.happens(30) else (b" ",)
    zeros = b"0" * chance.below(8) if chance.happens(10) else b""
    behind = chance.pick((b"", b" ", b"\t", b" \t")) if chance.happens(10) else b""
    return name + b":" + chance.pick(blanks) + (zeros + b"%d" % length)[-10:] + behind


def dressed(chance, request):
    """A request with its length and some fields that harm nothing."""
    fields = [chance.pick(HARMLESS_FIELDS) for _ in range(chance.weighted({0: 30, 1: 30, 3: 30, 8: 10}))]
    if request.body is not None:
        fields.append(length_field(chance, len(request.body)))
    elif chance.happens(15):
        fields.append(chance.pick(BODY_FIELDS))
    version = b"HTTP/1.0" if chance.happens(10) else request.version
    return request._replace(fields=chance.shuffled(fields), version=version)


def written(chance, request):
    """A request as it is sent."""
    ends = chance.weighted({(b"\r\n",): 75, (b"\n",): 15, (b"\r\n", b"\n"): 10})
    lines = [b"%s %s %s" % (request.method, request.target, request.version), *request.fields, b""]
    lines = [b""] * chance.between(1, 2) + lines if chance.happens(5) else lines
    return b"".join(line + chance.pick(ends) for line in lines) + (request.body or b"")


# faults of a request

METHODS = (
    (b"PUT", b"DELETE", b"HEAD", b"OPTIONS", b"PATCH", b"CONNECT", b"get", b"Post", b"POSTS", b"POS", b"GE")
    + (b"G", b"GET1", b"A" * 15, b"A" * 16, b"A" * 40, b"M-SEARCH", b"", b"GE T", b"G\x00T", b"(GET)", b"GET\t")
    + (b"P\xc3\x96ST", b" GET")
)
TARGETS = (
    (b"", b"/", b"*", b"/sums/", b"//sums", b"/sums?x", b"/sums#x", b"/Sums", b"sums", b"/ops/", b"/ops?")
    + (b"/in", b"/in/", b"/in/ALPHDEFF", b"/in/ALPHDEFF/", b"/in//540", b"/in/ALPHDEFF/540/")
    + (b"/in/ALPHDEFF/540/x", b"/in/ALPHDEFF/540?", b"/in/ALPHDEFF/544", b"/in/ALPHDEFF/0540", b"/in/ALPHDEFF/54")
    + (b"/in/ALPHDE/540", b"/in/alphdeff/540", b"/IN/A/540", b"/in/ALPHDEFFXXX/540", b"/in/ALPHDEFFXXX/543")
    + (b"/in/{bic}/{mt}", b"/in/ALPHDEFF/5%340", b"/%73ums", b"/in/./540", b"http://127.0.0.1/sums", b"/out")
    + (b"/out/ALPHDEFF", b"/out/ALPHDEFF/", b"/out/ALPHDEFF/0", b"/out/ALPHDEFF/+1", b"/out/ALPHDEFF/1234567890")
    + (b"/out/ALPHDEFF/0000000001", b"/out/ALPHDEFF/000000001", b"/out/ALPHDEFF/x", b"/status")
    + (b"/out/ALPHDEFFXXX/1", b"/status/", b"/status/ALPHDEFF/A", b"/status/ALPHDEFF?", b"/status/\xff")
    + (b"/status/\xc3\xa4", b"/holdings/", b"/holdings/ALPHDEFF/", b"/holdings/ALPHDEFFXXX", b"/sums\x00")
    + (b"/su ms", b"/sums\x7f", b"/sums\t", b'/"<>\\^`{|}', b"/sums\xff", b"/sums\xc3\xa4", b"/" + b"a" * 3_000)
    + (b"/in/" + b"A" * 300 + b"/540",)
)
VERSIONS = (
    (b"HTTP/1.2", b"HTTP/1.", b"HTTP/1", b"HTTP/2", b"HTTP/2.0", b"HTTP/0.9", b"http/1.1", b"HTTP/11")
    + (b"HTTP/1.1 ", b"", b" HTTP/1.1", b"HTTP/1.1\r", b"HTTP/1.10", b"HTTP /1.1", b"HTTPS/1.1", b"\tHTTP/1.1")
)
LENGTHS = (
    (b"", b" ", b"+5", b"-1", b"-0", b"5 5", b"5,5", b"0x5", b"1e3", b"5.", b"\xc3\xa4", b"00000000005")
    + (b"0000000005", b"0", b"65535", b"65536", b"65537", b"65536 ", b"00000065536", b"4294967296", b"4294967301")
    + (b"9999999999", b"99999999999", b"18446744073709551621", b"5;", b'"5"', b"0000065537")
)
ENCODINGS = b"chunked", b"Chunked", b"identity", b"gzip, chunked", b"", b" ", b"0"
BAD_FIELDS = (
    (b":x", b": x", b"A", b"A B: x", b"A : x", b"A\t: x", b" A: x", b"\tA: x", b"A: \x00", b"A: \x7f")
    + (b"A: x\rB: y", b"A:\x0b", b"\xc3\xa4: x", b"A: x\r", b"A:\r", b"A\r", b"\r", b" ", b"(A): x", b"A;: x")
    + (b"A: \x1f", b"\x00", b"", b"A=x", b"@: x")
)
OTHER_STREAMS = (
    (b"", b"\r\n", b"\n\n\r\n", b"\r", b"\r\r\n", b" ", b"\x16\x03\x01\x02\x00\x01\x00\x01\xfc\x03\x03")
    + (b"GET /sums\r\n\r\n", b"PRI * HTTP/2.0\r\n\r\nSM\r\n\r\n", b"HTTP/1.1 200 OK\r\n\r\n", b"GET", b"GET ")
    + (b"G", b"\n", b"sums\n", b"GET /sums H", b"GET /sums HTTP/1.1", b"GET /sums HTTP/1.1\r")
    + (b"GET /sums HTTP/1.1\r\n", b"GET /sums HTTP/1.1\r\n\r", b"\xff" * 9_000, b"GET /sums HTTP/1.1\n\n")
    + (b"GET  /sums HTTP/1.1\r\n\r\n", b"GET\r\n\r\n", b"\r\n" * 5_000, b"x" * 9_000, b"{4:\n-}\n")
    + (b"GET /" + b"x" * 9_000, b"GET /\xff" + b"x" * 9_000, b"GET /sums HTTP/1.1\r\nA: " + b"x" * 9_000)
    + (b"GET /sums HTTP/1.1\r\n" + b"x" * 9_000, b"GET /\xff \r" + b"x" * 9_000, b"x: y\r\n" * 2_000)
)


def other_method(chance, request):
    return request._replace(method=chance.pick(METHODS + (b"GET", b"POST", b"HEAD") * 5))


def other_target(chance, request):
    """Another target, most often with the method of the paths that are like it."""
    target = chance.pick(TARGETS)
    is_get = target.startswith((b"/out", b"/sums", b"//", b"/Sums", b"http", b"/%"))
    method = (b"GET" if is_get else b"POST") if chance.happens(80) else request.method
    return request._replace(method=method, target=target)


def changed_target(chance, request):
    """The target with one character more, less, or another."""
    at = chance.below(len(request.target) + 1)
    character = chance.pick((b"", b"/", b"?", b"X", b"a", b"0", b"%", b" ", b"\x80", b"."))
    return request._replace(target=request.target[:at] + character + request.target[at + chance.below(2) :])


def other_version(chance, request):
    return request._replace(version=chance.pick(VERSIONS))


def is_about_length(field):
    return field.lower().startswith(b"content-length:")


def other_length(chance, request):
    """Another length, one of more or less than the body has, or the body's own with a sign."""
    own = len(request.body or b"")
    kind = chance.weighted({"other": 55, "near": 37, "sign": 8})
    near = b"%d" % max(0, own + chance.between(-3, 3))
    length = {"other": chance.pick(LENGTHS), "near": near, "sign": b"+%d" % own}[kind]
    others = [it for it in request.fields if not is_about_length(it)]
    return request._replace(fields=chance.shuffled([*others, b"Content-Length: " + length]))


def no_length(chance, request):
    return request._replace(fields=[it for it in request.fields if not is_about_length(it)])


def second_length(chance, request):
    length = b"%d" % len(request.body or b"") if chance.happens(50) else chance.pick(LENGTHS)
    field = in_any_case(chance, b"Content-Length") + b": " + length
    return request._replace(fields=chance.shuffled([*request.fields, field]))


def encoded(chance, request):
    name = in_any_case(chance, b"Transfer-Encoding") if chance.happens(30) else b"Transfer-Encoding"
    field = name + b":" + chance.pick((b" ", b"")) + chance.pick(ENCODINGS)
    request = no_length(chance, request) if chance.happens(30) else request
    return request._replace(fields=chance.shuffled([*request.fields, field]))


def bad_field(chance, request):
    at = chance.below(len(request.fields) + 1)
    return request._replace(fields=[*request.fields[:at], chance.pick(BAD_FIELDS), *request.fields[at:]])


def many_fields(chance, request):
    """About as many fields as a head may have."""
    more = max(0, MOST_FIELDS + chance.between(-1, 2) - len(request.fields))
    return request._replace(fields=[*request.fields, *[b"A: x"] * more])


def long_head(chance, request):
    """A head about as long as one may be, by one field; its lines end in one way."""
    lines = [b"%s %s %s" % (request.method, request.target, request.version), *request.fields, b"L: ", b""]
    spare = MOST_HEAD - sum(len(line) + 2 for line in lines)
    field = b"L: " + b"x" * max(0, spare + chance.between(-2, 2))
    at = chance.below(len(request.fields) + 1)
    return request._replace(fields=[*request.fields[:at], field, *request.fields[at:]])


def longer_body(chance, request):
    """A body of about as many bytes as one may have."""
    body = (request.body or b"") + b" " * 65_536
    body = body[: 65_536 + chance.between(-1, 1)]
    return no_length(chance, request)._replace(body=body, fields=[*request.fields, b"Content-Length: %d" % len(body)])


def ended_body(chance, request):
    """A line end behind the body, which counts as much as all that stands in it."""
    if request.body is None:
        return request
    body = request.body + chance.pick((b"\n", b"\r\n", b" "))
    return no_length(chance, request)._replace(body=body, fields=[b"Content-Length: %d" % len(body)])


REQUEST_FAULTS = {
    other_method: 14,
    other_target: 20,
    changed_target: 10,
    other_version: 7,
    other_length: 16,
    no_length: 6,
    second_length: 6,
    encoded: 6,
    bad_field: 12,
    many_fields: 4,
    long_head: 5,
    longer_body: 2,
    ended_body: 9,
}

CHARACTERS = (
    (b"", b" ", b"\r", b"\n", b"\r\n", b"\n\n", b"\t", b"\x00", b"\x7f", b"\x80", b"\xff", b":", b"/", b"A")
    + (b"0",)
)


def wrong_character(chance, text):
    at = chance.below(min(len(text), 300) + 1)
    return text[:at] + chance.pick(CHARACTERS) + text[at + chance.below(2) :]


def cut_off(chance, text):
    return text[: chance.below(len(text) + 1)]


# streams


def with_fault(chance, request):
    """What is sent for a request with a fault or two, of which some harm nothing; or for none."""
    kind = chance.weighted({"fault": 78, "wrong character": 10, "cut off": 5, "other": 7})
    if kind == "other":
        return chance.pick(OTHER_STREAMS)
    for _ in range(chance.weighted({1: 80, 2: 20}) if kind == "fault" else 0):
        request = chance.weighted(REQUEST_FAULTS)(chance, request)
    text = written(chance, request)
    if kind == "fault":
        return text
    return wrong_character(chance, text) if kind == "wrong character" else cut_off(chance, text)


def sent_for(chance, request):
    """What is sent for a request, each text by a connection of its own: the request in some form, and now and then it
    with a fault, most often before it is sent as it should be."""
    request = dressed(chance, request)
    if not chance.happens(35):
        return [written(chance, request)]
    return [with_fault(chance, request), *([written(chance, request)] if chance.happens(80) else [])]


def pieces_of(chance, text):
    """The pieces in which a stream is sent."""
    kind = chance.weighted({"one": 45, "some": 45, "bytes": 10})
    if kind == "bytes" and len(text) < 1_500:
        return [text[at : at + 1] for at in range(len(text))]
    cuts = sorted(chance.below(len(text) + 1) for _ in range(0 if kind == "one" else chance.between(1, 4)))
    return [text[begin:end] for begin, end in zip([0, *cuts], [*cuts, len(text)])]


def sent_by(stream):
    return b"".join(stream.pieces)


def random_streams(chance):
    """What the connections of a day send. Behind a request there may stand another one, which is then sent by a
    connection of its own too, or by none."""
    requests = [request_of(*item) for item in items_of(b"".join(random_script(chance)))]
    texts = [text for request in requests for text in sent_for(chance, request)][:MOST_STREAMS]
    for at in range(len(texts) - 1, 0, -1):
        if chance.happens(8):
            texts[at - 1] += texts[at] if chance.happens(50) else texts.pop(at)
    return [Stream(pieces_of(chance, text), chance.happens(50)) for text in texts]
