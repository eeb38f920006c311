"""Reads what a session wrote: whole replies, and at most one stream or WebSocket, behind which nothing stands. What isn't as
docs/HTTP.md and docs/OPERATING.md say is told by `Amiss`. By a code of its own, which shares nothing with the server's."""
import json
import re

PHRASES = {200: "OK", 201: "Created", 400: "Bad Request", 403: "Forbidden", 404: "Not Found", 405: "Method Not Allowed",
           409: "Conflict", 410: "Gone", 411: "Length Required", 413: "Payload Too Large", 415: "Unsupported Media Type", 422: "Unprocessable Entity",
           500: "Internal Server Error", 504: "Gateway Timeout"}

# the code of each reason, and the messages that it comes with
NAMED = r'(?:pods|configmaps|deployments\.apps) "[a-z0-9.-]{1,253}"'
REASONS = {
    "BadRequest": (400, r"request: Malformed|labelSelector: (?:(?:Syntax|BadKey|BadValue|EmptySet) at \d+|TooLong)"
                   r"|fieldSelector: (?:(?:Syntax|UnknownField) at \d+|TooLong)"
                   r"|list option: (?:BadRevision|RevisionWithContinue|BadLimit)|continue: (?:NotToken|OtherList)"
                   r"|watch option: (?:BadRevision|BadTimeout)|object: (?:NotJson|Float|TooDeep|WrongKind|BadMeta)"
                   r"|operation: BadRevision|websocket: BadUpgrade"
                   r"|the server does not serve (?:dryRun|preconditions of a deletion), and nothing was done|transaction: (?:NotJson|Float|TooDeep|NotList|Empty"
                   r"|TooManyItems|(?:BadItem|BadObject|Repeated) in item \d+)"),
    "Forbidden": (403, "the server does not allow requests that a browser makes for another site"),
    "NotFound": (404, NAMED + " not found|the server could not find the requested resource"),
    "MethodNotAllowed": (405, "the server does not allow this method on the requested resource"),
    "AlreadyExists": (409, NAMED + " already exists"),
    "Conflict": (409, NAMED + r" is at resourceVersion \d+, not \d+"),
    "Expired": (410, r"too old resource version: \d+ \(\d+\)"),
    "LengthRequired": (411, "request: NeedsLength"),
    "RequestEntityTooLarge": (413, "request: (?:HeadTooLong|TooManyHeaders|BodyTooLong)"),
    "UnsupportedMediaType": (415, "the body of the request was in an unknown format - accepted media types include: application/json"),
    "Invalid": (422, "list option: (?:BadMatch|MatchNeedsRevision|ExactZero|MatchWithContinue|InitialEventsOnList)"
                "|watch option: (?:MatchWithoutInitial|InitialNeedsNotOlder)"),
    "InternalError": (500, "Revisions are used up"),
    "Timeout": (504, r"Timeout: Too large resource version: \d+, current: \d+"),
}
TOO_LARGE = {"causes": [{"message": "Too large resource version", "reason": "ResourceVersionTooLarge"}], "retryAfterSeconds": 1}
KINDS = {("v1", "Pod"), ("v1", "ConfigMap"), ("apps/v1", "Deployment"), ("meta.k8s.io/v1", "PartialObjectMetadata")}
EVENTS = {"ADDED", "MODIFIED", "DELETED", "BOOKMARK", "ERROR"}

# the texts by which a server describes itself, whose members stand as Kubernetes writes them
DOCUMENTS = {"APIVersions", "APIGroupList", "APIGroup", "APIResourceList", "Namespace"}

HEAD = re.compile(rb"HTTP/1\.1 (\d{3}) ([A-Za-z ]+)\r\nContent-Type: (?:application/json|(text/plain; (version=0\.0\.4; )?charset=utf-8))\r\n"
                  rb"Content-Length: ([1-9]\d*)\r\n(Retry-After: 1\r\n)?(Connection: close\r\n)?\r\n")
SAMPLE = re.compile(r'([a-z_]+)((?:\{[a-z]+="[^"\\\n]*"(?:,[a-z]+="[^"\\\n]*")*\})?) (0|[1-9]\d*)')
STREAM = b"HTTP/1.1 200 OK\r\nContent-Type: application/json\r\nTransfer-Encoding: chunked\r\nConnection: close\r\n\r\n"
SOCKET = re.compile(rb"HTTP/1\.1 101 Switching Protocols\r\nUpgrade: websocket\r\nConnection: Upgrade\r\n"
                    rb"Sec-WebSocket-Accept: ([A-Za-z0-9+/]{27}=)\r\n\r\n")
CHUNK = re.compile(rb"([1-9a-f][0-9a-f]*)\r\n")


class Amiss(Exception):
    """What isn't as it should be."""


def same(what, got, wanted):
    if got != wanted:
        raise Amiss(f"{what}: {got!r:.300}, and not {wanted!r:.300}")


def unique(pairs):
    value = dict(pairs)
    same("members of one name", len(value), len(pairs))
    return value


def compact(value, sort_keys=True):
    """The compact JSON of a value, members in the order of their names."""
    return json.dumps(value, ensure_ascii=False, separators=(",", ":"), sort_keys=sort_keys)


def is_document(value):
    return value.get("kind") in DOCUMENTS or "gitVersion" in value


def value_of(text):
    """The value of a JSON text, which has to be its compact form."""
    try:
        value = json.loads(text.decode(), object_pairs_hook=unique)
    except ValueError as fault:
        raise Amiss(f"no JSON: {fault}: {text[:300]!r}") from None
    same("a JSON object", isinstance(value, dict), True)
    same("a JSON text", text.decode(), compact(value, not is_document(value)))
    return value


class Reply:
    """One reply: its code, its value, and whether it says that the connection ends."""

    def __init__(self, code, value, closes):
        self.code, self.value, self.closes = code, value, closes

    def message(self):
        return self.value.get("message", "") if self.code >= 400 else ""

    def refuses_bytes(self):
        """Whether it says that the input goes on with what is no request."""
        return self.message().startswith("request: ")


class Output:
    """All that a session wrote. `lines` are those of its stream or WebSocket, None where there is none; `accept` is the text by
    which a WebSocket was accepted; `rest` are the bytes of what was broken off."""

    def __init__(self):
        self.replies, self.lines, self.is_ended, self.accept, self.rest = [], None, False, None, b""


def read(data, may_break=False):
    """The replies in what was written; the last one may be broken off only where that may be."""
    output, at = Output(), 0
    while at < len(data):
        if data.startswith(STREAM, at):
            output.lines, at = [], at + len(STREAM)
            at = read_chunks(output, data, at)
        elif found := SOCKET.match(data, at):
            output.lines, output.accept = [], found[1].decode()
            at = read_messages(output, data, found.end())
        else:
            found = HEAD.match(data, at)
            if not found or found.end() + int(found[5]) > len(data):
                output.rest = data[at:]
                break
            output.replies.append(reply_of(found, data[found.end():found.end() + int(found[5])]))
            at = found.end() + int(found[5])
            if output.replies[-1].closes:
                output.rest = data[at:]
                same("what stands behind the last reply", output.rest, b"")
            continue
        output.rest = output.rest or data[at:]
        break
    if not may_break:
        same("what is no whole reply", output.rest[:300], b"")
    return output


def reply_of(found, body):
    code, phrase = int(found[1]), found[2].decode()
    same("a phrase", phrase, PHRASES.get(code))
    same("Retry-After", bool(found[6]), code == 504)
    if found[4]:
        same("the code of what a monitor is told", code, 200)
        return Reply(code, {"samples": samples_in(body.decode())}, bool(found[7]))
    if found[3]:
        same("a plain text", (code, body.rstrip(b"\n")), (200, b"ok"))
        return Reply(code, {"kind": "Namespace"}, bool(found[7]))
    same("the end of a body", body[-1:], b"\n")
    value = value_of(body[:-1])
    if code >= 400:
        check_status(value, code)
    elif not is_document(value):
        check_answer(value)
    reply = Reply(code, value, bool(found[7]))
    if reply.refuses_bytes():
        same("Connection: close with the refusal of bytes", reply.closes, True)
    return reply


def samples_in(text):
    """The samples of what a monitor is told, in the text format of Prometheus (version 0.0.4): families, each in one place,
    behind its help and its type."""
    samples, families = {}, set()
    before, *parts = text.split("# HELP ")
    same("what stands before the first family", (before, text[-1:]), ("", "\n"))
    for part in parts:
        head, kind, *rows = part[:-1].split("\n")
        name, _, meaning = head.partition(" ")
        same(f"that the family {name} is there twice, or without a help", (name in families, bool(meaning)), (False, True))
        wanted = "counter" if name.endswith("_total") else "gauge"
        same(f"the type of {name}, and that it has samples", (kind, bool(rows)), (f"# TYPE {name} {wanted}", True))
        families.add(name)
        for row in rows:
            found = SAMPLE.fullmatch(row)
            if not found or found[1] != name or found[1] + found[2] in samples:
                raise Amiss(f"a sample of {name}: {row}")
            samples[found[1] + found[2]] = int(found[3])
    return samples


def check_status(value, code):
    """A failure is a Status with a reason and a message that are told of it."""
    members = {"apiVersion": "v1", "code": code, "kind": "Status", "metadata": {}, "status": "Failure"}
    if code == 504:
        members["details"] = TOO_LARGE
    others = {name: it for name, it in value.items() if name not in ("message", "reason")}
    same("a Status", others, members)
    wanted, messages = REASONS.get(value["reason"], (None, ""))
    same(f"the code of {value['reason']}", code, wanted)
    if not re.fullmatch(messages, value["message"]):
        raise Amiss(f"the message of {value['reason']}: {value['message']}")


def check_object(value):
    if (value.get("apiVersion"), value.get("kind")) not in KINDS:
        raise Amiss(f"an object of no kind: {compact(value)[:300]}")
    metadata = value["metadata"]
    same("an object's revision", bool(re.fullmatch(r"[1-9]\d*", metadata["resourceVersion"])), True)
    return int(metadata["resourceVersion"])


def check_answer(value):
    """What is accepted is answered by an object, a list or a number."""
    if set(value) == {"value"}:
        same("a number", isinstance(value["value"], int), True)
        return
    if "items" not in value:
        check_object(value)
        return
    same("a list's members", set(value), {"apiVersion", "items", "kind", "metadata"})
    same("a list's kind", (value["apiVersion"], value["kind"].removesuffix("List")) in KINDS, True)
    same("a list's metadata", set(value["metadata"]) - {"continue", "remainingItemCount"}, {"resourceVersion"})
    at = int(value["metadata"]["resourceVersion"])
    keys = [f"{it['metadata']['namespace']}/{it['metadata']['name']}".encode() for it in value["items"]]
    same("a list's order", keys, sorted(set(keys)))
    same("items of a later revision than their list", [it for it in value["items"] if check_object(it) > at], [])


def line_of(text):
    """The type and the object of a stream's line without its line feed."""
    found = re.match(rb'\{"type":"([A-Z]+)","object":', text)
    if not found or found[1].decode() not in EVENTS or text[-1:] != b"}":
        raise Amiss(f"a line of a stream: {text[:300]!r}")
    kind, value = found[1].decode(), value_of(text[found.end():-1])
    if kind == "ERROR":
        check_status(value, 410)
    else:
        check_object(value)
    return kind, value


def put_line(output, text):
    if output.lines and output.lines[-1][0] == "ERROR":
        raise Amiss("a line behind the loss")
    output.lines.append(line_of(text))


def read_chunks(output, data, at):
    """The lines of a stream, each a chunk; answers where it ends."""
    while not data.startswith(b"0\r\n\r\n", at):
        found = CHUNK.match(data, at)
        length = int(found[1], 16) if found else 0
        if not found or found.end() + length + 2 > len(data):
            return at
        text = data[found.end():found.end() + length]
        at = found.end() + length + 2
        same("a chunk's end", (text[-1:], data[at - 2:at]), (b"\n", b"\r\n"))
        put_line(output, text[:-1])
    output.is_ended = True
    return at + 5


def read_messages(output, data, at):
    """The lines of a WebSocket, each a text message; answers where it ends."""
    while not data.startswith(b"\x88\x02\x03\xe8", at):
        if len(data) < at + 2:
            return at
        same("the first byte of a text message", data[at], 0x81)
        wide = {126: 2, 127: 8}.get(data[at + 1], 0)
        length = int.from_bytes(data[at + 2:at + 2 + wide], "big") if wide else data[at + 1]
        begin = at + 2 + wide
        if begin + length > len(data):
            return at
        same("a length in its shortest form", wide, 0 if length < 126 else 2 if length < 65_536 else 8)
        put_line(output, data[begin:begin + length])
        at = begin + length
    output.is_ended = True
    return at + 4
