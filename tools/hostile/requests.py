"""What bytes ask for, by the pages of docs/HTTP.md, and what comes of it in a session that is alone with its log: so far as
the bytes are tame. Where they aren't, reading them ends with no answer, and nothing is foretold. By a code of its own."""
import base64
import hashlib
import json
import re
from urllib.parse import parse_qsl, unquote

from replies import Amiss, compact, same

MOST_HEAD, MOST_FIELDS, MOST_BODY, MOST_LEVELS, MOST_JSON = 16_384, 64, 1_048_576, 64, 127
TARGET = rb"[A-Za-z0-9/?&=%+.,~:_!*()-]"
VALUE = rb"(?:[!-~](?:[ -~]*[!-~])?)?"
FIELD = rb"[A-Za-z0-9-]{1,64}: ?" + VALUE + rb"\r\n"
HEAD = re.compile(rb"(?:\r\n)*([A-Z]{1,20}) (" + TARGET + rb"+) HTTP/1\.([01])\r\n((?:" + FIELD + rb")*)\r\n")


def beginning(pieces, last=b""):
    """A pattern of what begins the pieces, one behind the other."""
    pattern = last
    for piece in reversed(pieces):
        pattern = piece + rb"(?:" + pattern + rb")?"
    return pattern


LINE_END = [b"H", b"T", b"T", b"P", b"/", b"1", rb"\.", b"1", rb"\r", rb"\n"]
PART = re.compile(rb"(?:\r\n)*\r?|(?:\r\n)*" + beginning([rb"[A-Z]{1,20}", rb" " + TARGET + rb"*", b" ", *LINE_END], last=(
    rb"(?:" + FIELD + rb")*(?:[A-Za-z0-9-]{1,64}(?:: ?[ -~]*\r?)?|\r)?")))

BASES = {"pods": ("/api/v1", "v1", "Pod"), "configmaps": ("/api/v1", "v1", "ConfigMap"),
         "deployments": ("/apis/apps/v1", "apps/v1", "Deployment")}
MESSAGE_NAMES = {"pods": "pods", "configmaps": "configmaps", "deployments": "deployments.apps"}
LABEL = r"[a-z0-9](?:[a-z0-9-]{0,61}[a-z0-9])?"
PART_OF_NAME = r"[a-z0-9](?:[a-z0-9-]*[a-z0-9])?"
LABEL_NAME = r"[A-Za-z0-9](?:[A-Za-z0-9._-]{0,61}[A-Za-z0-9])?"


def is_name(text):
    return isinstance(text, str) and len(text) <= 253 and bool(re.fullmatch(rf"{PART_OF_NAME}(?:\.{PART_OF_NAME})*", text))


def is_namespace(text):
    return isinstance(text, str) and bool(re.fullmatch(LABEL, text))


def is_revision(text):
    return bool(re.fullmatch(r"0|[1-9][0-9]{0,18}", text)) and int(text) <= 2 ** 62


def are_labels(value):
    def is_key(key):
        front, slash, name = key.rpartition("/")
        return bool(re.fullmatch(LABEL_NAME, name)) and (is_name(front) if slash else True)
    return isinstance(value, dict) and all(is_key(key) and isinstance(it, str) and re.fullmatch(rf"(?:{LABEL_NAME})?", it)
                                           for key, it in value.items())


class Request:
    def __init__(self, method, target, fields, body):
        self.method, self.target, self.body = method, target, body
        self.fields = fields
        self.path, _, self.query = target.partition("?")
        self.closes = method == "HEAD" or any(
            it.strip().lower() == "close" for value in self.values("connection") for it in value.split(","))
        # what a browser, another site's name, a WebSocket, another view or what isn't served changes isn't foretold
        self.is_plain = not (any(self.values(name) for name in ("origin", "sec-fetch-site", "upgrade", "accept", "content-type"))
                             or any("." in it for it in self.values("host")) or "dryRun" in target
                             or method == "DELETE" and (b"dryRun" in body or b"preconditions" in body))

    def values(self, name):
        return [value for it, value in self.fields if it == name]


def read(data):
    """The requests that the bytes hold, and how reading them ends: Done, CutShort, a refusal's name, or None for what isn't
    foretold."""
    found, at = [], 0
    while at < len(data):
        part = data[at:at + MOST_HEAD]
        head = HEAD.match(part)
        if not head:
            if not PART.fullmatch(part) or part.count(b"\n") > MOST_FIELDS:
                return found, None
            return found, "HeadTooLong" if len(part) == MOST_HEAD else "CutShort"
        lines = [it.split(b":", 1) for it in head[4].split(b"\r\n")[:-1]]
        fields = [(name.decode().lower(), value.decode().strip(" ")) for name, value in lines]
        method = head[1].decode()
        lengths = [value for name, value in fields if name == "content-length"]
        if refusal := refusal_of(method, head[3], fields, lengths):
            return found, refusal
        begin = at + head.end()
        length = int(lengths[0]) if lengths else 0
        if begin + length > len(data):
            return found, "CutShort"
        found.append(Request(method, head[2].decode(), fields, data[begin:begin + length]))
        at = begin + length
    return found, "Done"


def refusal_of(method, version, fields, lengths):
    if len(fields) > MOST_FIELDS:
        return "TooManyHeaders"
    if version == b"0":
        return "Malformed"
    if any(name == "transfer-encoding" for name, _ in fields):
        return "NeedsLength"
    if len(lengths) > 1 or any(not re.fullmatch("[0-9]{1,15}", it) for it in lengths):
        return "Malformed"
    if not lengths and method in ("POST", "PUT"):
        return "NeedsLength"
    return "BodyTooLong" if lengths and int(lengths[0]) > MOST_BODY else None


# ---- objects


class Untold(Exception):
    """What isn't foretold."""


def levels(value):
    """How deep a value nests, without a call for each level."""
    deepest, waiting = 0, [(value, 1)]
    while waiting:
        it, level = waiting.pop()
        if isinstance(it, (dict, list)):
            deepest = max(deepest, level)
            waiting += [(inner, level + 1) for inner in (it.values() if isinstance(it, dict) else it)]
    return deepest


def json_in(body):
    """The value of a body, or the name of the fault for which it has none."""
    try:
        text = body.decode()
    except UnicodeDecodeError:
        return "NotJson", None
    bare = re.sub(r'"[^"]*"', '""', text)
    if "\\" in text or re.search(r"[eE]", re.sub("true|false", "", bare)):
        raise Untold
    if max(depths(bare), default=0) > MOST_JSON:
        return "NotJson", None
    floats = []

    def whole(digits):
        if digits == "-0" or not -2 ** 63 <= int(digits) < 2 ** 64:
            floats.append(digits)
        return int(digits)

    def refuse(word):
        raise ValueError(word)
    try:
        value = json.loads(text, parse_float=floats.append, parse_int=whole, parse_constant=refuse)
    except (ValueError, RecursionError):
        return "NotJson", None
    if floats:
        return "Float", None
    return ("TooDeep", None) if levels(value) > MOST_LEVELS else (None, value)


def depths(text):
    level = 0
    for one in re.findall(r"[\[\]{}]", text):
        level += 1 if one in "[{" else -1
        yield level


def object_in(body, resource, namespace, name):
    """The fault of a body as an object of the path, or its value as it is kept, and the given revision."""
    fault, value = json_in(body)
    return (fault, None, None) if fault else object_of(value, resource, namespace, name)


def object_of(value, resource, namespace, name):
    _, version, kind = BASES[resource]
    if not isinstance(value, dict) or value.get("apiVersion", version) != version or value.get("kind", kind) != kind:
        return "WrongKind", None, None
    metadata = value.get("metadata")
    if not isinstance(metadata, dict) or not is_name(metadata.get("name")) or name not in (None, metadata["name"]):
        return "BadMeta", None, None
    given = metadata.get("resourceVersion", "")
    is_bad = (metadata.get("namespace", namespace) != namespace or metadata.get("labels") is not None
              and not are_labels(metadata["labels"]) or not isinstance(given, str) or given != "" and not is_revision(given)
              or name is None and given not in ("", "0"))
    if is_bad:
        return "BadMeta", None, None
    kept = {**value, "apiVersion": version, "kind": kind, "metadata": {**metadata, "namespace": namespace}}
    return None, kept, int(given or "0")


def shown(value, at):
    return {**value, "metadata": {**value["metadata"], "resourceVersion": str(at)}}


# ---- routes

NO_PATH = (404, "the server could not find the requested resource")
NO_METHOD = (405, "the server does not allow this method on the requested resource")
OWN = ("cut", "compact", "restart", "disconnect", "transaction")
# where a server describes itself
DOCUMENTS = re.compile("(?:/version|/api|/apis|/api/v1|/apis/apps|/apis/apps/v1|/livez|/readyz|/healthz|/api/v1/namespaces/[^/]*)/?")
# and what tells a monitor of it
METRICS = re.compile("/metrics/?")


def place_of(path):
    """The resource, the namespace and the name of a path, each None where it has none; or the word of an own one."""
    words = path.split("/")
    if words[0] != "" or any("%" in it for it in words):
        if "%" in path:
            words = [unquote(it, errors="replace") for it in words]
        if words[0] != "":
            return None
    if len(words) == 3 and words[1] == "watchcache" and words[2] in OWN:
        return words[2], None, None
    for resource, (base, _, _) in BASES.items():
        front = base.split("/")
        if words[:len(front)] != front:
            continue
        rest = words[len(front):]
        if rest == [resource]:
            return resource, None, None
        if len(rest) in (3, 4) and rest[0] == "namespaces" and rest[2] == resource and is_namespace(rest[1]):
            if len(rest) == 3:
                return resource, rest[1], None
            if is_name(rest[3]):
                return resource, rest[1], rest[3]
    return None


class Log:
    """The objects of a session's log by what was asked and answered, its floor, and its changes, a list for each revision
    from 2 on."""

    def __init__(self, history=10_000):
        self.at, self.floor, self.live, self.changes, self.history = 1, 1, {}, [], history

    def commit(self, items):
        self.at += 1
        self.floor = max(self.floor, self.at - self.history)
        for key, value in items:
            if value is None:
                del self.live[key]
            else:
                self.live[key] = (value, self.at)
        self.changes.append(items)

    def object(self, key):
        return shown(*self.live[key])

    def listed(self, resource, namespace):
        keys = [it for it in self.live if it[0] == resource and namespace in (None, it[1])]
        return [self.object(it) for it in sorted(keys, key=lambda it: f"{it[1]}/{it[2]}".encode())]

    def follow(self, request, reply):
        """Compares a reply with what it has to be, where that is foretold, and goes on by what it accepts."""
        place = place_of(request.path)
        if not request.is_plain:
            return self.follow_other(request, reply, place)
        if DOCUMENTS.fullmatch(unquote(request.path)):
            return same("the code of what describes the server", reply.code in (200, 404, 405), True)
        if METRICS.fullmatch(unquote(request.path)):
            return self.measure(request, reply)
        if place is None:
            return same("the reply to a path that isn't there", (reply.code, reply.message()), NO_PATH)
        resource, namespace, name = place
        if resource in OWN:
            return self.operate(resource, request, reply)
        methods = ["GET", "PUT", "DELETE"] if name else ["GET", "POST"] if namespace else ["GET"]
        if request.method not in methods:
            return same("the reply to a method that isn't there", (reply.code, reply.message()), NO_METHOD)
        if request.method == "GET":
            return self.look(request, reply, resource, namespace, name)
        return self.write(request, reply, (resource, namespace, name))

    def measure(self, request, reply):
        """What a monitor is told: the log's revision and floor, and of a cache that stands for all of it its objects."""
        if request.method != "GET":
            return same("the reply to a method that isn't there", (reply.code, reply.message()), NO_METHOD)
        told = reply.value.get("samples", {})
        same("the log's revision and floor", (told.get("watchcache_log_revision"), told.get("watchcache_log_floor")), (self.at, self.floor))
        for resource, (base, _, _) in BASES.items():
            labels = f'{{group="{base.split("/")[2] if base.startswith("/apis") else ""}",resource="{resource}"}}'
            if told.get("apiserver_watch_cache_resource_version" + labels, self.at) == self.at:
                same(f"the objects of {resource}", told.get("apiserver_resource_objects" + labels), len(self.listed(resource, None)))

    def follow_other(self, request, reply, place):
        """A request whose reply depends on who asks: what it did is taken from the reply."""
        if reply.code >= 400 or request.method == "GET":
            return
        if place and place[0] not in OWN:
            self.write(request, reply, place)
        else:
            raise Untold

    def write(self, request, reply, key):
        resource, namespace, name = key
        if request.method == "DELETE":
            fault, value, given = None, None, 0
        else:
            fault, value, given = object_in(request.body, resource, namespace, name)
        if fault:
            return same("the reply to a bad object", (reply.code, reply.message()), (400, f"object: {fault}"))
        key = (resource, namespace, name or value["metadata"]["name"])
        refusal = self.refusal("create" if name is None else "other", key, given)
        if refusal:
            return same(f"the reply to a write at {self.at}", (reply.code, reply.message()), refusal)
        before = self.live.get(key)
        self.commit([(key, value)])
        told = shown(before[0], self.at) if value is None else self.object(key)
        same("the reply to a write", (reply.code, compact(reply.value)), (201 if name is None else 200, compact(told)))

    def refusal(self, way, key, given):
        named = f'{MESSAGE_NAMES[key[0]]} "{key[2]}"'
        if way == "create":
            return (409, f"{named} already exists") if key in self.live else None
        if key not in self.live:
            return 404, f"{named} not found"
        present = self.live[key][1]
        return (409, f"{named} is at resourceVersion {present}, not {given}") if given not in (0, present) else None

    def look(self, request, reply, resource, namespace, name):
        if request.query:
            if not name and reply.code == 200 and not re.search("version|continue", unquote(request.query).lower()):
                same("the revision of a list that is current", reply.value["metadata"]["resourceVersion"], str(self.at))
            return same("the code of a reply to a GET with options", reply.code in (200, 400, 404, 410, 422, 504), True)
        if name and (resource, namespace, name) not in self.live:
            wanted = 404, f'{MESSAGE_NAMES[resource]} "{name}" not found'
            return same("a get of what isn't there", (reply.code, reply.message()), wanted)
        same("the code of a get or a list", reply.code, 200)
        if name:
            return same("a get", compact(reply.value), compact(self.object((resource, namespace, name))))
        _, version, kind = BASES[resource]
        listed = {"apiVersion": version, "items": self.listed(resource, namespace), "kind": kind + "List",
                  "metadata": {"resourceVersion": str(self.at)}}
        return same("a list", compact(reply.value), compact(listed))

    def operate(self, word, request, reply):
        if request.method != "POST":
            return same("the reply to a method that isn't there", (reply.code, reply.message()), NO_METHOD)
        if word == "transaction":
            return self.transact(request, reply)
        if word != "compact":
            return same(f"the code of a {word}", reply.code, 200)
        asked = next((it for name, it in parse_qsl(request.query, keep_blank_values=True) if name == "revision"), "")
        if not is_revision(asked):
            wanted = 400, "operation: BadRevision"
        elif int(asked) > self.at:
            wanted = 504, f"Timeout: Too large resource version: {asked}, current: {self.at}"
        elif int(asked) < self.floor:
            wanted = 410, f"too old resource version: {asked} ({self.floor})"
        else:
            self.floor, wanted = int(asked), (200, "")
        return same("the reply to a compaction", (reply.code, reply.message()), wanted)

    def transact(self, request, reply):
        if reply.code >= 400:
            return same("the code of a transaction that is refused", reply.code in (400, 404, 409), True)
        fault, items = json_in(request.body)
        same("an accepted transaction's fault", fault, None)
        changes = []
        for item in items:
            key = (item["resource"], item["namespace"], item.get("name") or item["object"]["metadata"]["name"])
            named = None if item["op"] == "create" else key[2]
            fault, value, given = (None, None, 0) if item["op"] == "remove" else object_of(item["object"], *key[:2], named)
            same("a fault of an accepted item", fault or self.refusal(item["op"], key, given), None)
            changes.append((key, value))
        same("items of one object", len({key for key, _ in changes}), len(changes))
        order = list(BASES)
        self.commit(sorted(changes, key=lambda it: (order.index(it[0][0]), f"{it[0][1]}/{it[0][2]}".encode())))
        return same("the number of a transaction", reply.value, {"value": self.at})


# the statuses of a session that nothing fails, where its input ends
STATUS = {"Done": 0, "CutShort": 5}


def accept_of(key):
    """What accepts a WebSocket of this key (RFC 6455, 1.3)."""
    return base64.b64encode(hashlib.sha1((key + "258EAFA5-E914-47DA-95CA-C5AB0DC85B11").encode()).digest()).decode()


def judge(data, output, status, log):
    """Compares all that a session wrote, and its status, with its input. Answers whether `log` is known to its end, and the
    request that began a stream, where that is known."""
    requests, ending = read(data)
    is_known = True
    for request, reply in zip(requests, output.replies):
        if reply.refuses_bytes():
            break
        same("whether a reply closes", reply.closes, request.closes)
        try:
            if is_known:
                log.follow(request, reply)
        except Untold:
            is_known = False
    answers = len(output.replies) + (output.lines is not None)
    last = output.replies[-1] if output.replies else None
    is_refused = output.lines is None and last is not None and last.refuses_bytes()
    same("status 6, and a refusal of bytes as the last reply", status == 6, is_refused)
    same("a status but of Done, CutShort and Refused", status in (0, 5, 6), True)
    closing = next((place + 1 for place, it in enumerate(requests) if it.closes), None)
    is_inside = answers <= len(requests)
    if output.lines is not None:
        same("a stream's end, and its status", (output.is_ended, status), (True, 0))
        same("a stream behind all that is answered", closing is None or answers <= closing, True)
        watch = requests[answers - 1] if is_inside else None
        if not is_inside and ending is not None or watch and (watch.method != "GET" or "watch" not in unquote(watch.query)):
            raise Amiss(f"a stream as answer {answers}, to {watch and watch.target}")
        if watch and output.accept:
            keys = watch.values("sec-websocket-key")
            same("a WebSocket's accept", [output.accept], [accept_of(it) for it in keys])
        return is_known and is_inside, watch
    if closing is not None:
        same("the answers and the status of a session that a request closes", (answers, status), (closing, 0))
    elif ending in STATUS:
        same("the answers and the status of a session", (answers, status), (len(requests), STATUS[ending]))
    elif ending is None:
        same("that at least the tame requests are answered", answers >= len(requests), True)
    else:
        same("the answers and the refusal of bytes", (answers, last and last.message()), (len(requests) + 1, f"request: {ending}"))
    return is_known and ending is not None, None
