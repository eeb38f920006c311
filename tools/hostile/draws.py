"""Draws what strangers send: sessions and records that are stored with the programs of cases, others that are drawn, and the
same damaged. All by a `random.Random`, so that a seed draws the same again."""
import base64
import glob
import json
import os
import re

ROOT = os.path.dirname(os.path.dirname(os.path.dirname(os.path.abspath(__file__))))
PODS = "/api/v1/namespaces/default/pods"
WORDS = {"LF": "\n", "CRLF": "\r\n", "CR": "\r", "TAB": "\t", "SP": " ", "FIELD": "X: y\r\n"}
MIB = 1_048_576


def plain(text):
    """What a row's text stands for, as crates/cases reads it."""
    def piece(found):
        count, of, what = found[1].partition(" of ")
        return WORDS.get(found[1]) or (WORDS.get(what, what) * int(count) if of and count.isdigit() else found[0])
    return re.sub(r"<([^<>]*)>", piece, text)


def request(method, target, body="", *fields):
    lines = [f"{method} {target} HTTP/1.1", "Host: x", *fields]
    if body or method in ("POST", "PUT"):
        lines.append(f"Content-Length: {len(body.encode())}")
    return ("\r\n".join(lines) + "\r\n\r\n" + body).encode()


def stored_sessions():
    """The sessions of crates/cases: the words of the command line, and the bytes."""
    found = []
    for path in sorted(glob.glob(f"{ROOT}/crates/cases/data/sessions/*.txt")):
        for case in re.split(r"(?m)^case .*\n", open(path, encoding="utf-8").read())[1:]:
            words, data, fields = [], b"", []
            for line in case.split("\n"):
                word, _, text = line.partition(" ")
                if word == "settings" and text.split()[0] not in ("--first", "--requests", "--stop"):
                    words += text.split()
                elif word == "field":
                    fields.append(text)
                elif word == "request":
                    method, target, body = (text.split(" ", 2) + ["", ""])[:3]
                    data += request(method, target, body, *fields)
                    fields = []
                elif word == "bytes":
                    data += plain(text).encode()
            if data:
                found.append((words, data))
    return found


# ---- sessions that are drawn

NAMES = ["web", "db", "a", "b", "x.y", "p-1", "a" * 63, "z" * 253, "0", "a-b"]
ODD_NAMES = ["Web", "-a", "a-", "a..b", "", "%2F", "%00", "%ff", "a" * 254, "ä", "..", "a/b", "null"]
SPACES = ["default", "a", "a-b", "kube-system", "n" * 63]
RESOURCES = [("/api/v1", "pods")] * 4 + [("/api/v1", "configmaps"), ("/apis/apps/v1", "deployments")]
REVISIONS = ["0", "1", "2", "3", "4", "7", "99", "01", "-1", "x", "", "4611686018427387904", "4611686018427387905", str(2 ** 64)]
LABELS = ["app=a", "app!=a", "app", "!app", "app in (a,b)", "app notin (a,)", "app in ()", "app=", "a=-", "(", "app=a,tier", "!",
          ",", "app in (a", "x/y/z", "app>1", "\n", "a" * 64, "app=" + "b" * 64, "é"]
FIELDS = ["metadata.name=web", "metadata.namespace!=default", "spec.nodeName=n1", "status.phase==Running", "spec.x=1", "spec.nodeName",
          "metadata.name=a\\,b", "metadata.name=a\\", ",,,", "=", "metadata.name==", "spec.nodeName="]
VALUES = ["1", "true", "[]", "{}", "null", '"x"', "[1,2,[3]]", '{"a":{"b":[]}}', "-7", str(2 ** 64 - 1), "1.5", "1e3", "-0", str(2 ** 64),
          '"\\u00e9"', '"\\ud800"', "NaN", '"' + "y" * 3000 + '"']


def escaped(draw, text):
    """A text in a query, each byte of which is escaped or not, where it may be."""
    return "".join(chr(it) if chr(it).isalnum() or it in b"-._~" and draw.random() < 0.9 else f"%{it:02X}"
                   for it in text.encode())


def one_in(draw, count):
    return draw.randrange(count) == 0


def drawn_path(draw, collection=False):
    base, resource = draw.choice(RESOURCES)
    if one_in(draw, 12):
        return f"{base}/{resource}"
    space = draw.choice(SPACES[:2]) if draw.random() < 0.9 else draw.choice(SPACES + ODD_NAMES)
    path = f"{base}/namespaces/{space}/{resource}"
    return path if collection else f"{path}/{drawn_name(draw)}"


def drawn_name(draw):
    return draw.choice(NAMES[:4]) if draw.random() < 0.85 else draw.choice(NAMES + ODD_NAMES)


def drawn_object(draw, name=None):
    metadata = {"name": drawn_name(draw) if name is None else name}
    if one_in(draw, 2):
        metadata["labels"] = {"app": draw.choice("abc")} if draw.random() < 0.9 else draw.choice([{"": ""}, [], None, {"a": 1}])
    if one_in(draw, 6):
        metadata["resourceVersion"] = draw.choice(REVISIONS)
    if one_in(draw, 30):
        metadata["namespace"] = draw.choice(["default", "other", 7])
    text = json.dumps({"metadata": metadata}, ensure_ascii=False, separators=(",", ":"))
    if one_in(draw, 3):
        text = text[:-1] + ',"spec":{"nodeName":%s}}' % draw.choice(['"n1"', '"n2"', *VALUES])
    if one_in(draw, 20):
        text = text[:-1] + ',"kind":"%s"}' % draw.choice(["Pod", "Node", "ConfigMap"])
    return text


def drawn_item(draw):
    op = draw.choice(["create", "create", "replace", "remove"])
    item = {"op": op, "resource": draw.choice(["pods", "pods", "configmaps", "jobs"]), "namespace": draw.choice(SPACES[:3])}
    name = drawn_name(draw)
    if op != "create" or one_in(draw, 15):
        item["name"] = name
    if op != "remove":
        item["object"] = {"metadata": {"name": name, "labels": {"app": draw.choice("ab")}}}
    return item


def drawn_query(draw, is_watch):
    pairs = []
    if is_watch:
        pairs.append(draw.choice(["watch", "watch=true", "watch=1"]))
        pairs.append("timeoutSeconds=" + draw.choice(["1", "2", "3", "5", "1", "2"] if draw.random() < 0.9 else ["0", "x", "1000001"]))
    options = [("resourceVersion", REVISIONS[:6] * 3 + REVISIONS), ("labelSelector", LABELS[:6] * 2 + LABELS),
               ("fieldSelector", FIELDS[:4] * 2 + FIELDS), ("allowWatchBookmarks", ["true", "false", "", "0"])]
    if is_watch:
        options.append(("sendInitialEvents", ["true", "false", "true"]))
    else:
        options += [("limit", ["1", "2", "0", "x"]), ("continue", [drawn_token(draw)])]
    for name, values in options:
        if one_in(draw, 4):
            pairs.append(f"{name}=" + escaped(draw, draw.choice(values)))
            if name == "sendInitialEvents" and draw.random() < 0.9:
                pairs.append("resourceVersionMatch=NotOlderThan")
    if one_in(draw, 12):
        pairs.append("resourceVersionMatch=" + draw.choice(["Exact", "NotOlderThan", "exact"]))
    return "?" + "&".join(pairs) if pairs else ""


def drawn_token(draw):
    texts = ["1", draw.choice(REVISIONS), draw.choice(["pods", "pods", "configmaps", "jobs"]), draw.choice(["default", "", "a"]),
             draw.choice(["default/web", "a/b", "default", "a/b/c"]), "", ""]
    token = base64.urlsafe_b64encode("\n".join(texts[:draw.choice([7, 7, 7, 6, 1])]).encode()).decode().rstrip("=")
    return token if draw.random() < 0.9 else draw.choice(["A" * 8000, token + "=", token[:-1], "%", ""])


def drawn_request(draw):
    way = draw.random()
    if way < 0.35:
        path = drawn_path(draw, collection=True)
        return request("POST", path, drawn_object(draw))
    if way < 0.5:
        path = drawn_path(draw)
        name = path.rsplit("/", 1)[1]
        return request("PUT", path, drawn_object(draw, name if draw.random() < 0.95 else None))
    if way < 0.6:
        return request("DELETE", drawn_path(draw))
    if way < 0.68:
        return request("GET", drawn_path(draw))
    if way < 0.76:
        return request("GET", drawn_path(draw, collection=True))
    if way < 0.86:
        fields = ["Accept: application/json;as=PartialObjectMetadataList;g=meta.k8s.io;v=v1"] if one_in(draw, 8) else []
        return request("GET", drawn_path(draw, collection=True) + drawn_query(draw, False), "", *fields)
    if way < 0.92:
        items = [drawn_item(draw) for _ in range(draw.randrange(1, 4))]
        return request("POST", "/watchcache/transaction", json.dumps(items, separators=(",", ":")))
    if way < 0.93:
        return request("GET", "/metrics")
    if way < 0.96:
        own = draw.choice(["cut", "restart", "compact?revision=" + draw.choice(REVISIONS), "compact", "other"])
        return request(draw.choice(["POST"] * 9 + ["GET"]), "/watchcache/" + own)
    return odd_request(draw)


def odd_request(draw):
    target = draw.choice(["/", "*", "/api/v1/widgets", "http://x" + PODS, PODS + "/", "//", "/api/v1/pods?" + "&" * 50, PODS + "?watch=0",
                          "/metrics", "/metrics", "/metrics/?x"])
    fields = draw.choice([["Connection: keep-alive"], ["Accept: */*"], ["Origin: http://a.example"], ["Sec-Fetch-Site: none"],
                          ["Expect: 100-continue"], ["Connection: Upgrade", "Upgrade: websocket"], [f"X{it}: y" for it in range(62)]])
    return request(draw.choice(["GET", "HEAD", "PATCH", "OPTIONS", "DELETE", "G"]), target, "", *fields)


def drawn_watch(draw):
    fields = []
    if one_in(draw, 5):
        key = draw.choice(["dGhlIHNhbXBsZSBub25jZQ==", "x", "AAAA"] if one_in(draw, 3) else ["dGhlIHNhbXBsZSBub25jZQ=="])
        version = draw.choice(["13", "13", "13", "12"])
        fields = ["Connection: Upgrade", "Upgrade: websocket", f"Sec-WebSocket-Key: {key}", f"Sec-WebSocket-Version: {version}"]
    return request("GET", drawn_path(draw, collection=True) + drawn_query(draw, True), "", *fields)


def drawn_session(draw):
    """The words of the command line, and the bytes of a session."""
    words = []
    for name, values in [("--window", "1 2 5"), ("--batch", "1 3"), ("--history", "1 3"), ("--lane", "1"), ("--bookmark-ms", "1 1000")]:
        if one_in(draw, 5):
            words += [name, draw.choice(values.split())]
    parts = [drawn_request(draw) for _ in range(draw.choice([1, 2, 3, 5, 8, 13, 30]))]
    if one_in(draw, 2):
        parts.append(drawn_watch(draw))
    if one_in(draw, 20):
        parts.insert(draw.randrange(len(parts) + 1), heavy_request(draw))
    if one_in(draw, 10):
        parts.append(request("GET", PODS, "", "Connection: " + draw.choice(["close", "Close", "a, close", "closed"])))
    if one_in(draw, 10):
        parts.append(drawn_request(draw))
    return words, b"".join(parts)


def heavy_request(draw):
    """A request at one of the limits, or a little beyond it."""
    more = draw.choice([-1, 0, 1])
    way = draw.randrange(9)
    if way == 0:
        front = '{"metadata":{"name":"heavy"},"note":"'
        return request("POST", PODS, front + "n" * (MIB + more - len(front) - 2) + '"}')
    if way == 1:
        return request("POST", PODS, draw.choice(["[", "{\"a\":", "0,", "\"", " ", "[[],", "{}"]) * (MIB // 8))
    if way == 2:
        depth = draw.choice([62, 63, 64, 126, 127])
        return request("POST", PODS, '{"metadata":{"name":"deep"},"spec":%s}' % ("[" * depth + "]" * depth))
    if way == 3:
        return request("GET", f"{PODS}?labelSelector=a" + "+" * (8191 + more))
    if way == 4:
        return request("GET", f"{PODS}?{draw.choice(['labelSelector', 'fieldSelector'])}=" + ",".join(
            ["metadata.name!=a"] * (64 + more)))
    if way == 5:
        return request("GET", f"{PODS}?continue=" + "A" * draw.choice([100, 8191, 12000]))
    if way == 6:
        return request("GET", PODS, "", *[f"X{it}: y" for it in range(63 + more)])
    if way == 7:
        front = f"GET {PODS} HTTP/1.1\r\nX: "
        return (front + "y" * (16_384 + more - len(front) - 4) + "\r\n\r\n").encode()
    items = [{"op": "create", "resource": "pods", "namespace": "default", "object": {"metadata": {"name": f"t{it}"}}}
             for it in range(64 + more)]
    return request("POST", "/watchcache/transaction", json.dumps(items, separators=(",", ":")))


# ---- damage

def damaged(draw, data):
    """The bytes after a few mishaps."""
    for _ in range(draw.choice([1, 1, 1, 2, 3, 6])):
        data = draw.choice(MISHAPS)(draw, data)
    return data


def span(draw, data):
    begin = draw.randrange(len(data) + 1)
    return begin, min(len(data), begin + draw.choice([1, 1, 2, 5, 20, 200]))


def flip(draw, data):
    if not data:
        return data
    at = draw.randrange(len(data))
    return data[:at] + bytes([data[at] ^ 1 << draw.randrange(8)]) + data[at + 1:]


def drop(draw, data):
    begin, end = span(draw, data)
    return data[:begin] + data[end:]


def double(draw, data):
    begin, end = span(draw, data)
    return data[:end] + data[begin:end] * draw.choice([1, 1, 1, 2, 70]) + data[end:]


def insert(draw, data):
    at = draw.randrange(len(data) + 1)
    return data[:at] + draw.choice([b"\0", b"\r\n", b"\n", b"\r", b" ", b"\xff", b"\x80", b"%", b"{", b"[", b"\"", b"\\", b",", b":",
                                    b"\r\n\r\n", b"\xef\xbb\xbf", draw.randbytes(5)]) + data[at:]


def cut(draw, data):
    return data[:draw.randrange(len(data) + 1)]


def other_number(draw, data):
    found = list(re.finditer(rb"\d+", data))
    if not found:
        return data
    one = draw.choice(found)
    value = int(one[0][:30])
    other = draw.choice([value + 1, value - 1, value * 10, 0, 2 ** 63, 2 ** 64, -value, MIB, MIB + 1])
    return data[:one.start()] + str(other).encode() + data[one.end():]


def other_case(draw, data):
    begin, end = span(draw, data)
    return data[:begin] + data[begin:end].swapcase() + data[end:]


def swap(draw, data):
    (a, b), (c, d) = sorted([span(draw, data), span(draw, data)])
    b = min(b, c)
    return data[:a] + data[c:d] + data[b:c] + data[a:b] + data[d:]


def line_ends(draw, data):
    return data.replace(b"\r\n", b"\n", draw.choice([1, 2, -1])) if one_in(draw, 2) else data.replace(b"\n", b"\r\n", 3)


MISHAPS = [flip, flip, drop, drop, double, insert, insert, cut, other_number, other_number, other_case, swap, line_ends]


# ---- records of watches

MEMBERS = {"first": "1", "floor": "1", "namespace": '""', "query": '"watch=true&resourceVersion=1"', "resource": '"pods"', "window": "100"}


def change(key, value="null", resource="pods"):
    return f'{{"key":"{key}","object":{value},"resource":"{resource}"}}'


def log_line(changes, at):
    return f'{{"changes":[{",".join(changes)}],"rev":{at}}}'


def record_word(word):
    """What a word of tools/hostile/records/records.txt stands for."""
    name, _, rest = word.partition(":")
    if name == "H":
        members = {**MEMBERS, **dict(it.split("=", 1) for it in rest.split(";") if it)}
        return "{" + ",".join(f'"{it}":{value}' for it, value in members.items()) + "}"
    if name == "L":
        pods, _, at = (rest or "web@2").partition("@")
        return log_line([change(f"default/{it}", '{"metadata":{"name":"%s"}}' % it) for it in pods.split(",")], at)
    if name == "CHANGES":
        return log_line([change(f"default/p-{it:04}") for it in range(int(rest))], 2)
    if name == "DEEP":
        deep = "[" * (int(rest) - 1) + "]" * (int(rest) - 1)
        return log_line([change("default/web", '{"metadata":{"name":"web"},"spec":%s}' % deep)], 2)
    if name == "LINES":
        return "x\n" * int(rest)
    return "" if name == "NOTHING" else plain(word)


def rows_of(name):
    for line in open(f"{ROOT}/tools/hostile/records/{name}", encoding="utf-8"):
        row = line.rstrip("\n").split("  #")[0]
        if " => " in row and not row.startswith("#"):
            yield row.rsplit(" => ", 1)


def stored_records(are_long=False):
    """The records of tools/hostile/records, each with what is said of it: a line, or None where it is a record. The long ones,
    of a MiB and more, or the others."""
    for step, answer in rows_of("records.txt"):
        if are_long != any(it.startswith("BYTES:") and int(it[6:]) >= 1 << 20 for it in step.split(" ")):
            continue
        data = b"".join(b"\xff" * int(it[6:]) if it.startswith("BYTES:") else record_word(it).encode() for it in step.split(" "))
        name = answer.split(" ")[0]
        yield data, None if name.isdigit() else f"record: {name}"
    for step, answer in () if are_long else rows_of("bodies.txt"):
        way, *numbers = answer.lower().split(" ")
        yield body_record(step), f"lawful from {numbers[0]} to {numbers[1]}" if way == "lawful" else f"unlawful at line {numbers[0]}"


def stored_lists():
    """The records of unknown logs, of tools/hostile/records/lists.txt, each with what is said of it."""
    for step, answer in rows_of("lists.txt"):
        way, *rest = answer.split(" ")
        count = step.count("|") - 2
        says = {"Lawful": "lawful from {} to {}, {} of %s lists held" % count, "Unlawful": "unlawful at {} {}"}.get(way, f"record: {answer}")
        yield lists_record(step), says.format(*rest)


# Of a pod's life and five others, as a kube-apiserver told them: what is said where the line of this place is left out. Where nothing
# is, a later write of the same pod covers it, or no list shows it.
WITHOUT_LINE = {0: "unlawful at line 0", 4: "unlawful at list 1", 5: "unlawful at line 5"}
WITHOUT_LINE_OF_LABEL = {0: "unlawful at line 0", 1: "unlawful at line 1", 2: "unlawful at line 2", 3: "unlawful at line 3", 5: "unlawful at line 5"}


def stored_server():
    """What a kube-apiserver sent, byte for byte, of tools/hostile/records/server: a list, watches from there, and a later list. As it
    came, and damaged: without each of its lines, with two exchanged, with an older list. Each with what is said of it."""
    def read(name):
        return open(f"{ROOT}/tools/hostile/records/server/{name}.json", encoding="utf-8").read()

    def record(query, lines, *later):
        head = json.dumps({"namespace": "n1", "query": query, "resource": "pods"}, separators=(",", ":"))
        parts = [read("list-180").rstrip("\n") + "\n", "".join(lines), *later]
        return (head + "\n" + "\n".join(parts)).encode()

    query, later, lines = "watch=true&allowWatchBookmarks=true&resourceVersion=180", read("list-185"), read("watch").splitlines(True)
    whole = "lawful from 180 to 197, 1 of 1 lists held"
    yield record(query, lines, later), whole
    for place in range(len(lines)):
        yield record(query, lines[:place] + lines[place + 1:], later), WITHOUT_LINE.get(place, whole)
    yield record(query, [*lines[:3], lines[4], lines[3], *lines[5:]], later), "unlawful at line 4"
    yield record(query, lines, later.replace('"resourceVersion":"185"},"items"', '"resourceVersion":"186"},"items"')), "unlawful at list 1"
    yield record(query, lines, later.replace("\u2603", "x")), "unlawful at list 1"
    yield record(query.replace("allowWatchBookmarks=true&", ""), lines, later), "unlawful at line 12"
    query, lines = "watch=true&resourceVersion=180&labelSelector=app%3Da", read("watch-of-a-label").splitlines(True)
    whole = "lawful from 180 to 197, 0 of 0 lists held"
    yield record(query, lines), whole
    for place in range(len(lines) - 1):
        yield record(query, lines[:place] + lines[place + 1:]), WITHOUT_LINE_OF_LABEL.get(place, whole)


def lists_record(step):
    """The record that a row of tools/hostile/records/lists.txt stands for."""
    first, query, body, *later = (it.strip() for it in step.split("|"))
    query = query.replace("@", "watch=true&allowWatchBookmarks=true&resourceVersion=", 1)
    head = json.dumps({"namespace": "default", "query": query, "resource": "pods"}, separators=(",", ":"))
    lines = [listed_line(it.strip()) for it in body.split(";") if it.strip()]
    texts = [list_text(first), "\n".join(lines), *map(list_text, later)]
    record = head + "\n" + "\n".join(f"{it}\n" if it else "" for it in texts)
    return (record[:-1] if later else record).encode()  # the last line of a last list isn't ended


def listed_pod(name, label, at, **kind):
    metadata = {"name": name, "namespace": "default", "uid": f"u-{name}", "resourceVersion": str(at), "labels": {"app": label}}
    return {**kind, "metadata": metadata, "spec": {"nodeName": "n<1>"}}


def list_text(text):
    """A list over many lines, as `185: web a@183` says; anything else is itself."""
    at, ended, rows = text.partition(":")
    if not at.isdigit():
        return text
    rows = [re.fullmatch(r"(\S+) (\S+)@(\d+)", it.strip()).groups() for it in rows.split(",") if it.strip()]
    return json.dumps({"kind": "PodList", "apiVersion": "v1", "metadata": {"resourceVersion": at}, "items": [
        listed_pod(*it) for it in rows]}, indent=2)


def listed_line(word):
    kind, *rest = word.split(" ")
    if kind in ("A", "M", "D") and len(rest) == 3:
        way = {"A": "ADDED", "M": "MODIFIED", "D": "DELETED"}[kind]
        return json.dumps({"type": way, "object": listed_pod(*rest, kind="Pod", apiVersion="v1")})
    if kind == "E" and len(rest) == 1:
        return json.dumps({"type": "ERROR", "object": {"kind": "Status", "apiVersion": "v1", "metadata": {}, "status": "Failure",
                                                       "message": "gone", "reason": "Expired", "code": int(rest[0])}})
    return body_line(word, {})


def shown(resource, key, label, at):
    space, name = key.split("/")
    kind = "Pod" if resource == "pods" else "ConfigMap"
    metadata = {**({"labels": {"app": label}} if label else {}), "name": name, "namespace": space, "resourceVersion": str(at)}
    return json.dumps({"apiVersion": "v1", "kind": kind, "metadata": metadata}, separators=(",", ":"))


def body_record(step):
    """The record that a row of tools/hostile/records/bodies.txt stands for."""
    numbers, log, namespace, query, body = step.split("|")
    first, floor, window = numbers.split()
    lines = [record_word("H:" + f'first={first};floor={floor};window={window};namespace="{namespace.strip()}"').replace(
        MEMBERS["query"], f'"{query.strip()}"')]
    live, told = {}, {}
    for at, revision in enumerate((it for it in log.split(";") if log.strip()), int(first) + 1):
        changes = []
        for word in revision.split(","):
            name, _, label = word.strip().partition(" ")
            resource = "configmaps" if "cm:" in name else "pods"
            bare = name.replace("cm:", "").lstrip("-")
            key = bare if "/" in bare else f"default/{bare}"
            before, live[resource, key] = live.get((resource, key)), None if "-" == name[0] else label
            told[key, at] = label if name[0] != "-" else None, before
            changes.append((resource != "pods", key, change(key, "null" if name[0] == "-" else shown(resource, key, label, at), resource)))
        lines.append(log_line([text for _, _, text in sorted(changes)], at))
    lines.append("")
    for word in (it.strip() for it in body.split(";")):
        if word:
            lines.append(body_line(word, told))
    return ("\n".join(lines) + "\n").encode()


def body_line(word, told):
    kind, *rest = word.split(" ")
    if kind in ("A", "M", "D") and len(rest) == 2:
        key = rest[0] if "/" in rest[0] else f"default/{rest[0]}"
        after, before = told.get((key, int(rest[1])), ("", ""))
        label = before if kind == "D" else after
        way = {"A": "ADDED", "M": "MODIFIED", "D": "DELETED"}[kind]
        return f'{{"type":"{way}","object":{shown("pods", key, label, rest[1])}}}'
    if kind in ("B", "C"):
        closing = '"annotations":{"k8s.io/initial-events-end":"true"},' if kind == "C" else ""
        return ('{"type":"BOOKMARK","object":{"apiVersion":"v1","kind":"Pod","metadata":{%s"resourceVersion":"%s"}}}'
                % (closing, rest[0]))
    if kind == "E":
        return ('{"type":"ERROR","object":{"apiVersion":"v1","code":410,"kind":"Status","message":"too old resource version: %s (%s)",'
                '"metadata":{},"reason":"Expired","status":"Failure"}}' % tuple(rest))
    return word
