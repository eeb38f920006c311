"""Records of watches for `check`: those of sessions, and what is foretold of others."""
import json
import re

from replies import Amiss, same
from requests import place_of

LINES = {0: r"lawful from (\d+) to (\d+)(?:, \d+ of \d+ lists held)?", 11: r"unlawful at (?:line|list) (\d+)",
         12: r"record: (?:TooLong|BadHeader|NoBody|BadLog|BadFloor|BadAsk|BadList \d+)"}
UNKNOWN = re.compile(r'\{"namespace":"[^"\\]*","query":"[^"\\]*","resource":"(pods|configmaps|deployments)"\}')
HEADER = re.compile(r'\{"first":(0|[1-9]\d{0,18}),"floor":(0|[1-9]\d{0,19}),"namespace":"([^"\\\x00-\x1f]*)","query":'
                    r'"([^"\\\x00-\x1f]*)","resource":"(pods|configmaps|deployments)","window":([1-9]\d{0,19})\}')


def of_session(log, watch, output, out, window):
    """The record of a stream that ends a session, over the log of its replies."""
    resource, namespace, _ = place_of(watch.path)
    compact = {"separators": (",", ":"), "sort_keys": True, "ensure_ascii": False}
    lines = [json.dumps({"first": 1, "floor": log.floor, "namespace": namespace or "", "query": watch.query, "resource": resource,
                         "window": window}, **compact)]
    for at, items in enumerate(log.changes, 2):
        changes = [{"key": f"{space}/{name}", "resource": kind, "object": value and {
            **value, "metadata": {**value["metadata"], "resourceVersion": str(at)}}} for (kind, space, name), value in items]
        lines.append(json.dumps({"changes": changes, "rev": at}, **compact))
    lines.append("")
    for kind, value in output.lines:
        lines.append(f'{{"type":"{kind}","object":{json.dumps(value, **compact)}}}')
    return ("\n".join(lines) + "\n").encode()


def verdict_of(ran):
    """The line that `check` wrote, which is one of those of its status."""
    text = ran.out.decode()
    found = re.fullmatch(LINES.get(ran.status, "no line"), text[:-1])
    if not found or text[-1] != "\n" or bool(ran.err) != (ran.status == 12) and ran.status != 11:
        raise Amiss(f"status {ran.status} of a check, with {text!r} and {ran.err!r}")
    if ran.status == 0 and int(found[1]) > int(found[2]):
        raise Amiss(text)
    return text[:-1]


def parts_of(data):
    """The header, the lines of the log and those of the body; None where there are none."""
    text = data.decode()
    head, ended, rest = text.partition("\n")
    if rest.startswith("\n"):
        return head, [], rest[1:].split("\n")
    log, parted, body = rest.partition("\n\n")
    return (head, log.split("\n"), body.split("\n")) if parted and text.endswith("\n") else None


def fault_of(data):
    """The fault that is foretold of bytes: BadHeader, NoBody, none of the two (the empty text), or nothing (None)."""
    try:
        text = data.decode()
    except UnicodeDecodeError:
        return "BadHeader"
    head, ended, rest = text.partition("\n")
    if "\\" in head:
        return None
    if UNKNOWN.fullmatch(head):
        return None
    found = HEADER.fullmatch(head)
    if not found or not 1 <= int(found[1]) <= 2 ** 62 or max(int(found[2]), int(found[6])) >= 2 ** 64:
        return "BadHeader"
    is_whole = ended and text.endswith("\n") and (rest.startswith("\n") or "\n\n" in rest)
    return "" if is_whole else "NoBody"


def judge(data, line):
    """Compares a verdict with what is foretold of the bytes."""
    fault = fault_of(data)
    if fault is None or line == "record: TooLong":
        return
    if fault or line in ("record: BadHeader", "record: NoBody"):
        same("the fault of a record", line, f"record: {fault}")
    if line.startswith("unlawful"):
        lines = len(parts_of(data)[2]) - 1
        same("a line that isn't there", int(line.split()[-1]) <= lines, True)


def beginnings(data, line):
    """Records of the body's first lines, each with the verdicts that it may have, where line `line` is said to be unlawful."""
    count = int(line.split()[-1])
    head, log, body = parts_of(data)
    lines = body[:-1]

    def first(many):
        return ("\n".join([head, *log, "", *lines[:many]]) + "\n").encode()
    yield first(count), rf"lawful from \d+ to \d+|unlawful at line {count}"
    if count < len(lines):
        yield first(count + 1), f"unlawful at line {count}"


def same_verdict(line, wanted):
    if not re.fullmatch(wanted, line):
        raise Amiss(f"a record's beginning: {line}, and not {wanted}")
