"""Those who read a replica meanwhile: readers of our own, kubectl, python's client, and informers of client-go. Each keeps what it was
told, in one form, for a comparison with etcd's log at the end."""
import json
import mmap
import os
import re
import subprocess
import threading
import time
from http.client import HTTPConnection, HTTPException

import real
from real import ALONE, KUBECTL, apart, key_of, revision, whole

# A python that has python's client, and the program of informer.go
PYTHON, INFORMER = os.environ.get("PYTHON", "/usr/bin/python3"), os.environ.get("INFORMER")


def is_a(it):
    return it["metadata"].get("labels", {}).get("app") == "a"


# The selections of readers: the resource, the path and query, and which objects they select.
SELECTIONS = {
    "pods": ("pods", "/api/v1/pods?", lambda it: True),
    "pods by label": ("pods", "/api/v1/pods?labelSelector=app%3Da&", is_a),
    "pods by field": ("pods", "/api/v1/pods?fieldSelector=spec.nodeName%3Dn1&", lambda it: it["spec"].get("nodeName") == "n1"),
    "pods by namespace": ("pods", "/api/v1/namespaces/shop/pods?", lambda it: it["metadata"]["namespace"] == "shop"),
    "pods by phase": ("pods", "/api/v1/pods?fieldSelector=status.phase%21%3DPending&", lambda it: it["status"].get("phase") != "Pending"),
    "config maps": ("configmaps", "/api/v1/configmaps?", lambda it: True),
    "config maps by label": ("configmaps", "/api/v1/configmaps?labelSelector=app%3Da&", is_a),
    "deployments": ("deployments", "/apis/apps/v1/deployments?", lambda it: True),
    "deployments by label and namespace": ("deployments", "/apis/apps/v1/namespaces/bank/deployments?labelSelector=app%3Da&",
                                           lambda it: is_a(it) and it["metadata"]["namespace"] == "bank"),
}


class Told:
    """What somebody was told of a selection: lists with their revisions, watches with where they began, how often it was told 410, and
    where it stands."""

    def __init__(self, name, selection):
        self.name, (self.of, self.path, self.selects) = name, SELECTIONS[selection]
        self.lists, self.watches, self.at, self.expired, self.died, self.shared = [], [], 0, 0, None, 0

    def share(self, log):
        """Lets go of copies of what the log has too."""
        for _, lines in self.watches[self.shared:]:
            for place, (kind, when, value) in enumerate(lines):
                if log.objects.get(when) == value:
                    lines[place] = (kind, when, log.objects[when])
        self.shared = max(0, len(self.watches) - 1)

    def compare(self, log, bare=lambda value: value):
        """What is wrong in it beside the log, and of how many events it was told."""
        wrong, events, wanted = [], 0, [(kind, when, bare(value)) for kind, when, value in log.lines(self.of, self.selects)]
        state, passed = {}, 0
        for listed_at, listed in sorted(self.lists, key=lambda it: it[0]):
            while passed < len(wanted) and wanted[passed][1] <= listed_at:
                kind, _, value = wanted[passed]
                state[key_of(value)] = None if kind == "DELETED" else value
                passed += 1
            if listed != {key: value for key, value in state.items() if value}:
                wrong.append(f"the list at {listed_at}")
        for since, lines in self.watches:
            events += len(lines)
            upto = lines[-1][1] if lines else since
            due = [it for it in wanted if since < it[1] <= upto]
            if lines != due:
                first = next((pair for pair in zip(lines, due) if pair[0] != pair[1]), (lines[len(due):], due[len(lines):]))
                wrong.append(f"a watch from {since} to {upto}, at {str(first[0])[:40]}: {apart(*first)[:3]}")
        if self.died:
            wrong.append(f"it died: {self.died!r}")
        if wanted and self.at < wanted[-1][1]:
            wrong.append(f"it ends at {self.at}, before {wanted[-1][1]}")
        return wrong, events


class Reader(threading.Thread):
    """Lists a selection and watches it, again and again as an informer does."""

    def __init__(self, replica, selection, name=None):
        super().__init__(daemon=True)
        self.replica, self.told = replica, Told(name or selection, selection)

    def run(self):
        try:
            self.read()
        except (OSError, HTTPException, AssertionError) as no:
            self.told.died = no

    def read(self):
        it = self.told
        while True:
            if it.at == 0:
                status, listed = self.replica.ask(it.path.rstrip("?&"))
                assert status == 200, listed
                it.lists.append((revision(listed), whole(listed["items"], it.of)))
                it.at = revision(listed)
            connection = HTTPConnection("127.0.0.1", self.replica.port, timeout=None)
            connection.request("GET", f"{it.path}watch=true&resourceVersion={it.at}&allowWatchBookmarks=true&timeoutSeconds=20")
            lines = []
            it.watches.append((it.at, lines))
            for line in connection.getresponse():
                event = json.loads(line)
                if event["type"] == "ERROR":
                    assert event["object"]["code"] == 410, event
                    it.at, it.expired = 0, it.expired + 1
                    break
                it.at = revision(event["object"])
                if event["type"] != "BOOKMARK":
                    lines.append((event["type"], it.at, event["object"]))
            connection.close()


def values_of(path):
    """The JSON values of a file, of which the last may be cut off."""
    with open(path, encoding="utf-8") as it:
        text = it.read()
    at, decoder, blank = 0, json.JSONDecoder(), re.compile(r"\s*")
    while (at := blank.match(text, at).end()) < len(text):
        try:
            value, at = decoder.raw_decode(text, at)
        except ValueError:
            return
        yield value


def is_told(path, when):
    """Whether a file has this revision."""
    with open(path, "rb") as it:
        return os.path.getsize(path) > 0 and mmap.mmap(it.fileno(), 0, access=mmap.ACCESS_READ).find(b'"%d"' % when) >= 0


def without(value, *names):
    return {name: it for name, it in value.items() if name not in names}


def bare(value):
    """An object as kubectl prints it."""
    return {**value, "metadata": without(value["metadata"], "managedFields")}


class Kubectl(threading.Thread):
    """`kubectl get pods -A -w`, which is started again whenever it ends. It prints a list as events, and behind it what it is told."""

    def __init__(self, port, folder):
        super().__init__(daemon=True)
        self.port, self.folder, self.runs, self.running, self.is_over = port, folder, 0, None, False

    def run(self):
        words = [KUBECTL, f"--server=http://127.0.0.1:{self.port}", "get", "pods", "-A", "-w", "-o", "json", "--output-watch-events"]
        while not self.is_over:
            with open(f"{self.folder}/kubectl-{self.runs}", "wb") as out, open(f"{self.folder}/kubectl-said", "ab") as said:
                self.running = subprocess.Popen(words, stdout=out, stderr=said, env={**ALONE, "HOME": self.folder})
                self.runs += 1
                self.running.wait()
            time.sleep(0.1)

    def is_told(self, when):
        return is_told(f"{self.folder}/kubectl-{self.runs - 1}", when)

    def end(self, _):
        """Ends it, and has what it was told, of each run the list at a revision that is told by what came next."""
        self.is_over = True
        self.running.kill()
        told = Told("kubectl get pods -A -w", "pods")
        for number in range(self.runs):
            events = [(it["type"], it["object"]) for it in values_of(f"{self.folder}/kubectl-{number}") if it["type"] != "ERROR"]
            # of more than 500 objects kubectl prints each page as one that was added
            each = [(kind, it) for kind, value in events for it in ([value] if "items" not in value else whole(value["items"]).values())]
            lines = [(kind, revision(it), bare(it)) for kind, it in each]
            keys = [key_of(value).encode() for _, _, value in lines]
            count = next((at for at, (kind, _, _) in enumerate(lines) if kind != "ADDED" or (at and keys[at] <= keys[at - 1])), len(lines))
            if count < len(lines):
                at = lines[count][1] - 1
                told.lists.append((at, {key_of(value): value for _, _, value in lines[:count]}))
                told.watches.append((at, lines[count:]))
            told.at = max([told.at, *(when for _, when, _ in lines)])
        told.expired = self.runs - 1
        return told


# Lists and watches pods by python's client, and prints what it is told.
PYTHON_READS = """
import json, sys
from kubernetes import client, watch
core = client.CoreV1Api(client.ApiClient(client.Configuration(host="http://127.0.0.1:" + sys.argv[1])))
def tell(**it): print(json.dumps(it), flush=True)
while True:
    listed = core.list_pod_for_all_namespaces()
    at = listed.metadata.resource_version
    tell(list=at, items=[it.metadata.resource_version for it in listed.items])
    try:
        while True:
            tell(watch=at)
            for event in watch.Watch().stream(core.list_pod_for_all_namespaces, resource_version=at, timeout_seconds=20):
                at = event["object"].metadata.resource_version
                tell(event=event["type"], object=event["raw_object"])
    except client.ApiException as no:
        if no.status != 410:
            raise
        tell(expired=at)
"""


def has_python():
    return os.access(PYTHON, os.X_OK) and not subprocess.run([PYTHON, "-c", "import kubernetes"], capture_output=True).returncode


class Python:
    """Python's client of Kubernetes."""

    def __init__(self, port, folder):
        self.path = f"{folder}/python"
        with open(self.path, "wb") as out, open(f"{folder}/python-said", "wb") as said:
            self.running = subprocess.Popen([PYTHON, "-c", PYTHON_READS, str(port)], stdout=out, stderr=said)

    def is_told(self, when):
        return is_told(self.path, when)

    def end(self, log):
        """Ends it, and has what it was told. Its lists are of objects of python's, so of them the revisions count."""
        told = Told("python's client", "pods")
        if self.running.poll() is not None:
            told.died = f"status {self.running.returncode}"
        self.running.kill()
        for it in values_of(self.path):
            if "list" in it:
                told.at = int(it["list"])
                known = [log.objects[int(when)] for when in it["items"] if int(when) in log.objects]
                told.lists.append((told.at, {key_of(value): value for value in known}))
            elif "watch" in it:
                told.watches.append((int(it["watch"]), []))
            elif "event" in it:
                told.at = revision(it["object"])
                told.watches[-1][1].append((it["event"], told.at, it["object"]))
            else:
                told.expired += 1
        return told


class Informer:
    """Informers of client-go for all resources, by informer.go."""

    def __init__(self, port, folder):
        with open(f"{folder}/informer-{port}", "wb") as said:
            self.running = subprocess.Popen([INFORMER, str(port)], stdin=subprocess.PIPE, stdout=subprocess.PIPE, stderr=said, text=True)

    def caches(self):
        """Of each resource the objects in its cache by key, and how many events it was told."""
        self.running.stdin.write("\n")
        self.running.stdin.flush()
        return json.loads(self.running.stdout.readline())


def informed(cluster, resources, informers):
    """Waits until the caches of informers at the replica and at the server are the same JSON, and of the server's revisions; says whether
    they are, how many objects and events they have, and where they differ."""
    ends = time.monotonic() + real.WAIT
    while True:
        listed = {of: {key_of(it): it["metadata"]["resourceVersion"] for it in cluster.ask("GET", f"{real.VERSIONS[of][2]}/{of}")[1]["items"]} for of in resources}
        caches = [it.caches() for it in informers]
        # items of the API server's lists have no kind of their own, and so have none in a cache
        objects = [{of: {key: without(it, "kind", "apiVersion") for key, it in cache[of]["objects"].items()} for of in resources} for cache in caches]
        has = {of: {key: it["metadata"]["resourceVersion"] for key, it in objects[0][of].items()} for of in resources}
        is_same = objects[0] == objects[1] and has == listed
        if is_same or time.monotonic() > ends:
            events = [sum(cache[of]["events"] for of in resources) for cache in caches]
            return is_same, sum(len(it) for it in listed.values()), events, [] if is_same else [*apart(has, listed), *apart(*objects)][:3]
        time.sleep(1)
