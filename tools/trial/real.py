"""A real cluster beside which a replica is tried: etcd, kube-apiserver and `kubectl proxy`, what etcd says was written, the replica,
and a port between them that cuts connections."""
import base64
import contextlib
import json
import os
import re
import socket
import ssl
import subprocess
import threading
import time
from http.client import HTTPConnection, HTTPException, HTTPSConnection

ETCD, SERVER, KUBECTL = (os.environ.get(name, word) for name, word in [("ETCD", "etcd"), ("KUBE_APISERVER", "kube-apiserver"), ("KUBECTL", "kubectl")])
# What a program by Kubernetes' own libraries is started with, beside a HOME.
ALONE = {"PATH": os.environ["PATH"], "KUBECONFIG": "/dev/null"}
# Seconds until something counts as missing, on an idle machine; `--patience` makes them more on a busy one.
WAIT = 60
NAMESPACES = ["shop", "bank", "shop-test"]
VERSIONS = {"pods": ("Pod", "v1", "/api/v1"), "configmaps": ("ConfigMap", "v1", "/api/v1"), "deployments": ("Deployment", "apps/v1", "/apis/apps/v1")}
KINDS = {kind: of for of, (kind, _, _) in VERSIONS.items()}


def free_port():
    with socket.create_server(("127.0.0.1", 0)) as it:
        return it.getsockname()[1]


def until(what, holds):
    ends = time.monotonic() + WAIT
    while not holds():
        if time.monotonic() > ends:
            raise TimeoutError(f"{what}: not within {WAIT} s")
        time.sleep(0.02)


def revision(value):
    return int(value["metadata"]["resourceVersion"])


def key_of(value):
    return f"{value['metadata']['namespace']}/{value['metadata']['name']}"


def whole(items, of="pods"):
    """The items of a list as watches tell them, by key."""
    return {key_of(it): {**it, "kind": VERSIONS[of][0], "apiVersion": VERSIONS[of][1]} for it in items}


def apart(told, wanted, path=""):
    """Where two values differ."""
    if isinstance(told, dict) and isinstance(wanted, dict):
        return [it for name in sorted({**told, **wanted}) for it in apart(told.get(name), wanted.get(name), f"{path}.{name}")]
    if isinstance(told, (list, tuple)) and isinstance(wanted, (list, tuple)) and len(told) == len(wanted):
        return [it for at, pair in enumerate(zip(told, wanted)) for it in apart(*pair, f"{path}[{at}]")]
    return [] if told == wanted else [f"{path}: {str(told)[:150]}, and not {str(wanted)[:150]}"]


def path_of(of, namespace, name=None):
    """The path of a collection, or of an object."""
    return f"{VERSIONS[of][2]}/namespaces/{namespace}/{of}" + (f"/{name}" if name else "")


class Cluster:
    """etcd, a server and a proxy of ports of their own, in a folder."""

    def __init__(self, folder):
        self.folder, self.running = folder, {}
        self.etcd, self.peer, self.secure, self.proxy = (free_port() for _ in range(4))
        with open(f"{folder}/tokens", "w", encoding="ascii") as it:
            it.write("trial,trial,1,system:masters\n")
        subprocess.run(["openssl", "genrsa", "-out", f"{folder}/key", "2048"], check=True, capture_output=True)
        self.words = {
            "etcd": [ETCD, "--data-dir", f"{folder}/etcd", "--listen-client-urls", f"http://127.0.0.1:{self.etcd}", "--advertise-client-urls",
                     f"http://127.0.0.1:{self.etcd}", "--listen-peer-urls", f"http://127.0.0.1:{self.peer}", "--initial-advertise-peer-urls",
                     f"http://127.0.0.1:{self.peer}", "--initial-cluster", f"default=http://127.0.0.1:{self.peer}"],
            "server": [SERVER, f"--etcd-servers=http://127.0.0.1:{self.etcd}", f"--secure-port={self.secure}", "--bind-address=127.0.0.1", "--advertise-address=192.0.2.1",
                       f"--cert-dir={folder}/certificates", f"--token-auth-file={folder}/tokens", "--authorization-mode=AlwaysAllow",
                       "--service-account-issuer=https://trial", f"--service-account-key-file={folder}/key",
                       f"--service-account-signing-key-file={folder}/key", "--service-cluster-ip-range=10.0.0.0/24",
                       "--disable-admission-plugins=ServiceAccount", "--endpoint-reconciler-type=none", "--etcd-compaction-interval=0"],
            "proxy": [KUBECTL, "proxy", "--port", str(self.proxy), "--server", f"https://127.0.0.1:{self.secure}", "--token", "trial",
                      "--insecure-skip-tls-verify=true"]}
        for name in self.words:
            self.start(name)

    def start(self, name):
        with open(f"{self.folder}/{name}.log", "ab") as log:
            self.running[name] = subprocess.Popen(self.words[name], stdout=log, stderr=log,
                                                  env={**ALONE, "HOME": self.folder})

    def is_ready(self):
        """Whether the server answers; one that ended by itself is started again."""
        if self.running["server"].poll() is not None:
            self.start("server")
        try:
            return self.ask("GET", "/readyz")[0] == 200
        except (OSError, HTTPException):
            return False

    def kill(self, name):
        self.running[name].kill()
        self.running[name].wait()

    def end(self):
        for name in reversed(list(self.running)):
            self.kill(name)

    def connect(self):
        """A connection to the server itself, past the proxy."""
        context = ssl.create_default_context()
        context.check_hostname, context.verify_mode = False, ssl.CERT_NONE
        return HTTPSConnection("127.0.0.1", self.secure, timeout=WAIT, context=context)

    def ask(self, method, path, body=None, connection=None, kind="application/json"):
        one = connection or self.connect()
        one.request(method, path, json.dumps(body) if body is not None else None, {"Authorization": "Bearer trial", "Content-Type": kind, "Accept": "application/json"})
        reply = one.getresponse()
        text = reply.read()
        return reply.status, json.loads(text) if text[:1] == b"{" else text

    def at_etcd(self, path, value):
        connection = HTTPConnection("127.0.0.1", self.etcd, timeout=WAIT)
        connection.request("POST", path, json.dumps(value))
        return json.loads(connection.getresponse().read())


class Log:
    """What etcd says was written of some resources: of each a change for each revision, and what the objects are, which replies, watches
    and exact lists of the server tell."""

    def __init__(self, cluster, resources):
        self.cluster, self.changes, self.objects, self.compacted = cluster, {of: [] for of in resources}, {}, 0
        for of in resources:
            threading.Thread(target=self.follow_etcd, args=(of,), daemon=True).start()
            threading.Thread(target=self.follow_server, args=(of,), daemon=True).start()

    def follow_etcd(self, of):
        prefix = f"/registry/{of}/"
        key, range_end = (base64.b64encode(it.encode()).decode() for it in [prefix, prefix[:-1] + "0"])
        connection = HTTPConnection("127.0.0.1", self.cluster.etcd)
        connection.request("POST", "/v3/watch", json.dumps({"create_request": {"key": key, "range_end": range_end, "start_revision": 1}}))
        for line in connection.getresponse():
            for event in json.loads(line)["result"].get("events", []):
                key = base64.b64decode(event["kv"]["key"]).decode().removeprefix(prefix)
                self.changes[of].append((int(event["kv"]["mod_revision"]), key, event.get("type") == "DELETE"))

    def follow_server(self, of):
        """Learns objects from the server's own watch, as long as it is there, again and again."""
        while True:
            try:
                connection = self.cluster.connect()
                connection.request("GET", f"{VERSIONS[of][2]}/{of}?watch=true", headers={"Authorization": "Bearer trial"})
                for line in connection.getresponse():
                    event = json.loads(line)
                    if event["type"] in ("ADDED", "MODIFIED"):
                        self.learn(event["object"])
            except (OSError, HTTPException, ValueError):
                time.sleep(0.1)

    def learn(self, value):
        if value.get("kind") in KINDS:
            self.objects.setdefault(revision(value), value)

    def fill(self):
        """Asks the server for the objects that nobody told, before they are compacted."""
        for of, changes in self.changes.items():
            for when, key, is_gone in list(changes):
                if not is_gone and when not in self.objects and when > self.compacted:
                    namespace, name = key.split("/")
                    path = f"{path_of(of, namespace)}?resourceVersionMatch=Exact&resourceVersion={when}&fieldSelector=metadata.name%3D{name}"
                    for it in whole(self.cluster.ask("GET", path)[1]["items"], of).values():
                        self.learn(it)

    def compact(self):
        self.fill()
        status = self.cluster.at_etcd("/v3/kv/range", {"key": base64.b64encode(b"a").decode()})
        self.compacted = int(status["header"]["revision"])
        self.cluster.at_etcd("/v3/kv/compaction", {"revision": str(self.compacted), "physical": True})

    def state(self, of, selects, upto):
        """The objects of a selection at a revision, by key."""
        state = {}
        for kind, when, value in self.lines(of, selects):
            if when <= upto:
                state[key_of(value)] = None if kind == "DELETED" else value
        return {key: value for key, value in state.items() if value}

    def lines(self, of, selects):
        """What a watch of a selection is told of the whole log: (type, revision, object)."""
        there, lines = {}, []
        for when, key, is_gone in self.changes[of]:
            before = there.pop(key, None)
            now = None if is_gone else self.objects.get(when)
            was, is_now = before is not None and selects(before), now is not None and selects(now)
            if now is not None:
                there[key] = now
            if is_now:
                lines.append(("MODIFIED" if was else "ADDED", when, now))
            elif was:
                lines.append(("DELETED", when, {**before, "metadata": {**before["metadata"], "resourceVersion": str(when)}}))
        return lines


class Server:
    """The program as a server, and what it says."""

    def __init__(self, program, *words):
        self.port, self.said = free_port(), []
        self.running = subprocess.Popen([program, "serve", "--port", str(self.port), *words], stderr=subprocess.PIPE, text=True,
                                        env={**os.environ, "MALLOC_MMAP_THRESHOLD_": "131072"})
        threading.Thread(target=lambda: [self.said.append(line.strip()) for line in self.running.stderr], daemon=True).start()
        until("a server that is ready", lambda: self.running.poll() is None and self.is_ready())

    def is_ready(self):
        try:
            return self.ask("/readyz")[0] == 200
        except (OSError, HTTPException):
            return False

    def ask(self, path, method="GET", body=None):
        connection = HTTPConnection("127.0.0.1", self.port, timeout=WAIT)
        connection.request(method, path, json.dumps(body) if body is not None else None)
        reply = connection.getresponse()
        text = reply.read()
        connection.close()
        return reply.status, json.loads(text) if text[:1] == b"{" else text

    def fill(self, objects):
        """Creates these objects."""
        connection = HTTPConnection("127.0.0.1", self.port, timeout=WAIT)
        for it in objects:
            metadata = {name: value for name, value in it["metadata"].items() if name != "resourceVersion"}
            path = path_of(KINDS[it["kind"]], metadata["namespace"])
            connection.request("POST", path, json.dumps({**it, "metadata": metadata}, ensure_ascii=False).encode())
            reply = connection.getresponse()
            assert reply.status == 201, reply.read()
            reply.read()

    def resident(self):
        with open(f"/proc/{self.running.pid}/status", encoding="ascii") as it:
            return int(re.search(r"VmRSS:\s*(\d+)", it.read())[1]) * 1024


class Replica(Server):
    """The program as a replica of what is at a port."""

    def __init__(self, program, cluster, resources, *words):
        super().__init__(program, "--cluster", str(cluster), "--resources", ",".join(resources), *words)

    def figure(self, name, of):
        """What a monitor is told of how it follows a resource."""
        return int(re.search(rf'^watchcache_mirror_{name}{{resource="{of}"}} (\d+)', self.ask("/metrics")[1].decode(), re.M)[1])


class Cutter:
    """A port that hands on to another what comes, both ways. While it cuts, each connection ends behind as many bytes of what comes
    back as are drawn, wherever in a line or a list that is."""

    def __init__(self, to, draw):
        self.listening = socket.create_server(("127.0.0.1", 0))
        self.port, self.to, self.draw, self.cuts, self.is_cutting = self.listening.getsockname()[1], to, draw, 0, False
        threading.Thread(target=self.accept, daemon=True).start()

    def accept(self):
        while True:
            here = self.listening.accept()[0]
            try:
                there = socket.create_connection(("127.0.0.1", self.to))
            except OSError:
                here.close()
                continue
            for pair in [(here, there, False), (there, here, True)]:
                threading.Thread(target=self.hand_on, args=pair, daemon=True).start()

    def hand_on(self, one, other, is_back):
        room = None
        try:
            while room != 0 and (data := one.recv(65536)):
                if is_back and self.is_cutting:
                    room = int(10 ** self.draw.uniform(0, 6)) if room is None else room
                    data = data[:room]
                    room -= len(data)
                other.sendall(data)
        except OSError:
            pass
        self.cuts += room == 0
        for it in [one, other]:
            with contextlib.suppress(OSError):
                it.shutdown(socket.SHUT_RDWR)
