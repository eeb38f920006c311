"""What is tried of a replica beside a cluster that stays: one connection for all resources, paths that it refuses, feeds that are cut,
and what somebody does by kubectl where reads go to the replica and writes to the cluster, by nginx as docs/OPERATING.md has it. Each
yields what came of its steps: a name, and whether all was as at the server itself."""
import json
import os
import random
import re
import subprocess
import threading
import time
from http.client import HTTPConnection

import real
from clients import SELECTIONS, Reader
from real import ALONE, KUBECTL, VERSIONS, Cutter, Replica, apart, free_port, path_of, revision, until, whole
from writes import Writer, write

NGINX = os.environ.get("NGINX_PROGRAM", "nginx")
OPERATING = os.path.join(os.path.dirname(os.path.abspath(__file__)), "../../docs/OPERATING.md")


class Front:
    """nginx by the lines of docs/OPERATING.md, with other ports."""

    def __init__(self, folder, replica, cluster):
        self.port, folder = free_port(), f"{folder}/nginx"
        os.makedirs(f"{folder}/logs")
        with open(OPERATING, encoding="utf-8") as it:
            lines = re.search(r"```nginx\n(.*?)```", it.read(), re.S)[1]
        ports = {"8000": self.port, "8001": cluster, "8002": replica}
        lines = re.sub(r"\b800[012]\b", lambda it: str(ports[it[0]]), lines)
        kept = "".join(f"{name}_temp_path {folder}/{name}; " for name in ["client_body", "proxy", "fastcgi", "uwsgi", "scgi"])
        with open(f"{folder}/conf", "w", encoding="utf-8") as it:
            it.write(f"worker_processes 1; daemon off; pid {folder}/pid; events {{}}\nhttp {{ access_log off; {kept}\n{lines}\n}}\n")
        self.running = subprocess.Popen([NGINX, "-p", folder, "-c", f"{folder}/conf", "-e", f"{folder}/errors"])
        self.folder = folder

    def __enter__(self):
        return self

    def __exit__(self, *_):
        self.running.terminate()
        self.running.wait()


def manifest(kind, name, version="v1", **more):
    return json.dumps({"apiVersion": version, "kind": kind, "metadata": {"name": name, "namespace": "scenes", "labels": {"app": name}}, **more})


def deployment(replicas):
    template = {"metadata": {"labels": {"app": "api"}}, "spec": {"containers": [{"name": "c", "image": "i"}]}}
    return manifest("Deployment", "api", "apps/v1", spec={"replicas": replicas, "selector": {"matchLabels": {"app": "api"}}, "template": template})


def all_of(of):
    return f"{VERSIONS[of][2]}/{of}"


def one_connection(cluster, log, replica, turns=5):
    """One connection asks for each resource in turn, where one of them has just been written: each reply is of the resource's own log,
    which is the server's."""
    connection, wrong, lists = HTTPConnection("127.0.0.1", replica.port, timeout=real.WAIT), [], 0

    def ask(path):
        connection.request("GET", path)
        return json.loads(connection.getresponse().read())

    for turn in range(turns):
        for of in log.changes:
            made = write(cluster, log, of, "bank", f"turn-{turn}")
            one = path_of(of, "bank", f"turn-{turn}")
            until("a replica that has what was written", lambda: replica.ask(one)[0] == 200)  # pylint: disable=cell-var-from-loop
            wrong += apart(ask(one), made, one)
            for other in log.changes:
                told = ask(all_of(other))
                when = revision(told)
                wanted = cluster.ask("GET", f"{all_of(other)}?resourceVersionMatch=Exact&resourceVersion={when}")[1]
                lists += 1
                wrong += apart(whole(told["items"], other), whole(wanted["items"], other), f"{other} at {when}")
                if other == of and when < revision(made):
                    wrong.append(f"{of} at {when}, before {revision(made)}")
    yield f"one connection that asks for {', '.join(log.changes)} in turn is told {lists} lists, each of its own log {wrong[:2]}", not wrong


def own_paths(cluster, log, replica):
    """Each path of the program's own is refused at a replica of a cluster and changes nothing: lists stay, and open watches go on."""
    listed = {of: replica.ask(all_of(of))[1] for of in log.changes}
    streams = {}
    for of, told in listed.items():
        connection = HTTPConnection("127.0.0.1", replica.port, timeout=real.WAIT)
        connection.request("GET", f"{all_of(of)}?watch=true&resourceVersion={revision(told)}")
        streams[of] = connection.getresponse()
    removal = [{"op": "remove", "resource": "pods", "namespace": "bank", "name": "last"}]
    for call in ["cut", "restart", "disconnect", "compact?revision=1", *(f"compact?revision={revision(told)}" for told in listed.values()), "transaction"]:
        status, told = replica.ask(f"/watchcache/{call}", "POST", removal if call == "transaction" else None)
        yield f"POST /watchcache/{call} is refused: {status} {told}", status == 405 and told["message"] == "this server is a mirror"
    for of, told in listed.items():
        again = replica.ask(f"{all_of(of)}?resourceVersionMatch=Exact&resourceVersion={revision(told)}")
        yield f"{of} at {revision(told)} are listed as before", again == (200, told)
        made = write(cluster, log, of, "bank", "behind-own-paths")
        event = json.loads(streams[of].readline())
        yield f"an open watch of {of} goes on", event == {"type": "ADDED", "object": made}


def cuts(cluster, log, program, times=40, writes=400):
    """The feeds of a replica are cut so often, behind any byte, while somebody writes so much: what it tells is the cluster's log, with
    nothing left out."""
    cutter, gate = Cutter(cluster.proxy, random.Random(1)), threading.Event()
    replica = Replica(program, cutter.port, log.changes)
    try:
        readers = [Reader(replica, name, f"{name} at a replica whose feeds are cut") for name, (of, _, _) in SELECTIONS.items() if of in log.changes]
        writer = Writer(cluster, log, "cut", gate)
        gate.set()
        cutter.is_cutting = True
        for one in [*readers, writer]:
            one.start()
        until("feeds that are cut", lambda: cutter.cuts >= times and writer.done >= writes)
        cutter.is_cutting = False
        writer.end()
        last = {of: revision(write(cluster, log, of, "bank", "behind-cuts")) for of in log.changes}
        until("etcd's watch", lambda: all(log.changes[of][-1][0] >= last[of] for of in last))
        log.fill()
        due = [max((when for _, when, _ in log.lines(one.told.of, one.told.selects)), default=0) for one in readers]
        try:
            until("readers that are told of the last writes", lambda: all(one.told.at >= at for one, at in zip(readers, due)))
        except TimeoutError:
            stand = {of: [replica.figure(name, of) for name in ["following", "revision", "heard_seconds"]] for of in last}
            yield f"readers are told of the last writes: {due}, and are at {[one.told.at for one in readers]}; it follows: {stand}", False
            return
        began = {of: replica.figure("began_anew_total", of) for of in log.changes}
        yield f"feeds were cut {cutter.cuts} times beside {writer.done} writes; what began anew: {began}", True
        for one in readers:
            wrong, events = one.told.compare(log)
            yield f"{one.told.name}: {len(one.told.watches)} watches of {events} events are those of etcd's log {wrong[:2]}", not wrong and events > 0
    finally:
        replica.running.kill()


def by_kubectl(cluster, replica, folder):
    """What somebody does by kubectl."""
    with Front(folder, replica.port, cluster.proxy) as front:
        def run(*words, given=None):
            return subprocess.run([KUBECTL, f"--server=http://127.0.0.1:{front.port}", "-n", "scenes", *words], input=given, capture_output=True,
                                  text=True, env={**ALONE, "HOME": folder}, timeout=120)

        def does(says, *words, given=None):
            """A step that ends well and says this; what it wrote the replica has a moment later, as its next reader wants."""
            ran = run(*words, given=given)
            time.sleep(0.2)
            return f"kubectl {' '.join(words)}: {(ran.stdout + ran.stderr).strip()[:200]}", ran.returncode == 0 and says in ran.stdout

        def watch(of, port):
            with open(f"{folder}/scenes-{of}-{port}", "wb") as out:
                return subprocess.Popen([KUBECTL, f"--server=http://127.0.0.1:{port}", "-n", "scenes", "get", of, "-w", "-o", "name"], stdout=out,
                                        env={**ALONE, "HOME": folder})

        until("nginx", lambda: run("version").returncode == 0)
        yield does("created", "create", "namespace", "scenes")
        watched = {(of, port): watch(of, port) for of in ["pods", "configmaps", "deployments"] for port in [front.port, cluster.proxy]}
        time.sleep(1)
        pod = {"spec": {"containers": [{"name": "c", "image": "i"}]}}
        yield does("pod/web created", "create", "-f", "-", given=manifest("Pod", "web", **pod))
        yield does("configmap/settings created", "apply", "-f", "-", given=manifest("ConfigMap", "settings", data={"colour": "red"}))
        yield does("configmap/settings unchanged", "apply", "-f", "-", given=manifest("ConfigMap", "settings", data={"colour": "red"}))
        yield does("configmap/settings configured", "apply", "-f", "-", given=manifest("ConfigMap", "settings", data={"colour": "blue"}))
        yield does("blue", "get", "configmap", "settings", "-o", "jsonpath={.data.colour}")
        yield does("deployment.apps/api created", "apply", "-f", "-", given=deployment(3))
        yield does("scaled", "scale", "deployment", "api", "--replicas=5")
        yield does("5", "get", "deployments", "api", "-o", "jsonpath={.spec.replicas}")
        yield does("labeled", "label", "pod", "web", "tier=front")
        yield does("annotated", "annotate", "pod", "web", "note=a<b>&c")
        yield does("pod/web", "get", "pods", "-l", "tier=front", "-o", "name")
        yield does("patched", "patch", "deployment", "api", "-p", '{"metadata":{"labels":{"tier":"back"}}}')

        def later(of, status, *base):
            def write():
                time.sleep(1)
                cluster.ask("PATCH", f"{'/'.join(base)}/namespaces/scenes/{of}/status", {"status": status}, kind="application/merge-patch+json")
            threading.Thread(target=write, daemon=True).start()

        later("pods/web", {"phase": "Running", "conditions": [{"type": "Ready", "status": "True"}]}, "/api/v1")
        yield does("condition met", "wait", "--for=condition=Ready", "pod/web", "--timeout=60s")
        full = {"observedGeneration": 99, "replicas": 5, "updatedReplicas": 5, "readyReplicas": 5, "availableReplicas": 5}
        later("deployments/api", full, "/apis/apps/v1")
        yield does("successfully rolled out", "rollout", "status", "deployment/api", "--timeout=60s")
        yield does("api", "get", "deployments")
        yield does("web", "get", "pods", "-A", "-o", "wide")
        yield does("Name:", "describe", "pod", "web")
        yield does("pod/web", "get", "pod,configmap,deployment", "-o", "name")
        yield does("pod/dry created (server dry run)", "create", "--dry-run=server", "-f", "-", given=manifest("Pod", "dry", **pod))
        text = run("get", "configmap", "settings", "-o", "json").stdout.replace("blue", "green")
        yield does("configmap/settings replaced", "replace", "-f", "-", given=text)
        stale = run("replace", "-f", "-", given=text)
        yield f"the same again: {stale.stderr.strip()[:150]}", stale.returncode == 1 and "Conflict" in stale.stderr
        yield does("deleted", "delete", "configmap", "settings")
        yield does("deleted", "delete", "deployment", "api")
        yield does("force deleted", "delete", "pod", "web", "--grace-period=0", "--force")
        gone = run("get", "pod", "web")
        yield f"what was deleted: {gone.stderr.strip()}", gone.returncode == 1 and "NotFound" in gone.stderr
        time.sleep(1)
        for (of, port), running in watched.items():
            running.terminate()
            running.wait()
        told = {}
        for of, port in watched:
            with open(f"{folder}/scenes-{of}-{port}", encoding="utf-8") as it:
                told[of, port] = it.read().split("\n")[:-1]
        for of in ["pods", "configmaps", "deployments"]:
            here, there = told[of, front.port], told[of, cluster.proxy]
            yield f"kubectl get {of} -w is told what it is at the server: {len(here)} changes", here == there and len(here) > 3
