"""What users, controllers and kubelets write to a cluster meanwhile."""
import collections
import itertools
import random
import threading
import time
from http.client import HTTPException

from real import NAMESPACES, path_of


def pod(name, draw, big=False):
    annotations = {"note": "a<b>&c \u2028 \u2603 \u0001\"\\/"}
    if big:
        annotations["large"] = "<x>" * 68_000
    spec = {"containers": [{"name": "c", "image": "i", "env": [{"name": "E", "value": "1.5e3"}], "resources": {"limits": {"cpu": "1e3"}}}]}
    if draw.random() < 0.8:
        spec["nodeName"] = f"n{draw.randrange(4)}"
    return {"apiVersion": "v1", "kind": "Pod", "metadata": {"name": name, "labels": {"app": draw.choice("abc")}, "annotations": annotations}, "spec": spec}


def config_map(name, draw, big=False):
    return {"metadata": {"name": name, "labels": {"app": draw.choice("abc")}}, "data": {"a": "<" * (1_000_000 if big else 9), "b": "a\u2028\n\u0001"}}


def deployment(name, draw, big=False):
    spec = {"containers": [{"name": "c", "image": "i" * (9000 if big else 1)}]}
    return {"metadata": {"name": name, "labels": {"app": draw.choice("abc")}},
            "spec": {"replicas": draw.randrange(9), "selector": {"matchLabels": {"name": name}}, "template": {"metadata": {"labels": {"name": name}}, "spec": spec}}}


NEW = {"pods": pod, "configmaps": config_map, "deployments": deployment}
LARGE = {"pods": "pods of 200 kB of annotations", "configmaps": "config maps of a million `<`", "deployments": "deployments of 9 kB"}


def write(cluster, log, of, namespace, name):
    """Creates an object, which the log learns."""
    status, made = cluster.ask("POST", path_of(of, namespace), NEW[of](name, random.Random(1)))
    assert status == 201, made
    log.learn(made)
    return made


class Writer(threading.Thread):
    """Does what users, controllers and kubelets do to objects of its own, in all namespaces, until it is told that this is over."""

    def __init__(self, cluster, log, number, gate):
        super().__init__(daemon=True)
        self.cluster, self.log, self.number, self.gate = cluster, log, number, gate
        self.draw, self.connection, self.there = random.Random(number), None, []
        self.did, self.done, self.is_over = collections.Counter(), 0, False

    def ask(self, what, method, path, body=None, kind="application/json"):
        """Until the server answers: a killed one may have done it or not. What it says is learned, and what it accepts is counted, by
        these words."""
        while True:
            self.gate.wait()
            try:
                self.connection = self.connection or self.cluster.connect()
                status, told = self.cluster.ask(method, path, body, self.connection, kind)
                if status < 300:
                    metadata = told.get("metadata", {})
                    # the reply to a patch that takes the last finalizer of what is being deleted is stored nowhere
                    if method != "DELETE" and "deletionTimestamp" not in metadata:
                        self.log.learn(told)
                    self.did["graceful deletions" if metadata.get("deletionGracePeriodSeconds") and method == "DELETE" else what] += 1
                    self.done += 1
                return
            except (OSError, HTTPException):
                self.connection = None
                time.sleep(0.05)

    def end(self):
        """Ends it, and has what it did."""
        self.is_over = True
        self.join()
        return self.did

    def patch(self, what, path, body):
        self.ask(what, "PATCH", path, body, "application/merge-patch+json")

    def run(self):
        for step in itertools.count():
            if self.is_over:
                return
            draw = self.draw
            if len(self.there) < 60 or draw.random() < 0.25:
                of, namespace, name = draw.choice(["pods", "pods", *self.log.changes]), draw.choice(NAMESPACES), f"w{self.number}-{step}"
                big = draw.random() < 0.01
                self.ask(LARGE[of] if big else "creations", "POST", path_of(of, namespace), NEW[of](name, draw, big))
                self.there.append((of, path_of(of, namespace, name)))
                continue
            (of, path), what = draw.choice(self.there), draw.random()
            if what < 0.5 and of == "pods":
                phase, ready = draw.choice(["Pending", "Running", "Succeeded"]), draw.choice(["True", "False"])
                self.patch("statuses", path + "/status", {"status": {"phase": phase, "podIP": f"10.0.0.{draw.randrange(250)}",
                                                                     "conditions": [{"type": "Ready", "status": ready, "lastTransitionTime": None}]}})
            elif what < 0.3 and of == "deployments":
                status = {"replicas": draw.randrange(9), "observedGeneration": step, "conditions": [{"type": "Available", "status": "True"}]}
                self.patch("statuses", path + "/status", {"status": status})
            elif what < 0.5:
                self.patch("specifications and data", path, {"data": {"a": str(step), "b": None}} if of == "configmaps" else {"spec": {"replicas": draw.randrange(9)}})
            elif what < 0.7:
                self.patch("labels", path, {"metadata": {"labels": {"app": draw.choice(["a", "b", None])}}})
            elif what < 0.8:
                self.patch("annotations", path, {"metadata": {"annotations": {"at": str(step), "note": None}}})
            else:
                if what < 0.86:
                    self.patch("finalizers", path, {"metadata": {"finalizers": ["trial/held"]}})
                if what < 0.95:
                    self.ask("deletions", "DELETE", path, {"gracePeriodSeconds": 30})
                    self.patch("finalizers taken off", path, {"metadata": {"finalizers": None}})
                self.ask("deletions", "DELETE", path, {"gracePeriodSeconds": 0})
                self.there.remove((of, path))


def write_config_maps(cluster, gate, ended):
    """A config map of a million `<` beside, whose text is six times as long, and small ones that take revisions."""
    for number in itertools.count():
        gate.wait()
        try:
            cluster.ask("POST", path_of("configmaps", "shop"), config_map(f"c{number}", random.Random(number), big=number % 200 == 100))
            cluster.ask("DELETE", path_of("configmaps", "shop", f"c{number}"))
        except (OSError, HTTPException):
            pass
        if ended.wait(0.2):
            return
