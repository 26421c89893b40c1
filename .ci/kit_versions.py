"""Versions of the topology: what spinesd-keys publishes, and how daemons take it while they run. Used by kit.py, which has the judge."""

import json
import os
import subprocess
import time

from kit_daemons import ports_for
from kit_next import files_of, judged, value_of

ROOT = os.path.dirname(os.path.dirname(os.path.abspath(__file__)))
TRIANGLE = b"graph 2\nnodes 3\nedge 1 2 10\nedge 1 3 10\nedge 2 3 10\nend\n"
ANGLE = TRIANGLE.replace(b"edge 2 3 10\n", b"")
PAIR = ANGLE.replace(b"edge 1 3 10\n", b"")


def overlay_of(kit, name, more):
    """A triangle of three nodes, and the words with which its next documents are signed."""
    overlay, words = kit.path(name), ["--ledger", kit.path(f"{name}.ledger")]
    graph = kit.write(f"{name}.graph", TRIANGLE)
    status, _, why = kit.run("spinesd-keys", "make", graph, overlay, "--height", "5", *more, *words)
    kit.equal(f"{name}: its keys", (status, why), (0, ""))
    return overlay, words


def texts(kit):
    """What is published without daemons: a link withdrawn, one that gets a weight again, and what is refused."""
    overlay, words = overlay_of(kit, "published", [])
    publish = lambda graph, *more: kit.run("spinesd-keys", "publish", overlay, "-", *more, *words, given=graph)
    before = files_of(overlay)
    status, said, _ = publish(ANGLE, "--dry-run")
    kit.holds("publish, dry run: what it says", status == 0 and "version 2, administrator's index 1 (nothing is written)\n" in said
              and said.endswith("link 2-3: withdrawn\n"), said)
    kit.equal("publish, dry run: nothing is written", files_of(overlay), before)
    kit.equal("publish: a link is withdrawn", publish(ANGLE)[::2], (0, ""))
    judged(kit, "publish", overlay, (1, 2, 3))
    after = files_of(overlay)
    changed = sorted(path for path in after if after[path] != before.get(path))
    kit.equal("publish: what changes", changed, ["1/spinesd.conf", "1/spinesd.conf.1", "draft.toml", "topology"])
    kit.equal("publish: the configuration before is kept", after["1/spinesd.conf.1"], before["1/spinesd.conf"])
    kit.equal("publish: version, index", [value_of(after["draft.toml"], key) for key in ("version", "admin_index")], ["2", "1"])
    refuses(kit, overlay, publish, [("what is there", ANGLE, "nothing is to be signed"), ("a link that isn't there", TRIANGLE.replace(b"2 3 10", b"2 4 10"), "has no link 2-4")])
    kit.equal("publish: the link gets a weight again", publish(TRIANGLE.replace(b"2 3 10", b"2 3 7"))[::2], (0, ""))
    status, said, _ = publish(PAIR)
    kit.holds("publish: a node is removed", status == 0 and "restart that daemon" in said and said.endswith("node 3 is removed: its flows end, and it never comes back\n"), said)
    refuses(kit, overlay, publish, [("a removed node", TRIANGLE, "node 3 was removed, and no removed node comes back")])
    kit.write("published/draft.toml", after["draft.toml"])
    refuses(kit, overlay, publish, [("with an older draft", TRIANGLE, "the administrator's index 2 may have signed another document, since index 3 has")], ["draft.toml"])
    first, its_words = kit.path("published_1"), ["--ledger", kit.path("published_1.ledger")]
    kit.run("spinesd-keys", "make", "-", first, "--format", "1", "--height", "5", *its_words, given=TRIANGLE.replace(b"graph 2", b"graph 1"))
    status, _, why = kit.run("spinesd-keys", "publish", first, "-", *its_words, given=PAIR)
    kit.holds("publish: under format 1", status == 1 and "daemons of format 1 keep their topology" in why, why)


def refuses(kit, overlay, publish, rows, may_change=()):
    """Each is refused for its reason, and nothing is written; an index that was taken stays taken."""
    for name, graph, reason in rows:
        before = files_of(overlay)
        status, said, why = publish(graph)
        after = files_of(overlay)
        kit.holds(f"publish: {name}", (status, said) == (1, "") and reason in why, why)
        kit.equal(f"publish: {name}: files that changed", sorted(path for path in after if after[path] != before.get(path)), sorted(may_change))


class Overlay:
    """Daemons of an overlay that run."""

    def __init__(self, kit, overlay):
        self.kit, self.children, self.recordings = kit, {}, {}
        self.places = {node: os.path.join(overlay, str(node)) for node in (1, 2, 3)}

    def begins(self, node):
        place = self.places[node]
        self.children[node] = subprocess.Popen([os.path.join(ROOT, "kit", "spinesd-node"), "run", place], env={**os.environ, "SPINESD": self.kit.program})
        self.kit.equal(f"versions: daemon {node} begins", self.kit.run("spinesd-node", "wait", place)[:2], (0, ""))

    def ends(self, node):
        child = self.children.pop(node)
        child.terminate()
        child.wait()

    def restarts(self, node):
        self.ends(node)
        time.sleep(1)                                   # a recording's name is the second of its start
        self.begins(node)

    def told(self, node):
        return json.loads(self.kit.run("spinesd-status", "--json", self.places[node])[1])

    def comes_to(self, version):
        """All nodes run under a version within ten seconds."""
        for _ in range(40):
            versions = [self.told(node)["topology_version"] for node in self.places]
            if versions == [version] * 3:
                return True
            time.sleep(0.25)
        return False

    def client(self, node, *words):
        return self.kit.run("spinesd-client", words[0], self.places[node], *words[1:], "--session", self.kit.path(f"versions{node}.session"))


def daemons(kit):
    """One daemon is restarted with a document that withdraws a link: the others take it, and a message goes the other way round. Then a node is removed."""
    overlay, words = overlay_of(kit, "versions", ["--port", str(ports_for(3))])
    run = Overlay(kit, overlay)
    try:
        for node in run.places:
            run.begins(node)
        kit.equal("versions: publish", kit.run("spinesd-keys", "publish", overlay, "-", *words, given=ANGLE)[::2], (0, ""))
        run.restarts(1)
        kit.holds("versions: all run under version 2", run.comes_to(2), [run.told(node) for node in run.places])
        kit.equal("versions: the others weren't restarted", [run.told(node)["boot"] for node in run.places], [2, 1, 1])
        kit.equal("versions: what is withdrawn", [(run.told(node)["withdrawn"], run.told(node)["removed"]) for node in run.places], [(["2-3"], [])] * 3)
        kit.equal("versions: a message goes the other way round", run.client(2, "send", "3", "hello")[:2], (0, "accepted 1\n"))
        kit.equal("versions: it arrives", run.client(3, "listen", "2", "--messages", "1", "--seconds", "20")[:2], (0, "rel 2 hello\n"))
        kit.equal("versions: publish that node 3 is removed", kit.run("spinesd-keys", "publish", overlay, "-", *words, given=PAIR)[::2], (0, ""))
        run.restarts(1)
        kit.holds("versions: all run under version 3", run.comes_to(3), [run.told(node) for node in run.places])
        told = [run.told(node) for node in run.places]
        kit.equal("versions: who is removed", [each["removed"] for each in told], [[3]] * 3)
        kit.holds("versions: its flow ended", any((flow["source"], flow["destination"], flow["ended"]) == (2, 3, 1) for flow in told[1]["flows"]), told[1]["flows"])
        kit.equal("versions: nothing is sent to it", run.client(2, "send", "3", "lost")[0], 20)
        table = kit.run("spinesd-status", run.places[2])[1]
        kit.holds("versions: the table", ", topology version 3: " in table and "\nwithdrawn links 1-3, 2-3; removed nodes 3\n" in table, table)
        kit.equal("versions: no answer differs", [each["checked"]["different"] for each in told], [0, 0, 0])
    finally:
        for node in list(run.children):
            run.ends(node)
    for node, lives in ((1, 3), (2, 1), (3, 1)):
        verified(kit, run, node, lives)


def verified(kit, run, node, lives):
    """Each life is verified under the configuration that it began with."""
    status, said, _ = kit.run("spinesd-node", "verify", run.places[node])
    kit.holds(f"versions: the lives of node {node}", status == 0 and said.endswith(f"{lives} of {lives} lives verified\n"), said)
