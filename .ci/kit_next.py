"""Renewed seeds, added links and nodes: what spinesd-keys makes of an overlay that is there. Used by kit.py, which has the judge."""

import glob
import os
import re

LINE = b"graph 1\nnodes 3\nedge 1 2 10\nedge 2 3 10\nend\n"


def read(path):
    with open(path, "rb") as file:
        return file.read()


def files_of(overlay):
    return {os.path.relpath(path, overlay): read(path) for path in glob.glob(overlay + "/**", recursive=True) if os.path.isfile(path)}


def value_of(text, key):
    return re.search(rf'(?m)^{key} = "?([^"\n]*)"?$', text.decode()).group(1)


def judged(kit, name, overlay, nodes):
    """Each configuration is one that the program takes."""
    for node in nodes:
        given = read(f"{overlay}/{node}/spinesd.conf") + b"recording 1 1 0 32\n"
        kit.equal(f"{name}: the configuration of node {node}", kit.run(kit.program, "verify", given=given)[:2], (0, "verified 0\n"))


def look(kit):
    overlay, graph = kit.path("next"), kit.write("next.graph", LINE)
    words = ["--ledger", kit.path("next.ledger")]
    status, said, why = kit.run("spinesd-keys", "make", graph, overlay, "--format", "1", "--height", "5", *words)
    kit.holds("next: its progress is told", (status, why) == (0, "") and "node 2 of 3: " in said, why or said)
    before = files_of(overlay)
    status, said, _ = kit.run("spinesd-keys", "renew", overlay, "2", "--dry-run", *words)
    kit.holds("renew, dry run: what changes", status == 0 and "2/spinesd.conf: topology, seed; spinesd.keys is new\n" in said, said)
    kit.equal("renew, dry run: nothing is written", files_of(overlay), before)
    renewed(kit, overlay, before, words)
    added(kit, overlay, words)
    rows = [(["renew", overlay, "9"], "has no node 9"), (["add", overlay, "1", "2", "10"], "the link 1-2 is there"),
            (["add", overlay, "1", "1", "10"], "joins two"), (["add", overlay, "7", "8", "10"], "joins two"),
            (["add", overlay, "1", "4", "0"], "ended with status 3")]
    for row, reason in rows:
        status, said, why = kit.run("spinesd-keys", *row, *words)
        kit.holds(f"{' '.join(row[::2])}", (status, said) == (1, "") and reason in why, why)


def renewed(kit, overlay, before, words):
    """A new seed for node 2: a new document for all, one index of the administrator further, and a new key file for it alone."""
    kit.equal("renew", kit.run("spinesd-keys", "renew", overlay, "2", *words)[::2], (0, ""))
    after = files_of(overlay)
    judged(kit, "renew", overlay, (1, 2, 3))
    seeds = [[value_of(files[f"{node}/spinesd.conf"], "seed") for node in (1, 2, 3)] for files in (before, after)]
    kit.equal("renew: whose seed is new", [old != new for old, new in zip(*seeds)], [False, True, False])
    numbers = [value_of(after["draft.toml"], key) for key in ("version", "admin_index")]
    kit.equal("renew: the document's version, the administrator's index", numbers, ["2", "1"])
    kit.equal("renew: one document for all", len({value_of(after[f"{node}/spinesd.conf"], "topology") for node in (1, 2, 3)}), 1)
    kit.equal("renew: the key file before is kept", after.get("2/spinesd.keys.1"), before["2/spinesd.keys"])
    kit.equal("renew: the others' key files", [after[f"{node}/spinesd.keys"] for node in (1, 3)], [before[f"{node}/spinesd.keys"] for node in (1, 3)])
    kit.equal("renew: the ledger has the seeds, and what was signed", [read(words[1]).count(word) for word in (b"\n", b" signed 0 ", b" signed 1 ")], [7, 1, 1])


def added(kit, overlay, words):
    """A link of two nodes, and then a node with its first link."""
    status, said, _ = kit.run("spinesd-keys", "add", overlay, "3", "1", "20", *words)
    kit.holds("add a link", status == 0 and "1/spinesd.conf: topology, peer 3\n" in said, said)
    judged(kit, "add a link", overlay, (1, 2, 3))
    status, said, _ = kit.run("spinesd-keys", "add", overlay, "2", "4", "30", *words)
    kit.holds("add a node", status == 0 and "4/spinesd.conf: all of it; spinesd.keys is new\n" in said, said)
    judged(kit, "add a node", overlay, (1, 2, 3, 4))
    files = files_of(overlay)
    kit.equal("add a node: its ports", [value_of(files["4/spinesd.conf"], key) for key in ("port", "client_port")], ["7004", "7104"])
    kit.equal("add a node: version and index", [value_of(files["draft.toml"], key) for key in ("version", "admin_index")], ["4", "3"])
