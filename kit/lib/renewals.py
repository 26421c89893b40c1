"""What an administrator keeps of an overlay, its draft and the nodes' configurations, read so that a next document can be made of them.

Of each node's folder the next `spinesd.conf` is written whole, from what the one before says and what changes.
"""

import collections
import os
import tomllib

from scripts import Refused, read

Draft = collections.namedtuple("Draft", "format version height index seeds edges")
Peer = collections.namedtuple("Peer", "node port key")
ADMINISTRATOR = "administrator"
# how many nodes and how many edges a format has at most
MOST = {1: (16, 120), 2: (32, 256)}


def table_of(path):
    try:
        return tomllib.loads(read(path).decode())
    except (ValueError, tomllib.TOMLDecodeError) as fault:
        raise Refused(f"{path} is no TOML: {fault}") from fault


def draft_in(overlay):
    """The draft of an overlay's folder; the administrator's seed stands among the others."""
    path = os.path.join(overlay, "draft.toml")
    table = table_of(path)
    try:
        seeds = {str(node["id"]): node["seed"] for node in table["node"]}
        edges = [(edge["a"], edge["b"], edge["weight"]) for edge in table["edge"]]
        return Draft(table.get("format", 1), table["version"], table["height"], table["admin_index"], {**seeds, ADMINISTRATOR: table["admin_seed"]}, edges)
    except (KeyError, TypeError) as fault:
        raise Refused(f"{path} is no draft that spinesd-keys made: {fault}") from fault


def fault_of(version, nodes, edges):
    """Why an overlay of a format can't have so many nodes and these edges, and what to do; None where it can. What else is wrong, `spinesd topology` says."""
    most_nodes, most_edges = MOST[version]
    larger = f": make it with --format 2, which has up to {MOST[2][0]} nodes and {MOST[2][1]} links" if version == 1 else ""
    if not 2 <= nodes <= most_nodes:
        return f"the overlay would have {nodes} nodes, and one of format {version} has 2 to {most_nodes}{larger if nodes > most_nodes else ''}"
    if len(edges) > most_edges:
        return f"the overlay would have {len(edges)} links, and one of format {version} has {most_edges} at most{larger}"
    return None


def draft_text(draft):
    """What the administrator signs."""
    text = "" if draft.format == 1 else f"format = {draft.format}\n"
    text += f'version = {draft.version}\nheight = {draft.height}\nadmin_seed = "{draft.seeds[ADMINISTRATOR]}"\nadmin_index = {draft.index}\n'
    for owner, seed in draft.seeds.items():
        if owner != ADMINISTRATOR:
            text += f'\n[[node]]\nid = {owner}\nseed = "{seed}"\n'
    for low, high, weight in sorted(draft.edges):
        text += f"\n[[edge]]\na = {low}\nb = {high}\nweight = {weight}\n"
    return text


class Told:
    """What a node is told, as its spinesd.conf has it."""

    def __init__(self, node, seed, ports, bounds):
        self.node, self.seed, self.admin, self.topology, self.ports, self.bounds, self.peers = node, seed, "", "", ports, bounds, {}

    def text(self):
        text = f'node = {self.node}\nseed = "{self.seed}"\nadmin = "{self.admin}"\ntopology = "{self.topology}"\n'
        text += f"port = {self.ports[0]}\nclient_port = {self.ports[1]}\nbuffer = {self.bounds[0]}\nstore = {self.bounds[1]}\n"
        for peer in sorted(self.peers.values()):
            text += f'\n[[peer]]\nid = {peer.node}\nport = {peer.port}\nkey = "{peer.key}"\n'
        return text


def told_in(folder):
    """What the node of a folder is told."""
    path = os.path.join(folder, "spinesd.conf")
    table = table_of(path)
    try:
        told = Told(table["node"], table["seed"], (table["port"], table["client_port"]), (table.get("buffer", 16), table.get("store", 64)))
        told.admin, told.topology = table["admin"], table["topology"]
        told.peers = {peer["id"]: Peer(peer["id"], peer["port"], peer["key"]) for peer in table.get("peer", [])}
    except (KeyError, TypeError) as fault:
        raise Refused(f"{path} is no configuration: {fault}") from fault
    return told
