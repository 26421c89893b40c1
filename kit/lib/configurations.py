"""What a daemon was told: a configuration with its signed topology, as docs/FORMATS.md has them. Nothing is judged here that `spinesd` judges."""

import collections
import sys

try:
    import tomllib
except ImportError:
    sys.exit("the operator's kit of spinesd needs python 3.11 or later")

# how many indexes a seed has, by its height
TOTALS = {5: 1_024, 10: 1_048_576}
SIGNATURES = {5: 4_756, 10: 5_076}
NODE_BYTES, EDGE_BYTES = 61, 6

Topology = collections.namedtuple("Topology", "format version height nodes edges")
Configuration = collections.namedtuple("Configuration", "node port client_port peers topology buffer store", defaults=(16, 64))
Peer = collections.namedtuple("Peer", "node port key")


class Unreadable(Exception):
    """A file isn't what its place asks for; the text says why."""


def number(data, at, size):
    return int.from_bytes(data[at:at + size], "big")


def topology_of(data):
    """The document at the beginning of these bytes; what stands behind it is the administrator's signature."""
    if data[:5] not in (b"MTMW\x01", b"MTMW\x02") or len(data) < 13:
        raise Unreadable("the topology doesn't begin with a document")
    count = data[10]
    nodes = [data[11 + NODE_BYTES * place] for place in range(count)]
    at = 11 + NODE_BYTES * count
    starts = [at + 2 + EDGE_BYTES * place for place in range(number(data, at, 2))]
    edges = [(data[start], data[start + 1], number(data, start + 2, 4)) for start in starts]
    return Topology(data[4], number(data, 5, 4), data[9], nodes, edges)


def configuration_of(text):
    """The configuration of this text."""
    try:
        table = tomllib.loads(text.decode())
        peers = [Peer(peer["id"], peer["port"], bytes.fromhex(peer["key"])) for peer in table.get("peer", [])]
        topology = topology_of(bytes.fromhex(table["topology"]))
        bounds = {name: table[name] for name in ("buffer", "store") if name in table}
        return Configuration(table["node"], table["port"], table["client_port"], peers, topology, **bounds)
    except (ValueError, KeyError, TypeError, IndexError) as fault:
        raise Unreadable(f"no configuration ({fault}); `spinesd verify` says which key is at fault") from fault
