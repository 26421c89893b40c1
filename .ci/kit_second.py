"""Format 2: its messages and frames, keys of 32 nodes and 256 links, all their daemons, and what is told of them. Used by kit.py, which has the judge."""

import glob
import json
import os
import re
import subprocess
import time

import kit_busy
import kit_recording
import kit_second_recording

import frames
import recordings
from kit_daemons import ask, awaited, is_in_order, ports_for
from kit_next import files_of, judged, read, value_of
from overlay import free_ports

NODES, REACH, TURNS, NEVER = 32, 8, 100_000, 2 ** 64 - 1
# each node is joined with the eight before it and the eight behind it in a ring; the ends of a way of two links are no neighbours
RING = sorted({tuple(sorted((node, (node + step - 1) % NODES + 1))) for node in range(1, NODES + 1) for step in range(1, REACH + 1)})
WAY = 24, 32, 1
CHEAP = {(24, 32), (1, 32)}
SCHEDULE = b"""schedule 2
seed 0000000000000000000000000000000000000000000000000000000000000000
height 5
bounds 2 4
nodes 32
edge 31 32 10
bad 1
begin
rel 31 32 6869
poll 32 31
pass 32 31 1
poll 31 32
pass 31 32 1
tick 32 5
end
"""
# a journal with as many entries, in which nodes hear that others started
STARTS = b"""journal 1
1 accepted 1
2 frame 1 76 00
3 fresh epoch:new
+ ended 31 32
4 frame 1 76 00
5 fresh rel:epoch epoch:old
+ ended 1 31
6 ticked
summary events 6 sent 0 delivered 0 priority 0 frames 2
"""
# a schedule whose nodes start and stop, and its journal: a frame comes to a node that doesn't run, and again when it does
LIVES = SCHEDULE.replace(b"bad 1\n", b"bad 1\nepochs\n").split(b"rel ")[0] + b"""start 31
poll 31 32
pass 31 32 1
start 32
pass 31 32 1
stop 32
end
"""
LIVED = b"""journal 1
1 started 1 0
+ signed 071f0000000000000001
2 frame 1 76 00
3 down
4 started 1 0
+ signed 07200000000000000001
5 learned 1
6 stopped
summary events 6 sent 0 delivered 0 priority 0 frames 1
"""


def graph_of(first, nodes, edges):
    return ("\n".join([first, f"nodes {nodes}", *(f"edge {low} {high} {1 if (low, high) in CHEAP else 20}" for low, high in edges), "end", ""])).encode()


def film_of(page):
    return json.loads(re.search(r"const film = (.*);\n", page).group(1))


def keys(kit, overlay, first, words):
    """The keys of the largest overlay, whose ports come after the first, and what is refused."""
    graph = kit.write("second.graph", graph_of("graph 2", NODES, RING))
    status, said, why = kit.run("spinesd-keys", "make", graph, overlay, "--port", str(first), *words)
    kit.holds("format 2: keys of 32 nodes", (status, why) == (0, "") and "32 nodes, 256 links, height 5." in said, why or said)
    kit.equal("format 2: the draft", read(overlay + "/draft.toml").split(b"\n")[:2], [b"format = 2", b"version = 1"])
    kit.equal("format 2: the document", read(overlay + "/topology")[:10], b"4d544d5702")
    judged(kit, "format 2", overlay, (1, 24, 32))
    rows = [
        ("32 nodes under format 1", graph, ["--format", "1"], "have 32 nodes, and one of format 1 has 2 to 16: make it with --format 2"),
        ("121 links under format 1", graph_of("graph 1", 16, [(1, 2)] * 121), ["--format", "1"], "have 121 links, and one of format 1 has 120 at most: make it with --format 2"),
        ("33 nodes", graph_of("graph 2", 33, RING), [], "have 33 nodes, and one of format 2 has 2 to 32\n"),
        ("257 links", graph_of("graph 2", NODES, [*RING, (1, 17)]), [], "have 257 links, and one of format 2 has 256 at most\n"),
    ]
    for name, text, more, reason in rows:
        given = read(text) if isinstance(text, str) else text
        status, said, why = kit.run("spinesd-keys", "make", "-", kit.path("refused"), *more, *words, given=given)
        kit.holds(f"format 2: {name}", (status, said) == (1, "") and reason in why and not os.path.exists(kit.path("refused")), why)


def next_documents(kit, overlay, words):
    """The next documents keep the format: one more link is too many, a new seed isn't, and a small overlay may get node 32."""
    height, words = words[:2], words[2:]
    status, _, why = kit.run("spinesd-keys", "add", overlay, "1", "17", "10", *words)
    kit.holds("format 2: add a link that is too many", status == 1 and "have 257 links" in why, why)
    kit.equal("format 2: renew node 32", kit.run("spinesd-keys", "renew", overlay, "32", *words)[::2], (0, ""))
    judged(kit, "format 2: renew", overlay, (1, 24, 32))
    small = kit.path("small")
    kit.equal("format 2: a graph of format 1 will do", kit.run(
        "spinesd-keys", "make", "-", small, *height, *words, given=graph_of("graph 1", 3, [(1, 2), (2, 3)]))[::2], (0, ""))
    kit.equal("format 2: add node 32", kit.run("spinesd-keys", "add", small, "3", "32", "10", *words)[::2], (0, ""))
    judged(kit, "format 2: add a node", small, (1, 2, 3, 32))
    files = files_of(small)
    kit.equal("format 2: it stays", [value_of(files["draft.toml"], key) for key in ("format", "version", "admin_index")], ["2", "2", "1"])
    before = files_of(small)
    status, _, why = kit.run("spinesd-keys", "add", small, "3", "33", "10", *words)
    kit.holds("format 2: add node 33", status == 1 and "a link joins two nodes of 1 to 32" in why and files_of(small) == before, why)
    kit.equal("format 2: add a link that is withdrawn", kit.run("spinesd-keys", "add", small, "1", "3", "0", *words)[::2], (0, ""))
    judged(kit, "format 2: a link that is withdrawn", small, (1, 2, 3, 32))


def daemons(kit, overlay, first):
    """All 32 daemons: a reliable message and priority messages over all links and over one path go a way of two links."""
    places, locals_, children = [os.path.join(overlay, str(node)) for node in range(1, NODES + 1)], free_ports(2), []
    try:
        for place in places:
            with open(place + "/spinesd.conf", "rb") as given, open(place + "/first.recording", "wb") as recording:
                children.append(subprocess.Popen([kit.program, "daemon", "--turns", str(TURNS)], stdin=given, stdout=recording, cwd=place))
        for node in WAY:
            kit.equal("format 2: a daemon that is waited for answers", kit.run("spinesd-node", "wait", places[node - 1])[:2], (0, ""))
        talk(kit, first + 100 + WAY[0], first + 100 + WAY[2], locals_)
        told = json.loads(kit.run("spinesd-status", "--json", *places)[1])
        kit.equal("format 2: they run", [(each["node"], each["state"], each["topology_format"]) for each in told], [(node, "running", 2) for node in range(1, NODES + 1)])
        status, said, _ = kit.run("spinesd-sessions", places[WAY[0] - 1])
        kit.holds("format 2: sessions are listed", status == 0 and re.match(rf"port {locals_[0]}, last number \d+\n1 of 8", said) is not None, said)
    finally:
        for child in children:
            child.terminate()
            child.wait()
    told_of(kit, places)


def met(kit, port, local, command):
    """What a client is answered once its node knows a life of the destination: until then it is `badend`."""
    for _ in range(100):
        answer = awaited(kit, port, local, command)
        if answer != "badend":
            return answer
        time.sleep(0.05)
    return None


def talk(kit, source, target, locals_):
    """The clients of the two ends, whose daemons have these ports."""
    replies = [ask(kit, target, locals_[1], "1 open"), ask(kit, target, locals_[1], "2 listen"), ask(kit, source, locals_[0], "1 open")]
    replies += [met(kit, source, locals_[0], "send 1 6869"), awaited(kit, target, locals_[1], "take 24")]
    for paths, payload in ((0, "6a"), (1, "6b")):
        replies.append(met(kit, source, locals_[0], f"sendprio 1 5 {NEVER} {paths} {payload}"))
        replies.append(awaited(kit, target, locals_[1], "takeprio"))
    kit.equal("format 2: messages arrive", replies, ["1 opened", "2 listening", "1 opened", "accepted 1", "payload 6869", "accepted 1", "payload 24 1 6a",
                                                      "accepted 2", "payload 24 2 6b"])


def told_of(kit, places):
    """What status, metrics and page tell of them, and that the recordings verify on the way."""
    told = [json.loads(kit.run("spinesd-status", "--json", place)[1]) for place in places]
    kit.equal("format 2: nothing differs", [each["checked"]["different"] for each in told], [0] * NODES)
    untold = [n["untold"] for each in told for n in each["neighbours"]] + [each["requests"].get("untold", 0) + each["untold_ticks"] for each in told]
    kit.equal("format 2: nothing is untold", {*untold}, {0})
    silent = [(each["node"], n["node"]) for each in told for n in each["neighbours"] if not n["answers"]["fresh"]]
    kit.equal("format 2: which neighbours aren't heard", (len(told), silent), (NODES, []))
    lines = kit.run("spinesd-status", "--prometheus", *places)[1].split("\n")
    wanted = ['spinesd_flow_sent_total{node="24",source="24",destination="1"} 1', 'spinesd_flow_delivered_total{node="1",source="24",destination="1"} 1']
    kit.equal("format 2: metrics that lack", [line for line in wanted if line not in lines], [])
    # their starts go round first: some 20,000 turns of all daemons
    status, page, said = kit.run("spinesd-view", "--most", "1000000", *places)
    kit.equal("format 2: the page", (status, said), (0, ""))
    film = film_of(page)
    kit.equal("format 2: the overlay on the page", (film["nodes"], len(film["edges"])), ([*range(1, NODES + 1)], len(RING)))
    flows = [(step[0], *change) for step in film["steps"] for change in step[5] if change[3] != "acknowledged"]
    kit.equal("format 2: flows on the page", sorted(flows), sorted(
        (node, kind, 24, 1, what, number) for kind, count in (("rel", 1), ("prio", 2)) for number in range(1, count + 1) for node, what in ((24, "sent"), (1, "delivered"))))
    signed = "+ signed 031801" + 3 * "0000000000000001"
    kit.equal("format 2: the acknowledgement on the page", [(step[5], step[7]) for step in film["steps"] if signed in step[3]],
              [([["rel", 24, 1, "acknowledged", 1]], "acknowledged")])
    kit.holds("format 2: a page tells no arrival before the frame was made", is_in_order(film["steps"]), "")
    for place in [places[node - 1] for node in WAY]:
        recording = read(place + "/first.recording")
        whole = recording[:recording.rindex(b"\n") + 1]
        digests = len(re.findall(rb"(?m)^(?:tick|overlay|client|poll) .*[0-9a-f]{64}$", whole))
        kit.equal("format 2: a recording verifies", kit.run(kit.program, "verify", given=read(place + "/spinesd.conf") + whole)[:2], (0, f"verified {digests}\n"))


def views(kit):
    """A page of a schedule of 32 nodes."""
    status, page, said = kit.run("spinesd-view", kit.write("second.schedule", SCHEDULE))
    kit.equal("format 2: a page of a schedule", (status, said), (0, ""))
    film = film_of(page)
    kit.equal("format 2: the overlay of a schedule", (film["nodes"], film["bad"], film["edges"]), ([*range(1, 33)], [1], [[31, 32, 10]]))
    kit.equal("format 2: the marks", [step[7] for step in film["steps"]], ["sent", "", "", "", "delivered", "acknowledged"])
    kit.equal("format 2: the flow", [change for step in film["steps"] for change in step[5]],
              [["rel", 31, 32, "sent", 1], ["rel", 31, 32, "delivered", 1], ["rel", 31, 32, "acknowledged", 1]])
    page = kit.run("spinesd-view", kit.write("starts.schedule", SCHEDULE), kit.write("starts.journal", STARTS))[1]
    kit.equal("format 2: starts in a journal", [(step[4][4], step[5], step[7]) for step in film_of(page)["steps"][2:5:2]],
              [(["epoch"], [["rel", 31, 32, "ended", 0]], "ended"), (["rel", "epoch"], [], "ended")])
    film = film_of(kit.run("spinesd-view", kit.write("lives.schedule", LIVES), kit.write("lives.journal", LIVED))[1])
    kit.equal("format 2: nodes that start and stop", [(step[0], step[4] and step[4][0], step[7]) for step in film["steps"]],
              [(31, None, ""), (31, "made", ""), (32, None, "refused"), (32, None, ""), (32, "arrives", ""), (32, None, "")])
    status, _, why = kit.run("spinesd-view", kit.write("third.schedule", SCHEDULE.replace(b"schedule 2", b"schedule 3")), kit.write("no.journal", b"journal 1\n"))
    kit.holds("format 2: no page of a third format", status == 1 and "`schedule 1` or `schedule 2`" in why, why)


def of_conformance(kit):
    """What the kit computes of the answers in recordings of another program."""
    folder = os.path.join(kit_busy.ROOT, "conformance", "recordings_format_2")
    paths = [path for name in ("whole", "short") for path in sorted(glob.glob(os.path.join(folder, name + "_*.recording")))]
    kit.holds("format 2: there are recordings in conformance/", len(paths) > 3, paths)
    for path in paths:
        watch = kit_busy.watch_of(*recordings.split(read(path)))
        kit.equal(f"format 2: the answers of {os.path.basename(path)}", (kit_busy.untold(watch), watch.right > 1), ((0, 0, 0, 0), True))


def bodies(kit):
    """Messages of both formats are read by one table of fields; each cut within a number is none."""
    for version, digits, kind, numbers, behind in kit_recording.BODIES:
        data = bytes.fromhex(digits)
        got, said, rest = frames.body_of(data, version)
        sizes = [sizes[version - 1] for _, *sizes in frames.FIELDS[kind]]
        kit.equal(f"body {digits}", (got, [n for n, size in zip(said.values(), sizes) if size], rest.hex()), (kind, numbers, behind))
        kit.equal(f"body {digits}, cut", {frames.body_of(data[:count], version) for count in range(len(data) - len(rest))}, {None})
    kit.equal("a kind that format 1 lacks", frames.body_of(bytes([5]) + bytes(100)), None)


def told_rows(name):
    """The rows of a table of test_formats."""
    with open(os.path.join(kit_busy.ROOT, "crates", "test_formats", "src", "frames_rows.rt"), encoding="utf-8") as file:
        table = re.search(rf'pub const {name}: &str = "([^"]*)"', file.read().replace("\\\n", ""))
    return [row.split("|") for row in table.group(1).split("\n")]


def sections(kit):
    """Sections of format 2 are read as the rows of test_formats say."""
    objects = {word: digits + int(zeros) * "00" + "1294" + 4756 * "00" for word, digits, zeros in told_rows("OBJECTS")}
    for answer, what, words in told_rows("ROWS"):
        data = bytes.fromhex("53490202" + 29 * "00" + "".join(objects.get(word, word) for word in words.split()) + 32 * "00")
        try:
            told = " ".join(["fresh", *(item.kind for item in frames.sections_of(data, 4756).items if item.kind in ("weight", "prio", "ack", "rel"))])
        except frames.Bad as bad:
            told = f"section {bad}"
        kit.equal(f"sections: {what}", told, answer)
    kit.equal("a frame of another format", frames.fault_of(data, 1), "version")


def by_hand(kit):
    """Messages of other boots and on paths, and a part that is read and not handled yet."""
    files = kit.write("second.conf", kit_second_recording.CONFIGURATION), kit.write("second.recording", kit_second_recording.RECORDING.encode())
    told = json.loads(kit.run("spinesd-status", "--json", *files)[1])
    reported = next(flow["reported"].get("16") for flow in told["flows"] if (flow["source"], flow["destination"]) == (16, 17))
    kit.equal("format 2: frames by hand", (told["checked"], told["untold_ticks"], told["neighbours"][0]["untold"], reported), kit_second_recording.WANTED)
    kit.equal("format 2: requests by hand", told["requests"], kit_second_recording.REPLIED)


def look(kit):
    overlay, first, words = kit.path("second"), ports_for(NODES), ["--height", "5", "--ledger", kit.path("second.ledger")]
    bodies(kit)
    sections(kit)
    by_hand(kit)
    keys(kit, overlay, first, words)
    next_documents(kit, overlay, words)
    daemons(kit, overlay, first)
    views(kit)
    of_conformance(kit)
