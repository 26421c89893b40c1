"""Daemons that end and begin again: the walk of examples/overlay, what is verified and told of lives, and alerts. Used by kit.py, which has the judge."""

import json
import os
import re
import shutil
import subprocess
import time

import kit_second_recording
from kit_daemons import ports_for

ROOT = os.path.dirname(os.path.dirname(os.path.abspath(__file__)))
# what the walk of examples/overlay says of a daemon that was killed and started again, in this order
WALKED = ["to node 3, answers: accepted 1", "what node 1 sent: 'hello'", "Node 2 is killed", "to node 3, answers: accepted 2", "nothing from node 1 after 3.0",
          "Node 2 is started again", "what node 1 sent: 'are you there?'", "to node 3, answers: accepted 3", "what node 1 sent: 'welcome back'",
          "The recording of node 2, life 1: verified", "The recording of node 2, life 2: verified"]


def walks(kit):
    """The first command of README: the daemon in the middle is killed and started again, and messages arrive. Then all are ended."""
    example, env = os.path.join(ROOT, "examples", "overlay"), {"OVERLAY": kit.path("walk")}
    status, said, _ = kit.run(os.path.join(example, "start"), env=env)
    kit.holds("walk: what it says", status == 0 and re.search(".*".join(map(re.escape, WALKED)), said, re.DOTALL), said)
    kit.equal("walk: it has format 2", open(kit.path("walk/draft.toml"), encoding="ascii").readline(), "format = 2\n")
    status, said, _ = kit.run(os.path.join(example, "stop"), env=env)
    kit.holds("walk: its end", status == 0 and len(re.findall(r"(?m)^The recording of node \d, life \d: verified \d+, status 0$", said)) == 4, said)


def verifies(kit):
    """All recordings of a node are verified, with a word on which life each is of: good ones, a changed one, and one under an older key file."""
    folder = kit.path("lives")
    os.mkdir(folder)
    for name, source in (("spinesd.conf", "2.toml"), ("1.recording", "2.1.recording"), ("2.recording", "2.recording")):
        shutil.copy(kit.path(f"walk/{source}"), os.path.join(folder, name))
    kit.write("lives/3.recording", b"wire\n")
    kit.write("lives/4.recording", b"")
    first = "1.recording"
    if not kit.missing("zstd"):
        subprocess.run(["zstd", "-q", "--rm", os.path.join(folder, first)], check=True)
        first += ".zst"
    status, said, why = kit.run("spinesd-node", "verify", folder)
    wanted = ["no life, 3.recording: a start that failed, with the last line `wire`", "no life, 4.recording: a start that was cut", f"life 1, {first}: verified N",
              "life 2, 2.recording: verified N", "2 of 2 lives verified", ""]
    kit.equal("lives: all are verified", (status, re.sub(r"verified \d+", "verified N", said).split("\n"), why), (0, wanted, ""))
    good = open(os.path.join(folder, "2.recording"), "rb").read()
    kit.write("lives/2.recording", re.sub(rb"(?m)^(poll \d+) [0-9a-f]{64}$", rb"\1 " + 64 * b"0", good, count=1))
    status, said, why = kit.run("spinesd-node", "verify", folder)
    kit.holds("lives: one that was changed", status == 10 and re.search("life 2, 2.recording: mismatch [0-9]+ 0{64} ", said) and "explain 10" in why, said + why)
    kit.write("lives/2.recording", good)
    kit.write("lives/5.recording", good.replace(b"recording 1 2 32 64", b"recording 1 3 32 64", 1))
    status, said, _ = kit.run("spinesd-node", "verify", folder)
    told = "5.recording begins with boot 3 and index 32, and 2.recording had boot 2 and the indexes below 64: an older key file was put back"
    kit.holds("lives: an index that two of them have", status in (1, 10) and told in said, said)
    kit.equal("lives: no folder", kit.run("spinesd-node", "verify", kit.path("none"))[0], 3)


def shows(kit):
    """A page of the walk, with both lives of the node that was killed."""
    places = [kit.path(f"shown{node}") for node in (1, 2, 3)]
    for node, place in enumerate(places, 1):
        os.mkdir(place)
        for name, source in (("spinesd.conf", f"{node}.toml"), ("2.recording", f"{node}.recording")):
            shutil.copy(kit.path(f"walk/{source}"), os.path.join(place, name))
    shutil.copy(kit.path("walk/2.1.recording"), os.path.join(places[1], "1.recording"))
    os.utime(os.path.join(places[1], "1.recording"), (1, 1))
    begun = {}
    for lives in ("1", "2"):
        status, page, said = kit.run("spinesd-view", "--lives", lives, *places)
        kit.equal(f"view: a page of {lives} lives", (status, said), (0, ""))
        steps = json.loads(re.search(r"const film = (.*);\n", page).group(1))["steps"]
        begun[lives] = sorted((step[0], int(re.search(r" life (\d+) begins", step[2]).group(1))) for step in steps if step[1] == "recording")
    kit.equal("view: which lives begin", begun, {"1": [(1, 1), (2, 2), (3, 1)], "2": [(1, 1), (2, 1), (2, 2), (3, 1)]})
    kit.equal("view: what arrived over both lives", [step[7] for step in steps if step[0] == 3 and step[7] == "delivered"], ["delivered"] * 3)
    kit.equal("view: a start that comes back is no refusal", [step[3] for step in steps if step[1:8:6] == ["overlay", "refused"] and ":epoch" not in step[3][0]], [])


def tells(kit):
    """What is told of a recording by hand in which nodes begin anew."""
    text = kit_second_recording.RECORDING
    files = kit.write("lives.conf", kit_second_recording.CONFIGURATION), kit.write("lives.recording", text.encode())
    told = json.loads(kit.run("spinesd-status", "--json", *files)[1])
    flow = next(flow for flow in told["flows"] if (flow["source"], flow["destination"]) == (16, 17))
    kit.equal("lives: what is told", (told["lives"], told["not_met"], told["neighbours"][0]["held_up"], flow["ended"]),
              ({"16": 10, "17": 4, "32": 2}, [], {"gap": 0, "epoch": 7}, 1))
    early = kit.write("early.recording", "".join(text.splitlines(True)[:4]).encode())
    kit.equal("lives: who isn't met yet", json.loads(kit.run("spinesd-status", "--json", files[0], early)[1])["not_met"], [16, 32])
    kit.holds("lives: the table", "\nstarts of nodes 16 at 10, 17 at 4, 32 at 2; not met none\n" in kit.run("spinesd-status", *files)[1], "")
    late = kit.write("late.recording", re.sub(r"epoch:new", "epoch:old", text.split("tick 3000")[0]).encode() + text[text.index("tick 13000"):].split("tick 16000")[0].encode())
    said = kit.run("spinesd-status", files[0], late)[1]
    kit.holds("lives: that somebody isn't met for long", "ATTENTION: no start of node 16, 32 was heard yet" in said, said)
    lines = kit.run("spinesd-status", "--prometheus", *files)[1].split("\n")
    wanted = ['spinesd_boot{node="17"} 4', 'spinesd_life_boot{node="17",of="16"} 10', 'spinesd_flow_ended_total{node="17",source="16",destination="17"} 1',
              'spinesd_neighbour_messages_held_up_total{node="17",neighbour="16",answer="epoch"} 7']
    kit.equal("lives: metrics that lack", [line for line in wanted if line not in lines], [])
    for given, word in (("+ ended 1 3", "ended"), ("fresh rel:epoch", "epoch"), ("STANDS", "STANDS")):
        status, said, _ = kit.run("spinesd-explain", *given.split())
        kit.holds(f"explain {given}", status == 0 and said.startswith(f"`{word}`\n") and "Do: " in said, said)


def alerts(kit):
    """Each alert reads metrics that status tells, and is told in words."""
    with open(os.path.join(ROOT, "kit", "spinesd.rules.yml"), encoding="utf-8") as file:
        rules = file.read()
    with open(os.path.join(ROOT, "kit", "lib", "metrics.py"), encoding="utf-8") as file:
        known = {f"spinesd_{name}" for name in re.findall(r'\("([a-z_]+)", "(?:gauge|counter)"', file.read())}
    read = set(re.findall(r"spinesd_\w+", "".join(re.findall(r"(?m)^ +expr: (.*)$", rules))))
    kit.equal("alerts: metrics that aren't told", read - known, set())
    counts = [len(re.findall(rf"(?m)^ +{word} ", rules)) for word in ("- alert:", "expr:", "summary:")]
    kit.holds("alerts: each has its words", counts[0] > 10 and len({*counts}) == 1, counts)
    if not kit.missing("promtool"):
        ended = subprocess.run(["promtool", "check", "rules", os.path.join(ROOT, "kit", "spinesd.rules.yml")], stdout=subprocess.PIPE, check=False)
        kit.equal("alerts: promtool", ended.returncode, 0)


def stands(kit):
    """Under format 1 a daemon in the middle is started again while messages wait in it: the flow stands, and it is told where."""
    overlay, children = kit.path("stands"), {}
    places = [os.path.join(overlay, str(node)) for node in (1, 2, 3)]
    graph = kit.write("stands.graph", b"graph 1\nnodes 3\nedge 1 2 10\nedge 2 3 10\nend\n")
    kit.run("spinesd-keys", "make", graph, overlay, "--format", "1", "--height", "5", "--port", str(ports_for(3)), "--ledger", kit.path("stands.ledger"))

    def begins(place):
        children[place] = subprocess.Popen([os.path.join(ROOT, "kit", "spinesd-node"), "run", place], env={**os.environ, "SPINESD": kit.program})
        kit.equal("stands: a daemon begins", kit.run("spinesd-node", "wait", place)[:2], (0, ""))

    def sends(text):
        return kit.run("spinesd-client", "send", places[0], "3", text, "--session", kit.path("stands.session"))[:2]
    try:
        begins(places[0])
        begins(places[1])
        kit.equal("stands: messages wait in the middle", [sends("a"), sends("b")], [(0, "accepted 1\n"), (0, "accepted 2\n")])
        time.sleep(1)
        children[places[1]].kill()
        children[places[1]].wait()
        begins(places[1])
        kit.equal("stands: one more", sends("c"), (0, "accepted 3\n"))
        time.sleep(11)
        said = kit.run("spinesd-status", *places[:2])[1]
        kit.holds("stands: the flow and the neighbour", re.search(r"(?m)^ +1-3 .* STANDS \d+ s, node 2 answers gap$", said), said)
        kit.holds("stands: at the neighbour", re.search(r"(?m)^ +1-3 .*, gap is answered to node 1$", said), said)
        kit.holds("stands: the metric", 'spinesd_flow_held_up{node="1",source="1",destination="3",neighbour="2",answer="gap"} 1\n'
                  in kit.run("spinesd-status", "--prometheus", *places[:2])[1], "")
    finally:
        for child in children.values():
            child.kill()
            child.wait()


def look(kit):
    for each in (walks, verifies, shows, tells, alerts, stands):
        each(kit)
