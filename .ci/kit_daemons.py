"""Three daemons with the keys of spinesd-keys: what status and page tell of them. Used by kit.py, which has the judge."""

import json
import os
import re
import socket
import subprocess
import time

from overlay import free_ports


def read(path):
    with open(path, "rb") as file:
        return file.read()


def ports_for(nodes):
    """A first port after which all ports of an overlay are free."""
    while True:
        first = free_ports(1)[0] - 1
        try:
            taken = [free_at(first + more + node) for more in (0, 100) for node in range(1, nodes + 1)]
        except (OSError, OverflowError):
            continue
        for each in taken:
            each.close()
        return first


def free_at(port):
    held = socket.socket(socket.AF_INET, socket.SOCK_DGRAM)
    held.bind(("127.0.0.1", port))
    return held


def ask(kit, port, local, request):
    """The reply of a daemon, which is asked until it comes."""
    for _ in range(50):
        status, reply, _ = kit.run(kit.program, "ask", "--port", str(port), "--local", str(local), "--turns", "20", "--request", request)
        if status == 0:
            return reply.rstrip("\n")
    return None


def awaited(kit, port, local, command):
    """What a client that listens takes, which is waited for; its session goes on from the number that it is told."""
    for _ in range(100):
        last = ask(kit, port, local, "9000000000000000000 " + command).split(" ")[-1]
        answer = (ask(kit, port, local, f"{int(last) + 1} {command}") or "none").split(" ", 1)[1]
        if answer != "empty":
            return answer
        time.sleep(0.05)
    return None


def seconds(kit, place):
    """A second daemon of a folder ends at once, and the explanation says what to look for."""
    config = read(place + "/spinesd.conf")
    ports = [b"%d" % port for port in free_ports(2)]
    elsewhere = re.sub(rb"^(client_)?port = \d+$", lambda found: (found.group(1) or b"") + b"port = " + ports.pop(), config, count=2, flags=re.MULTILINE)
    for given, wanted, told in ((config, (7, "wire\n"), "another process has it"), (elsewhere, (8, "keeper\n"), "Look for another daemon of this folder")):
        second = kit.run(kit.program, "daemon", "--turns", "1", given=given, cwd=place)
        kit.equal("daemons: a second one in a folder", second[:2], wanted)
        kit.holds("daemons: what that means", told in kit.run("spinesd-explain", given=second[1].encode())[1], "")


def daemons(kit):
    """Three daemons with the keys that were made: a message of each kind arrives, and status and page tell it."""
    overlay, children = kit.path("overlay"), []
    places = [os.path.join(overlay, str(node)) for node in (1, 2, 3)]
    ports = [int(re.search(r"^client_port = (\d+)$", read(place + "/spinesd.conf").decode(), re.MULTILINE).group(1)) for place in places]
    try:
        for place in places:
            with open(place + "/spinesd.conf", "rb") as given, open(place + "/first.recording", "wb") as recording:
                children.append(subprocess.Popen([kit.program, "daemon", "--turns", "100000"], stdin=given, stdout=recording, cwd=place))
        for place in places:
            kit.equal("daemons: one that is waited for answers", kit.run("spinesd-node", "wait", place)[:2], (0, ""))
        locals_ = free_ports(2)
        replies = [ask(kit, ports[2], locals_[1], "1 open"), ask(kit, ports[2], locals_[1], "2 listen")]
        replies += [ask(kit, ports[0], locals_[0], "1 open"), ask(kit, ports[0], locals_[0], "2 send 3 6869")]
        replies.append(awaited(kit, ports[2], locals_[1], "take 1"))
        kit.equal("daemons: a message arrives", replies, ["1 opened", "2 listening", "1 opened", "2 accepted 1", "payload 6869"])
        urgent = []
        for number, payload in ((3, "6a"), (4, "6b")):
            urgent.append(ask(kit, ports[0], locals_[0], f"{number} sendprio 3 5 18446744073709551615 0 {payload}"))
            urgent.append(awaited(kit, ports[2], locals_[1], "takeprio"))
        kit.equal("daemons: priority messages arrive", urgent, ["3 accepted 1", "payload 1 1 6a", "4 accepted 2", "payload 1 2 6b"])
        seconds(kit, places[0])
        while_they_run(kit, places, ports, locals_)
        time.sleep(0.3)  # for the last acknowledgement
    finally:
        for child in children:
            child.terminate()
            child.wait()
    told_of_daemons(kit, places)
    told = [json.loads(kit.run("spinesd-status", "--json", place)[1])["state"] for place in places]
    kit.holds("daemons: that they were ended", all(state.startswith("not running: killed") for state in told), told)


def while_they_run(kit, places, ports, locals_):
    """What status says of daemons that run, and how sessions are listed and closed."""
    told = json.loads(kit.run("spinesd-status", "--json", *places)[1])
    kit.equal("daemons: they run", [each["state"] for each in told], ["running"] * 3)
    kit.holds("daemons: the turns that are left", all(each["turns"] + each["turns_left"] == 100_000 for each in told), told)
    kit.holds("daemons: the hour of their end", "\nturns left " in kit.run("spinesd-status", places[0])[1], "")
    kit.equal("daemons: sessions", [[s["port"] for s in each["sessions"]] for each in told], [[locals_[0]], [], [locals_[1]]])
    kit.equal("daemons: who listens", [[s["listens"] for s in each["sessions"]] for each in told], [[False], [], [True]])
    status, said, _ = kit.run("spinesd-sessions", places[0])
    kit.holds("sessions: they are listed", status == 0 and said.startswith(f"port {locals_[0]}, last number 4\n1 of 8"), said)
    kit.equal("sessions: one is closed", kit.run("spinesd-sessions", places[0], "close", str(locals_[0])),
              (0, f"the session of port {locals_[0]} is closed\n", ""))
    kit.equal("sessions: it is gone", ask(kit, ports[0], locals_[0], "5 take 3"), "5 nosession")
    status, said, why = kit.run("spinesd-sessions", places[0], "close", str(locals_[0]))
    kit.holds("sessions: one that isn't there", (status, said) == (1, "") and "has no session" in why, why)
    kept = socket.socket(socket.AF_INET, socket.SOCK_DGRAM)
    with kept:
        kept.bind(("127.0.0.1", locals_[1]))
        status, said, why = kit.run("spinesd-sessions", places[2], "close", str(locals_[1]))
    kit.holds("sessions: one whose client runs", (status, said) == (1, "") and "a process has port" in why, why)
    hidden = kit.path("hidden")
    os.mkdir(hidden)
    for name in os.listdir(places[1]):
        if name.endswith(".recording"):
            os.rename(os.path.join(places[1], name), os.path.join(hidden, name))
    why = kit.run("spinesd-status", places[1])[2]
    kit.holds("daemons: one whose recording was moved", "runs there, and its recording was moved" in why, why)
    for name in os.listdir(hidden):
        os.rename(os.path.join(hidden, name), os.path.join(places[1], name))


def is_in_order(steps):
    """Whether each frame of these steps that arrives and was made among them was made before."""
    made = {tuple(step[4][1:4]): place for place, step in enumerate(steps) if step[4] and step[4][0] == "made"}
    return all(made.get(tuple(step[4][1:4]), -1) < place for place, step in enumerate(steps) if step[4] and step[4][0] == "arrives")


def told_of_daemons(kit, places):
    told = [json.loads(kit.run("spinesd-status", "--json", place)[1]) for place in places]
    kit.equal("daemons: nothing differs", [each["checked"]["different"] for each in told], [0, 0, 0])
    untold = [n["untold"] for each in told for n in each["neighbours"]] + [each["requests"].get("untold", 0) for each in told]
    kit.equal("daemons: nothing is untold", untold, [0] * 7)
    kit.holds("daemons: frames were fresh", all(n["answers"]["fresh"] > 0 for each in told for n in each["neighbours"]), told)
    flows = [next(flow for flow in each["flows"] if (flow["source"], flow["destination"]) == (1, 3)) for each in (told[0], told[2])]
    kit.equal("daemons: the flow at its ends", (flows[0]["sent"], flows[1]["delivered"], flows[1]["taken"]), (1, 1, 1))
    status, page, said = kit.run("spinesd-view", *places)
    kit.equal("daemons: the page", (status, said), (0, ""))
    steps = json.loads(re.search(r"const film = (.*);\n", page).group(1))["steps"]
    flows = [(step[0], *change) for step in steps for change in step[5] if change[3] != "acknowledged"]
    kit.equal("daemons: on the page", sorted(flows), [(1, "prio", 1, 3, "sent", 1), (1, "prio", 1, 3, "sent", 2), (1, "rel", 1, 3, "sent", 1),
                                                      (3, "prio", 1, 3, "delivered", 1), (3, "prio", 1, 3, "delivered", 2), (3, "rel", 1, 3, "delivered", 1)])
    kit.equal("daemons: the acknowledgement on the page", [step[7] for step in steps if "+ signed 0301030000000000000001" in step[3]], ["acknowledged"])
    kit.holds("daemons: a page tells no arrival before the frame was made", is_in_order(steps), "")
    firsts = [read(place + "/first.recording").split(b"\n")[0] for place in places]
    kit.equal("daemons: their starts and indexes", firsts, [b"recording 1 1 0 32"] * 3)
