"""Tries each script of the operator's kit: python3 .ci/kit.py PATH/TO/spinesd texts, and then daemons

What a script must say stands here and in kit_recording.py, kit_house.py, kit_lives.py, kit_next.py, kit_daemons.py, kit_client.py, kit_busy.py,
kit_second.py and kit_versions.py, by hand. Keys, a status and a page are also made of daemons that run, of each format. What needs chromium, mandoc,
shellcheck or systemd-analyze is tried where that is installed, and left out with a word where not. Each difference is told, and the status is then 1.
"""

import concurrent.futures
import glob
import json
import os
import re
import shutil
import socket
import stat
import subprocess
import sys
import tempfile
import time

ROOT = os.path.dirname(os.path.dirname(os.path.abspath(__file__)))
KIT = os.path.join(ROOT, "kit")
sys.path[:0] = [os.path.join(ROOT, "examples", "overlay"), os.path.dirname(os.path.abspath(__file__))]

import kit_busy  # noqa: E402
import kit_client  # noqa: E402
import kit_daemons  # noqa: E402
import kit_house  # noqa: E402
import kit_lives  # noqa: E402
import kit_next  # noqa: E402
import kit_recording  # noqa: E402
import kit_second  # noqa: E402
import kit_versions  # noqa: E402
from kit_daemons import ports_for  # noqa: E402

LINE = b"graph 1\nnodes 3\nedge 1 2 10\nedge 2 3 10\nend\n"
SAID = [
    (["refused", "9", "Cut"], 0, "replay or paths, status 3, `refused LINE Cut`\n  Line 9 is the last and has no newline.\n"
                                 "  Do: Add the newline; if the file was cut, take a whole one.\n"),
    (["7"], 0, "daemon or ask, status 7, `wire`\n  A port of 127.0.0.1 couldn't be opened: another process has it, or it needs more rights.\n"
               "  Do: `ss -ulnp` tells who has the ports of the configuration or of `--local`; end that one, or take another port.\n"),
    (["--command", "paths", "refused 0 Range"], 0,
     "paths, status 3, `refused 0 Range`\n  The graph is good, but an end that was asked for is none of its nodes.\n  Do: Ask for nodes of the graph.\n"),
    (["refused", "0", "Missing", "seed"], 0, "topology or daemon or verify, status 3, `refused 0 Missing KEY`\n  The key seed must be there and isn't.\n"
                                             "  Do: Add it; docs/FORMATS.md, \"Configurations and drafts\", has all keys.\n"),
    (["refused", "0", "Cut"], 1, ""), (["keystate", "lost"], 1, ""), (["--command", "verify", "wire"], 1, ""), (["14"], 1, ""),
]
# what the words in capitals of an ending may stand for
SAMPLE = {"DIGEST": "0" * 64, "RECORDED": "0" * 64, "COMPUTED": "0" * 64, "KEY120": "0" * 120, "HEX": "6869", "KEY": "port", "PARTS..": "1 2- 2+"}
BROWSER = next((path for path in map(shutil.which, ("chromium", "chromium-browser", "google-chrome")) if path), None)


class Kit:
    """The program, a folder of its own, and how many looks differed."""

    def __init__(self, program, folder):
        self.program, self.folder, self.looks, self.wrong = program, folder, 0, 0

    def equal(self, name, got, wanted):
        self.holds(name, got == wanted, f"{got!r}, wanted {wanted!r}")

    def holds(self, name, is_so, told):
        self.looks += 1
        if not is_so:
            self.wrong += 1
            print(f"{name}: {str(told)[:1500]}")

    def path(self, name):
        return os.path.join(self.folder, name)

    def write(self, name, data):
        with open(self.path(name), "wb") as file:
            file.write(data)
        return self.path(name)

    def run(self, script, *words, given=b"", env=(), **more):
        """The status, the output and what was said of a script's run, with more in its environment."""
        path = script if os.path.isabs(script) else os.path.join(KIT, script)
        ended = subprocess.run([path, *words], input=given, stdout=subprocess.PIPE, stderr=subprocess.PIPE, check=False, timeout=300,
                               env={**os.environ, "SPINESD": self.program, **dict(env)}, **more)
        return ended.returncode, ended.stdout.decode(), ended.stderr.decode()

    def missing(self, tool):
        """Whether a tool isn't installed, which is said."""
        if tool and shutil.which(tool):
            return False
        print(f"{tool or 'a browser'} isn't installed: left out")
        return True


def read(path):
    with open(path, "rb") as file:
        return file.read()


# ---- spinesd-explain

def rows_of(text):
    """The rows of a table of endings: commands, status, last line, sentence, what to do."""
    rows = [line.strip("|").split(" | ") for line in text.splitlines() if re.match(r"\| [a-z, ]+ \| \d", line)]
    return [[cell.strip() for cell in row] for row in rows]


def explains(kit):
    for words, status, wanted in SAID:
        kit.equal(f"explain {' '.join(words)}", kit.run("spinesd-explain", *words)[:2], (status, wanted))
    kit.equal("explain the last line of an output", kit.run("spinesd-explain", given=b"journal 1\n1 empty\nrefused 10 Event\n")[1].split("\n")[0],
              "replay, status 3, `refused LINE Event`")
    rows = rows_of(read(os.path.join(KIT, "endings.md")).decode())
    kit.holds("the table has all statuses", {row[1] for row in rows} == {*map(str, [0, *range(2, 14)]), "129 to 159"}, sorted({row[1] for row in rows}))
    told = [row for row in rows if row[2] != "nothing"]
    samples = [" ".join(SAMPLE.get(word, "7" if word.isupper() else word) for word in row[2].strip("`").split(" ")) for row in told]
    for row, sample, (status, said, _) in zip(told, samples, explained(kit, [(row[0].split(", ")[0], sample) for row, sample in zip(told, samples)])):
        kit.holds(f"explain {sample}", status == 0 and row[2] in said and "Do: " in said, said)


def explained(kit, pairs):
    """What is said of each last line, by its command; several at once, since each is a start of python."""
    words = [(["--command", command] if command != "all" else []) + ["--", line] for command, line in pairs]
    with concurrent.futures.ThreadPoolExecutor(4) as pool:
        return list(pool.map(lambda each: kit.run("spinesd-explain", *each), words))


def command_of(front):
    """The command of a case of conformance/."""
    if os.path.exists(front + ".words"):
        return read(front + ".words").split(b"\n")[0].decode()
    return next(command for end, command in (("schedule", "replay"), ("recording", "verify"), ("toml", "topology")) if os.path.exists(f"{front}.{end}"))


def endings_of_conformance(kit):
    """Each ending that a case of conformance/ has is explained under its own command."""
    found = set()
    for path in glob.glob(os.path.join(ROOT, "conformance", "*", "*.status")):
        front, status = path.removesuffix(".status"), int(read(path))
        if status and os.path.exists(front + ".out"):
            last = read(front + ".out").decode().rstrip("\n").split("\n")[-1]
            plain = re.sub(r"\b[1-9]\d*\b", "7", re.sub(r"object [0-9a-f]+", "object 00", last))
            found.add(("replay" if status == 2 else command_of(front), status, plain))
    kit.holds("there are endings in conformance/", len(found) > 40, len(found))
    rows = sorted(found)
    for (command, status, last), (got, said, _) in zip(rows, explained(kit, [(command, last) for command, _, last in rows])):
        kit.holds(f"explain {command}, {last}", got == 0 and f", status {status}, " in said, said)


# ---- spinesd-status

def statuses(kit):
    files = kit.write("by_hand.conf", kit_recording.CONFIGURATION), kit.write("by_hand.recording", kit_recording.RECORDING)
    told = json.loads(kit.run("spinesd-status", "--json", *files)[1])
    for name, wanted in kit_recording.TOLD.items():
        kit.equal(f"status: {name}", told[name], wanted)
    kit.equal("status: neighbour 1", told["neighbours"][0], kit_recording.NEIGHBOUR_1)
    lines = kit.run("spinesd-status", "--prometheus", *files)[1].split("\n")
    kit.equal("status: metrics that lack", [line for line in kit_recording.METRICS if line not in lines], [])
    names = {re.match(r"[a-z_]+", line).group(0) for line in lines[:-1] if line[0] != "#"}
    for kind in ("HELP", "TYPE"):
        kit.equal(f"status: each metric has its {kind}", {line.split(" ")[2] for line in lines if line.startswith("# " + kind)}, names)
    table = kit.run("spinesd-status", *files)[1]
    kit.holds("status: the table", table.startswith(kit_recording.TABLE) and kit_recording.FLOW_ROW in table, table)
    changed = kit_recording.RECORDING.replace(b"client 9000 " + b"1 open".hex().encode(), b"client 9000 " + b"1 xxxx".hex().encode())
    told = json.loads(kit.run("spinesd-status", "--json", files[0], "-", given=changed)[1])
    kit.equal("status: a reply that fits nothing", told["requests"].get("untold"), 1)
    changed = kit_recording.RECORDING.replace(b"overlay 1 53", b"overlay 1 54")
    told = json.loads(kit.run("spinesd-status", "--json", files[0], "-", given=changed)[1])
    kit.equal("status: answers that aren't those of the rules", told["checked"], {"right": 0, "different": 5})


def several_messages(kit):
    """Frames with several messages of a kind are read, and their answers are found."""
    configuration = kit.write("several.conf", kit_recording.CONFIGURATION)
    recording = kit.write("several.recording", kit_recording.RECORDING_OF_SEVERAL.encode())
    told = json.loads(kit.run("spinesd-status", "--json", configuration, recording)[1])
    kit.equal("status: several messages in a frame", (told["checked"], [n["untold"] for n in told["neighbours"]]), ({"right": 5, "different": 0}, [0, 0]))
    kit.equal("status: what became of them", [(n["answers"]["fresh"], n["answers"]["section"], n["bad_signatures"]) for n in told["neighbours"]],
              [(3, 1, 1), (1, 0, 0)])


def many_folders(kit):
    """Several folders are told by one call, each metric with its node, and none twice. Nobody holds their key files."""
    places = []
    for node in (2, 3):
        places.append(kit.path(f"many{node}"))
        os.mkdir(places[-1])
        kit.write(f"many{node}/spinesd.conf", kit_recording.CONFIGURATION.replace(b"node = 2", b"node = %d" % node))
        kit.write(f"many{node}/1.recording", kit_recording.RECORDING[:kit_recording.RECORDING.index(b"overlay")])
    lines = [line for line in kit.run("spinesd-status", "--prometheus", *places)[1].split("\n") if line]
    names = [line.split(" ")[0] for line in lines if line[0] != "#"]
    kit.equal("status: no metric stands twice", len(names), len({*names}))
    kit.holds("status: each metric has its node", all('{node="2"' in name or '{node="3"' in name for name in names), names)
    kit.equal("status: a help for each name", len([line for line in lines if line.startswith("# HELP")]), len({name.split("{")[0] for name in names}))
    told = json.loads(kit.run("spinesd-status", "--json", *places)[1])
    kit.equal("status: a list of them", [each["node"] for each in told], [2, 3])
    kit.holds("status: killed", all(each["state"].startswith("not running: killed") for each in told), told[0]["state"])


def cut_recordings(kit):
    configuration, text = kit.path("by_hand.conf"), kit_recording.RECORDING
    whole = text[:text.rindex(b"\nend") + 1]
    told = json.loads(kit.run("spinesd-status", "--json", configuration, "-", given=whole + b"tick 60")[1])
    kit.equal("status: a cut line", (told["turns"], told["recording"]["cut_bytes"], told["ended"]), (5, 7, None))
    kit.equal("status: whole lines", kit.run("spinesd-status", "--whole", "-", given=whole + b"tick 60"),
              (0, whole.decode(), "23 whole lines; 7 bytes after them were left out\n"))
    rows = [("another first line", text[text.index(b"\n") + 1:]), ("a line of nothing", text.replace(b"stray", b"strange")), ("two ends", text * 2)]
    for name, given in rows:
        kit.equal(f"status: {name}", kit.run("spinesd-status", configuration, "-", given=given)[0], 1)
    kit.equal("status: no configuration", kit.run("spinesd-status", kit.write("no.conf", b"node = 2\n"), "-", given=text)[0], 1)


def broken_off(kit):
    """A recording that breaks off anywhere is explained, and what has a last line of its own isn't taken for one."""
    text = kit_recording.RECORDING.encode() if isinstance(kit_recording.RECORDING, str) else kit_recording.RECORDING
    places = sorted({0, 5, 19, *(text.index(b"\n" + name) + more for name in (b"tick", b"overlay", b"client", b"poll", b"reserve", b"end") for more in (2, 8))})
    for place in places:
        wanted = "Nothing was written" if place == 0 else "A recording breaks off here"
        status, said, _ = kit.run("spinesd-explain", given=text[:place])
        kit.holds(f"explain a recording cut at {place}", status == 0 and said.startswith(wanted), said)
    kit.holds("explain an end line", kit.run("spinesd-explain", given=text)[1].startswith("daemon, status 0, `end turns T lost N`"), "")
    kit.equal("explain no line of a recording", kit.run("spinesd-explain", given=b"tickle 5")[0], 1)


def follows(kit):
    """A status that is told again and again reads on, and goes over to the recording of the next start."""
    folder, out, text = kit.path("follow"), kit.path("follow.prom"), kit_recording.RECORDING
    os.mkdir(folder)
    for name, data in (("spinesd.conf", kit_recording.CONFIGURATION), ("1.recording", text[:text.index(b"stray")])):
        kit.write("follow/" + name, data)
    child = subprocess.Popen([os.path.join(KIT, "spinesd-status"), "--prometheus", "--every", "0.05", "--out", out, folder])
    try:
        kit.holds("status: told at first", wait_for_line(out, b'spinesd_turns_total{node="2"} 1\n'), "one turn isn't told")
        kit.write("follow/1.recording", text)
        kit.holds("status: told as it grows", wait_for_line(out, b'spinesd_turns_total{node="2"} 5\n'), "five turns aren't told")
        time.sleep(0.05)
        kit.write("follow/2.recording", text[:text.index(b"stray")].replace(b"recording 1 4 32 64", b"recording 1 5 96 128"))
        kit.holds("status: told of the next start", wait_for_line(out, b'boot="5"'), "the next start isn't told")
        kit.write("follow/3.recording", b"keeper\n")
        kit.holds("status: a start that failed is no recording", kit.run("spinesd-status", folder)[1].startswith("node 2, start 5,"), "")
    finally:
        child.terminate()
        child.wait()


def wait_for_line(path, line):
    """Whether a file has this line within five seconds."""
    until = time.monotonic() + 5
    while time.monotonic() < until:
        if os.path.exists(path) and line in read(path):
            return True
        time.sleep(0.02)
    return False


# ---- spinesd-view

def film_of(page):
    """The data that a page has."""
    return json.loads(re.search(r"const film = (.*);\n", page).group(1))


def shown(kit, page, step):
    """What a browser without a window shows of a page at a step."""
    with tempfile.TemporaryDirectory() as home:
        words = ["--headless", "--no-sandbox", "--disable-gpu", f"--user-data-dir={home}", "--dump-dom", f"file://{page}#{step}"]
        return subprocess.run([BROWSER, *words], stdout=subprocess.PIPE, stderr=subprocess.DEVNULL, check=False, timeout=60).stdout.decode()


def views(kit):
    schedule = os.path.join(ROOT, "examples", "round_a_compromised_node.schedule")
    status, page, said = kit.run("spinesd-view", schedule)
    kit.equal("view a schedule", (status, said), (0, ""))
    film = film_of(page)
    kit.equal("view: the overlay", (film["nodes"], film["bad"], film["edges"]), ([1, 2, 3, 4], [2], [[1, 2, 10], [1, 4, 10], [2, 3, 10], [3, 4, 10]]))
    marks = {place + 1: step[7] for place, step in enumerate(film["steps"]) if step[7]}
    kit.equal("view: the marks", (len(film["steps"]), marks[1], [step for step, mark in marks.items() if mark == "delivered"]), (58, "sent", [46]))
    kit.equal("view: nothing is loaded", re.findall(r"(?:src|href)=|https?://(?!www\.w3\.org/2000/svg)|url\(|@import", page), [])
    kit.equal("view: a journal of another schedule", kit.run("spinesd-view", schedule, kit.write("other.out", b"journal 1\n" + b"".join(
        b"%d empty\n" % number for number in range(1, 60))))[0], 1)
    forged = film_of(kit.run("spinesd-view", os.path.join(ROOT, "examples", "forged.schedule"))[1])
    kit.equal("view: a forged event", (len(forged["steps"]), forged["steps"][0][7], forged["steps"][0][3][0][:15]), (1, "forged", "forged 1 object"))
    evil = kit.run("spinesd-view", "--title", "</script><script>alert(1)</script>", schedule)[1]
    kit.equal("view: a title that would end the script", (film_of(evil)["title"], evil.count("</script>")), ("</script><script>alert(1)</script>", 1))
    if not kit.missing(BROWSER):
        in_browser(kit, kit.write("page.html", page.encode()))


def in_browser(kit, page):
    """What the browser shows at the delivery of event 46."""
    text = shown(kit, page, 46)
    kit.holds("browser: the step", "step 46 of 58" in text and "+ delivered rel 1 1 6869" in text, text[-1500:])
    kit.equal("browser: nodes", (text.count('class="node'), text.count('class="node bad"'), text.count(">compromised<")), (4, 1, 1))
    row = re.search(r'<tr class="changed" data-flow="rel 1 3">(.*?)</tr>', text)
    kit.holds("browser: the flow", row and re.findall(r"<td>(.*?)</td>", row.group(1)) == ["reliable 1 \u2192 3", "1", "1", "0"], row and row.group(1))
    kit.holds("browser: the mark at the node", re.search(r'class="pill".*?>delivered<', text), "no pill")
    kit.holds("browser: what a frame carries", "Frame 1 from 4 to 3 arrives; it carries a reliable message." in text, "")


# ---- spinesd-keys

def mode(path):
    return stat.S_IMODE(os.stat(path).st_mode)


def keys(kit):
    graph, overlay = kit.write("line.graph", LINE), kit.path("overlay")
    words = ["--height", "5", "--port", str(ports_for(3)), graph, "--format", "1"]
    kit.equal("make keys", kit.run("spinesd-keys", "make", *words, overlay)[::2], (0, ""))
    files = sorted(os.path.relpath(path, overlay) for path in glob.glob(overlay + "/**", recursive=True) if os.path.isfile(path))
    kit.equal("keys: the files", files, sorted(["draft.toml", "topology", *(f"{node}/spinesd.{end}" for node in (1, 2, 3) for end in ("conf", "keys"))]))
    kit.equal("keys: nobody else reads them", {mode(os.path.join(overlay, name)) for name in files if not name.endswith(".keys")}, {0o600})
    kit.equal("keys: nor their folders", {mode(os.path.join(overlay, name)) for name in ("", "1", "2", "3")}, {0o700})
    texts = [read(os.path.join(overlay, str(node), "spinesd.conf")).decode() for node in (1, 2, 3)]
    seeds = [re.search(r'^seed = "([0-9a-f]{64})"$', text, re.MULTILINE).group(1) for text in texts]
    kit.equal("keys: each node has its own", len({*seeds}), 3)
    links = [re.findall(r'^key = "([0-9a-f]{64})"$', text, re.MULTILINE) for text in texts]
    kit.holds("keys: each link has one", links[0][0] == links[1][0] != links[1][1] == links[2][0], links)
    for node, text in enumerate(texts, 1):
        kit.equal(f"keys: the configuration of node {node} is good", kit.run(kit.program, "verify", given=text.encode() + b"recording 1 1 0 32\n")[:2],
                  (0, "verified 0\n"))
    refusals(kit, overlay, words, seeds)


def refusals(kit, overlay, words, seeds):
    """What would use a key twice, or write over a file, isn't done, and leaves all as it was."""
    before = {path: read(path) for path in glob.glob(kit.folder + "/**", recursive=True) if os.path.isfile(path)}
    again = kit.path("again")
    rows = [
        ("a folder that is there", [*words, overlay], "give a folder that isn't"),
        ("a seed that was used", ["--seeds", "-", *words, again], "used at height 5 by 1 of "),
        ("a seed at another height", ["--seeds", "-", *words[2:], again], "a seed has one height for ever"),
        ("one seed for two nodes", ["--seeds", "-", "--ledger", kit.path("new.ledger"), *words, again], "1 and 2 have one seed"),
        ("ports beyond the last", [*words[:2], "--port", "65500", words[4], again], "ports from 65501 to 65603"),
        ("a ledger that is none", ["--ledger", kit.write("no.ledger", b"x\n"), *words, again], "no ledger"),
    ]
    for name, said, reason in rows:
        given = f"1 {seeds[0]}\n" + (f"2 {seeds[0]}\n" if "two nodes" in name else "")
        status, output, why = kit.run("spinesd-keys", "make", *said, given=given.encode())
        kit.holds(f"keys: {name}", (status, output) == (1, "") and reason in why, why)
    bad = kit.write("loop.graph", b"graph 1\nnodes 2\nedge 1 1 10\nend\n")
    status, _, why = kit.run("spinesd-keys", "make", bad, again)
    kit.holds("keys: a graph with a loop", status == 1 and "refused 0 Topology Loop" in why, why)
    kit.equal("keys: a refusal makes nothing", (os.path.exists(again), {path: read(path) for path in before}), (False, before))


# what needs no daemons that run for seconds, and what does, which take some minutes together
PARTS = {
    "texts": (explains, endings_of_conformance, statuses, several_messages, many_folders, cut_recordings, follows, broken_off, views, keys, kit_next.look,
              kit_versions.texts, kit_house.look),
    "daemons": (keys, kit_lives.look, kit_daemons.daemons, kit_client.look, kit_busy.look, kit_second.look, kit_versions.daemons),
}


def main():
    if len(sys.argv) != 3 or sys.argv[2] not in PARTS:
        sys.exit("usage: python3 .ci/kit.py PATH/TO/spinesd texts|daemons")
    with tempfile.TemporaryDirectory() as folder:
        kit = Kit(os.path.abspath(sys.argv[1]), folder)
        for look in PARTS[sys.argv[2]]:
            look(kit)
    print(f"{kit.looks - kit.wrong} looks at the operator's kit as wanted, {kit.wrong} not")
    sys.exit(1 if kit.wrong else 0)


if __name__ == "__main__":
    main()
