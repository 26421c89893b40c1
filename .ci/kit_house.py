"""What stands around the scripts of the operator's kit: man pages, completion, unit, installation. Used by kit.py, which has the judge."""

import glob
import os
import re
import shutil
import subprocess
import time

ROOT = os.path.dirname(os.path.dirname(os.path.abspath(__file__)))
KIT = os.path.join(ROOT, "kit")
SCRIPTS = ("spinesd-keys", "spinesd-status", "spinesd-sessions", "spinesd-client", "spinesd-explain", "spinesd-view", "spinesd-node")
PAGES = ["spinesd-audit.1", "spinesd-client.1", "spinesd-recording.5", "spinesd-schedule.5", "spinesd.1", "spinesd.conf.5"]
EXPOSURE = 2.0
COMPLETED = [
    ("_spinesd", ["spinesd", "v"], ["verify"]), ("_spinesd", ["spinesd", "ask", "--p"], ["--port"]), ("_spinesd", ["spinesd", "daemon", "--turns", ""], []),
    ("_spinesd", ["spinesd", "paths", ""], ["--from", "--to", "--paths"]), ("_spinesd_kit", ["spinesd-status", "--pr"], ["--prometheus"]),
    ("_spinesd_audit", ["spinesd-audit", "ro"], ["rounds"]), ("_spinesd_audit", ["spinesd-audit", "rounds", "x", "--p"], ["--path"]),
    ("_spinesd_audit", ["spinesd-audit", "run", KIT + "/endi"], [KIT + "/endings.md"]), ("_spinesd_audit", ["spinesd-audit", "rounds", "--path", ""], []),
    ("_spinesd_kit", ["spinesd-node", "v"], ["verify"]), ("_spinesd_kit", ["spinesd-view", "--li"], ["--lives"]),
    ("_spinesd_kit", ["spinesd-keys", "--fo"], ["--format"]), ("_spinesd_kit", ["spinesd-client", "li"], ["listen"]),
    ("_spinesd_kit", ["spinesd-client", "bench", "--si"], ["--size"]), ("_spinesd_kit", ["spinesd-client", "close", "--p"], []),
]
INSTALLED = sorted([
    "bin/spinesd", "bin/spinesd-audit", *("bin/" + name for name in SCRIPTS), *("lib/spinesd/kit/" + name for name in SCRIPTS), "lib/spinesd/kit/endings.md",
    "lib/spinesd/kit/page.html", *(f"lib/spinesd/kit/lib/{name}.py" for name in (
        "answers", "clients", "configurations", "dialogues", "endings", "films", "frames", "holders", "journals", "ledgers", "lives", "metrics", "overlays", "paths",
        "pruning", "readings", "recordings", "renewals", "scripts", "sessions", "stores", "tables", "tellings", "versions", "watching")),
    *(f"share/man/man{page[-1]}/{page}" for page in PAGES),
    "share/bash-completion/completions/spinesd", "share/spinesd/spinesd.default", "share/spinesd/spinesd.rules.yml", "lib/systemd/system/spinesd@.service",
])
# after which ends a daemon isn't started again, and the limit of its starts
RESTART = {"Restart": "always", "RestartSec": "10", "RestartPreventExitStatus": "2 3 13", "StartLimitIntervalSec": "1h", "StartLimitBurst": "30"}
# so many seconds a port may be in use by another before a node is left down
LEAST_PATIENCE = 60


def tool(*words, **more):
    """The status and all that a tool says."""
    ended = subprocess.run(words, stdout=subprocess.PIPE, stderr=subprocess.STDOUT, check=False, timeout=60, **more)
    return ended.returncode, ended.stdout.decode("utf-8", "replace")


def man_pages(kit):
    pages = sorted(glob.glob(KIT + "/man/*"))
    kit.equal("man pages", [os.path.basename(page) for page in pages], PAGES)
    text = open(pages[4], encoding="utf-8").read()
    kit.equal("spinesd(1): the statuses", re.findall(r"^\.It (\d+)$", text, re.MULTILINE), ["0", *map(str, range(2, 14))])
    audits = re.findall(r"^\.It (\d+)$", open(pages[0], encoding="utf-8").read(), re.MULTILINE)
    kit.equal("spinesd-audit(1): the statuses", audits, ["0", "2", "3", "5", "6", "9", "14"])
    keys = re.findall(r"^\.It Ic (\w+)$", open(pages[5], encoding="utf-8").read(), re.MULTILINE)
    kit.equal("spinesd.conf(5): the keys", keys, ["node", "seed", "admin", "topology", "port", "client_port", "buffer", "store", "peer"])
    statuses = re.findall(r"^\.It (\d+)$", open(pages[1], encoding="utf-8").read(), re.MULTILINE)
    said = tool(os.path.join(KIT, "spinesd-client"), "--help")[1].partition("Exit status: ")[2]
    kit.equal("spinesd-client(1): the statuses", statuses, re.findall(r"(?:^|, )(\d+)\s", said.replace("\n", " ")))
    if not kit.missing("mandoc"):
        kit.equal("man pages: mandoc's lint", tool("mandoc", "-T", "lint", "-W", "warning", *pages), (0, ""))


def shells(kit):
    if not kit.missing("shellcheck"):
        kit.equal("shellcheck", tool("shellcheck", KIT + "/install", KIT + "/spinesd-node"), (0, ""))
        kit.equal("shellcheck of the completion", tool("shellcheck", "-s", "bash", KIT + "/spinesd.bash"), (0, ""))
    for function, words, wanted in COMPLETED:
        line = ". $0; COMP_WORDS=(\"$@\"); COMP_CWORD=$(($# - 1)); " + function + ' "$1"; printf "%s\\n" "${COMPREPLY[@]}"'
        kit.equal(f"completion of {words}", tool("bash", "-c", line, KIT + "/spinesd.bash", *words)[1].split(), wanted)
    for name in (*SCRIPTS, "install"):
        status, said = tool(os.path.join(KIT, name), "--help")
        kit.holds(f"{name} --help", status == 0 and "Exit status: " in said, said)
        kit.equal(f"{name} with words that are none", tool(os.path.join(KIT, name), "--no-such-word")[0], 2)


def files_in(folder):
    return sorted(os.path.relpath(path, folder) for path in glob.glob(folder + "/**", recursive=True) if not os.path.isdir(path))


def installs(kit):
    """What is installed under a prefix, that it runs there, and that nothing is left of it but what was there before."""
    prefix, staged = kit.path("prefix"), kit.path("staged")
    install = os.path.join(KIT, "install")
    kit.equal("install", tool(install, "--prefix", prefix, "--program", kit.program), (0, f"installed under {prefix}\n"))
    kit.equal("install: the files", files_in(prefix), INSTALLED)
    kit.equal("install: the program", open(prefix + "/bin/spinesd", "rb").read(), open(kit.program, "rb").read())
    auditor = os.path.join(ROOT, "crates", "spinesd_audit", "out", "spinesd_audit")
    kit.equal("install: the auditor's program", open(prefix + "/bin/spinesd-audit", "rb").read(), open(auditor, "rb").read())
    kit.equal("install: a script runs there", tool(prefix + "/bin/spinesd-explain", "2")[1].split("\n")[0], "any command, status 2, `usage`")
    units(kit, prefix + "/lib/systemd/system/spinesd@.service", prefix)
    kit.equal("install into a staging folder", tool(install, "--prefix", "/opt/x", "--program", kit.program, env={**os.environ, "DESTDIR": staged})[0], 0)
    kit.equal("install: the staged files", files_in(staged + "/opt/x"), INSTALLED)
    kit.holds("install: the unit names the prefix", "=/opt/x/bin/spinesd-node run" in open(staged + "/opt/x/lib/systemd/system/spinesd@.service").read(), "")
    with open(prefix + "/bin/another", "w", encoding="ascii"):
        pass
    kit.equal("uninstall", tool(install, "--prefix", prefix, "--uninstall")[0], 0)
    kit.equal("uninstall leaves what is another's", files_in(prefix), ["bin/another"])
    kit.holds("uninstall takes its folder", not os.path.exists(prefix + "/lib/spinesd"), files_in(prefix))
    none = kit.path("none")
    kit.equal("install of no program", tool(install, "--prefix", prefix, "--program", none), (1, f"install: {none} is no program\n"))
    kit.equal("install of no auditor", tool(install, "--prefix", prefix, "--program", kit.program, "--auditor", none), (1, f"install: {none} is no program\n"))


def wide(kit):
    """The program for eight lanes is what is installed where it is asked for and the processor has them; a stand-in makes it here."""
    prefix, tools = kit.path("wide"), kit.path("tools")
    os.mkdir(tools)
    kit.write("tools/rt", b"#!/bin/sh\n[ \"$2\" = --cpu=x86-64-v3 ] || exit 1\nmkdir -p out\npwd > out/spinesd\nchmod 755 out/spinesd\n")
    os.chmod(tools + "/rt", 0o755)
    status, said = tool(os.path.join(KIT, "install"), "--prefix", prefix, "--wide", env={**os.environ, "PATH": tools + ":" + os.environ["PATH"]})
    if b" avx2 " in open("/proc/cpuinfo", "rb").read():
        kit.equal("install the wide program", (status, said), (0, f"installed under {prefix}\n"))
        made = open(prefix + "/bin/spinesd", encoding="utf-8").read()
        kit.holds("install: which program is the wide one", made.endswith("/wide/crates/spinesd\n") and not os.path.exists(made[:-1]), made)


def units(kit, unit, prefix):
    text = open(unit, encoding="utf-8").read()
    said = dict(line.split("=", 1) for line in text.split("\n") if "=" in line and line[0] != "#")
    kit.equal("unit: what is restarted", {name: said.get(name) for name in RESTART}, RESTART)
    kit.holds("unit: it is patient", int(said["RestartSec"]) * int(said["StartLimitBurst"]) > LEAST_PATIENCE, said)
    kit.holds("unit: it judges first", f"ExecStartPre={prefix}/bin/spinesd-node judge" in text, text)
    if kit.missing("systemd-analyze"):
        return
    place = os.path.join(os.path.dirname(unit), "spinesd@7.service")
    shutil.copy(unit, place)
    kit.equal("unit: systemd-analyze verify", tool("systemd-analyze", "verify", "--man=no", place), (0, ""))
    os.remove(place)
    told = re.search(r"Overall exposure level for .*: ([\d.]+)", tool("systemd-analyze", "security", "--offline=true", unit)[1])
    kit.holds("unit: its exposure", told and float(told.group(1)) <= EXPOSURE, told and told.group(0))


def nodes(kit):
    """The script that the unit runs: it judges, and never writes over a recording."""
    node, place = "spinesd-node", os.path.join(kit.path("overlay"), "1")
    kit.equal("node: a good configuration", kit.run(node, "judge", place), (0, "", ""))
    bad = kit.path("bad")
    os.mkdir(bad)
    kit.equal("node: no configuration", kit.run(node, "judge", bad)[0], 3)
    good = open(place + "/spinesd.conf", encoding="ascii").read()
    with open(bad + "/spinesd.conf", "w", encoding="ascii") as file:
        file.write(re.sub(r"(?m)^client_port = .*\n", "", good))
    status, said, why = kit.run(node, "judge", bad)
    kit.holds("node: a bad configuration", (status, said) == (3, "") and "refused 0 Missing client_port" in why and "Do: Add it" in why, why)
    before = set(os.listdir(place))
    kit.equal("node: a run of two turns", kit.run(node, "run", place, "2"), (0, "", ""))
    made = set(os.listdir(place)) - before
    kit.holds("node: one recording is made", len(made) == 1 and re.fullmatch(r"\d{8}T\d{6}Z\.recording", *made), made)
    recording = os.path.join(place, *made)
    kit.equal("node: nobody else reads it", os.stat(recording).st_mode & 0o777, 0o600)
    kit.holds("node: its end", open(recording, encoding="ascii").read().endswith("end turns 2 lost 0\n"), "")
    for _ in range(2):
        kit.equal("node: two more lives", kit.run(node, "run", place, "1")[0], 0)
    kit.equal("node: recordings stand beside each other", len({*os.listdir(place)} - before), 3)
    kit.equal("node: no folder", kit.run(node, "run", kit.path("none"))[0], 3)
    status, said, why = kit.run(node, "judge", place, env={"SPINESD_LEAST_ROOM": "999999999999"})
    kit.holds("node: a full disk", (status, said) == (6, "") and "make room" in why, why)
    status, said, why = kit.run(node, "wait", place, "1")
    kit.holds("node: nobody answers", (status, said) == (1, "") and "no daemon of" in why, why)


def prunes(kit):
    """Recordings go by age and size, the others are compressed, and the newest stays."""
    folder = kit.path("prune")
    os.mkdir(folder)
    for name, days, size in (("new", 0, 10), ("newer", 1, 3 << 20), ("old", 2, 3 << 20), ("older", 40, 10)):
        path = kit.write(f"prune/{name}.recording", os.urandom(size))
        os.utime(path, (time.time() - days * 86_400 - 100,) * 2)
    kit.equal("prune by age", kit.run("spinesd-node", "prune", folder, "30")[::2], (0, ""))
    end = ".recording.zst" if shutil.which("zstd") else ".recording"
    kit.equal("prune: what stays", sorted(os.listdir(folder)), sorted(["new.recording", "newer" + end, "old" + end]))
    status, said, _ = kit.run("spinesd-node", "prune", folder, "30", "4")
    kit.holds("prune by size", status == 0 and "old.recording" in said and "more than 4 megabytes" in said, said)
    kit.equal("prune: what stays then", sorted(os.listdir(folder)), sorted(["new.recording", "newer" + end]))
    kit.equal("prune without days", kit.run("spinesd-node", "prune", folder)[0], 2)


def asks(kit):
    """A question that can't be asked is answered by one line."""
    ask, none = os.path.join(ROOT, "examples", "overlay", "ask"), kit.path("no overlay")
    rows = [(["1", "status"], none, "ask: no overlay is in"), (["9", "open"], kit.path("asked"), "ask: the overlay has no node 9"),
            (["x", "open"], kit.path("asked"), "ask: the overlay has no node x"), (["1", "open"], kit.path("asked"), "ask: the daemon of node 1 doesn't run")]
    os.mkdir(kit.path("asked"))
    kit.write("asked/overlay.json", b'{"1": [7001, 7101], "2": [7002, 7102]}')
    for words, folder, wanted in rows:
        status, said, why = kit.run(ask, *words, env={"OVERLAY": folder})
        kit.holds(f"ask {words}", (status, said, why.count("\n")) == (1, "", 1) and why.startswith(wanted), why)


def builds(kit):
    """A first build tells each crate that is done, and keeps all that is said; a stand-in says it here, and ends with a fault."""
    tools, checkout = kit.path("build tools"), kit.path("checkout")
    os.makedirs(checkout + "/crates/app")
    os.mkdir(tools)
    kit.write("checkout/crates.txt", b"low: std\napp: low # the program\nother: low\n")
    kit.write("build tools/rt", b"#!/bin/sh\necho 'fn low::a: proved'\necho 'logic=proved functions=3 sum=0'\necho 'error: app is wrong'\nexit 1\n")
    os.chmod(tools + "/rt", 0o755)
    front = "import sys; sys.path.insert(0, sys.argv[1]); from building import build; build(sys.argv[2], 'app')"
    words = ["python3", "-c", front, os.path.join(ROOT, "examples", "overlay"), checkout]
    status, said = tool(*words, env={**os.environ, "PATH": tools + ":" + os.environ["PATH"]})
    kit.holds("build: the crates that are done", re.search(r"(?m)^crate 1 of 2: low, 3 functions proved, 0:0\d so far$", said), said)
    kit.holds("build: what was wrong", status == 1 and "error: app is wrong\nThe program wasn't built: `rt run` ended with status 1" in said, said)
    log = open(checkout + "/crates/app/out/build.log", encoding="utf-8").read()
    kit.equal("build: what was said", log, "fn low::a: proved\nlogic=proved functions=3 sum=0\nerror: app is wrong\n")


def look(kit):
    for each in (man_pages, shells, installs, wide, nodes, prunes, asks, builds):
        each(kit)
