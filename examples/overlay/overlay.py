"""An overlay of daemons on this machine: its keys and files, its processes, and the requests of its clients.

Everything lies in one folder, which nobody else may read: NODE.toml is a configuration with its keys, NODE.recording what the daemon records, beside
NODE.1.recording and so on of its earlier lives, NODE.keys the folder that it is started in, with its key file, NODE.session the port and the last number of
a client, and overlay.json the ports. The program is the environment's SPINESD, or the one that this checkout built.
"""

import json
import os
import secrets
import signal
import socket
import subprocess
import time

ROOT = os.path.dirname(os.path.dirname(os.path.dirname(os.path.abspath(__file__))))
# where this checkout's program is, once it is built
BUILT = os.path.join(ROOT, "crates", "spinesd", "out", "spinesd")
PROGRAM = os.environ.get("SPINESD", BUILT)
# a client listens for this many receives before it sends the same request again; one takes 5 ms at most
ASK_TURNS = 20
# what a request is answered that didn't run
NOT_RUN = ("badrequest", "badnumber", "nosession", "sessionsfull")


def line_of(count):
    """So many nodes in a line: their number, and the edges with their weights."""
    return count, [(node, node + 1, 10) for node in range(1, count)]


def read_graph(path):
    """A graph as `spinesd paths` reads it."""
    nodes, edges = 0, []
    with open(path, encoding="ascii") as lines:
        for line in lines:
            words = line.split()
            if words[:1] == ["nodes"]:
                nodes = int(words[1])
            elif words[:1] == ["edge"]:
                edges.append(tuple(int(word) for word in words[1:4]))
    return nodes, edges


def free_ports(count):
    """Ports of 127.0.0.1 that nobody has, from the system."""
    sockets = [socket.socket(socket.AF_INET, socket.SOCK_DGRAM) for _ in range(count)]
    for each in sockets:
        each.bind(("127.0.0.1", 0))
    ports = [each.getsockname()[1] for each in sockets]
    for each in sockets:
        each.close()
    return ports


def draft_of(seeds, edges, height, of_format):
    """What an administrator signs: the format, the seeds of all nodes, and the edges."""
    text = "" if of_format == 1 else f"format = {of_format}\n"
    text += f'version = 1\nheight = {height}\nadmin_seed = "{secrets.token_hex(32)}"\nadmin_index = 0\n'
    for node, seed in seeds.items():
        text += f'\n[[node]]\nid = {node}\nseed = "{seed}"\n'
    for low, high, weight in edges:
        text += f"\n[[edge]]\na = {low}\nb = {high}\nweight = {weight}\n"
    return text


class Overlay:
    """The overlay of a folder."""

    def __init__(self, folder, program=PROGRAM, bounds=(16, 64)):
        """The bounds are those of a flow and of a store, in messages."""
        self.folder, self.program, self.bounds, self.children = os.path.abspath(folder), os.path.abspath(program), bounds, {}
        path = self.path("overlay.json")
        self.ports = {}
        if os.path.exists(path):
            with open(path, encoding="ascii") as file:
                self.ports = {int(node): ports for node, ports in json.load(file).items()}

    def path(self, name):
        return os.path.join(self.folder, name)

    def write(self, name, text):
        with open(self.path(name), "w", encoding="ascii") as file:
            file.write(text)

    def read(self, name):
        with open(self.path(name), "rb") as file:
            return file.read()

    # ---- keys and files

    def make(self, graph, height=10, of_format=1):
        """Of an overlay of this format: seeds, link keys, the signed topology, and for each node a configuration and a key file."""
        os.umask(0o077)
        os.makedirs(self.folder, exist_ok=True)
        nodes, edges = graph
        seeds = {node: secrets.token_hex(32) for node in range(1, nodes + 1)}
        links = {(low, high): secrets.token_hex(32) for low, high, _ in edges}
        draft = draft_of(seeds, edges, height, of_format)
        signed = subprocess.run([self.program, "topology"], input=draft.encode(), stdout=subprocess.PIPE, check=True)
        document, admin = signed.stdout.decode().split()
        free = free_ports(2 * nodes)
        self.ports = {node: (free[2 * node - 2], free[2 * node - 1]) for node in seeds}
        self.write("draft.toml", draft)
        self.write("topology", f"{document}\n{admin}\n")
        self.write("overlay.json", json.dumps(self.ports))
        for node, seed in seeds.items():
            keys = {low if node == high else high: key for (low, high), key in links.items() if node in (low, high)}
            self.write(f"{node}.toml", self.configuration(node, seed, admin, document, keys))
            os.makedirs(self.home(node))
            subprocess.run([self.program, "format"], cwd=self.home(node), stdin=subprocess.DEVNULL, stdout=subprocess.DEVNULL, check=True)

    def configuration(self, node, seed, admin, document, keys):
        """What an operator tells a daemon."""
        overlay, client = self.ports[node]
        text = f'node = {node}\nseed = "{seed}"\nadmin = "{admin}"\ntopology = "{document}"\n'
        buffer, store = self.bounds
        text += f"port = {overlay}\nclient_port = {client}\nbuffer = {buffer}\nstore = {store}\n"
        for peer in sorted(keys):
            text += f'\n[[peer]]\nid = {peer}\nport = {self.ports[peer][0]}\nkey = "{keys[peer]}"\n'
        return text

    def home(self, node):
        """The folder that a node's daemon is started in. Its key file lies there."""
        return self.path(f"{node}.keys")

    # ---- daemons

    def start(self, node, turns):
        """Starts the daemon of a node, which ends by itself after so many turns. The recording of the life before stays beside the new one."""
        if os.path.exists(self.path(f"{node}.recording")):
            os.rename(self.path(f"{node}.recording"), self.path(f"{node}.{len(self.earlier(node)) + 1}.recording"))
        with open(self.path(f"{node}.toml"), "rb") as given, open(self.path(f"{node}.recording"), "wb") as recording:
            words = [self.program, "daemon", "--turns", str(turns)]
            # it has no end of the caller's pipes, so who started it needn't wait for it
            child = subprocess.Popen(words, cwd=self.home(node), stdin=given, stdout=recording, stderr=subprocess.DEVNULL, start_new_session=True)
        self.children[node] = child
        self.write(f"{node}.pid", str(child.pid))
        return child

    def is_ours(self, pid):
        """Whether this process still runs our program."""
        try:
            with open(f"/proc/{pid}/cmdline", "rb") as words:
                return self.program.encode() in words.read().split(b"\0")
        except OSError:
            return False

    def runs(self, node):
        """Whether the daemon of a node runs."""
        return os.path.exists(self.path(f"{node}.pid")) and self.is_ours(int(self.read(f"{node}.pid")))

    def end(self, node, by=signal.SIGTERM):
        """Ends the daemon of a node, and waits until it has gone."""
        if not os.path.exists(self.path(f"{node}.pid")):
            return
        pid = int(self.read(f"{node}.pid"))
        if self.is_ours(pid):
            os.kill(pid, by)
        if node in self.children:
            self.children[node].wait()
        while self.is_ours(pid):
            time.sleep(0.01)
        os.remove(self.path(f"{node}.pid"))

    def end_all(self):
        for node in self.ports:
            self.end(node)

    # ---- clients

    def ask_once(self, node, local, request):
        """One run of `spinesd ask`: its status, and the reply."""
        words = ["ask", "--port", str(self.ports[node][1]), "--local", str(local), "--turns", str(ASK_TURNS), "--request", request]
        ended = subprocess.run([self.program, *words], stdin=subprocess.DEVNULL, stdout=subprocess.PIPE, check=False)
        return ended.returncode, ended.stdout.decode().rstrip("\n")

    def session(self, node):
        """The port and the last number of our client of a node."""
        name = f"{node}.session"
        if os.path.exists(self.path(name)):
            return json.loads(self.read(name))
        return {"local": free_ports(1)[0], "last": 0}

    def ask(self, node, command, tries=100):
        """The answer to a command. The same request is sent again until its reply comes, so it runs once. The first one opens a session."""
        session = self.session(node)
        if session["last"] == 0 and command != "open":
            self.ask(node, "open", tries)
            session = self.session(node)
        number = session["last"] + 1
        for _ in range(tries):
            status, reply = self.ask_once(node, session["local"], f"{number} {command}")
            if status == 0:
                answer = reply.split(" ", 1)[1]
                if answer.split(" ")[0] not in NOT_RUN:
                    self.write(f"{node}.session", json.dumps({"local": session["local"], "last": number}))
                return answer
            if status == 2:
                raise RuntimeError(f"no client asks {command!r}; docs/FORMATS.md, \"Requests of clients\", has all requests, as `send 3 6869` and `take 1`")
            if status != 11:
                raise RuntimeError(f"ask ended with status {status}: {reply}")
        raise TimeoutError(f"node {node} doesn't answer: {number} {command}")

    def take(self, node, source, seconds=5.0):
        """The oldest message from a node, which is waited for; None where none came."""
        until = time.monotonic() + seconds
        while time.monotonic() < until:
            answer = self.ask(node, f"take {source}")
            if answer.startswith("payload "):
                word = answer.split(" ")[1]
                return b"" if word == "-" else bytes.fromhex(word)
            if answer != "empty":
                raise RuntimeError(f"node {node} answered: {answer}")
        return None

    # ---- recordings

    def earlier(self, node):
        """The names of the recordings of a node's earlier lives, the oldest first."""
        lives = [name.split(".") for name in os.listdir(self.folder) if name.startswith(f"{node}.") and name.endswith(".recording")]
        return [f"{node}.{life}.recording" for life in sorted(int(words[1]) for words in lives if len(words) == 3)]

    def recording(self, node, name=None):
        """The whole lines of a node's last recording, or of another one. A daemon that is ended in the middle of a write may leave a part of one more."""
        text = self.read(name or f"{node}.recording")
        return text[: text.rfind(b"\n") + 1]

    def verify(self, node, recording=None):
        """The status and the output of `spinesd verify` for the configuration of a node and its recording, or another one."""
        given = self.read(f"{node}.toml") + (self.recording(node) if recording is None else recording)
        ended = subprocess.run([self.program, "verify"], input=given, stdout=subprocess.PIPE, check=False)
        return ended.returncode, ended.stdout.decode().rstrip("\n")
