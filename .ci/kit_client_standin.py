"""A daemon's client port as docs/FORMATS.md has it, which may lose requests and answers, and a way to a daemon that loses answers. Used by kit_client.py."""

import os
import select
import socket
import subprocess
import time

ROOT = os.path.dirname(os.path.dirname(os.path.abspath(__file__)))
CLIENT = os.path.join(ROOT, "kit", "spinesd-client")
MOST, MOST_SECONDS = 65_535, 60


def own_socket(port=0):
    made = socket.socket(socket.AF_INET, socket.SOCK_DGRAM)
    made.bind(("127.0.0.1", port))
    return made


class Standin:
    """The sessions of one daemon. What a command is answered may be said before, by its name; else a send is accepted, and nothing waits.

    Requests are lost where it is deaf, so many answers are lost, and where it is late each reply comes again before the next ones.
    """

    def __init__(self):
        self.socket, self.sessions, self.answers, self.ran, self.asked = own_socket(), {}, {}, [], []
        self.port, self.sent, self.is_deaf, self.lost, self.is_full = str(self.socket.getsockname()[1]), 0, False, 0, False
        self.sockets, self.late, self.is_late = [self.socket], [], False

    def goes(self):
        """Nobody has the port any more."""
        self.socket.close()
        self.sockets, self.sessions = [], {}

    def comes(self):
        """It has its port again."""
        self.socket = own_socket(int(self.port))
        self.sockets = [self.socket]

    def serve(self, _):
        """Answers one datagram."""
        request, address = self.socket.recvfrom(MOST)
        self.asked.append(request.decode())
        if self.is_deaf:
            return
        reply = self.reply(address[1], request.decode())
        for each in self.late if self.is_late else ():
            self.socket.sendto(each, address)
        self.late.append(reply.encode())
        if self.lost:
            self.lost -= 1
        else:
            self.socket.sendto(reply.encode(), address)

    def reply(self, port, request):
        number, name, *_ = request.split(" ")
        last = self.sessions.get(port)
        if self.answers.get(name) == ["badrequest"]:
            return "0 badrequest"
        if last and last[0] == number:
            return last[1]
        if last and int(number) != int(last[0]) + 1:
            return f"{number} badnumber {last[0]}"
        if not last and (name != "open" or number != "1" or self.is_full):
            return f"{number} " + ("nosession" if name != "open" else "badnumber 0" if number != "1" else "sessionsfull")
        return self.answered(port, number, name, request)

    def answered(self, port, number, name, request):
        """What runs is answered once."""
        self.ran.append(request.partition(" ")[2])
        self.sent += name in ("send", "sendprio", "ksend")
        usual = {"open": "opened", "listen": "listening", "close": "closed", "take": "empty", "ktake": "empty", "takeprio": "empty"}.get(name, f"accepted {self.sent}")
        self.sessions[port] = number, f"{number} " + (self.answers[name].pop(0) if self.answers.get(name) else usual)
        return self.sessions.pop(port)[1] if name == "close" else self.sessions[port][1]


class Way:
    """A way to a daemon's client port, over which so many answers to each request are lost."""

    def __init__(self, port, lost):
        self.socket, self.far, self.port, self.lost, self.counts = own_socket(), own_socket(), port, lost, {}
        self.far.connect(("127.0.0.1", port))
        self.port, self.sockets, self.address = str(self.socket.getsockname()[1]), [self.socket, self.far], None

    def serve(self, ready):
        if ready is self.socket:
            request, self.address = self.socket.recvfrom(MOST)
            self.far.send(request)
            return
        reply = self.far.recv(MOST)
        number = reply.split(b" ")[0]
        self.counts[number] = self.counts.get(number, 0) + 1
        if self.counts[number] > self.lost:
            self.socket.sendto(reply, self.address)


def served_once(served, seconds):
    """Whether a datagram came, and what came is answered."""
    ready = select.select(served.sockets, [], [], seconds)[0]
    for each in ready:
        served.serve(each)
    return ready


def drained(served):
    """What a client that has ended asked last is answered before the next one asks."""
    while served_once(served, 0):
        pass


def run(kit, served, *words, given=b"", is_over=lambda: False, out=subprocess.PIPE):
    """The status, the output and what was said of a client whose daemon is served here; it is killed once it is over."""
    with open(kit.write("client.given", given), "rb") as stdin:
        child = subprocess.Popen([CLIENT, *words], stdin=stdin, stdout=out, stderr=subprocess.PIPE, env={**os.environ, "XDG_STATE_HOME": kit.path("state")})
    until = time.monotonic() + MOST_SECONDS
    try:
        while child.poll() is None and not is_over() and time.monotonic() < until:
            served_once(served, 0.01)
    finally:
        child.kill()
        said = child.communicate()
    drained(served)
    return child.returncode, (said[0] or b"").decode(), said[1].decode()
