"""A configuration and a recording of format 2 made by hand: node 17 of the line 16-17-32, and what it answers to frames with the parts that it reads.

Nothing here is computed by the kit: frames, tags and digests are made anew. Used by kit_second.py.
"""

import hashlib
import hmac
import struct

from kit_recording import KEY_1, KEY_3, SIGNATURE, digest, signed

DOCUMENT = (b"MTMW\x02" + struct.pack(">IBB", 7, 5, 3) + b"".join(bytes([node]) + bytes(60) for node in (16, 17, 32))
            + struct.pack(">H", 2) + struct.pack(">BBI", 16, 17, 10) + struct.pack(">BBI", 17, 32, 20))
CONFIGURATION = (f'node = 17\nseed = "{"22" * 32}"\nadmin = "{"00" * 60}"\ntopology = "{(DOCUMENT + SIGNATURE).hex()}"\nport = 7017\nclient_port = 7117\n'
                 f'\n[[peer]]\nid = 16\nport = 7016\nkey = "{KEY_1.hex()}"\n\n[[peer]]\nid = 32\nport = 7032\nkey = "{KEY_3.hex()}"\n').encode()
NOTHING = b"\0"
# the boots that node 17 holds of the flow's ends, once it has the Epoch object of node 16; its own is 4
BOOTS, UNMET, AGAIN = (9, 4), (0, 4), (10, 4)


def slot(base, have, acknowledgement=NOTHING, messages=NOTHING, boots=BOOTS):
    """The slot of the flow from 16 to 17, or its part of K paths."""
    return b"\1" + struct.pack(">BBQQQQ", 16, 17, *boots, base, have) + acknowledgement + messages


def frame(counter, urgent=NOTHING, reliable=NOTHING, paths=NOTHING, probe=NOTHING, epoch=NOTHING, sections=None, version=2):
    """A frame of node 16, whose boot is 9, to node 17, whose boot is 4."""
    text = b"SI" + bytes([version, 16, 17]) + struct.pack(">QQQI", 9, 4, counter, 7)
    text += sections if sections is not None else b"\0" + bytes(8) + urgent + reliable + paths + probe + epoch
    return text + hmac.new(KEY_1, text, hashlib.sha256).digest()


def rel(number, boots=BOOTS):
    return signed(b"\x02\x10\x11" + struct.pack(">QQQH", *boots, number, 2) + b"hi")


def prio(number, boot, mask):
    return struct.pack(">Q", number) + signed(b"\x01\x10\x20" + struct.pack(">QQBQ", boot, number, 5, 2 ** 63) + mask + struct.pack(">H", 1) + b"x")


def krel(number, mask, boots=BOOTS):
    return signed(b"\x05\x10\x11" + struct.pack(">QQQ", *boots, number) + mask + struct.pack(">H", 2) + b"hi")


def start(origin, boot):
    """What a node says of its start."""
    return b"\1" + signed(b"\x07" + struct.pack(">BQ", origin, boot))


ACK = signed(b"\x03\x10\x11" + struct.pack(">QQQ", *BOOTS, 1))
KACK = signed(b"\x06\x10\x11" + struct.pack(">QQQ", *BOOTS, 1))
ALL, SECOND = b"\xff" * 32, bytes(31) + b"\2"
# frames of node 16 and what node 17 answers; the second of the edges leads to node 32
ROWS = [
    (frame(1), "fresh\n"),
    (frame(2, version=1), "version\n"),
    (frame(3, reliable=slot(0, 1, messages=b"\1" + rel(1)), epoch=start(16, 9)), "fresh rel:epoch epoch:new\n"),
    (frame(4, reliable=slot(0, 1, messages=b"\1" + rel(1))), "fresh rel:new\n+ delivered rel 16 1 6869\n"),
    (frame(5, reliable=slot(0, 2, messages=b"\1" + rel(2, boots=(8, 4)))), "fresh rel:epoch\n"),
    (frame(6, reliable=slot(0, 2, messages=b"\1" + rel(2, boots=(9, 3)))), "fresh rel:epoch\n"),
    (frame(7, reliable=slot(0, 1, b"\1" + ACK)), "fresh ack:old\n"),
    (frame(8, urgent=b"\2" + prio(1, 1, ALL) + prio(1, 9, SECOND)), "fresh prio:epoch prio:new\n+ stored 32 1 16 1 5\n"),
    (frame(9, reliable=slot(0, 1, messages=b"\3" + 3 * rel(1))), "section count\n"),
    # a message on paths comes over the first edge
    (frame(10, paths=slot(0, 1, messages=b"\1" + krel(1, SECOND)), probe=b"\1" + bytes(56), epoch=start(16, 9)), "fresh krel:offmask epoch:old\n"),
    (frame(11, paths=slot(0, 1, messages=b"\1" + krel(1, ALL))), "fresh krel:new\n+ delivered krel 16 1 6869\n"),
    (frame(12, paths=slot(0, 2, messages=b"\1" + krel(2, SECOND, (8, 4)))), "fresh krel:epoch\n"),
    (frame(13, paths=slot(0, 1, b"\1" + KACK, b"\1" + krel(1, ALL))), "fresh kack:old krel:old\n"),
    (frame(14, sections=b"\x80" + struct.pack(">H", len(DOCUMENT)) + DOCUMENT + bytes(13)), "fresh document:old\n"),
    (frame(15, sections=b"\x80" + struct.pack(">H", len(DOCUMENT)) + DOCUMENT + bytes(12) + b"\1"), "section count\n"),
    (frame(16, reliable=slot(7, 8, boots=UNMET)), "fresh\n"),
    (frame(17, epoch=start(17, 5)), "fresh epoch:badend\n"),
    (frame(18, epoch=start(33, 5)), "fresh epoch:badend\n"),
    # node 32 started: no flow of it is active. Then node 16 started again: its flows end, and what it sends counts from 1 again
    (frame(19, epoch=start(32, 2)), "fresh epoch:new\n"),
    (frame(20, urgent=b"\1" + prio(1, 9, SECOND), epoch=start(16, 10)), "fresh prio:seen epoch:new\n+ ended 16 17\n+ kended 16 17\n"),
    (frame(21, urgent=b"\1" + prio(1, 9, SECOND), reliable=slot(0, 2, messages=b"\1" + rel(2))), "fresh prio:epoch rel:epoch\n"),
    (frame(22, urgent=b"\1" + prio(1, 10, SECOND), reliable=slot(0, 1, messages=b"\1" + rel(1, AGAIN), boots=AGAIN)),
     "fresh prio:new rel:new\n+ stored 32 2 16 1 5\n+ delivered rel 16 1 6869\n"),
    (frame(23, paths=slot(0, 1, messages=b"\1" + krel(1, ALL, AGAIN), boots=AGAIN)), "fresh krel:new\n+ delivered krel 16 1 6869\n"),
]
# the acknowledgement of what came, which is signed at the tick after it: of the flow, and of the one on paths
TICKS = {turn: f"ticked\n+ signed {kind}1011" + "".join(f"{number:016x}" for number in (*boots, 1)) + "\n"
         for turn, kind, boots in ((5, "03", BOOTS), (12, "06", BOOTS), (23, "03", AGAIN))}
# what a client asks at the end, and what it is replied: the message on paths that came before its source started again is gone
ASKED = [
    ("1 open", "1 opened"), ("2 ktake 16", "2 notlistening"), ("3 listen", "3 listening"), ("4 ktake 16", "4 payload 6869"), ("5 ktake 16", "5 empty"),
    ("6 ksend 16 9 -", "0 badrequest"), ("6 ksend 16 2 -", "6 nopaths 1"), ("7 ksend 16 1 6869", "7 accepted 1"), ("8 ksend 16 2 -", "8 busy 1"),
    ("8 ksend 16 2 -", "8 busy 1"),
]
RECORDING = "recording 1 4 32 64\n" + "".join(
    f"tick {1_000 * turn} {digest(TICKS.get(turn, 'ticked' + chr(10)).encode())}\noverlay 16 {datagram.hex()} {digest(answer.encode())}\npoll 32 {digest(b'')}\n"
    for turn, (datagram, answer) in enumerate(ROWS, 1)) + "".join(
    f"client 9000 {request.encode().hex()} {digest(reply.encode())}\n" for request, reply in ASKED)
# how many answers are right, what is untold, and what the neighbour reported last of the flow
WANTED = {"right": len(ROWS), "different": 0}, 0, 0, {"base": 0, "have": 1}
REPLIED = {"accepted": 1, "badrequest": 1, "busy": 1, "empty": 1, "listening": 1, "nopaths": 1, "notlistening": 1, "opened": 1, "payload": 1,
           "repeated": 1}
