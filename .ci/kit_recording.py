"""A configuration and a recording made by hand, with what `spinesd-status` must tell of them.

Node 2 of the line 1-2-3, start 4, topology version 7, height 5. Nothing here is computed by the kit: frames, tags and digests are made anew.
"""

import hashlib
import hmac
import struct

KEY_1, KEY_3 = bytes(range(32)), bytes(range(32, 64))
SIGNATURE = bytes(4_756)
DOCUMENT = (b"MTMW\x01" + struct.pack(">IBB", 7, 5, 3) + b"".join(bytes([node]) + bytes(60) for node in (1, 2, 3))
            + struct.pack(">H", 2) + struct.pack(">BBI", 1, 2, 10) + struct.pack(">BBI", 2, 3, 20))
CONFIGURATION = (f'node = 2\nseed = "{"22" * 32}"\nadmin = "{"00" * 60}"\ntopology = "{(DOCUMENT + SIGNATURE).hex()}"\nport = 7002\nclient_port = 7102\n'
                 f'\n[[peer]]\nid = 1\nport = 7001\nkey = "{KEY_1.hex()}"\n\n[[peer]]\nid = 3\nport = 7003\nkey = "{KEY_3.hex()}"\n').encode()
MESSAGE = b"\x02\x01\x02" + struct.pack(">QH", 1, 2) + b"hi"
ACKNOWLEDGEMENT = b"\x03\x02\x03" + struct.pack(">Q", 1)


def signed(body):
    return struct.pack(">H", len(body)) + body + struct.pack(">H", len(SIGNATURE)) + SIGNATURE


def slot(source, destination, base, have, acknowledgements=b"\0", messages=b"\0"):
    return b"\1" + struct.pack(">BBQQ", source, destination, base, have) + acknowledgements + messages


def frame(echo, counter, reliable=b"\0", key=KEY_1, sender=1, heard=0, urgent=b"\0"):
    """A frame of a neighbour, whose boot is 9, to node 2."""
    text = b"SI\x01" + bytes([sender, 2]) + struct.pack(">QQQI", 9, echo, counter, 7) + b"\0" + struct.pack(">Q", heard) + urgent + reliable
    return (text + hmac.new(key, text, hashlib.sha256).digest()).hex()


def digest(text):
    return hashlib.sha256(text).hexdigest()


def turn(clock, datagram, answer, request, reply, polled):
    """A turn's lines: a datagram of node 1 and a request from port 9000."""
    return (f"tick {clock} {digest(b'ticked' + NEWLINE)}\noverlay 1 {datagram} {digest(answer)}\n"
            f"client 9000 {request.hex()} {digest(reply)}\npoll {polled} {digest(b'a frame')}\n")


NEWLINE = b"\n"
CARRIES = frame(4, 1, slot(1, 2, 0, 1, messages=b"\1" + signed(MESSAGE)))
LIES = frame(4, 5, slot(2, 3, 1, 1, acknowledgements=b"\1" + signed(ACKNOWLEDGEMENT)))
RECORDING = ("recording 1 4 32 64\n"
             + turn(1_000, frame(0, 7), b"learned 9\n", b"1 open", b"1 opened", 1)
             + "stray 5000\n"
             + turn(2_000, CARRIES, b"fresh rel:new\n+ delivered rel 1 1 6869\n", b"2 listen", b"2 listening", 3)
             + turn(3_000, CARRIES, b"stale 9 1\n", b"3 take 1", b"3 payload 6869", 1)
             + "reserve 96\n"
             + turn(4_000, frame(4, 4, key=KEY_3), b"badtag\n", b"4 send 3 00", b"4 accepted 1", 3)
             + turn(5_000, LIES, b"fresh ack:badsig\n", b"4 send 3 00", b"4 accepted 1", 1)
             + "end turns 5 lost 1\n").encode()


def messages_of(kind):
    """Three messages of node 1 to node 3: reliable ones, or urgent ones over both edges."""
    for number in (1, 2, 3):
        head = bytes([kind, 1, 3]) + struct.pack(">Q", number)
        body = head + (b"\5" + b"\xff" * 8 + struct.pack(">QQ", 0, 3) if kind == 1 else b"") + struct.pack(">H", 1) + b"x"
        yield (struct.pack(">Q", number) if kind == 1 else b"") + signed(body)


# messages of both formats: the bytes, the kind, its numbers that have bytes, and what stands behind them
BODIES = [
    (2, "010620b50336bd24d9d8fb33fee7cbeb6617cb068a0a4abb087470359a9390de66671dd1a67152b9a8cc3a893e3df8581f1b98cf8aafa68217d73a1700023a18", "prio", [6, 32, 13043329131790063867, 3746686803032545227, 6, 9946844894162350133, 205467317276408799272992741094459193993, 82733902866322813404669345901619657239, 2], "3a18"),
    (2, "020e12f86da62e82bd0e2e949d657378b5fc6d117fcddd596dc964000b37610b2fbf92314f135f3c", "rel", [14, 18, 17901146812559724078, 10708827035577744493, 1260952771258861924, 11], "37610b2fbf92314f135f3c"),
    (2, "030511c93ec027908850b51fcab5900594842f71beb7e855a9b32a", "ack", [5, 17, 14501239126340686005, 2290842990644855855, 8196190580358361898], ""),
    (2, "0403002a000fdda547433627000b4fab", "weight", [3, 42, 4465826585589287, 741291], ""),
    (2, "050511540b7cad1e385b107bddd64f98ab00e41e63666ceda288a028d8786c4e020415339148d79be4d07f12bb0713f7ed20a55a621144f43d6f67000d49d32e8794dbaca6ca64ab7feb", "krel", [5, 17, 6056071206907960080, 8925525673870295268, 2189706461861546144, 54293098422776415323181736295018057855, 24897206995606278822593021885837832039, 13], "49d32e8794dbaca6ca64ab7feb"),
    (2, "061a0a61f489aa590648d95a57eb4a37f4016329279f7baa7e0630", "kack", [26, 10, 7058417880727439577, 6509930490386186595, 2965514233136940592], ""),
    (2, "07041ac9f4f0931396f3", "epoch", [4, 1930343229401831155], ""),
    (1, "01010200000000000000010500000000000000640000000000000000000000000000000300026869", "prio", [1, 2, 1, 5, 100, 3, 2], "6869"),
    (1, "020103000000000000000100026869", "rel", [1, 3, 1, 2], "6869"),
]

# frames with several messages of a kind: of each the datagram's neighbour, its bytes and what node 2 answers
SEVERAL = [
    (1, frame(4, 1, slot(1, 3, 0, 3, messages=b"\3" + b"".join(messages_of(2)))), "fresh rel:new rel:new rel:new\n"),
    (1, frame(4, 2, slot(1, 3, 0, 3, messages=b"\3" + b"".join(messages_of(2)))), "fresh rel:old rel:old rel:old\n"),
    (1, frame(4, 3, urgent=b"\3" + b"".join(messages_of(1))), "fresh prio:new prio:new prio:badsig\n+ stored 3 1 1 1 5\n+ stored 3 2 1 2 5\n"),
    (3, frame(4, 1, key=KEY_3, sender=3, heard=2), "fresh\n+ gone 3 1 acked\n+ gone 3 2 acked\n"),
    (1, frame(4, 4, slot(1, 3, 0, 3, messages=b"\5")), "section count\n"),
]
RECORDING_OF_SEVERAL = "recording 1 4 32 64\n" + "".join(
    f"tick {1_000 * turn} {digest(b'ticked' + NEWLINE)}\noverlay {node} {datagram} {digest(answer.encode())}\npoll {3 if turn % 2 else 1} {digest(b'')}\n"
    for turn, (node, datagram, answer) in enumerate(SEVERAL, 1))

# what is told of the first one, by hand
NEIGHBOUR_1 = {
    "node": 1, "port": 7001, "frames_sent": 3, "lost": 3, "bad_signatures": 1, "untold": 0, "last_fresh_ms": 5_000, "boot": 9, "topology_version": 0,
    "held_up": {"gap": 0, "epoch": 0},
    "answers": {"fresh": 2, "learned": 1, "stale": 1, "badtag": 1, "notforme": 0, "malformed": 0, "topology": 0, "section": 0, "withdrawn": 0},
}
FLOWS = [
    {"source": 1, "destination": 2, "sent": None, "delivered": 1, "taken": 1, "acknowledged": 0, "ended": 0, "standing_ms": 2_000,
     "held_up_at": {}, "held_up_here": {}, "reported": {"1": {"base": 0, "have": 1}}},
    {"source": 2, "destination": 3, "sent": 1, "delivered": None, "taken": None, "acknowledged": 0, "ended": 0, "standing_ms": 0,
     "held_up_at": {}, "held_up_here": {}, "reported": {"1": {"base": 1, "have": 1}}},
]
TOLD = {
    "node": 2, "boot": 4, "topology_version": 7, "turns": 5, "first_turn_ms": 1_000, "last_turn_ms": 5_000, "ended": {"turns": 5, "lost": 1},
    "indexes": {"first": 32, "reserved": 96, "limit": 1_024, "left": 928}, "strays": {"5000": 1}, "checked": {"right": 5, "different": 0},
    "sessions": [{"port": 9000, "last": 4, "listens": True}], "untold_ticks": 0, "lives": {}, "not_met": [],
    "requests": {"accepted": 1, "listening": 1, "opened": 1, "payload": 1, "repeated": 1}, "flows": FLOWS,
}
METRICS = [
    'spinesd_info{node="2",boot="4",topology_version="7",height="5"} 1', 'spinesd_turns_total{node="2"} 5',
    'spinesd_last_turn_timestamp_seconds{node="2"} 5.0', 'spinesd_ended{node="2"} 1', 'spinesd_failed_calls{node="2"} 1',
    'spinesd_indexes_reserved{node="2"} 96', 'spinesd_stray_datagrams_total{node="2"} 1', 'spinesd_answers_different_total{node="2"} 0',
    'spinesd_client_sessions{node="2"} 1', 'spinesd_neighbour_datagrams_total{node="2",neighbour="1",answer="badtag"} 1',
    'spinesd_neighbour_frames_lost_total{node="2",neighbour="1"} 3', 'spinesd_neighbour_bad_signatures_total{node="2",neighbour="1"} 1',
    'spinesd_neighbour_last_fresh_timestamp_seconds{node="2",neighbour="1"} 5.0',
    'spinesd_flow_delivered_total{node="2",source="1",destination="2"} 1', 'spinesd_flow_sent_total{node="2",source="2",destination="3"} 1',
    'spinesd_boot{node="2"} 4', 'spinesd_nodes_not_met{node="2"} 0', 'spinesd_neighbour_messages_held_up_total{node="2",neighbour="1",answer="epoch"} 0',
    'spinesd_flow_reported_have{node="2",source="1",destination="2",neighbour="1"} 1', "# TYPE spinesd_turns_total counter", "# TYPE spinesd_ended gauge",
]
TABLE = """\
node 2, start 4, topology version 7: ended after 5 turns, 1 receives and sends failed
turns 5, 1 a second, the first 1970-01-01 00:00:01, the last 1970-01-01 00:00:05 UTC
indexes 928 of 1024 left to reserve; this start began at 32
strays 1; requests 1 accepted, 1 listening, 1 opened, 1 payload, 1 repeated
sessions 9000 at 4 listens
"""
FLOW_ROW = "\n   1-2     -          1      1             -      -              1: 0/1\n"
