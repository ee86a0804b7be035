"""Google's protobuf in C++ through its Python: `protoc.py write` turns lines of words into lines of hex, `protoc.py read` the other way
round. README.md describes the words. rpc_pb2 is generated from rpc.proto by protoc."""

import sys
import warnings

from google.protobuf.internal import api_implementation
from google.protobuf.message import DecodeError

from rpc_pb2 import RPC

ABSENT = "-"


def put(message, field, word):
    """gives an optional field what the word says"""
    if word == ABSENT:
        return
    if field == "subscribe":
        message.subscribe = word == "1"
    elif field == "backoff":
        message.backoff = int(word)
    elif field in ("topicID", "topic", "from"):
        setattr(message, field, bytes.fromhex(word).decode())
    else:
        setattr(message, field, bytes.fromhex(word))


def put_all(message, fields, words):
    for field, word in zip(fields, words):
        put(message, field, word)


def said(message, field):
    """the word of an optional field; a string that is not UTF-8 comes as bytes"""
    if not message.HasField(field):
        return ABSENT
    value = getattr(message, field)
    if isinstance(value, int):
        return str(int(value))
    return (value.encode() if isinstance(value, str) else value).hex()


PUBLISH = ("from", "data", "seqno", "topic", "signature", "key")
PEER = ("peerID", "signedPeerRecord")


def from_words(line):
    rpc = RPC()
    for item in line.split():
        name, *words = item.split(",")
        if name == "sub":
            put_all(rpc.subscriptions.add(), ("subscribe", "topicID"), words)
        elif name == "publish":
            put_all(rpc.publish.add(), PUBLISH, words)
        elif name == "control":
            rpc.control.SetInParent()
        else:
            entry = getattr(rpc.control, name).add()
            if name == "prune":
                put_all(entry, ("topicID", "backoff"), words)
                for pair in words[2:]:
                    put_all(entry.peers.add(), PEER, pair.split("/"))
            elif name == "graft":
                put(entry, "topicID", words[0])
            elif name == "ihave":
                put(entry, "topicID", words[0])
                entry.messageIDs.extend(map(bytes.fromhex, words[1:]))
            else:
                entry.messageIDs.extend(map(bytes.fromhex, words))
    return rpc


def to_words(rpc):
    items = [["sub", said(s, "subscribe"), said(s, "topicID")] for s in rpc.subscriptions]
    items += [["publish"] + [said(m, field) for field in PUBLISH] for m in rpc.publish]
    if rpc.HasField("control"):
        control = rpc.control
        items.append(["control"])
        items += [["ihave", said(c, "topicID")] + [i.hex() for i in c.messageIDs] for c in control.ihave]
        items += [["iwant"] + [i.hex() for i in c.messageIDs] for c in control.iwant]
        items += [["graft", said(c, "topicID")] for c in control.graft]
        for c in control.prune:
            items.append(["prune", said(c, "topicID"), said(c, "backoff")] + ["/".join(said(p, f) for f in PEER) for p in c.peers])
        items += [["idontwant"] + [i.hex() for i in c.messageIDs] for c in control.idontwant]
    return " ".join(map(",".join, items))


def write(line):
    return from_words(line).SerializeToString(deterministic=True).hex()


def read(line):
    """a warning is a refusal: of field 0, or of the end of a group that none began, where the reader stops"""
    with warnings.catch_warnings(record=True) as warned:
        warnings.simplefilter("always")
        try:
            rpc = RPC.FromString(bytes.fromhex(line))
        except DecodeError:
            return "refused"
    return "refused" if warned else to_words(rpc)


def main():
    assert api_implementation.Type() == "cpp", "Google's reader in C++ is the one to compare with"
    turn = {"write": write, "read": read}[sys.argv[1]]
    for line in sys.stdin:
        print(turn(line.strip()))


main()
