"""Our reader and writer of RPCs against gogo protobuf, quick-protobuf and Google's protobuf: `compare.py FOLDER [SEED]`, FOLDER holding the
programs. README.md says what is compared with what; the last line counts the checks."""

import os
import random
import subprocess
import sys
from collections import Counter

from make import ABSENT, IDONTWANT, LONGEST_LISTS, LONGEST_NAMES, TOPICS, Names, compose, damage, id_line, make_lists, make_names
from make import make_words, sized_words, table
from walk import DIALECTS, KINDS, LONGEST, walk

WRITTEN, DAMAGED, COMPOSED, OURS = 2000, 3000, 6000, 1500  # messages: of each implementation, damaged of each, composed, of ours
PER_NAMES = 50  # messages for one set of names
MOST = [1, 2, 3, 4] * 10 + [100]  # subscriptions, GRAFTs and PRUNEs of a message, and ids of an IDONTWANT
PEER = 7
UNKNOWN_TOPIC = 11
MALFORMED = 10
NO_ROOM = 13
FEW, WIDE = 5, 2000  # failures of a check that are shown, and how much of each

folder = sys.argv[1]
rng = random.Random(int(sys.argv[2]) if len(sys.argv) > 2 else 1)
passed = failed = 0


def run(program, argument, lines):
    """what a program prints, a line for each line given to it"""
    if program == "protoc":
        command = [sys.executable, "-B", os.path.join(os.path.dirname(__file__), "protoc.py")]
    else:
        command = [os.path.join(folder, program)]
    given = "".join(line + "\n" for line in lines)
    with open(os.path.join(folder, program + ".log"), "a", encoding="utf-8") as log:
        done = subprocess.run(command + argument, input=given, stdout=subprocess.PIPE, stderr=log, text=True, check=True,
                              env=os.environ | {"PYTHONPATH": folder})
    out = done.stdout.split("\n")[:-1]
    assert len(out) == len(lines), f"{program}: {len(out)} lines for {len(lines)}"
    return out


def check(what, faults):
    """counts a check, and shows the shortest faults"""
    global passed, failed
    if faults:
        failed += 1
        print(f"FAILED: {what}: {len(faults)} times")
        for fault in sorted(faults, key=lambda fault: len(str(fault)))[:FEW]:
            print("   ", *fault if len(str(fault)) < WIDE else (str(fault)[:WIDE], ".."))
    else:
        passed += 1
        print(f"ok: {what}")


# entries

def raw(words):
    """the entries of words: kind, topic or None (of an IDONTWANT the id), value or None"""
    if words == "refused":
        return None
    topic = lambda word: None if word == ABSENT else bytes.fromhex(word)
    value = lambda word: None if word == ABSENT else int(word)
    items = [item.split(",") for item in words.split()]
    subs = [(0, topic(i[2]), value(i[1])) for i in items if i[0] == "sub"]
    grafts = [(1, topic(i[1]), None) for i in items if i[0] == "graft"]
    prunes = [(2, topic(i[1]), value(i[2])) for i in items if i[0] == "prune"]
    notices = [(IDONTWANT, topic(name), None) for i in items if i[0] == "idontwant" for name in i[1:]]
    return subs + grafts + prunes + notices


def ours_of(entries, names):
    """entries as orders 1 and 6 give them: a topic's number, or 11; 0 for what is absent; of an id 0 and its number, or 11 and 0"""
    if entries is None:
        return None
    number = {name: topic for topic, name in enumerate(names) if name}
    return [(kind, 0 if topic in names.ids else UNKNOWN_TOPIC, names.ids.get(topic, 0)) if kind == IDONTWANT
            else (kind, number.get(topic, UNKNOWN_TOPIC), int(value or 0)) for kind, topic, value in entries]


def read_ours(messages):
    """our answer to each message with its names: entries and None, or None and the place"""
    lines = []
    before = None
    for data, names in messages:
        if names is not before:
            lines += ["names " + table(rng, names).hex(), id_line(rng, names.ids)]
            before = names
        lines.append("read " + data.hex())
    answers = []
    for line, out in zip(lines, run("ours", [], lines)):
        answer, value, *entries = out.split(" ")
        if line.startswith(("names", "ids")):
            assert out == "0 0", f"names or ids: {out}"
        elif answer == "0" and len(entries) == int(value):
            answers.append(([tuple(map(int, entry.split(","))) for entry in entries], None))
        elif answer == str(MALFORMED) and not entries:
            answers.append((None, int(value)))
        else:
            answers.append((out, out))  # equal to nothing
    return answers


# what is said, and read

def explain(data, names, kinds, theirs):
    """kinds of a dialect with which the walk says what they say, and without any of them not"""
    needed = list(kinds)
    for kind in kinds:
        fewer = [k for k in needed if k != kind]
        if ours_of(walk(data, fewer)[0], names) == theirs:
            needed = fewer
    return needed


def outcome(name, mine, theirs):
    if mine == theirs:
        return "both refuse" if mine is None else "both read the same"
    if mine is None or theirs is None:
        return f"{'ours' if mine is None else name} alone refuses"
    return "read otherwise"


def judge(what, messages, ours):
    """all four readers on all messages: ours as order 1 asks, theirs as their dialects say, and each difference by its kinds"""
    check(f"{what}: ours reads as order 1 asks", [
        (data.hex(), "ours", got, "order 1", (ours_of(entries, names), place))
        for (data, names), got in zip(messages, ours)
        for entries, place in [walk(data)] if got != (ours_of(entries, names), place)])
    for name, kinds in DIALECTS.items():
        faults = []
        for (data, names), (mine, _), words in zip(messages, ours, run(name, ["read"], [data.hex() for data, _ in messages])):
            theirs = raw(words)
            if theirs != walk(data, kinds)[0]:
                faults.append((data.hex(), name, words, "the walk", walk(data, kinds)))
            theirs = ours_of(theirs, names)
            tally[name][outcome(name, mine, theirs)] += 1
            if mine != theirs:
                found[name].update(explain(data, names, kinds, theirs))
        check(f"{what}: {name} reads the same, but for its kinds of difference", faults)


def with_names(count, share):
    """so many times whether names are UTF-8, that share of them, and a set of names, each for some messages"""
    for i in range(count):
        if i % PER_NAMES == 0:
            utf8 = rng.random() < share
            names = make_names(rng, utf8)
        yield utf8, names


def written_by(name):
    """messages that an implementation writes, and their names; ours and the others read what was put in"""
    share = 0.5 if name == "gogo" else 1  # the others write strings of UTF-8 alone
    names, said = [], []
    for utf8, n in with_names(WRITTEN, share):
        names.append(n)
        said.append(make_words(rng, n, utf8, rng.choice(MOST)))
    for words in [sized_words(size) for size in range(LONGEST - 5, LONGEST + 6)] + [" ".join(["sub,-,-"] * (LONGEST // 2))]:
        names.append(Names([b"a"] + [b""] * (TOPICS - 1)))
        said.append(words)
    messages = [(bytes.fromhex(line), n) for line, n in zip(run(name, ["write"], said), names)]
    ours = read_ours(messages)
    check(f"{len(said)} messages that {name} writes: ours reads what was put in", [
        (words, data.hex(), got) for words, (data, n), got in zip(said, messages, ours)
        if got != ((ours_of(raw(words), n), None) if len(data) <= LONGEST else (None, LONGEST))])
    check(f"{len(said)} messages that {name} writes: {name} reads what was put in", [
        (words, data.hex(), got) for words, (data, _), got in zip(said, messages, run(name, ["read"], [data.hex() for data, _ in messages]))
        if got != words])
    judge(f"messages that {name} writes", messages, ours)
    return messages


def damaged(name, messages):
    """messages of an implementation, damaged"""
    bad = []
    for _ in range(DAMAGED):
        data, names = rng.choice(messages)
        bad.append((damage(rng, data), names))
    judge(f"{DAMAGED} damaged messages of {name}", bad, read_ours(bad))


def composed():
    """messages composed field by field, of all that a message may hold"""
    messages = [(compose(rng, "rpc", names), names) for _, names in with_names(COMPOSED, 0.8)]
    judge(f"{COMPOSED} composed messages", messages, read_ours(messages))


def words_of(changes, actions, names):
    """what a message of ours is to say: absent rather than zero"""
    items = [f"sub,{join or ABSENT},{names[topic].hex()}" for join, topic in changes]
    items += ["control"] if actions else []
    items += [f"graft,{names[topic].hex()}" for kind, _, topic in actions if kind == 1]
    items += [f"prune,{names[topic].hex()},{seconds or ABSENT}" for kind, seconds, topic in actions if kind == 2]
    id_of = {number: name.hex() for name, number in names.ids.items()}
    ids = [id_of[number] for kind, _, number in actions if kind == IDONTWANT]
    items += [",".join(["idontwant"] + ids)] if ids else []
    return " ".join(items)


def written_by_ours(utf8, readers, writers):
    """what ours writes: others read what was to be said, and write the same bytes"""
    names = [n for _, n in with_names(OURS, utf8)]
    lists = [make_lists(rng, n) for n in names]
    names.append(LONGEST_NAMES)
    lists.append(LONGEST_LISTS)
    what = f"{len(lists)} messages that ours writes, names of {'UTF-8' if utf8 else 'any bytes'}"
    said = [words_of(changes, actions, n) for (changes, actions), n in zip(lists, names)]
    wanted = run("gogo", ["write"], said)
    lines = []
    for (changes, actions), n, data in zip(lists, names, wanted):
        items = "".join(f" a,{kind},{PEER},{seconds},{topic}" for kind, seconds, topic in actions)
        items += "".join(f" c,{join},{topic}" for join, topic in changes)
        room = len(data) // 2
        lines += ["names " + table(rng, n).hex(), id_line(rng, n.ids), f"write {room}{items}", f"write {max(0, room - 1)}{items}"]
    out = run("ours", [], lines)
    exact, short = out[2::4], out[3::4]
    ours = [line.split(" ")[-1] for line in exact]
    check(f"{what}: into a buffer of exactly their length", [
        (words, got) for words, data, got in zip(said, wanted, exact) if got != f"0 {len(data) // 2} {data}"])
    check(f"{what}: a buffer of one byte less is refused", [
        (words, got) for words, data, got in zip(said, wanted, short) if got != (f"{NO_ROOM} 0 " if data else "0 0 ")])
    for name in readers:
        check(f"{what}: {name} reads what was to be said", [
            (words, got) for words, got in zip(said, run(name, ["read"], ours)) if got != words])
    for name in writers:
        check(f"{what}: {name} writes the same bytes", [
            (words, mine, got) for words, mine, got in zip(said, ours, run(name, ["write"], said)) if got != mine])
    check(f"{what}: ours reads them back", [
        (words, got) for words, n, got in zip(said, names, read_ours([(bytes.fromhex(data), n) for data, n in zip(ours, names)]))
        if got != (ours_of(raw(words), n), None)])


found = {name: Counter() for name in DIALECTS}
tally = {name: Counter() for name in DIALECTS}
for implementation in DIALECTS:
    damaged(implementation, written_by(implementation))
composed()
written_by_ours(True, DIALECTS, DIALECTS)
written_by_ours(False, ["gogo", "protoc"], ["gogo"])

for implementation, kinds in DIALECTS.items():
    print(f"{implementation}: " + ", ".join(f"{case} {count}" for case, count in sorted(tally[implementation].items())))
    for kind in kinds:
        does, asked = KINDS[kind]
        print(f"    {found[implementation][kind]:6} {kind}: {implementation} {does}; order 1: {asked}")
    check(f"{implementation}: every kind of difference was seen", [(kind,) for kind in kinds if not found[implementation][kind]])
print(f"{passed} passed, {failed} failed")
sys.exit(failed != 0)
