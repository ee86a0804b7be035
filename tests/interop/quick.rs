//! quick-protobuf, as rust-libp2p uses it: `quick write` turns lines of words into lines of hex, `quick read` the other way round.
//! README.md describes the words.

mod rpc;

use rpc::*;
use std::borrow::Cow;
use std::io::{stdin, stdout, BufRead, BufWriter, Write};

use quick_protobuf::{BytesReader, MessageRead, MessageWrite, Writer};

const ABSENT: &str = "-";
const REFUSED: &str = "refused";

// from words

fn unhex(word: &str) -> Vec<u8> {
    let digit = |c: u8| (c as char).to_digit(16).expect("a hex digit") as u8;
    word.as_bytes().chunks(2).map(|pair| digit(pair[0]) * 16 + digit(pair[1])).collect()
}

fn present(word: &str) -> Option<&str> {
    (word != ABSENT).then_some(word)
}

fn to_bytes(word: &str) -> Option<Cow<'static, [u8]>> {
    present(word).map(|word| unhex(word).into())
}

fn to_string(word: &str) -> Option<Cow<'static, str>> {
    present(word).map(|word| String::from_utf8(unhex(word)).expect("UTF-8").into())
}

fn to_list(words: &[&str]) -> Vec<Cow<'static, [u8]>> {
    words.iter().map(|word| unhex(word).into()).collect()
}

fn to_peer(word: &&str) -> PeerInfo<'static> {
    let (id, record) = word.split_once('/').expect("a pair");
    PeerInfo { id: to_bytes(id), record: to_bytes(record) }
}

fn from_words(line: &str) -> Rpc<'static> {
    let mut rpc = Rpc::default();
    for item in line.split_whitespace() {
        let w: Vec<&str> = item.split(',').collect();
        if w[0] == "control" {
            rpc.control = Some(Control::default());
            continue;
        }
        let control = rpc.control.as_mut();
        match w[0] {
            "sub" => rpc.subscriptions.push(SubOpts {
                subscribe: present(w[1]).map(|word| word == "1"),
                topic: to_string(w[2]),
            }),
            "publish" => rpc.publish.push(Message {
                from: to_string(w[1]),
                data: to_bytes(w[2]),
                seqno: to_bytes(w[3]),
                topic: to_string(w[4]).expect("a topic"),
                signature: to_bytes(w[5]),
                key: to_bytes(w[6]),
            }),
            "ihave" => {
                control.unwrap().ihave.push(IHave { topic: to_string(w[1]), ids: to_list(&w[2..]) })
            }
            "iwant" => control.unwrap().iwant.push(IWant { ids: to_list(&w[1..]) }),
            "graft" => control.unwrap().graft.push(Graft { topic: to_string(w[1]) }),
            "prune" => control.unwrap().prune.push(Prune {
                topic: to_string(w[1]),
                backoff: present(w[2]).map(|word| word.parse().expect("a number")),
                peers: w[3..].iter().map(to_peer).collect(),
            }),
            "idontwant" => control.unwrap().idontwant.push(IDontWant { ids: to_list(&w[1..]) }),
            _ => panic!("unknown item {item}"),
        }
    }
    rpc
}

// to words

fn hex(bytes: &[u8]) -> String {
    bytes.iter().map(|byte| format!("{byte:02x}")).collect()
}

fn of_bytes(bytes: &Option<Cow<[u8]>>) -> String {
    bytes.as_ref().map_or(ABSENT.into(), |bytes| hex(bytes))
}

fn of_string(text: &Option<Cow<str>>) -> String {
    text.as_ref().map_or(ABSENT.into(), |text| hex(text.as_bytes()))
}

fn of_number(number: Option<u64>) -> String {
    number.map_or(ABSENT.into(), |number| number.to_string())
}

/// an item of a name, its words, and a list of any length
fn item<T>(name: &str, words: &[String], list: &[T], word: impl Fn(&T) -> String) -> String {
    let mut all = vec![name.to_string()];
    all.extend_from_slice(words);
    all.extend(list.iter().map(word));
    all.join(",")
}

fn said(name: &str, words: &[String]) -> String {
    item(name, words, &[], |()| String::new())
}

fn to_words(rpc: &Rpc) -> String {
    let mut items = Vec::new();
    for s in &rpc.subscriptions {
        items.push(said("sub", &[of_number(s.subscribe.map(u64::from)), of_string(&s.topic)]));
    }
    for m in &rpc.publish {
        let topic = hex(m.topic.as_bytes());
        let words = [
            of_string(&m.from),
            of_bytes(&m.data),
            of_bytes(&m.seqno),
            topic,
            of_bytes(&m.signature),
            of_bytes(&m.key),
        ];
        items.push(said("publish", &words));
    }
    if let Some(control) = &rpc.control {
        let id = |id: &Cow<[u8]>| hex(id);
        items.push("control".into());
        items.extend(
            control.ihave.iter().map(|c| item("ihave", &[of_string(&c.topic)], &c.ids, id)),
        );
        items.extend(control.iwant.iter().map(|c| item("iwant", &[], &c.ids, id)));
        items.extend(control.graft.iter().map(|c| said("graft", &[of_string(&c.topic)])));
        let peer = |peer: &PeerInfo| format!("{}/{}", of_bytes(&peer.id), of_bytes(&peer.record));
        items.extend(
            control.prune.iter().map(|c| {
                item("prune", &[of_string(&c.topic), of_number(c.backoff)], &c.peers, peer)
            }),
        );
        items.extend(control.idontwant.iter().map(|c| item("idontwant", &[], &c.ids, id)));
    }
    items.join(" ")
}

fn write(line: &str) -> String {
    let mut bytes = Vec::new();
    from_words(line).write_message(&mut Writer::new(&mut bytes)).expect("a message");
    hex(&bytes)
}

/// a panic of the reader, an addition that overflows, is a refusal too
fn read(line: &str) -> String {
    let bytes = unhex(line);
    let words =
        || Rpc::from_reader(&mut BytesReader::from_bytes(&bytes), &bytes).map(|rpc| to_words(&rpc));
    std::panic::catch_unwind(words).ok().and_then(Result::ok).unwrap_or(REFUSED.into())
}

fn main() {
    let turn = match std::env::args().nth(1).as_deref() {
        Some("write") => write,
        Some("read") => read,
        _ => panic!("read or write"),
    };
    std::panic::set_hook(Box::new(|_| ()));
    let mut out = BufWriter::new(stdout().lock());
    for line in stdin().lock().lines() {
        writeln!(out, "{}", turn(&line.expect("a line"))).expect("a reader");
    }
}
