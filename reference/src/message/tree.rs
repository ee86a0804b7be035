//! A message as a tree of its fields, so that fields can be left out and the lengths around
//! them still be right: for making failures small.

use super::field::{Content, Field, Fields};
use super::holder::Holder;
use crate::groups::write_unsigned;
use crate::shrink::shrink;

#[derive(Clone, PartialEq, Eq, Debug)]
enum Node {
    /// A field as it stands, or what is left from a broken one on.
    Bytes(Vec<u8>),
    /// A field that holds fields: its tag as it stands, and them.
    Holder(Vec<u8>, Vec<Node>),
}

/// A message that still fails, with as few fields and then as few bytes as can be found, and
/// numbers in their shortest form where that does.
pub fn shrink_message(message: Vec<u8>, fails: impl Fn(&[u8]) -> bool) -> Vec<u8> {
    let mut shortest = message;
    for form in [as_it_stands, shortest_form] {
        let tree = nodes(form, Holder::Rpc, Fields::of_message(&shortest));
        if fails(&bytes_of(&tree)) {
            shortest = bytes_of(&shrink_nodes(tree, &|nodes| fails(&bytes_of(nodes))));
        }
    }
    shrink(shortest, fails)
}

/// How a field is written: its tag, and all of it; from the field and its own bytes.
type Form = fn(&Field, &[u8]) -> (Vec<u8>, Vec<u8>);

fn as_it_stands(_: &Field, bytes: &[u8]) -> (Vec<u8>, Vec<u8>) {
    let tag = bytes.iter().take_while(|&&byte| byte >= 0x80).count() + 1;
    (bytes[..tag].to_vec(), bytes.to_vec())
}

fn shortest_form(field: &Field, bytes: &[u8]) -> (Vec<u8>, Vec<u8>) {
    let mut tag = Vec::new();
    write_unsigned(field.number << 3 | field.wire_type, &mut tag);
    let mut all = tag.clone();
    match &field.content {
        Content::Number(value) => write_unsigned(*value, &mut all),
        Content::Bytes(inside) => {
            write_unsigned(inside.bytes().len() as u64, &mut all);
            all.extend(inside.bytes());
        }
        Content::Fixed(length) => all.extend(&bytes[bytes.len() - length..]),
    }
    (tag, all)
}

fn nodes(form: Form, holder: Holder, mut fields: Fields) -> Vec<Node> {
    let mut nodes = Vec::new();
    loop {
        let from = fields.place();
        let field = match fields.next_field() {
            Ok(None) => return nodes,
            Ok(Some(field)) => field,
            Err(_) => {
                nodes.push(Node::Bytes(fields.from(from).to_vec()));
                return nodes;
            }
        };
        let (tag, all) = form(&field, &fields.from(from)[..fields.place() - from]);
        nodes.push(match (&field.content, holder.inside(field.number)) {
            (Content::Bytes(inside), Some(inner)) => {
                Node::Holder(tag, self::nodes(form, inner, inside.fields()))
            }
            _ => Node::Bytes(all),
        });
    }
}

fn bytes_of(nodes: &[Node]) -> Vec<u8> {
    let mut bytes = Vec::new();
    for node in nodes {
        match node {
            Node::Bytes(own) => bytes.extend(own),
            Node::Holder(tag, inside) => {
                let inside = bytes_of(inside);
                bytes.extend(tag);
                write_unsigned(inside.len() as u64, &mut bytes);
                bytes.extend(inside);
            }
        }
    }
    bytes
}

fn shrink_nodes(nodes: Vec<Node>, fails: &dyn Fn(&[Node]) -> bool) -> Vec<Node> {
    let mut nodes = shrink(nodes, fails);
    for place in 0..nodes.len() {
        let Node::Holder(tag, inside) = nodes[place].clone() else { continue };
        let with = |inside: &[Node]| {
            let mut nodes = nodes.clone();
            nodes[place] = Node::Holder(tag.clone(), inside.to_vec());
            nodes
        };
        let inside = shrink_nodes(inside, &|inside| fails(&with(inside)));
        nodes = with(&inside);
    }
    nodes
}

#[cfg(test)]
mod tests {
    use super::*;
    use crate::generate::{messages, names};
    use crate::message::{entries, Entry, Kind, Names};
    use crate::random::Random;

    #[test]
    fn a_tree_holds_the_same_entries_and_the_same_break() {
        let mut random = Random::new(1);
        for _ in 0..5000 {
            let names = Names::of_table(&names::good(&mut random).table);
            let message = messages::damaged(&mut random, &names).bytes;
            for form in [as_it_stands, shortest_form] {
                let tree = nodes(form, Holder::Rpc, Fields::of_message(&message));
                let again = entries(&names, &bytes_of(&tree));
                match entries(&names, &message) {
                    Ok(entries) => assert_eq!(again, Ok(entries)),
                    Err(broken) => {
                        let again = again.expect_err("broken before");
                        assert_eq!((again.level, again.reason), (broken.level, broken.reason));
                    }
                }
            }
        }
    }

    #[test]
    fn keeps_what_is_needed() {
        let mut random = Random::new(2);
        let names = Names::of_table(&names::good(&mut random).table);
        let mut found = 0;
        for _ in 0..2000 {
            let message = messages::good(&mut random, &names).bytes;
            // Some PRUNE with a backoff of 60.
            let fails = |message: &[u8]| {
                let sixty = |entry: &Entry| entry.kind == Kind::Prune && entry.value == 60;
                entries(&names, message).is_ok_and(|found| found.iter().any(sixty))
            };
            if fails(&message) {
                let shortest = shrink_message(message, fails);
                assert_eq!(shortest, [0x1a, 4, 0x22, 2, 0x18, 60]);
                found += 1;
            }
        }
        assert!(found > 10);
    }
}
