//! Times, runs of ids and events in words.

use reference::event::{Call, Event, EXPLICIT_FLAG, OUTBOUND_FLAG};
use reference::replay::points;

/// Milliseconds as a person reads them: 3.000 s, 1:04.000, 1:00:08.000.
pub fn clock(time: u64) -> String {
    let (seconds, rest) = (time / 1000, time % 1000);
    let (minutes, hours) = (seconds / 60, seconds / 3600);
    match (hours, minutes) {
        (0, 0) => format!("{seconds}.{rest:03} s"),
        (0, _) => format!("{minutes}:{:02}.{rest:03}", seconds % 60),
        _ => format!("{hours}:{:02}:{:02}.{rest:03}", minutes % 60, seconds % 60),
    }
}

/// Ids in their order as a person tells them: 3, 5-9, 12.
pub fn runs(ids: &[u32]) -> String {
    let mut words: Vec<String> = Vec::new();
    let mut rest = ids;
    while let [first, ..] = rest {
        let follows = |pair: &&[u32]| pair[1] == pair[0] + 1;
        let length = 1 + rest.windows(2).take_while(follows).count();
        let last = rest[length - 1];
        words.push(if length == 1 { first.to_string() } else { format!("{first}-{last}") });
        rest = &rest[length..];
    }
    words.join(", ")
}

/// "hub 3" or "hubs 3-9".
pub fn hubs(ids: &[u32]) -> String {
    format!("{} {}", if ids.len() == 1 { "hub" } else { "hubs" }, runs(ids))
}

/// What happens in an event, whatever comes of it.
pub fn said(event: &Event) -> String {
    match &event.call {
        Call::Connect { id, groups, flags, name } => connect(*id, groups, *flags, name),
        Call::Disconnect { id } => format!("Hub {id} disconnects"),
        Call::Join { topic } => format!("We join topic {topic}"),
        Call::Leave { topic } => format!("We leave topic {topic}"),
        Call::Subscribe { id, topic } => format!("Hub {id} subscribes to topic {topic}"),
        Call::Unsubscribe { id, topic } => format!("Hub {id} unsubscribes from topic {topic}"),
        Call::Graft { id, topic } => format!("Hub {id} sends GRAFT for topic {topic}"),
        Call::Prune { id, topic, seconds } => {
            format!("Hub {id} sends PRUNE for topic {topic}, {seconds} s")
        }
        Call::Delivery { id, topic, kind } => {
            format!("Hub {id} delivers {} in topic {topic}", delivery(*kind))
        }
        Call::SetP5 { id, value } => format!("The application gives hub {id} {}", mark(*value)),
        Call::Heartbeat { topic, ask: 1, .. } => {
            format!("Heartbeat of topic {topic}, with opportunism")
        }
        Call::Heartbeat { topic, .. } => format!("Heartbeat of topic {topic}"),
        Call::Decay => "All counters decay".to_string(),
        Call::Score { id } => format!("The score of hub {id} is asked"),
    }
}

fn connect(id: u64, groups: &[u64], flags: u64, name: &[u8]) -> String {
    let outbound = flags & OUTBOUND_FLAG != 0;
    let who =
        if outbound { format!("We connect to hub {id}") } else { format!("Hub {id} connects") };
    let direction = if outbound { "outbound" } else { "inbound" };
    let explicit = if flags & EXPLICIT_FLAG != 0 { ", explicit" } else { "" };
    let numbers: Vec<String> = groups.iter().map(u64::to_string).collect();
    let groups = match numbers.len() {
        0 => "no group".to_string(),
        1 => format!("group {}", numbers[0]),
        _ => format!("groups {}", numbers.join(", ")),
    };
    format!("{who}: {direction}{explicit}, {groups}, {}", String::from_utf8_lossy(name))
}

fn delivery(kind: u64) -> &'static str {
    match kind {
        1 => "a message first",
        2 => "a message as one of the first",
        3 => "an invalid message",
        _ => "something",
    }
}

/// Of P5, in millionths.
fn mark(value: i64) -> String {
    value
        .checked_mul(1000)
        .map_or("a mark out of range".to_string(), |value| format!("a mark of {}", points(value)))
}

#[cfg(test)]
mod tests {
    use super::*;

    #[test]
    fn times() {
        assert_eq!([0, 3000, 64_005].map(clock), ["0.000 s", "3.000 s", "1:04.005"]);
        assert_eq!(clock(3_608_000), "1:00:08.000");
    }

    #[test]
    fn ids() {
        assert_eq!(hubs(&[3]), "hub 3");
        assert_eq!(hubs(&[3, 5, 6, 7, 12]), "hubs 3, 5-7, 12");
    }
}
