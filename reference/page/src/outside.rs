//! The meshes by what a program printed alone: a call that is done, and the lines of
//! its actions. No program's tables are looked at.

use crate::history::History;
use crate::subject::Subject;
use reference::event::{Call, Event};
use reference::text::Line;
use std::collections::BTreeSet;

/// Members by topic and id.
#[derive(Default)]
struct Meshes(BTreeSet<(usize, u32)>);

/// Whether the meshes of a history are, after every event, those that the printed
/// lines amount to; else the first event after which they are not.
pub fn compare(subject: &Subject, history: &History) -> Result<(), String> {
    let mut meshes = Meshes::default();
    for (place, happened) in history.happened.iter().enumerate() {
        let Line::Event(event) = subject.line(place) else { continue };
        if happened.printed.first().is_some_and(|answer| answer.starts_with("0 ")) {
            meshes.done(event, &happened.printed[1..]);
        }
        for &topic in &history.topics {
            if meshes.of(topic) != history.members(place, topic) {
                return Err(format!(
                    "no page: the mesh of topic {topic} after event {}",
                    place + 1
                ));
            }
        }
    }
    Ok(())
}

impl Meshes {
    fn of(&self, topic: usize) -> Vec<u32> {
        self.0.range((topic, 0)..(topic + 1, 0)).map(|member| member.1).collect()
    }

    fn done(&mut self, event: &Event, actions: &[String]) {
        match event.call {
            Call::Disconnect { id } => self.0.retain(|member| u64::from(member.1) != id),
            Call::Unsubscribe { id, topic } | Call::Prune { id, topic, .. } => {
                self.0.remove(&(topic as usize, id as u32));
            }
            Call::Graft { id, topic } => {
                self.0.insert((topic as usize, id as u32));
                self.act(topic as usize, actions);
            }
            Call::Leave { topic } | Call::Heartbeat { topic, .. } => {
                self.act(topic as usize, actions)
            }
            _ => {}
        }
    }

    fn act(&mut self, topic: usize, actions: &[String]) {
        for line in actions {
            let mut words = line.split(' ');
            let kind = words.next();
            let Some(id) = words.next().and_then(|id| id.parse().ok()) else { continue };
            match kind {
                Some("G") => self.0.insert((topic, id)),
                _ => self.0.remove(&(topic, id)),
            };
        }
    }
}
