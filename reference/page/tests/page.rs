//! What the page shows, against the second program run on its own, on the traces for
//! people and on random ones; and what the page may not do.

use page::history::{History, Size};
use page::standing::Place;
use page::subject::Subject;
use page::{html, outside, story};
use reference::coverage::Coverage;
use reference::generate::traces;
use reference::params::TOPICS;
use reference::random::Random;
use reference::router::{Router, Status, ACTION_LIST};
use reference::text::{self, Line, Trace};
use reference::trace;
use std::fs;
use std::path::PathBuf;

fn folder() -> PathBuf {
    PathBuf::from(env!("CARGO_MANIFEST_DIR")).join("../../traces")
}

fn read(name: &str) -> Subject {
    let text = fs::read_to_string(folder().join(format!("{name}.txt"))).expect("a trace");
    Subject::read(name, &text).expect("a good text")
}

fn history(subject: &Subject) -> History {
    History::of(subject, &mut |_| {})
}

fn names() -> Vec<String> {
    let files = fs::read_dir(folder()).expect("the traces");
    let paths = files.map(|file| file.expect("a file").path());
    let texts = paths.filter(|path| path.extension().is_some_and(|end| end == "txt"));
    let name = |path: PathBuf| path.file_stem().map(|stem| stem.to_string_lossy().into_owned());
    let mut names: Vec<String> = texts.filter_map(name).collect();
    names.sort();
    names
}

/// The history after every event, against a router of its own.
fn agrees(subject: &Subject) {
    let history = history(subject);
    let bytes = subject.trace.to_bytes();
    assert_eq!(history.printed(), trace::run(&bytes), "{}", subject.name);
    let Ok((_, params, _)) = trace::read_start(&bytes) else {
        assert_eq!(history.happened.len(), 0);
        return;
    };
    assert_eq!(history.happened.len(), subject.trace.lines.len());
    assert_eq!(outside::compare(subject, &history), Ok(()));
    let mut router = Router::new(params).expect("good parameters");
    let mut list = [0; ACTION_LIST];
    for (event, line) in subject.trace.lines.iter().enumerate() {
        if let Line::Event(event) = line {
            let _ = router.call(event, &mut list);
        }
        agrees_after(&history, &router, event);
    }
}

fn agrees_after(history: &History, router: &Router, event: usize) {
    assert_eq!(history.happened[event].clock, router.clock);
    for &topic in &history.topics {
        let mesh = router.mesh(topic);
        let mut ids: Vec<u32> = mesh.iter().map(|&slot| router.peers[slot].id).collect();
        ids.sort_unstable();
        assert_eq!(history.members(event, topic), ids);
        let outbound = mesh.iter().filter(|&&slot| router.peers[slot].outbound).count();
        let size = Size { outbound, inbound: mesh.len() - outbound };
        assert_eq!(history.sizes[topic].at(event), Some(&size));
    }
    for (slot, peer) in router.peers.iter().enumerate().filter(|(_, peer)| peer.id != 0) {
        let shown = &history.peers[&peer.id];
        let why = (peer.status == Status::Connected).then(|| router.why(slot));
        assert_eq!(shown.scores.at(event), Some(&why));
        for &topic in &history.topics {
            let told = shown.topics[topic].at(event).expect("a standing");
            let runs = peer.backoff_running(topic, router.clock);
            assert_eq!(told.standing.backoff_end > 0, runs);
            assert_eq!(told.standing.place == Place::Kept, peer.status == Status::Retained);
            assert!(told.words.ends_with('.'), "{}", told.words);
        }
    }
}

#[test]
fn the_traces_for_people() {
    let names = names();
    assert!(names.len() >= 19, "{names:?}");
    for name in names {
        agrees(&read(&name));
    }
}

#[test]
fn random_traces() {
    let (mut random, mut coverage) = (Random::new(20261117), Coverage::default());
    let mut events = 0;
    for _ in 0..40 {
        let bytes = traces::trace(&mut random, &mut coverage).bytes;
        let written = text::print(&Trace::from_bytes(&bytes));
        let subject = Subject::read("random", &written).expect("a good text");
        assert_eq!(subject.trace.to_bytes(), bytes);
        agrees(&subject);
        events += subject.trace.lines.len();
    }
    assert!(events > 2000, "{events}");
}

#[test]
fn a_mesh_that_was_not_printed_is_seen() {
    let subject = read("why_hub_19");
    let mut history = history(&subject);
    history.happened[12].printed = vec!["0 0".to_string()];
    assert!(outside::compare(&subject, &history).is_err_and(|words| words.ends_with("event 13")));
}

#[test]
fn hub_19_is_out_by_its_group() {
    let subject = read("why_hub_19");
    let history = history(&subject);
    assert_eq!((history.happened.len(), history.peers.len(), history.topics.len()), (21, 4, 1));
    assert_eq!(history.opening(), 13);
    let told = history.peers[&19].topics[0].at(13).expect("a standing");
    assert_eq!(told.standing.code(), "B-");
    let wanted = "Its score is -20.0 points: address group -20.0 (4 hubs in group 7, where 2 are \
                  free of charge), behaviour penalty -10.0 (GRAFTs during a backoff), offset by \
                  topics 8.0, application 2.0.";
    assert!(told.words.contains(wanted), "{}", told.words);
    let at_end = history.peers[&19].topics[0].at(20).expect("a standing");
    assert_eq!(at_end.standing.code(), "I");
}

#[test]
fn a_line_with_many_ids_is_one_step() {
    let subject = read("whole_street");
    let runs = subject.runs();
    assert_eq!((runs.len(), subject.trace.lines.len()), (17, 533));
    assert_eq!((runs[0].clone(), runs[1].clone()), (0..=199, 200..=255));
    let ids: Vec<u32> = history(&subject).peers.keys().copied().collect();
    assert_eq!(html::alike(&ids, &subject, |_, _| String::new()), [ids]);
}

#[test]
fn words_of_the_text_stand_beside_their_events() {
    let subject = read("why_hub_19");
    assert!(subject.head.starts_with("The building manager asks"));
    assert_eq!(subject.notes[8].before, "Three more of its group come.");
    assert_eq!(subject.notes[14].beside, "here the manager asks");
}

#[test]
fn refused_parameters_have_a_page() {
    let subject = read("without_joint_rule");
    let history = history(&subject);
    assert_eq!(history.refused.as_deref(), Some("9 204"));
    assert!(html::page(&subject, &history).contains("The parameters are refused: 9 204"));
    assert!(story::story(&subject, &history).contains("the parameters are refused: 9 204"));
}

/// Nothing of a trace becomes markup, and nothing is asked of a network.
#[test]
fn nothing_of_a_trace_is_markup() {
    let hostile = "</script><img src=x onerror=alert(1)>{{DATA}}<!--";
    let text = format!(
        "# {hostile}\nparams ordinary\nconnect time=0 id=1 group=1 inbound /{}\n\
         join time=0 topic=0 # {hostile}\n",
        hostile.replace(' ', "")
    );
    let subject = Subject::read(hostile, &text).expect("a good text");
    let page = html::page(&subject, &history(&subject));
    assert!(!page.contains("<img"), "markup of a trace");
    assert_eq!(page.matches("</script").count(), 2);
    assert!(page.contains("id=\"data\">{\"name\":"), "the data stand in their place");
    let elsewhere = page.replace("http://www.w3.org/2000/svg", "");
    for word in ["http:", "https:", "//cdn", "@import", "src=\"", "href="] {
        assert!(!elsewhere.contains(word), "{word}");
    }
    assert!(page.contains("default-src 'none'"));
}

/// Words of every sentence.
const SENTENCES: [&str; 24] = [
    "its own GRAFT was taken",
    "under D_lo",
    "fewer outbound hubs than D_out",
    "above the median",
    "as its score was below zero",
    "over D_hi",
    "for an outbound hub",
    "it sent a PRUNE",
    "it unsubscribed",
    "we left the topic",
    "its connection ended",
    "it is an explicit hub",
    "its backoff was still running, an offence",
    "not taken: its score was below zero",
    "it had not subscribed",
    "was full at D_hi",
    "graylist threshold",
    "Its backoff is over",
    "too few messages in topic",
    "too few messages when it was pruned",
    "invalid messages in topic",
    "Nothing keeps it out",
    "The next heartbeat prunes it",
    "Its record is gone",
];

/// Every sentence is there, and every cause is reached, by the traces for people and
/// random ones together.
#[test]
fn every_standing_is_reached() {
    let (mut random, mut coverage) = (Random::new(7), Coverage::default());
    let mut seen = String::new();
    let mut note = |subject: &Subject| {
        for peer in history(subject).peers.values() {
            let changes = (0..TOPICS).flat_map(|topic| peer.topics[topic].all());
            seen.extend(
                changes.map(|change| format!("{} {}\n", change.1.standing.code(), change.1.words)),
            );
        }
    };
    names().iter().for_each(|name| note(&read(name)));
    for _ in 0..40 {
        let bytes = traces::trace(&mut random, &mut coverage).bytes;
        let written = text::print(&Trace::from_bytes(&bytes));
        note(&Subject::read("random", &written).expect("a good text"));
    }
    let missing: Vec<&&str> = SENTENCES.iter().filter(|words| !seen.contains(**words)).collect();
    assert!(missing.is_empty(), "never said: {missing:?}");
    for letter in ["O", "I", "E", "B", "N", "U", "W", "F", "K", "I-", "B-", "F!"] {
        assert!(seen.contains(&format!("\n{letter} ")), "never shown: {letter}");
    }
}
