//! One page of a trace, in one file: the mesh of each topic and the scores over
//! time, every event with its answer, and in words why a peer is in or out.
//! The page says "hub", as the people do who read it, where the code says peer.

pub mod causes;
pub mod changes;
pub mod history;
pub mod html;
pub mod json;
pub mod outside;
pub mod proved;
pub mod reasons;
pub mod standing;
pub mod story;
pub mod subject;
pub mod words;
