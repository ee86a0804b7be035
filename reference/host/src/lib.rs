//! The in-process comparison: the proved library, by its C functions, and the second program's router
//! get the same calls; answers, action lists and every cell that the state reads must be the same after each.

pub mod cells;
pub mod counts;
pub mod damage;
pub mod edges;
pub mod forms;
pub mod gossip;
pub mod harmless;
pub mod lent;
pub mod library;
#[cfg(linked)]
pub mod linked;
pub mod made;
pub mod messages;
pub mod pair;
pub mod parameters;
pub mod report;
pub mod request;
pub mod rows;
pub mod runs;
pub mod saves;
pub mod spot;
pub mod stand_in;
pub mod swept;
pub mod table;

/// What a comparison says where there is nothing to compare with.
pub const UNLINKED: &str =
    "libhost.a is not linked: build it with HIVEPADLET_LIB, the folder of it";
