//! The library's second array between calls, beside what the second program says that it should hold.

use super::held::Held;
use crate::lent::Lent;
use crate::table::owe;
use hivepadlet::gossip::{Gossip, GOSSIP_CELLS};
use reference::router::Router;

pub struct Array {
    lent: Lent<u64>,
    /// The array before the call.
    before: Vec<u64>,
}

impl Array {
    /// Nothing but a pattern.
    pub fn unmade() -> Array {
        let lent = Lent::new(GOSSIP_CELLS, 1);
        Array { before: lent.lent().to_vec(), lent }
    }

    /// A router's; the cells that no state reads are full of other numbers.
    pub fn of(router: &Router) -> Array {
        let mut array = Array::unmade();
        Held::of(router).write(array.cells_mut());
        array.note();
        array
    }

    /// What stands now is what was there before the next call.
    pub fn note(&mut self) {
        self.before.copy_from_slice(self.lent.lent());
    }

    pub fn load(&mut self, cells: &Gossip) {
        self.lent.lent_mut().copy_from_slice(cells);
        self.note();
    }

    pub fn cells(&self) -> &Gossip {
        self.lent.lent().try_into().expect("an array has its cells")
    }

    pub fn cells_mut(&mut self) -> &mut Gossip {
        self.lent.lent_mut().try_into().expect("an array has its cells")
    }

    /// The pattern stands: nothing was ever written.
    pub fn is_unmade(&self) -> bool {
        self.lent.guards_stand() && self.lent.stands_from(0)
    }

    /// Where the array does not hold what the second program's router holds.
    pub fn compare(&self, router: &Router, found: &mut Vec<String>) {
        let due = Held::of(router);
        match Held::read(self.cells()) {
            None => found.push("the array is not in form".to_string()),
            Some(held) => found.extend(differences(&held, &due)),
        }
    }

    /// What the library owes of it whatever the second program says: nothing written outside; a call that is
    /// refused or ignored changes nothing.
    pub fn judge(&self, number: u32, found: &mut Vec<String>) {
        owe(self.lent.guards_stand(), "the library wrote outside of the array", found);
        if number != 0 {
            let same = self.lent.lent() == self.before;
            owe(same, "a call that is refused or ignored changed the array", found);
        }
    }

    /// The next call begins with what stands.
    pub fn go_on(&mut self) {
        if self.lent.lent() != self.before {
            self.note();
        }
    }
}

/// Where two contents differ.
fn differences(library: &Held, second: &Held) -> Vec<String> {
    let mut found = Vec::new();
    let mut told = |what: String, library: String, second: String| {
        if library != second {
            found.push(format!("{what}: library {library}, second program {second}"));
        }
    };
    if library == second {
        return found;
    }
    let shown = |held: &Held| format!("{:?}", held.set_up);
    told("set-up numbers".to_string(), shown(library), shown(second));
    for (slot, (ours, theirs)) in library.notes.iter().zip(&second.notes).enumerate() {
        told(format!("slot {slot}"), format!("{ours:?}"), format!("{theirs:?}"));
    }
    for (topic, (ours, theirs)) in library.stores.iter().zip(&second.stores).enumerate() {
        told(format!("store of topic {topic}"), format!("{ours:?}"), format!("{theirs:?}"));
    }
    let shown = |held: &Held| format!("{:?}", held.replies);
    told("replies by number and slot".to_string(), shown(library), shown(second));
    found
}
