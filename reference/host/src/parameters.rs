//! The parameters on both sides: read from bytes, written to bytes, and a fresh router made of them.

use crate::cells::{self, CELLS};
use crate::counts::Counts;
use crate::lent::Lent;
use crate::library::{number, value, Library, Numbers};
use crate::pair::Difference;
use crate::stand_in::StandIn;
use reference::generate::params as generate_params;
use reference::params::{self, Edition, Params, COUNT};
use reference::random::Random;

/// The lengths of the buffers that parameters are written to.
const BUFFERS: [usize; 9] = [0, 1, 734, 735, 736, 737, 738, 800, 1500];

/// Numbers that are no edition's.
const NO_EDITIONS: [u64; 4] = [0, 3, 257, u64::MAX];

/// Inputs of more bytes are long.
const LONG: usize = 65_000;

/// An input on which the sides differ.
pub struct Failure {
    pub input: usize,
    pub kind: &'static str,
    pub bytes: Vec<u8>,
    pub difference: Difference,
}

/// The names that a comparison counts here.
pub fn wanted() -> impl Iterator<Item = String> {
    let of_editions = Edition::ALL.into_iter().flat_map(|edition| {
        let reads = [0, 9, 10].map(|answer| name("read", edition, answer));
        let writes = BUFFERS.into_iter().flat_map(move |length| {
            let answers: &[u32] = if length < edition.write_buffer() { &[8] } else { &[0, 9] };
            answers.iter().map(move |answer| write_name(length, edition, *answer))
        });
        let fresh = [0, 9].map(|answer| name("fresh", edition, answer));
        reads.into_iter().chain(writes).chain(fresh)
    });
    of_editions.chain(["write", "fresh"].map(|what| format!("{what}: no edition's number")))
}

fn name(what: &str, edition: Edition, answer: u32) -> String {
    format!("{what}: edition {}, answer {answer}", edition.number())
}

fn write_name(length: usize, edition: Edition, answer: u32) -> String {
    name(&format!("write to {length} bytes"), edition, answer)
}

/// How many inputs were compared, and how many were left out for their length.
pub struct Compared {
    pub inputs: usize,
    pub left_out: usize,
}

/// Compares so many inputs, but for those of more bytes than `longest`.
pub fn compare<L: Library>(
    library: &L,
    inputs: usize,
    longest: usize,
    random: &mut Random,
    counts: &mut Counts,
) -> Result<Compared, Box<Failure>> {
    let inputs = generate_params::inputs(inputs, random);
    let mut sides = Sides { library, counts, salt: 0 };
    let mut left_out = 0;
    for (place, input) in inputs.iter().enumerate() {
        if input.bytes.len() > longest {
            left_out += 1;
            continue;
        }
        announce(place, &input.bytes);
        let found = sides.all(&input.bytes, place);
        found.map_err(|difference| {
            let (kind, bytes) = (input.kind, input.bytes.clone());
            Box::new(Failure { input: place, kind, bytes, difference })
        })?;
    }
    Ok(Compared { inputs: inputs.len() - left_out, left_out })
}

/// Long inputs are named beforehand: a reader that runs out of stack leaves no later word.
fn announce(place: usize, bytes: &[u8]) {
    if bytes.len() > LONG {
        let (length, first) = (bytes.len(), bytes[0]);
        println!("reading input {place}: {length} bytes, the first {first:#04x}");
    }
}

struct Sides<'a, L> {
    library: &'a L,
    counts: &'a mut Counts,
    /// The pattern of lent memory, another each time.
    salt: u64,
}

fn differ_if(differs: bool, told: impl FnOnce() -> String) -> Result<(), Difference> {
    if differs {
        Err(Difference(vec![told()]))
    } else {
        Ok(())
    }
}

fn numbers_of(lent: &mut Lent<i64>) -> &mut Numbers {
    lent.lent_mut().try_into().expect("147 numbers are lent")
}

fn same_result(what: &str, library: u64, second: u64) -> Result<(), Difference> {
    differ_if(library != second, || {
        let shown = |result| format!("{} {}", number(result), value(result));
        format!("{what}: library {}, second program {}", shown(library), shown(second))
    })
}

impl<L: Library> Sides<'_, L> {
    /// The bytes are read; and where they are 147 numbers, good or not, these are written, into buffers of
    /// two lengths, and made a fresh router.
    fn all(&mut self, bytes: &[u8], place: usize) -> Result<(), Difference> {
        self.ordinary()?;
        self.read(bytes)?;
        if let Ok((params, _)) = params::read_numbers(bytes) {
            self.write(&params, BUFFERS[place % BUFFERS.len()])?;
            self.write(&params, params.edition.write_buffer() + place % 2)?;
            self.fresh(&params)?;
            self.of_no_edition(&params.numbers, NO_EDITIONS[place % NO_EDITIONS.len()])?;
        }
        Ok(())
    }

    fn next_salt(&mut self) -> u64 {
        self.salt += 1;
        self.salt
    }

    fn ordinary(&mut self) -> Result<(), Difference> {
        let mut lent: Lent<i64> = Lent::new(COUNT, self.next_salt());
        self.library.ordinary(numbers_of(&mut lent));
        let same = lent.lent() == Params::ordinary().numbers && lent.guards_stand();
        differ_if(!same, || "the ordinary parameters differ".to_string())
    }

    fn read(&mut self, bytes: &[u8]) -> Result<(), Difference> {
        let mut lent: Lent<i64> = Lent::new(COUNT, self.next_salt());
        let mut other = *numbers_of(&mut lent);
        let (mut told, mut expected) = (7, 7);
        let library = self.library.read(bytes, numbers_of(&mut lent), &mut told);
        let second = StandIn.read(bytes, &mut other, &mut expected);
        same_result("read", library, second)?;
        differ_if(lent.lent() != other, || "read: the numbers differ".to_string())?;
        differ_if(told != expected, || "read: the editions differ".to_string())?;
        let refused = number(library) != 0;
        differ_if(!lent.guards_stand() || refused && !lent.stands_from(0), || {
            "read: the library wrote where it may not".to_string()
        })?;
        self.counts.count(name("read", Edition::of(bytes), number(library)));
        Ok(())
    }

    fn write(&mut self, params: &Params, length: usize) -> Result<(), Difference> {
        let mut lent: Lent<u8> = Lent::new(length, self.next_salt());
        let mut other = lent.lent().to_vec();
        let edition = cells::edition_cell(params.edition);
        let library = self.library.write(&params.numbers, edition, lent.lent_mut());
        let second = StandIn.write(&params.numbers, edition, &mut other);
        same_result("write", library, second)?;
        differ_if(lent.lent() != other, || "write: the bytes differ".to_string())?;
        let written = if number(library) == 0 { value(library) as usize } else { 0 };
        differ_if(!lent.guards_stand() || !lent.stands_from(written), || {
            "write: the library wrote where it may not".to_string()
        })?;
        if number(library) == 0 {
            self.read_again(params, &lent.lent()[..written])?;
        }
        self.counts.count(write_name(length, params.edition, number(library)));
        Ok(())
    }

    /// Each of reading and writing undoes the other.
    fn read_again(&mut self, params: &Params, bytes: &[u8]) -> Result<(), Difference> {
        let mut lent: Lent<i64> = Lent::new(COUNT, self.next_salt());
        let mut edition = 0;
        let result = self.library.read(bytes, numbers_of(&mut lent), &mut edition);
        let same = lent.lent() == params.numbers && edition == cells::edition_cell(params.edition);
        let whole = (number(result), value(result)) == (0, bytes.len() as u64);
        differ_if(!same || !whole, || "read does not undo write".to_string())
    }

    /// The table is full of other numbers before; what no state reads may be anything after.
    fn fresh(&mut self, params: &Params) -> Result<(), Difference> {
        let mut lent: Lent<u64> = Lent::new(CELLS, self.next_salt());
        let table = lent.lent_mut().try_into().expect("a table has its cells");
        let edition = cells::edition_cell(params.edition);
        let library = self.library.fresh(&params.numbers, edition, table);
        let mut other = Box::new([0; CELLS]);
        other.copy_from_slice(lent.lent());
        let second = StandIn.fresh(&params.numbers, edition, &mut other);
        same_result("fresh", library, second)?;
        if lent.lent() != &other[..] {
            let cell = (0..CELLS).find(|&cell| lent.lent()[cell] != other[cell]).unwrap_or(0);
            let (library, second) = (lent.lent()[cell], other[cell]);
            let spot = cells::Spot::of(cell);
            let told =
                format!("fresh: cell {cell}, {spot}: library {library}, second program {second}");
            return Err(Difference(vec![told]));
        }
        let refused = number(library) != 0;
        differ_if(!lent.guards_stand() || refused && !lent.stands_from(0), || {
            "fresh: the library wrote where it may not".to_string()
        })?;
        self.counts.count(name("fresh", params.edition, number(library)));
        Ok(())
    }

    /// A number that is no edition's is 2, whatever else is wrong, and nothing is written.
    fn of_no_edition(&mut self, numbers: &Numbers, edition: u64) -> Result<(), Difference> {
        let mut table: Lent<u64> = Lent::new(CELLS, self.next_salt());
        let cells = table.lent_mut().try_into().expect("a table has its cells");
        same_result("fresh of no edition", self.library.fresh(numbers, edition, cells), 2)?;
        let mut buffer: Lent<u8> = Lent::new(1, self.next_salt());
        let result = self.library.write(numbers, edition, buffer.lent_mut());
        same_result("write of no edition", result, 2)?;
        let untouched = table.guards_stand() && table.stands_from(0);
        let untouched = untouched && buffer.guards_stand() && buffer.stands_from(0);
        differ_if(!untouched, || "of no edition: the library wrote".to_string())?;
        for what in ["write", "fresh"] {
            self.counts.count(format!("{what}: no edition's number"));
        }
        Ok(())
    }
}
