//! Vectors for reading, checking and writing parameters.

use reference::generate::params::with;
use reference::params::{self, general, Edition, Params, Refusal, COUNT};

const EXPECTED_GENERAL: [i64; 19] =
    [4, 6, 12, 2, 4, 60, 10, 3600, 1000, -40000, -10000, -20000, 50000, 1, -5, 16, -10, 970, 10];
const EXPECTED_TOPIC: [i64; 16] =
    [500, 1, 60000, 10, 1, 990, 20000, -1, 990, 4000, 1000, 120000, -1, 970, -10, 998];

fn refusal(number: u32, place: usize) -> Result<(Params, usize), Refusal> {
    Err(Refusal { number, place })
}

#[test]
fn ordinary_numbers() {
    let ordinary = Params::ordinary();
    assert_eq!(ordinary.numbers[..19], EXPECTED_GENERAL);
    for topic in ordinary.numbers[19..].chunks(16) {
        assert_eq!(topic, EXPECTED_TOPIC);
    }
    assert_eq!(ordinary.first_broken(), None);
}

#[test]
fn reading_undoes_writing() {
    let ordinary = Params::ordinary();
    let mut buffer = [0xee; 800];
    let length = params::write(&ordinary, &mut buffer).unwrap();
    assert_eq!(params::read(&buffer[..length]), Ok((ordinary, length)));
    assert!(buffer[length..].iter().all(|&byte| byte == 0xee));
}

#[test]
fn bytes_that_end() {
    assert_eq!(params::read(&[]), refusal(10, 0));
    let bytes = Params::ordinary().to_bytes();
    // The last number, 998, has two bytes: without both, and without one.
    let end = bytes.len() - 2;
    assert_eq!(params::read(&bytes[..end]), refusal(10, end));
    assert_eq!(params::read(&bytes[..end + 1]), refusal(10, end));
}

#[test]
fn bytes_left_over() {
    let mut bytes = Params::ordinary().to_bytes();
    let length = bytes.len();
    bytes.push(0);
    assert_eq!(params::read(&bytes), refusal(10, length));
}

#[test]
fn malformed_before_broken() {
    let mut bytes = with(&Params::ordinary(), &[(0, 0)]).to_bytes();
    assert_eq!(params::read(&bytes), refusal(9, 0));
    let length = bytes.len();
    bytes.push(0);
    assert_eq!(params::read(&bytes), refusal(10, length));
    bytes.splice(1..2, [0x80, 0x00]);
    assert_eq!(params::read(&bytes), refusal(10, 1));
}

#[test]
fn joint_rules() {
    let ordinary = Params::ordinary();
    let broken = |changes| with(&ordinary, changes).first_broken();
    assert_eq!(broken(&[(general::D_LO, 5), (general::D, 4)]), Some(200));
    assert_eq!(broken(&[(general::D_OUT, 4), (general::D_LO, 4)]), Some(202));
    assert_eq!(broken(&[(general::D_OUT, 4), (COUNT - 1, 1000)]), Some(COUNT - 1));
}

#[test]
fn short_buffer_before_broken() {
    let broken = with(&Params::ordinary(), &[(0, 0)]);
    assert_eq!(params::write(&broken, &mut [0; 734]), Err(Refusal { number: 8, place: 0 }));
    assert_eq!(params::write(&broken, &mut [0; 735]), Err(Refusal { number: 9, place: 0 }));
}

#[test]
fn shown() {
    assert_eq!(params::show(&[]), "10 0\n");
    let text = params::show(&Params::ordinary().to_bytes());
    assert_eq!(text.lines().count(), 148);
    assert!(text.starts_with("0 "));
    assert!(text.ends_with("\n-10\n998\n"));
}

// Order 14 of 02: "Edition 2 of the sheet has the bytes 00 02 in front and, in place of the joint rule on
// D_score and under its number, asks only D_score ≤ D; the bare 147 numbers are edition 1, with 01's rules."

/// The ordinary parameters in edition 2, some numbers replaced.
fn second(changes: &[(usize, i64)]) -> Params {
    with(&Params::ordinary(), changes).in_edition(Edition::Two)
}

#[test]
fn the_front_of_edition_2() {
    let bare = Params::ordinary().to_bytes();
    let bytes = [&[0x00, 0x02], &bare[..]].concat();
    assert_eq!(second(&[]).to_bytes(), bytes);
    assert_eq!(params::read(&bytes), Ok((second(&[]), bare.len() + 2)));
    assert_eq!(params::read(&bare).map(|(params, _)| params.edition), Ok(Edition::One));
    let text = params::show(&bytes);
    assert_eq!(text.lines().next(), Some(&*format!("0 {}", bare.len() + 2)));
    assert_eq!(text.lines().count(), 148);
}

#[test]
fn keep_five_of_six() {
    // "The public text allows D_score 5 with D 6 and D_out 2, and 01 refuses it."
    for (d_score, first, other) in [(4, None, None), (5, Some(204), None), (6, Some(204), None)] {
        let params = second(&[(general::D_SCORE, d_score)]);
        assert_eq!(params.first_broken(), other);
        assert_eq!(params.in_edition(Edition::One).first_broken(), first);
    }
    let over = second(&[(general::D_SCORE, 7)]);
    assert_eq!(params::read(&over.to_bytes()), refusal(9, 204));
    // The other rules are 01's: D_out < D_lo comes before it, publish ≤ gossip after it.
    assert_eq!(second(&[(general::D_SCORE, 7), (general::D_OUT, 4)]).first_broken(), Some(202));
    let publish = (general::PUBLISH_THRESHOLD, -9_999);
    assert_eq!(second(&[(general::D_SCORE, 7), publish]).first_broken(), Some(204));
    assert_eq!(second(&[(general::D_SCORE, 5), publish]).first_broken(), Some(205));
}

#[test]
fn other_fronts_are_edition_1() {
    let bare = Params::ordinary().to_bytes();
    // D_lo 0 and D -2, and then 145 good numbers: nothing but the limits is broken.
    assert_eq!(params::read(&[&[0x00, 0x03], &bare[2..]].concat()), refusal(9, 0));
    assert_eq!(params::read(&[&[0x00], &bare[1..]].concat()), refusal(9, 0));
    // With 147 after it, the last two are left over, -10 and 998, of three bytes: 10 comes before 9.
    assert_eq!(params::read(&[&[0x00, 0x03], &bare[..]].concat()), refusal(10, bare.len() + 2 - 3));
    // 82 00 is 2 overlong, so no front.
    assert_eq!(params::read(&[&[0x00, 0x82, 0x00], &bare[..]].concat()), refusal(10, 1));
    assert_eq!(params::read(&[0x00]), refusal(10, 1));
    assert_eq!(params::read(&[0x00, 0x03]), refusal(10, 2));
}

#[test]
fn places_of_edition_2() {
    // Places of bytes count the front, indices do not.
    assert_eq!(params::read(&[0x00, 0x02]), refusal(10, 2));
    assert_eq!(params::read(&second(&[(0, 0)]).to_bytes()), refusal(9, 0));
    assert_eq!(params::read(&second(&[(COUNT - 1, 1000)]).to_bytes()), refusal(9, COUNT - 1));
    let good = second(&[]).to_bytes();
    for length in 0..good.len() {
        let Err(Refusal { number: 10, place }) = params::read(&good[..length]) else {
            panic!("{length} bytes are read");
        };
        assert!(place <= length && (length < 2 || place >= 2), "{length}: {place}");
    }
    let mut followed = good.clone();
    followed.push(0);
    assert_eq!(params::read(&followed), refusal(10, good.len()));
    let mut overlong = good.clone();
    overlong.splice(2..3, [0x88, 0x00]);
    assert_eq!(params::read(&overlong), refusal(10, 2));
    // A front twice: D_lo is 0, D 1, and the last two numbers, of three bytes, are left over.
    let twice = [&[0x00, 0x02], &good[..]].concat();
    assert_eq!(params::read(&twice), refusal(10, good.len() + 2 - 3));
}

#[test]
fn writing_edition_2_needs_737_bytes() {
    let refused = |number, place| Err(Refusal { number, place });
    let good = second(&[(general::D_SCORE, 5)]);
    assert_eq!(params::write(&good, &mut [0; 736]), refused(8, 0));
    let mut buffer = [0xee; 737];
    let length = params::write(&good, &mut buffer).unwrap();
    assert_eq!(params::read(&buffer[..length]), Ok((good, length)));
    assert!(buffer[length..].iter().all(|&byte| byte == 0xee));
    let broken = second(&[(general::D_SCORE, 7)]);
    assert_eq!(params::write(&broken, &mut [0; 736]), refused(8, 0));
    assert_eq!(params::write(&broken, &mut [0; 737]), refused(9, 204));
    // Edition 1 needs 735 as before.
    let first = Params::ordinary();
    assert_eq!(params::write(&first, &mut [0; 735]), Ok(first.to_bytes().len()));
}
