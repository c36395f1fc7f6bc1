//! Records counted by stepping (02, W7): the record that document 01 prints, and
//! lists that are no record list.

use charging_model::count::{count, in_turns, Count, Fault, Refused, MOST, STEP};
use charging_model::event::Name;
use charging_model::record::field;

const NAME: Name = Name { charging_id: 1, ggsn: [10, 0, 0, 2] };

/// Document 01's record with its mark: ID 1, GGSN 10.0.0.2, no number.
const PRINTED: &str = "
    C3 5A A0 6D 80 01 12 83 08 00 01 01 21 43 65 87 F9
    A5 06 80 04 0A 00 00 01 8A 01 01 AB 06 80 04 0A 00 00 02
    8C 01 61 8D 02 F1 21 AE 08 A0 06 80 04 0A 00 00 03
    AF 29 30 27 A2 0F 80 01 01 81 01 03 82 01 02 83 01 04
    84 01 00 83 02 01 90 84 02 02 57 85 01 02
    86 09 00 01 01 00 00 06 2B 00 00
    90 09 00 01 01 00 00 00 2B 00 00 91 01 06 93 01 00";

fn unhex(text: &str) -> Vec<u8> {
    text.split_whitespace().map(|pair| u8::from_str_radix(pair, 16).unwrap()).collect()
}

fn printed() -> Vec<u8> {
    unhex(PRINTED)
}

/// The printed record with fields behind its cause.
fn with(fields: &[u8]) -> Vec<u8> {
    let contents = [&printed()[4..], fields].concat();
    [vec![0xC3, 0x5A], field(0xA0, &contents)].concat()
}

fn counted(records: usize, number: Option<u64>) -> Result<Count, Refused> {
    Ok(Count { records, number })
}

fn refused(fault: Fault, at: usize) -> Result<Count, Refused> {
    Err(Refused { fault, at })
}

#[test]
fn the_printed_record() {
    assert_eq!(printed().len(), 113);
    assert_eq!(count(&[], NAME), counted(0, None));
    assert_eq!(count(&printed(), NAME), counted(1, None));
    let other = Name { ggsn: [10, 0, 0, 3], ..NAME };
    assert_eq!(count(&printed(), other), counted(0, None));
    let other = Name { charging_id: 0x0100_0001, ..NAME };
    assert_eq!(count(&printed(), other), counted(0, None));
}

/// "the number the last one carries": none where it carries none.
#[test]
fn the_last_one() {
    let seven = with(&[0x95, 1, 7]);
    assert_eq!(count(&[seven.clone(), printed()].concat(), NAME), counted(2, None));
    assert_eq!(count(&[printed(), seven].concat(), NAME), counted(2, Some(7)));
    for contents in [&[][..], &[0], &[0xFF], &[0, 7], &[1, 0, 0, 0, 0, 0, 0, 0, 0]] {
        assert_eq!(count(&with(&field(0x95, contents)), NAME), counted(1, None));
    }
    let most = field(0x95, &[&[0][..], &[0xFF; 8]].concat());
    assert_eq!(count(&with(&most), NAME), counted(1, Some(u64::MAX)));
}

/// An M-CDR is stepped past, whatever it holds.
#[test]
fn the_outer_tag() {
    let mut octets = printed();
    octets[2] = 0xA2;
    assert_eq!(count(&octets, NAME), counted(0, None));
    octets[2] = 0xA1;
    assert_eq!(count(&octets, NAME), refused(Fault::Value, 2));
}

/// Every list that ends within its second record is cut at its mark.
#[test]
fn cut_lists() {
    let list = [printed(), printed()].concat();
    for end in 114..226 {
        assert_eq!(count(&list[..end], NAME), refused(Fault::Cut, 113));
    }
    assert_eq!(count(&[0xC3, 0x5A, 0xA0, 0x82, 0xFF], NAME), refused(Fault::Cut, 0));
    assert_eq!(count(&[0xC3, 0x5A, 0xA0, 0x82, 0xFF, 0xFF], NAME), refused(Fault::Value, 2));
    assert_eq!(count(&[0xC3, 0x5A, 0xA0, 0x80, 0], NAME), refused(Fault::Cut, 0));
    assert_eq!(count(&[0xC3, 0x5A, 0xA0, 0x80, 0, 0], NAME), refused(Fault::Value, 2));
}

#[test]
fn damaged_lists() {
    let mut octets = [printed(), printed()].concat();
    octets[113] = 0xC2;
    assert_eq!(count(&octets, NAME), refused(Fault::Mark, 113));
    octets[113] = 0xC3;
    // the IMSI's length in the second record: no field behind it
    octets[113 + 8] = 0x80;
    assert_eq!(count(&octets, NAME), refused(Fault::Field, 113 + 7));
    // behind another name nothing is looked at
    octets[113 + 8] = 8;
    octets[113 + 27] = 2;
    octets[113 + 29] = 0x80;
    assert_eq!(count(&octets, NAME), counted(1, None));
}

/// A record of 1,024 octets is the longest; in windows it is the same.
#[test]
fn the_longest() {
    let padded = |more: usize| with(&field(0x9E, &vec![0; MOST - 4 - 109 - 4 + more]));
    assert_eq!(padded(0).len(), STEP);
    let list = [padded(0), printed(), padded(0), with(&[0x95, 1, 7])].concat();
    let mut turns = 0;
    assert_eq!(in_turns(&list, NAME, STEP, |_| turns += 1), counted(4, Some(7)));
    assert_eq!(turns, 4);
    assert_eq!(count(&list, NAME), counted(4, Some(7)));
    assert_eq!(count(&padded(1), NAME), refused(Fault::Value, 2));
}
