//! What each row, each byte and each length makes of an import.

use crate::words::by_the_words;
use twin::medium::{place, place_at, WIPED};
use twin::segment::{Unfit, HEADER_BYTES};
use twin::tries::import_rows::rows;
use twin::tries::imports::{example, Import, STAMP};

/// The number that the import gives; declined, it leaves the medium as it was.
fn number(import: &Import) -> Option<u64> {
    let mut after = import.clone();
    let number = after.apply().err().map(|unfit| unfit.number());
    if number.is_some() {
        assert!(after == *import, "declined, it leaves the medium as it was");
    }
    number
}

#[test]
fn every_row() {
    for row in rows() {
        assert_eq!(number(&row.import), row.number, "{}", row.name);
    }
    let numbers = [Unfit::Length, Unfit::Unready, Unfit::Offset, Unfit::Record];
    assert_eq!(numbers.map(|unfit| unfit.number()), [1, 24, 25, 26]);
}

/// With whatever is behind the headers: a whole pair, one that would give 25, one that would give 26.
#[test]
fn each_bit_of_a_header_gives_24() {
    let bare = Import::whole(1, STAMP, &[]);
    let wrong_offset = example().with(|import| import.set_offset(1, 129));
    let wrong_record = example().with(|import| import.pair.data.push(0));
    for whole in [bare, example(), wrong_offset, wrong_record] {
        for bit in 0..8 * HEADER_BYTES {
            let (at, changed) = (bit / 8, 1 << (bit % 8));
            let data = whole.with(|import| import.pair.data[at] ^= changed);
            let index = whole.with(|import| import.pair.index[at] ^= changed);
            let both = data.with(|import| import.pair.index[at] ^= changed);
            assert_eq!([data, index, both].map(|import| number(&import)), [Some(24); 3]);
        }
    }
}

#[test]
fn each_bit_of_a_place_gives_24() {
    for whole in [Import::whole(2, STAMP, &[]), example()] {
        for bit in 8 * place_at(1)..8 * whole.medium.len() {
            let import = whole.with(|import| import.medium[bit / 8] ^= 1 << (bit % 8));
            assert_eq!(number(&import), Some(24), "bit {bit}");
        }
    }
}

/// Behind the records too.
#[test]
fn each_place_is_looked_at() {
    let whole = Import::whole(1000, STAMP, &[]);
    for place in (1..=1000).step_by(37).chain([999, 1000]) {
        for at in [place_at(place), place_at(place) + 71] {
            assert_eq!(number(&whole.with(|import| import.medium[at] = 1)), Some(24));
        }
    }
}

#[test]
fn each_bit_of_an_offset_gives_25_and_of_a_record_25_or_26() {
    let whole = example();
    for bit in 8 * HEADER_BYTES..8 * whole.pair.index.len() {
        let import = whole.with(|import| import.pair.index[bit / 8] ^= 1 << (bit % 8));
        assert_eq!(number(&import), Some(25), "bit {bit} of the index");
    }
    // A length field that is still up to 28 moves the second offset.
    let length_field = 8 * (HEADER_BYTES + 32)..8 * (HEADER_BYTES + 36);
    for bit in 8 * HEADER_BYTES..8 * whole.pair.data.len() {
        let import = whole.with(|import| import.pair.data[bit / 8] ^= 1 << (bit % 8));
        let moved = length_field.contains(&bit) && import.pair.data[HEADER_BYTES + 35] <= 28;
        let moved = moved && import.pair.data[HEADER_BYTES + 32..][..3] == [0; 3];
        let expected = if moved { 25 } else { 26 };
        assert_eq!(number(&import), Some(expected), "bit {bit} of the data");
    }
}

/// Each length of each file, from none to more than the whole.
#[test]
fn each_length() {
    let whole = example();
    let exact = whole.pair.lengths();
    for length in 0..=exact[0] + 80 {
        let import = whole.with(|import| import.pair.data.resize(length, 0));
        let expected = match length {
            0..128 => Some(24),
            _ if length == exact[0] => None,
            _ => Some(26),
        };
        assert_eq!(number(&import), expected, "data of {length}");
        assert_eq!(by_the_words(&import), expected);
    }
    for length in 0..=exact[1] + 80 {
        let import = whole.with(|import| import.pair.index.resize(length, 0));
        let expected = match length {
            _ if length < 128 || length % 8 != 0 => Some(1),
            128 | 136 => Some(26),
            144 => None,
            _ => Some(24),
        };
        assert_eq!(number(&import), expected, "index of {length}");
        assert_eq!(by_the_words(&import), expected);
    }
    for length in (0..=whole.medium.len() + 80).filter(|&length| length != whole.medium.len()) {
        let import = whole.with(|import| import.medium.resize(length, 0));
        assert_eq!(number(&import), Some(1), "medium of {length}");
    }
}

/// More offsets than records, in a medium that has room for them: the file ends first.
#[test]
fn an_offset_too_many() {
    let whole = Import::whole(3, STAMP, &[]);
    for (offset, expected) in [(128, 26), (0, 25), (129, 25)] {
        let import = whole.with(|import| {
            import.pair.index.resize(136, 0);
            import.set_offset(1, offset)
        });
        assert_eq!(number(&import), Some(expected));
    }
}

/// Slots are neither looked at nor written, and behind the records nothing is written.
#[test]
fn only_the_places_of_the_records_are_written() {
    for fill in [0x00, 0x5A, 0xAA, 0xFF] {
        let mut import = Import::whole(4, STAMP, &[]);
        import.pair = example().pair;
        import.medium[..64].fill(fill);
        assert_eq!(import.apply(), Ok(()));
        assert_eq!(import.medium[..64], [fill; 64]);
        assert_eq!([3, 4].map(|number| place(&import.medium, number)), [WIPED; 2]);
        assert_ne!(place(&import.medium, 2), WIPED);
    }
}

/// Of one pair and medium that has every fault the first number is given, and so on as each is mended.
#[test]
fn in_that_order_over_the_whole_pair() {
    let mut import = example();
    let whole = import.clone();
    import.pair.data.push(0);
    import.set_offset(2, 7);
    import.medium[207] = 1;
    import.pair.index.push(0);
    assert_eq!(number(&import), Some(1));
    import.pair.index.pop();
    assert_eq!(number(&import), Some(24));
    import.medium[207] = 0;
    assert_eq!(number(&import), Some(25));
    import.set_offset(2, 176);
    assert_eq!(number(&import), Some(26));
    import.pair.data.pop();
    assert_eq!(number(&import), None);
    assert_eq!(import, whole);
}
