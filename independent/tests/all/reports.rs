//! The host's call, and the listing.

use independent::card::{Parts, LONGEST};
use independent::host;
use independent::listing::listing;
use independent::refusal::number;

use crate::common::{a, a_and_c, c, pair_numbers, parts, rectangle, single};

#[test]
fn the_host_reports_the_first_entry_to_the_second() {
    let mut report = [0xA5; 40];
    let card = a_and_c().bytes();
    assert_eq!(host::report(&card, &mut report), Ok(()));
    let numbers: Vec<u16> = report[..38]
        .chunks(2)
        .map(|two| u16::from_le_bytes([two[0], two[1]]))
        .collect();
    assert_eq!(numbers, pair_numbers(&single(a()), &single(c())));
    assert_eq!(
        numbers,
        [0, 0, 0, 216, 54, 3, 3, 0, 2, 2, 1, 3, 2, 1, 1, 0, 216, 8, 8]
    );
    assert_eq!(report[38..], [0xA5, 0xA5]);
}

#[test]
fn the_host_looks_at_10_then_the_card_then_17() {
    let refused = |card: &[u8], length: usize, expected: u16| {
        let mut report = vec![0xA5; length];
        assert_eq!(number(&host::report(card, &mut report)), expected);
        assert_eq!(report, vec![0xA5; length]);
    };
    refused(&[], 37, 10);
    refused(&[], 0, 10);
    refused(&a_and_c().bytes(), 37, 10);
    refused(&[], 38, 14);
    refused(&Parts::default().bytes(), 38, 17);
    refused(&parts(&[(0, single(a()))]).bytes(), 38, 17);
    let three = [(0, single(a())), (1, single(c())), (2, single(a()))];
    refused(&parts(&three).bytes(), 38, 17);
    let bad_third = [
        (0, single(a())),
        (1, single(c())),
        (2, single(vec![(0, 0); 4])),
    ];
    refused(&parts(&bad_third).bytes(), 38, 5);
}

#[test]
fn the_listing_of_the_document() {
    let expected = "parcels 2\n0 3 W:B:SW:S W:O:SW:S 8\n3 0 N:NE:B:E N:NE:O:E 8\n";
    assert_eq!(listing(&a_and_c().bytes()), expected);
}

#[test]
fn listings_of_few_and_many_parcels() {
    assert_eq!(listing(&Parts::default().bytes()), "parcels 0\n");
    let one = parts(&[(31, single(a()))]).bytes();
    assert_eq!(listing(&one), "parcels 1\n");
    let beside = single(rectangle(10, 20, 0, 10));
    let three = parts(&[(2, single(a())), (10, beside), (30, single(a()))]).bytes();
    let expected = "parcels 3\n\
        2 10 W W 4\n\
        2 30 B O 4\n\
        10 2 E E 4\n\
        10 30 E E 4\n\
        30 2 B O 4\n\
        30 10 W W 4\n";
    assert_eq!(listing(&three), expected);
}

#[test]
fn a_listing_gives_the_pieces_of_the_primary() {
    let triangle = single(vec![(0, 0), (0, 10), (10, 0)]);
    let square = single(rectangle(5, 15, 5, 15));
    let expected = "parcels 2\n7 8 W:SW:S W:SW:S 6\n8 7 N:NE:B:E N:NE:E 8\n";
    assert_eq!(
        listing(&parts(&[(7, triangle), (8, square)]).bytes()),
        expected
    );
}

#[test]
fn listings_of_refused_cards() {
    assert_eq!(listing(&[]), "refused 14\n");
    assert_eq!(listing(&vec![0; LONGEST + 1]), "refused 14\n");
    let touching = single(vec![(0, 0), (10, 10), (10, 0), (0, 10)]);
    assert_eq!(listing(&parts(&[(0, touching)]).bytes()), "refused 6\n");
}
