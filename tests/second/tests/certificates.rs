//! The check held to the document's figures, and its two ways to fill the area to each other.

use second::cell;
use second::codes;
use second::inputs::dice::Dice;
use second::inputs::fitting::{self, Fitting};
use second::inputs::{known, makers};
use second::recording::{self, area_by_orders, area_by_pairs, Verdict};

fn checked(fitting: &Fitting) -> Verdict {
    recording::check(fitting.cell(), &fitting.certificate, &mut [0; 512])
}

#[test]
fn the_eleven_known_certificates() {
    for known in known::certificates() {
        assert_eq!(checked(&known.fitting), known.verdict, "{}", known.name);
    }
}

#[test]
fn the_catalogue_is_accepted_with_n_and_n_less_one_states() {
    for n in 2..=8 {
        let verdict = Verdict { code: codes::DONE, place: 0, sizes: [n, n - 1] };
        assert_eq!(checked(&fitting::catalogue(n)), verdict, "size {n}");
    }
}

#[test]
fn the_catalogue_of_size_two_is_the_known_one() {
    assert_eq!(cell::catalogue_table(2), known::named("size 2").table);
}

#[test]
fn the_catalogue_writes_its_bytes_and_no_more() {
    let mut room = [9; 10];
    assert_eq!(cell::catalogue(2, &mut room), codes::DONE);
    assert_eq!(room, [2, 2, 0, 3, 1, 2, 3, 2, 9, 9]);
    let mut short = [9; 7];
    assert_eq!(cell::catalogue(2, &mut short), codes::ROOM);
    assert_eq!(short, [9; 7]);
    assert_eq!(cell::catalogue(1, &mut []), codes::NO_CATALOGUE);
    assert_eq!(cell::catalogue(9, &mut []), codes::NO_CATALOGUE);
}

/// "Size 2": loom 0 of A takes 2 to 0, then loom 1 of B to 1; loom 1 first takes 2 to 3, and there
/// loom 0 doesn't move it.
#[test]
fn the_area_of_size_two_word_by_word() {
    let size_two = known::named("size 2");
    let mut area = [7; 9];
    recording::check(size_two.cell(), &size_two.certificate, &mut area);
    assert_eq!(area, [0, 0b1, 0, 0b10, 0, 0, 0b1000, 0b1000, 7]);
}

#[test]
fn every_order_and_every_pair_fill_the_same_area() {
    let mut dice = Dice::named(1, "orders and pairs");
    let small = (0..2000).map(|_| makers::formed(&mut dice));
    for fitting in small.filter(|made| made.certificate.count <= 6) {
        let orders = area_by_orders(fitting.cell(), &fitting.certificate);
        assert_eq!(orders, area_by_pairs(fitting.cell(), &fitting.certificate), "{fitting:?}");
    }
}

#[test]
fn and_so_for_seven_and_eight_looms() {
    let mut dice = Dice::named(1, "more looms");
    let large = (0..200).map(|_| makers::formed(&mut dice));
    for fitting in large.filter(|made| made.certificate.count > 6).take(40) {
        let orders = area_by_orders(fitting.cell(), &fitting.certificate);
        assert_eq!(orders, area_by_pairs(fitting.cell(), &fitting.certificate), "{fitting:?}");
    }
}

/// A refusal by form or by a short area writes nothing; one by the sets has filled the area.
#[test]
fn what_a_refusal_writes() {
    let late = known::named("late return");
    let mut area = [7; 15];
    assert_eq!(recording::check(late.cell(), &late.certificate, &mut area).code, codes::ROOM);
    assert_eq!(area, [7; 15]);
    let mut area = [7; 17];
    assert_eq!(recording::check(late.cell(), &late.certificate, &mut area).code, codes::START_IN_A);
    assert!(area[..16].iter().all(|&word| word != 7) && area[16] == 7);
}

#[test]
fn a_set_is_walked_and_never_wraps() {
    use second::sets;
    assert_eq!((sets::size(u64::MAX), sets::size(0)), (64, 0));
    assert_eq!((sets::lowest(0b1000), sets::lowest(1 << 63), sets::lowest(0)), (3, 63, 64));
    assert!(sets::has(1 << 63, 63) && !sets::has(u64::MAX, 64));
    assert_eq!((sets::inserted(1, 3), sets::inserted(1, 64)), (9, 1));
    assert_eq!((sets::union(5, 6), sets::shared(5, 6)), (7, 4));
}
