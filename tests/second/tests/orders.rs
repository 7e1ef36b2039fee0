//! The reader and the printer held to the worked order and to the sample of each code.

use second::codes::{self, Refusal};
use second::hall;
use second::inputs::samples;
use second::label;
use second::limits;
use second::order::{self, Order, Part};

fn read(file: &[u8]) -> Result<Order, Refusal> {
    order::read(file, &mut [0; 1024], &mut [0; 4096])
}

fn printed(name: &str) -> String {
    let sample = samples::all().into_iter().find(|sample| sample.name == name).expect("a sample");
    hall::printed(&sample.file)
}

#[test]
fn the_worked_order_prints_its_four_lines() {
    let file = samples::worked().file();
    assert_eq!(file.len(), 152);
    let lines = "CHECK 0 0 2 1\nRUN 0 13 0 2 2 5 3\nMARKS 0000000002002\nPIECE W733\n";
    assert_eq!(hall::printed(&file), lines);
}

#[test]
fn the_longest_file_has_20648_bytes() {
    let file = samples::longest().file();
    assert_eq!(file.len(), limits::FILE);
    assert!(read(&file).is_ok());
}

#[test]
fn the_edges_of_the_printer() {
    assert_eq!(printed("no-schedule"), "CHECK 0 0 2 1\nRUN 0 0 0 0 0 0 2\nMARKS\nNONE\n");
    assert!(printed("blank-label").ends_with("\nPIECE\n"));
    assert_eq!(printed("pads"), printed("worked"));
}

#[test]
fn a_sample_for_every_code_of_a_file_or_check() {
    let first = |name| {
        let text = printed(name);
        let words: Vec<&str> = text.split_whitespace().take(3).collect();
        words.join(" ")
    };
    let files = [
        ("cut-short", "FILE 1 148"),
        ("states", "FILE 2 0"),
        ("operations", "FILE 3 4"),
        ("table-length", "FILE 4 8"),
        ("entry", "FILE 5 32"),
        ("start", "FILE 6 44"),
        ("looms", "FILE 7 48"),
        ("seat", "FILE 8 64"),
        ("one-sided", "FILE 9 48"),
        ("piece-number", "FILE 10 72"),
        ("label", "FILE 11 88"),
        ("schedule-length", "FILE 12 96"),
        ("act", "FILE 13 124"),
        ("tail", "FILE 14 152"),
        ("shared-state", "CHECK 20 1"),
        ("start-in-a", "CHECK 21 0"),
        ("start-in-b", "CHECK 22 0"),
    ];
    for (name, line) in files {
        assert_eq!(first(name), line, "{name}");
    }
}

/// A cut refuses with 1 where the field it falls into begins: a word, or a label's bytes.
#[test]
fn every_cut_of_the_worked_order() {
    let file = samples::worked().file();
    for length in 0..file.len() {
        let place = if (88..96).contains(&length) { 88 } else { length / 4 * 4 };
        let refusal = Refusal { code: codes::FILE_ENDS, place };
        assert_eq!(read(&file[..length]), Err(refusal), "{length} bytes");
    }
}

#[test]
fn labels_are_found_in_the_file() {
    let order = read(&samples::worked().file()).expect("accepted");
    let [a, b] = order.labels;
    assert_eq!((a, b), (Part { offset: 80, length: 4 }, Part { offset: 88, length: 5 }));
}

#[test]
fn rooms_come_first_and_stay_where_nothing_is_read() {
    let refusal = Refusal { code: codes::ROOM, place: 0 };
    assert_eq!(order::read(&[], &mut [0; 1023], &mut [0; 4096]), Err(refusal));
    assert_eq!(order::read(&[], &mut [0; 1024], &mut [0; 4095]), Err(refusal));
    let (mut table, mut schedule) = ([9; 1024], [9; 4096]);
    let mut file = samples::worked().file();
    order::read(&file, &mut table, &mut schedule).expect("accepted");
    assert_eq!((table[..9].to_vec(), schedule[13]), (vec![2, 2, 0, 3, 1, 2, 3, 2, 9], 9));
    file.push(0);
    let (mut table, mut schedule) = ([9; 1024], [9; 4096]);
    order::read(&file, &mut table, &mut schedule).expect_err("a tail");
    assert_eq!((table, schedule), ([9; 1024], [9; 4096]));
}

#[test]
fn labels_lose_their_trailing_spaces_alone() {
    let part = |labels: [&[u8]; 2], side| {
        let piece = label::piece(labels, side);
        (piece.label.number(), piece.part.offset, piece.part.length)
    };
    let labels: [&[u8]; 2] = [b" a b  ", b"  "];
    assert_eq!(part(labels, 0), (0, 0, 4));
    assert_eq!(part(labels, 1), (1, 0, 0));
    assert_eq!(part(labels, 2), (0, 0, 0));
}
