//! The second scheduler's journal and restart, with every byte written out.

use scheduler::{open, restart, Journal};
use streams::{begin, end, outline_table, read, write};

/// Two commits, one of items written out of order and one of nothing; then an
/// end that lacks room.
const REQUESTS: [[u8; 8]; 10] = [
    begin(3),
    write(3, 63, 1_000),
    write(3, 0, 115),
    end(3),
    begin(4),
    read(4, 0),
    end(4),
    begin(5),
    write(5, 1, 1),
    end(5),
];

const RECORDS: [[u8; 8]; 4] = [
    [1, 0, 1, 0, 115, 0, 0, 0],
    [1, 63, 1, 0, 0xE8, 3, 0, 0],
    [2, 0, 1, 0, 2, 0, 0, 0],
    [2, 0, 2, 0, 0, 0, 0, 0],
];

#[test]
fn the_records_of_commits() {
    let mut board = open(&outline_table()).ok().unwrap();
    let mut bytes = [7; 47];
    let mut journal = Journal::open(&mut bytes);
    let answers = REQUESTS.map(|request| board.handle_journaled(&request, &mut journal));
    assert_eq!(answers[3][..8], [5, 3, 0, 0, 1, 0, 0, 0]);
    assert_eq!(answers[6][..8], [5, 4, 0, 0, 2, 0, 0, 0]);
    assert_eq!(answers[9], [0, 5, 0, 15, 0, 0, 0, 0, 0, 0, 0, 0]);
    assert!(board.desks[5].open && board.last_number == 2 && board.values[1] == 0);
    assert_eq!(journal.used(), 32);
    assert_eq!(bytes[..32], RECORDS.concat());
    assert_eq!(bytes[32..], [0; 15]);
}

#[test]
fn a_restart_after_each_cut() {
    let journal = RECORDS.concat();
    for length in 0..=32 {
        let mut table = outline_table();
        let commits = restart(&mut table, &journal[..length]);
        let mut wanted = outline_table();
        if length >= 24 {
            wanted[8] = 115;
            wanted[63 * 16 + 8..63 * 16 + 10].copy_from_slice(&[0xE8, 3]);
        }
        assert_eq!(commits, [0, 0, 0, 1, 2][length / 8], "{length} bytes");
        assert_eq!(table, wanted, "{length} bytes");
    }
    assert_eq!(restart(&mut [0; 1_023], &journal), -10);
}
