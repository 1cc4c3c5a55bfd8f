//! The second scheduler on the outline's own cases.

use streams::examples::{examples, Line};
use streams::outline_table;

fn line(answer: &[u8]) -> Line {
    let number = |at: usize| u32::from_le_bytes(answer[at..at + 4].try_into().unwrap());
    [
        u32::from(answer[1]),
        u32::from(answer[0]),
        u32::from(answer[2]),
        u32::from(answer[3]),
        number(4),
        number(8),
    ]
}

#[test]
fn the_outlines_cases() {
    for example in examples() {
        let mut board = scheduler::open(&outline_table()).ok().unwrap();
        let opening = board.values;
        let lines: Vec<Line> = example
            .requests
            .iter()
            .map(|request| line(&board.handle(request)))
            .collect();
        let last = &lines[lines.len() - example.last.len()..];
        assert_eq!(last, example.last, "{}", example.name);
        let finals: Vec<(usize, u32)> = (0..64)
            .filter(|&item| board.values[item] != opening[item])
            .map(|item| (item, board.values[item]))
            .collect();
        assert_eq!(finals, example.finals, "{}", example.name);
    }
}

#[test]
fn a_freed_desk_has_nothing_left() {
    let mut board = scheduler::open(&outline_table()).ok().unwrap();
    let fresh = board.desks[3].clone();
    for request in [
        streams::begin(3),
        streams::read(3, 0),
        streams::read(3, 1),
        streams::write(3, 2, 5),
        streams::write(3, 1, 1),
    ] {
        board.handle(&request);
    }
    assert!(board.desks[3].touched(0) && !board.desks[3].shared.has(1));
    let mut ended = board.clone();
    board.handle(&streams::abandon(3));
    ended.handle(&streams::end(3));
    assert!(board.desks[3] == fresh);
    assert!(ended.desks[3] == fresh && ended.write_set(1).has(2));
}

/// Its record is that of a free desk but for the age, whatever the reason, and
/// the next begin adds the new start and nothing else.
#[test]
fn an_aborted_desk_has_its_age_left() {
    use streams::{begin, end, read, write};
    let hold_the_flag = [begin(9), write(9, 1, 1), begin(3)];
    let work = [read(3, 0), write(3, 2, 5), write(3, 63, 7)];
    let yields = [read(3, 1)];
    let overwritten = [begin(4), write(4, 0, 115), end(4), end(3)];
    let too_old = [[begin(4), end(4)].repeat(17), vec![end(3)]].concat();
    for (reason, then) in [(3, &yields[..]), (1, &overwritten[..]), (2, &too_old[..])] {
        let mut board = scheduler::open(&outline_table()).ok().unwrap();
        let mut wanted = board.desks[3].clone();
        let requests = [&hold_the_flag[..], &work, then].concat();
        let answers: Vec<Line> = requests
            .iter()
            .map(|request| line(&board.handle(request)))
            .collect();
        let [_, code, _, given, _, _] = answers[answers.len() - 1];
        assert_eq!((code, given), (7, reason));
        wanted.age = 2;
        assert!(board.desks[3] == wanted);
        assert_eq!(board.desks[3].kept_age(), Some(2));
        let last_age = board.last_age;
        board.handle(&begin(3));
        (wanted.open, wanted.start) = (true, board.last_number);
        assert!(board.desks[3] == wanted && board.last_age == last_age);
    }
}
