//! Machine files, by the words of requests [1] and [5].

use beahcerot::machine::{Mark, Marked, dst, dst_read};
use beahcerot::{P, Refusal};

fn points(list: &[(f64, f64)]) -> Vec<P> {
    list.iter().map(|&(x, y)| P { x, y }).collect()
}

#[test]
fn no_points_give_the_end_alone() {
    assert_eq!(dst(&[]), Ok(vec![0x00, 0x00, 0xf3]));
}

#[test]
fn halves_go_away_from_zero_and_a_zero_move_is_a_stitch() {
    let file = dst(&points(&[(0.5, -0.5), (1.0, -1.0)]));
    let wanted = vec![0x41, 0x00, 0x03, 0x00, 0x00, 0x03, 0x00, 0x00, 0xf3];
    assert_eq!(file, Ok(wanted));
}

#[test]
fn a_long_move_is_jumps_and_a_stitch() {
    // 61 = 81 - 27 + 9 - 3 + 1
    let file = dst(&points(&[(122.0, 0.0)]));
    let wanted = vec![0x05, 0x0a, 0x87, 0x05, 0x0a, 0x07, 0x00, 0x00, 0xf3];
    assert_eq!(file, Ok(wanted));
}

#[test]
fn room_is_lent_for_the_longest_moves() {
    let far = [(100_000.0, -100_000.0), (-100_000.0, 100_000.0)];
    let file = dst(&points(&far)).unwrap();
    assert_eq!(file.len(), 3 * (827 + 1653 + 1));
}

#[test]
fn a_number_too_large_is_told() {
    assert_eq!(dst(&points(&[(100_001.0, 0.0)])), Err(Refusal::Number));
    assert_eq!(dst(&points(&[(f64::NAN, 0.0)])), Err(Refusal::Number));
}

fn marked(list: &[(f64, f64, Mark)]) -> Vec<Marked> {
    let point = |&(x, y, mark)| Marked {
        to: P { x, y },
        mark,
    };
    list.iter().map(point).collect()
}

#[test]
fn a_written_file_comes_back_rounded_with_its_jumps() {
    let mut file = dst(&points(&[(0.5, -0.5), (123.0, -1.0), (-300.4, 0.0)])).unwrap();
    file.extend([0xff, 0x00]); // what follows the end isn't read
    let wanted = marked(&[
        (1.0, -1.0, Mark::Stitch),
        (62.0, -1.0, Mark::Jump),
        (123.0, -1.0, Mark::Stitch),
        (18.0, -1.0, Mark::Jump),
        (-88.0, -1.0, Mark::Jump),
        (-194.0, -1.0, Mark::Jump),
        (-300.0, 0.0, Mark::Stitch),
    ]);
    assert_eq!(dst_read(&file), Ok(wanted));
}

#[test]
fn a_stop_is_marked() {
    let file = [0x00, 0x00, 0xc3, 0x00, 0x00, 0xf3];
    assert_eq!(dst_read(&file), Ok(marked(&[(0.0, 0.0, Mark::Stop)])));
}

#[test]
fn a_file_that_is_none_is_told() {
    let good = [0x00, 0x00, 0x03];
    let both_signs = [0x03, 0x00, 0x03];
    assert_eq!(dst_read(&[]), Err(Refusal::Cut));
    assert_eq!(dst_read(&good), Err(Refusal::Cut));
    let file = [good, both_signs].concat();
    assert_eq!(dst_read(&file), Err(Refusal::Record(1)));
    let mut long = good.repeat(1_000_000);
    long.extend(both_signs);
    assert_eq!(dst_read(&long), Err(Refusal::Size));
}
