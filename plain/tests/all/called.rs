//! The reader and the writers as a C caller has them.

use crate::common::line;
use plain::called::{read, Handed};
use plain::limits::MOST_BYTES;

/// What the reader gives and leaves where every number was 7 before, for a line given with spaces for tabs.
fn said(text: &str) -> (i32, [u64; 10], u32) {
    let (mut numbers, mut count) = ([7; 10], 7);
    let letter = read(&line(text), &mut numbers, &mut count);
    (letter, numbers, count)
}

#[test]
fn numbers_are_left_in_their_order_and_0_past_them() {
    for (text, letter, numbers) in [
        ("N 16 100", b'N', &[16, 100][..]),
        ("N 1 100 5 9", b'N', &[1, 100, 5, 9]),
        (
            "N 1 18446744073709551615 1 5 9 13 17 4294967293 4294967297 18446744073709551613",
            b'N',
            &[
                1,
                u64::MAX,
                1,
                5,
                9,
                13,
                17,
                (1 << 32) - 3,
                (1 << 32) + 1,
                u64::MAX - 2,
            ],
        ),
        ("X 2 4294967296", b'X', &[2, 1 << 32]),
        ("X 2 18446744073709551615", b'X', &[2, u64::MAX]),
        ("C 3 300 104 5 8 9 0", b'C', &[3, 300, 104, 5, 8, 9, 0]),
        (
            "C 3 300 19 0 0 0 -5",
            b'C',
            &[3, 300, 19, 0, 0, 0, u64::MAX - 4],
        ),
        (
            "C 1 140187412345673 64 4294967295 4294967296 18446744073709551615 0",
            b'C',
            &[
                1,
                140_187_412_345_673,
                64,
                (1 << 32) - 1,
                1 << 32,
                u64::MAX,
                0,
            ],
        ),
        (
            "R 4 165 18446744073709551615 1",
            b'R',
            &[4, 165, u64::MAX, 1],
        ),
        ("R 4 217 2147483647 0", b'R', &[4, 217, 0x7fff_ffff, 0]),
        (
            "R 4 217 -2147483648 0",
            b'R',
            &[4, 217, 0xffff_ffff_8000_0000, 0],
        ),
        ("A 16 18446744073709551615", b'A', &[16, u64::MAX]),
        ("D 16", b'D', &[16]),
        ("K 4095 5", b'K', &[4_095, 5]),
        (
            "O 16 18446744073709551615 4095",
            b'O',
            &[16, u64::MAX, 4_095],
        ),
        (
            "M 18446744073709551612 2 4095 0 1",
            b'M',
            &[u64::MAX - 3, 2, 4_095, 0, 1],
        ),
        ("Z", b'Z', &[]),
    ] {
        let mut ten = [0; 10];
        ten[..numbers.len()].copy_from_slice(numbers);
        let expected = (letter.into(), ten, numbers.len() as u32);
        assert_eq!(said(text), expected, "{text}");
    }
}

#[test]
fn a_refusal_is_below_zero_and_leaves_all_as_it_was() {
    for (text, refusal) in [("N 17 01", -2), ("N 17 1", -3), ("Z 0", -2)] {
        assert_eq!(said(text), (refusal, [7; 10], 7), "{text}");
    }
    let (mut numbers, mut count) = ([7; 10], 7);
    assert_eq!(read(b"X\t1\t0", &mut numbers, &mut count), -1);
    assert_eq!((numbers, count), ([7; 10], 7));
}

#[test]
fn what_is_read_is_what_the_writer_is_handed() {
    for text in [
        "N 1 100",
        "N 1 100 1 5 9 13 17 21 25 29",
        "X 2 7",
        "C 3 300 26 0 0 0 -2147483648",
        "R 4 218 -1 1",
        "R 4 6 18446744073709551613 0",
        "A 2 4294967296",
        "D 2",
        "K 5 1",
        "O 1 0 2",
        "M 18446744073709551612 1 4095 1 0",
        "Z",
    ] {
        let (letter, numbers, count) = said(text);
        let handed = Handed::of(letter as u8, &numbers[..count as usize]).unwrap();
        assert_eq!(i32::from(handed.letter()), letter);
        let mut buffer = [b'?'; MOST_BYTES + 1];
        let length = handed.write(&mut buffer) as usize;
        assert_eq!(buffer[..length], line(text)[..]);
        assert_eq!(handed.write(&mut buffer[..length - 1]), -7);
    }
    assert_eq!(Handed::of(b'N', &[1; 11]), None);
    assert_eq!(Handed::of(b'X', &[1; 3]), None);
    assert_eq!(Handed::of(b'K', &[1; 3]), None);
    assert_eq!(Handed::of(b'O', &[1; 2]), None);
    assert_eq!(Handed::of(b'A', &[1; 1]), None);
    assert_eq!(Handed::of(b'A', &[1; 3]), None);
    assert_eq!(Handed::of(b'D', &[]), None);
    assert_eq!(Handed::of(b'D', &[1; 2]), None);
    assert_eq!(Handed::of(b'M', &[4; 4]), None);
    assert_eq!(Handed::of(b'M', &[4; 6]), None);
    assert_eq!(Handed::of(b'P', &[]), None);
    const HIGH: u64 = 1 << 32;
    for (letter, numbers) in [
        (b'N', &[HIGH + 1, 100][..]),
        (b'X', &[HIGH + 1, 0]),
        (b'C', &[HIGH + 1, 100, 4, 0, 0, 0, 0]),
        (b'C', &[1, 100, HIGH + 4, 0, 0, 0, 0]),
        (b'C', &[1, 100, 19, 0, 0, 0, HIGH - 5]),
        (b'R', &[1, HIGH + 19, 0, 0]),
        (b'R', &[1, 19, HIGH - 1, 0]),
        (b'R', &[1, 19, 0, HIGH]),
        (b'A', &[HIGH + 1, 100]),
        (b'D', &[HIGH + 1]),
        (b'K', &[5, HIGH + 1]),
        (b'O', &[1, 5, HIGH + 2]),
        (b'M', &[8, HIGH + 1, 2, 0, 0]),
        (b'M', &[8, 1, HIGH + 2, 0, 0]),
        (b'M', &[8, 1, 2, HIGH, 0]),
        (b'M', &[8, 1, 2, 0, HIGH + 1]),
    ] {
        assert_eq!(Handed::of(letter, numbers), None, "{numbers:?}");
    }
}

#[test]
fn a_result_stands_beside_no_status() {
    let answer = |function, result, status| Handed::Return {
        thread: 1,
        function,
        result,
        status,
        pending: 0,
    };
    for (handed, reply) in [
        (answer(217, 0, -1), 13),
        (answer(217, 0, 0), 12),
        (answer(217, 5, 0), -3),
        (answer(217, 5, 5), -3),
        (answer(6, 5, 0), 10),
        (answer(6, 0, 5), -3),
        (answer(6, 5, 5), -3),
        (answer(4, 0, -1), -3),
        (answer(233, 0, 0), -3),
    ] {
        assert_eq!(handed.write(&mut [0; MOST_BYTES + 1]), reply, "{handed:?}");
    }
}
