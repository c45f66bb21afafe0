//! The reader and the writer of lines.

use crate::common::{findings, line, refusal};
use plain::facts::{facts, PlaceKind, ResultKind, FIRST_FUNCTION, LAST_FUNCTION};
use plain::limits::MOST_BYTES;
use plain::line::{read, write, Event};
use plain::make::{make, PROFILES};
use plain::random::Random;
use plain::room::LENT;

/// What the reader says of a line given with spaces for tabs.
fn said(text: &str) -> u8 {
    read(&line(text)).err().unwrap_or(0)
}

/// A line of this many bytes before its LF: an N with a handle of very many digits.
fn long(bytes: usize) -> Vec<u8> {
    let mut line = b"N\t1\t1\t".to_vec();
    line.resize(bytes, b'1');
    line.push(b'\n');
    line
}

#[test]
fn every_event_is_read() {
    assert_eq!(
        read(b"N\t1\t100\t5\t9\n"),
        Ok(Event::N {
            thread: 1,
            env: 100,
            count: 2,
            handles: [5, 9, 0, 0, 0, 0, 0, 0],
        })
    );
    assert_eq!(
        read(b"X\t2\t7\n"),
        Ok(Event::X {
            thread: 2,
            result: 7
        })
    );
    assert_eq!(
        read(b"C\t3\t300\t19\t0\t0\t0\t-5\n"),
        Ok(Event::C {
            thread: 3,
            env: 300,
            function: 19,
            places: [0; 3],
            capacity: -5,
        })
    );
    assert_eq!(
        read(b"C\t3\t300\t104\t5\t8\t9\t0\n"),
        Ok(Event::C {
            thread: 3,
            env: 300,
            function: 104,
            places: [5, 8, 9],
            capacity: 0,
        })
    );
    assert_eq!(
        read(b"R\t4\t217\t-1\t1\n"),
        Ok(Event::R {
            thread: 4,
            function: 217,
            result: -1,
            pending: 1,
        })
    );
    assert_eq!(
        read(b"A\t16\t18446744073709551615\n"),
        Ok(Event::A {
            thread: 16,
            env: u64::MAX,
        })
    );
    assert_eq!(read(b"D\t16\n"), Ok(Event::D { thread: 16 }));
    assert_eq!(
        read(b"K\t4095\t5\n"),
        Ok(Event::K {
            class: 4_095,
            superclass: 5,
        })
    );
    assert_eq!(
        read(b"O\t16\t7\t4095\n"),
        Ok(Event::O {
            thread: 16,
            handle: 7,
            class: 4_095,
        })
    );
    assert_eq!(
        read(b"M\t18446744073709551612\t2\t4095\t1\t0\n"),
        Ok(Event::M {
            identity: u64::MAX - 3,
            sort: 2,
            class: 4_095,
            is_static: 1,
            is_final: 0,
        })
    );
    assert_eq!(read(b"Z\n"), Ok(Event::Z));
}

#[test]
fn a_line_has_at_most_224_bytes_before_its_lf() {
    assert_eq!(read(&long(224)), Err(3));
    assert_eq!(read(&long(225)), Err(1));
}

#[test]
fn a_long_line_that_is_also_malformed_is_1() {
    let malformed = [&[b'x'; 225][..], b"\n"].concat();
    assert_eq!(read(&malformed), Err(1));
    assert_eq!(read(&malformed[1..]), Err(2));
}

#[test]
fn a_line_without_lf_is_1_even_if_perfect() {
    assert_eq!(read(b""), Err(1));
    assert_eq!(read(b"Z"), Err(1));
    assert_eq!(read(b"N\t1\t100"), Err(1));
    assert_eq!(read(b"garbage"), Err(1));
}

#[test]
fn empty_lines_carriage_returns_doubled_and_trailing_tabs_and_spaces_are_2() {
    for malformed in [
        &b"\n"[..],
        b"\t\n",
        b"Z\r\n",
        b"Z\t\n",
        b"Z \n",
        b" Z\n",
        b"N\t1\t\t100\n",
        b"N\t1\t100\t\n",
        b"N\t1\t100\r\n",
        b"N 1 100\n",
        b"N\t1\t 100\n",
        b"X\t1\t0\0\n",
        b"X\t1\t\x80\n",
        b"\tN\t1\t100\n",
    ] {
        assert_eq!(read(malformed), Err(2), "{malformed:?}");
    }
}

#[test]
fn field_counts_are_exact() {
    for wrong in [
        "N",
        "N 1",
        "N 1 100 1 5 9 13 17 21 25 29 33",
        "X",
        "X 1",
        "X 1 0 0",
        "C 1 100 4 0 0 0",
        "C 1 100 4 0 0 0 0 0",
        "R 1 4 0",
        "R 1 4 0 0 0",
        "A",
        "A 1",
        "A 1 100 5",
        "D",
        "D 1 100",
        "D 1 0",
        "K",
        "K 5",
        "K 1 5 1",
        "O",
        "O 1 5",
        "O 1 5 2 0",
        "M",
        "M 8 1 2 0",
        "M 8 1 2 0 0 0",
        "M 1 8 1 2 0 0",
        "Z 0",
    ] {
        assert_eq!(said(wrong), 2, "{wrong}");
    }
    assert_eq!(said("A 1 100"), 0);
    assert_eq!(said("D 1"), 0);
    assert_eq!(said("N 1 100"), 0);
    assert_eq!(said("N 1 100 1 5 9 13 17 21 25 29"), 0);
}

#[test]
fn the_form_of_every_field_comes_before_any_range() {
    assert_eq!(said("N 17 01"), 2);
    assert_eq!(said("N 17 1"), 3);
    assert_eq!(said("A 17 01"), 2);
    assert_eq!(said("A 17 1"), 3);
    assert_eq!(said("D 17"), 3);
    assert_eq!(said("D 017"), 2);
    assert_eq!(said("D 17 0"), 2);
    assert_eq!(said("R 1 4 5 -0"), 2);
    assert_eq!(said("C 0 0 0 0 0 0 x"), 2);
    assert_eq!(said("Z 17"), 2);
}

#[test]
fn thirty_digits_are_a_number_out_of_range_and_nothing_wraps() {
    let zeros = |count| format!("1{}", "0".repeat(count));
    let beyond = [
        "18446744073709551616",
        "18446744073709551617",
        "18446744073709551621",
        "20000000000000000000",
        "99999999999999999999",
        "100000000000000000001",
        "184467440737095516150",
        "340282366920938463463374607431768211457",
    ];
    let long = [29, 64, 200].map(zeros);
    for great in beyond.into_iter().chain(long.iter().map(String::as_str)) {
        for line in [
            format!("X 1 {great}"),
            format!("X 1 -{great}"),
            format!("N 1 {great}"),
            format!("A 1 {great}"),
            format!("D {great}"),
            format!("N 1 1 {great}"),
            format!("C 1 {great} 4 0 0 0 0"),
            format!("C 1 1 64 {great} 0 0 0"),
            format!("C 1 1 64 0 {great} 0 0"),
            format!("C 1 1 64 0 0 {great} 0"),
            format!("R 1 165 {great} 0"),
            format!("O 1 {great} 2"),
        ] {
            assert_eq!(said(&line), 3, "{line}");
        }
    }
}

#[test]
fn threads_functions_statuses_and_classes_are_not_cut_to_32_bits() {
    for bits in [32, 64, 96] {
        let high = 1_i128 << bits;
        for line in [
            format!("N {} 100", high + 1),
            format!("X {} 0", high + 1),
            format!("C {} 100 4 0 0 0 0", high + 1),
            format!("C 1 100 {} 0 0 0 0", high + 4),
            format!("C 1 100 19 0 0 0 {high}"),
            format!("C 1 100 19 0 0 0 {}", high - 5),
            format!("C 1 100 19 0 0 0 {}", 1 - high),
            format!("R {} 4 0 0", high + 1),
            format!("R 1 {} 0 0", high + 4),
            format!("R 1 217 {high} 0"),
            format!("R 1 217 {} 0", high - 1),
            format!("R 1 217 {} 0", -high),
            format!("R 1 4 0 {}", high + 1),
            format!("A {} 100", high + 1),
            format!("D {}", high + 1),
            format!("K {} 1", high + 5),
            format!("K 5 {}", high + 1),
            format!("O {} 5 2", high + 1),
            format!("O 1 5 {}", high + 2),
            format!("M 8 {} 2 0 0", high + 1),
            format!("M 8 1 {} 0 0", high + 2),
            format!("M 8 1 2 {high} 0"),
            format!("M 8 1 2 0 {}", high + 1),
        ] {
            assert_eq!(said(&line), 3, "{line}");
        }
    }
}

#[test]
fn each_digit_of_twenty_counts() {
    for result in [
        4_294_967_295,
        4_294_967_296,
        140_187_412_345_673,
        9_223_372_036_854_775_807,
        9_223_372_036_854_775_808,
        9_999_999_999_999_999_999,
        10_000_000_000_000_000_000,
        18_446_744_073_709_551_609,
        u64::MAX,
    ] {
        let event = Event::X { thread: 1, result };
        assert_eq!(read(&line(&format!("X 1 {result}"))), Ok(event));
    }
}

#[test]
fn forms_of_numbers() {
    for number in ["-1", "-9", "-10", "-4294967296", "-18446744073709551615"] {
        assert_eq!(said(&format!("X 1 {number}")), 3, "{number}");
    }
    for other in [
        "-0", "-01", "-00", "-", "--1", "+1", "+0", "00", "01", "1-", "1.0", "0x1", "a", "",
    ] {
        assert_eq!(said(&format!("X 1 {other}")), 2, "{other}");
    }
    assert_eq!(said("X 1 0"), 0);
}

#[test]
fn minus_one_is_a_number_in_every_field() {
    for line in [
        "N -1 100",
        "N 1 -1",
        "N 1 100 -1",
        "X -1 0",
        "X 1 -1",
        "C -1 100 4 0 0 0 0",
        "C 1 -1 4 0 0 0 0",
        "C 1 100 -1 0 0 0 0",
        "C 1 100 64 -1 5 8 0",
        "C 1 100 64 5 -1 8 0",
        "C 1 100 64 5 5 -1 0",
        "C 1 100 4 0 0 0 -1",
        "R -1 4 0 0",
        "R 1 -1 0 0",
        "R 1 4 -1 0",
        "R 1 6 -1 0",
        "R 1 165 -1 0",
        "R 1 4 0 -1",
        "A -1 100",
        "A 1 -1",
        "D -1",
        "K -1 1",
        "K 5 -1",
        "O -1 5 2",
        "O 1 -1 2",
        "O 1 5 -1",
        "M -1 1 2 0 0",
        "M -4 1 2 0 0",
        "M 8 -1 2 0 0",
        "M 8 1 -1 0 0",
        "M 8 1 2 -1 0",
        "M 8 1 2 0 -1",
    ] {
        assert_eq!(said(line), 3, "{line}");
    }
    assert_eq!(said("C 1 100 19 0 0 0 -1"), 0);
    assert_eq!(said("R 1 19 -1 0"), 0);
}

#[test]
fn nine_handles_are_2_to_the_reader_and_3_to_the_writer() {
    assert_eq!(said("N 1 100 1 5 9 13 17 21 25 29 33"), 2);
    let event = Event::N {
        thread: 1,
        env: 100,
        count: 9,
        handles: [1, 5, 9, 13, 17, 21, 25, 29],
    };
    assert_eq!(write(&event, &mut [0; 200]), Err(3));
}

#[test]
fn an_lf_inside_a_lent_line_is_2_unless_1_comes_first() {
    assert_eq!(read(b"Z\n\n"), Err(2));
    assert_eq!(read(b"\nZ\n"), Err(2));
    assert_eq!(read(b"N\t1\t100\nZ\n"), Err(2));
    assert_eq!(read(b"Z\nZ"), Err(1));
    let long = [&[b'\n'; 225][..], b"\n"].concat();
    assert_eq!(read(&long), Err(1));
}

#[test]
fn other_letters_are_2() {
    for letter in (0..=255).filter(|letter| !b"NXCRADKOMZ".contains(letter)) {
        assert_eq!(read(&[letter, b'\n']), Err(2));
        assert_eq!(read(&[letter, b'\t', b'1', b'\n']), Err(2));
    }
    for other in [
        "n 1 100",
        "a 1 100",
        "d 1",
        "o 1 5 2",
        "k 5 1",
        "m 8 1 2 0 0",
        "NN 1 100",
        "AA 1 100",
        "DD 1",
        "KK 5 1",
        "ZZ",
    ] {
        assert_eq!(said(other), 2, "{other}");
    }
}

#[test]
fn n_handles_are_local_kind_and_never_null() {
    for handle in [
        "0",
        "2",
        "3",
        "4",
        "4294967296",
        "4294967298",
        "18446744073709551612",
        "18446744073709551614",
        "18446744073709551615",
    ] {
        assert_eq!(said(&format!("N 1 100 5 {handle}")), 3, "{handle}");
    }
    for handle in ["4294967293", "4294967297", "18446744073709551613"] {
        assert_eq!(said(&format!("N 1 100 5 {handle}")), 0, "{handle}");
    }
}

#[test]
fn env_0_is_3_on_n_on_a_and_on_c() {
    assert_eq!(said("N 1 0"), 3);
    assert_eq!(said("A 1 0"), 3);
    assert_eq!(said("C 1 0 4 0 0 0 0"), 3);
}

#[test]
fn the_x_result_is_only_ranged_and_then_judged() {
    for result in [
        "0",
        "1",
        "2",
        "3",
        "4",
        "4294967296",
        "18446744073709551615",
    ] {
        assert_eq!(said(&format!("X 1 {result}")), 0, "{result}");
    }
    assert_eq!(said("X 1 18446744073709551616"), 3);
    let found = |result| findings(&["N 1 100 5", &format!("X 1 {result}")]);
    assert!(found(0).is_empty());
    assert!(found(5).is_empty());
    assert_eq!(found(8), ["2 4 1 8"]);
    assert_eq!(found(9), ["2 11 1 9"]);
    assert_eq!(found(6), ["2 10 1 6"]);
    assert_eq!(found(7), ["2 10 1 7"]);
}

#[test]
fn the_r_result_is_checked_against_its_own_function_before_the_step() {
    assert_eq!(refusal(&["R 1 6 2 0"]), 3);
    assert_eq!(refusal(&["R 1 6 5 0"]), 4);
    assert_eq!(refusal(&["N 1 100", "C 1 100 6 0 0 0 0", "R 1 21 5 0"]), 3);
    assert_eq!(refusal(&["N 1 100", "C 1 100 6 0 0 0 0", "R 1 21 6 0"]), 4);
}

#[test]
fn kinds_in_used_places_of_c_are_rule_4_and_never_3() {
    for (call, finding) in [
        ("C 1 100 31 8 0 0 0", "3 4 1 8"),
        ("C 1 100 22 5 0 0 0", "3 4 1 5"),
        ("C 1 100 22 7 0 0 0", "3 4 1 7"),
        ("C 1 100 22 8 0 0 0", "3 4 1 8"),
        ("C 1 100 23 6 0 0 0", "3 4 1 6"),
        ("C 1 100 227 6 0 0 0", "3 4 1 6"),
        ("C 1 100 24 8 5 0 0", "3 4 1 8"),
        ("C 1 100 37 5 5 0 0", "3 4 2 5"),
        ("C 1 100 37 5 6 0 0", "3 4 2 6"),
        ("C 1 100 37 5 7 0 0", "3 4 2 7"),
        ("C 1 100 67 5 5 9 0", "3 4 3 9"),
        ("C 1 100 104 5 8 12 0", "3 4 3 12"),
    ] {
        let lines = ["N 1 100 5", "M 8 2 1 0 0", call];
        assert_eq!(findings(&lines), [finding], "{call}");
    }
}

#[test]
fn unused_places_and_capacity_are_0() {
    for function in FIRST_FUNCTION..=LAST_FUNCTION {
        let facts = facts(function).unwrap();
        for at in 0..3 {
            let mut places = [0; 3];
            places[at] = 1;
            let [a, b, c] = places;
            let expected = if facts.places[at] == PlaceKind::Unused {
                3
            } else {
                0
            };
            assert_eq!(said(&format!("C 1 1 {function} {a} {b} {c} 0")), expected);
        }
        let expected = if matches!(function, 19 | 26) { 0 } else { 3 };
        assert_eq!(said(&format!("C 1 1 {function} 0 0 0 1")), expected);
    }
}

#[test]
fn results_are_what_their_kind_says() {
    let ends = [0, 1 << 31, 1 << 32, 1_i128 << 64];
    let near = |end: i128| (-5..=5).flat_map(move |by| [end + by, -end + by]);
    for function in FIRST_FUNCTION..=LAST_FUNCTION {
        let kind = facts(function).unwrap().result;
        for result in ends.into_iter().flat_map(near) {
            let (lowest, highest, remainders): (i128, i128, &[i128]) = match kind {
                ResultKind::Nothing => (0, 0, &[0]),
                ResultKind::Local => (0, 18_446_744_073_709_551_615, &[1]),
                ResultKind::Global => (0, 18_446_744_073_709_551_615, &[2]),
                ResultKind::Weak => (0, 18_446_744_073_709_551_615, &[3]),
                ResultKind::Identity => (0, 18_446_744_073_709_551_615, &[0]),
                ResultKind::Buffer(_) => (0, 18_446_744_073_709_551_615, &[0, 1, 2, 3]),
                ResultKind::Status => (-2_147_483_648, 2_147_483_647, &[0, 1, 2, 3]),
            };
            let ranged = lowest <= result && result <= highest;
            let right = result == 0 || ranged && remainders.contains(&result.rem_euclid(4));
            let expected = if right { 0 } else { 3 };
            let line = format!("R 1 {function} {result} 0");
            assert_eq!(said(&line), expected, "{line}");
        }
    }
}

#[test]
fn both_ends_of_all_ranges() {
    for (line, expected) in [
        ("N 0 1", 3),
        ("N 1 1", 0),
        ("N 16 1", 0),
        ("N 17 1", 3),
        ("N 1 18446744073709551615", 0),
        ("N 1 18446744073709551616", 3),
        ("N 1 1 1", 0),
        ("N 1 1 18446744073709551613", 0),
        ("N 1 1 18446744073709551617", 3),
        ("X 0 0", 3),
        ("X 16 18446744073709551615", 0),
        ("X 1 18446744073709551616", 3),
        ("X 17 0", 3),
        ("C 0 1 4 0 0 0 0", 3),
        ("C 16 18446744073709551615 4 0 0 0 0", 0),
        ("C 17 1 4 0 0 0 0", 3),
        ("C 1 18446744073709551616 4 0 0 0 0", 3),
        ("C 1 1 3 0 0 0 0", 3),
        ("C 1 1 232 0 0 0 0", 0),
        ("C 1 1 233 0 0 0 0", 3),
        (
            "C 1 1 64 18446744073709551615 18446744073709551615 18446744073709551615 0",
            0,
        ),
        ("C 1 1 64 18446744073709551616 0 0 0", 3),
        ("C 1 1 64 0 18446744073709551616 0 0", 3),
        ("C 1 1 64 0 0 18446744073709551616 0", 3),
        ("C 1 1 19 0 0 0 -2147483649", 3),
        ("C 1 1 19 0 0 0 -2147483648", 0),
        ("C 1 1 26 0 0 0 2147483647", 0),
        ("C 1 1 26 0 0 0 2147483648", 3),
        ("R 0 4 0 0", 3),
        ("R 16 4 0 1", 0),
        ("R 17 4 0 0", 3),
        ("R 1 3 0 0", 3),
        ("R 1 232 0 0", 0),
        ("R 1 233 0 0", 3),
        ("R 1 4 0 2", 3),
        ("A 0 1", 3),
        ("A 1 1", 0),
        ("A 16 18446744073709551615", 0),
        ("A 17 1", 3),
        ("A 1 18446744073709551616", 3),
        ("D 0", 3),
        ("D 1", 0),
        ("D 16", 0),
        ("D 17", 3),
        ("K 0 1", 3),
        ("K 1 0", 3),
        ("K 1 1", 0),
        ("K 4095 4095", 0),
        ("K 4096 1", 3),
        ("K 5 4096", 3),
        ("O 0 5 2", 3),
        ("O 1 0 1", 0),
        ("O 16 18446744073709551615 4095", 0),
        ("O 17 5 2", 3),
        ("O 1 18446744073709551616 2", 3),
        ("O 1 5 0", 3),
        ("O 1 5 4096", 3),
        ("M 0 1 2 0 0", 3),
        ("M 1 1 2 0 0", 3),
        ("M 2 1 2 0 0", 3),
        ("M 3 1 2 0 0", 3),
        ("M 4 1 1 0 0", 0),
        ("M 5 1 2 0 0", 3),
        ("M 4294967295 1 2 0 0", 3),
        ("M 4294967296 2 4095 1 1", 0),
        ("M 18446744073709551612 2 4095 1 1", 0),
        ("M 18446744073709551613 2 4095 1 1", 3),
        ("M 18446744073709551615 2 4095 1 1", 3),
        ("M 18446744073709551616 2 4095 1 1", 3),
        ("M 8 0 2 0 0", 3),
        ("M 8 3 2 0 0", 3),
        ("M 8 1 0 0 0", 3),
        ("M 8 1 4096 0 0", 3),
        ("M 8 1 2 2 0", 3),
        ("M 8 1 2 0 2", 3),
    ] {
        assert_eq!(said(line), expected, "{line}");
    }
}

#[test]
fn the_writer_refuses_what_the_reader_would() {
    let n = |thread, env, count, handles| Event::N {
        thread,
        env,
        count,
        handles,
    };
    let c = |function, places, capacity| Event::C {
        thread: 1,
        env: 1,
        function,
        places,
        capacity,
    };
    let r = |function, result, pending| Event::R {
        thread: 1,
        function,
        result,
        pending,
    };
    let a = |thread, env| Event::A { thread, env };
    let d = |thread| Event::D { thread };
    let k = |class, superclass| Event::K { class, superclass };
    let o = |thread, handle, class| Event::O {
        thread,
        handle,
        class,
    };
    let m = |identity, sort, class, is_static, is_final| Event::M {
        identity,
        sort,
        class,
        is_static,
        is_final,
    };
    for bad in [
        n(0, 1, 0, [0; 8]),
        n(17, 1, 0, [0; 8]),
        n(1, 0, 0, [0; 8]),
        n(1, 1, 1, [0; 8]),
        n(1, 1, 1, [2, 0, 0, 0, 0, 0, 0, 0]),
        n(1, 1, 1, [1, 5, 0, 0, 0, 0, 0, 0]),
        n(1, 1, 0, [0, 0, 0, 0, 0, 0, 0, 5]),
        n(1, 1, usize::MAX, [1; 8]),
        Event::X {
            thread: 0,
            result: 0,
        },
        Event::X {
            thread: 17,
            result: 0,
        },
        c(3, [0; 3], 0),
        c(233, [0; 3], 0),
        c(u32::MAX, [0; 3], 0),
        c(4, [1, 0, 0], 0),
        c(4, [0, 0, 1], 0),
        c(4, [0; 3], 1),
        r(4, 1, 0),
        r(6, 2, 0),
        r(6, -3, 0),
        r(7, 5, 0),
        r(21, 18_446_744_073_709_551_618, 0),
        r(165, -1, 0),
        r(165, 18_446_744_073_709_551_616, 0),
        r(217, 2_147_483_648, 0),
        r(217, 4_294_967_296, 0),
        r(217, i128::MIN, 0),
        r(4, 0, 2),
        r(3, 0, 0),
        a(0, 1),
        a(17, 1),
        a(257, 1),
        a(1, 0),
        d(0),
        d(17),
        d(u32::MAX),
        m(0, 1, 2, 0, 0),
        m(5, 1, 2, 0, 0),
        m(6, 1, 2, 0, 0),
        m(u64::MAX, 1, 2, 0, 0),
        m(8, 0, 2, 0, 0),
        m(8, 3, 2, 0, 0),
        m(8, 257, 2, 0, 0),
        m(8, u32::MAX, 2, 0, 0),
        m(8, 1, 0, 0, 0),
        m(8, 1, 4_096, 0, 0),
        m(8, 1, 2, 2, 0),
        m(8, 1, 2, 256, 0),
        m(8, 1, 2, 0, 2),
        m(8, 1, 2, 0, u32::MAX),
        k(0, 1),
        k(4_096, 1),
        k(5, 0),
        k(5, u32::MAX),
        o(0, 5, 2),
        o(17, 5, 2),
        o(1, 5, 0),
        o(1, 5, 4_096),
    ] {
        let mut buffer = [b'?'; 200];
        assert_eq!(write(&bad, &mut buffer), Err(3), "{bad:?}");
        assert_eq!(buffer, [b'?'; 200]);
        assert_eq!(write(&bad, &mut []), Err(3), "3 comes before 7: {bad:?}");
    }
}

#[test]
fn a_short_buffer_is_7_and_bytes_past_a_line_stay() {
    let event = Event::X {
        thread: 16,
        result: u64::MAX,
    };
    let line = b"X\t16\t18446744073709551615\n";
    for room in 0..line.len() {
        let mut buffer = vec![b'?'; room];
        assert_eq!(write(&event, &mut buffer), Err(7));
        assert_eq!(buffer, vec![b'?'; room]);
    }
    for room in line.len()..line.len() + 3 {
        let mut buffer = vec![b'?'; room];
        assert_eq!(write(&event, &mut buffer), Ok(line.len()));
        assert_eq!(&buffer[..line.len()], line);
        assert!(buffer[line.len()..].iter().all(|&byte| byte == b'?'));
    }
}

#[test]
fn the_longest_lines_are_written() {
    let event = Event::N {
        thread: 16,
        env: u64::MAX,
        count: 8,
        handles: [u64::MAX - 2; 8],
    };
    assert_eq!(write(&event, &mut [0; 194]), Ok(194));
    assert_eq!(write(&event, &mut [0; 193]), Err(7));
    let event = Event::C {
        thread: 16,
        env: u64::MAX,
        function: 26,
        places: [0; 3],
        capacity: i32::MIN,
    };
    let mut buffer = [0; MOST_BYTES];
    let length = write(&event, &mut buffer).unwrap();
    assert_eq!(
        &buffer[..length],
        b"C\t16\t18446744073709551615\t26\t0\t0\t0\t-2147483648\n"
    );
}

#[test]
fn what_is_written_is_read_and_what_is_read_is_written() {
    let mut lines = 0;
    for (seed, profile) in (1..).zip(&PROFILES) {
        let trace = make(profile, seed, 300, LENT);
        for line in trace.split_inclusive(|&byte| byte == b'\n') {
            if let Ok(event) = read(line) {
                let mut buffer = [0; MOST_BYTES];
                let length = write(&event, &mut buffer).unwrap();
                assert_eq!(&buffer[..length], line);
                assert_eq!(read(&buffer[..length]), Ok(event));
                lines += 1;
            }
        }
    }
    assert!(lines > 2_000);
}

#[test]
fn any_event_the_writer_takes_is_read_back() {
    let mut random = Random::new(7);
    let mut taken = 0;
    for _ in 0..200_000 {
        let number = |random: &mut Random| match random.below(4) {
            0 => 0,
            1 => random.between(0, 20).into(),
            2 => u64::MAX - u64::from(random.between(0, 5)),
            _ => random.number() >> random.between(0, 63),
        };
        let thread = random.between(0, 17);
        let function = random.between(0, 240);
        let event = match random.below(9) {
            8 => Event::M {
                identity: number(&mut random),
                sort: random.between(0, 3),
                class: random.between(0, 4_096),
                is_static: random.between(0, 2),
                is_final: random.between(0, 2),
            },
            6 => Event::A {
                thread,
                env: number(&mut random),
            },
            7 => Event::D { thread },
            4 => Event::K {
                class: random.between(0, 4_096),
                superclass: random.between(0, 4_096),
            },
            5 => Event::O {
                thread,
                handle: number(&mut random),
                class: random.between(0, 4_096),
            },
            0 => {
                let count = random.below(10);
                let mut handles = [0; 8];
                for handle in handles.iter_mut().take(count) {
                    *handle = (number(&mut random) & !3) + 1;
                }
                Event::N {
                    thread,
                    env: number(&mut random),
                    count,
                    handles,
                }
            }
            1 => Event::X {
                thread,
                result: number(&mut random),
            },
            2 => Event::C {
                thread,
                env: number(&mut random),
                function,
                places: [(); 3].map(|()| number(&mut random)),
                capacity: random.pick(&[0, 0, 1, -1, i32::MIN, i32::MAX]),
            },
            _ => Event::R {
                thread,
                function,
                result: i128::from(number(&mut random)) - i128::from(number(&mut random) / 2),
                pending: random.between(0, 2),
            },
        };
        let mut buffer = [0; MOST_BYTES];
        match write(&event, &mut buffer) {
            Ok(length) => {
                assert_eq!(read(&buffer[..length]), Ok(event));
                taken += 1;
            }
            Err(refusal) => assert_eq!(refusal, 3),
        }
    }
    assert!(taken > 20_000, "{taken}");
}
