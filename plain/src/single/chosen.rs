//! Lines and what writers are handed that are each to be tried once: all that are short, and all changes of one kind to good ones.

use crate::called::Handed;
use crate::damage::{MALFORMED, NUMBERS};
use crate::limits::{Class, Field, Handle, MOST_BYTES, MOST_HANDLES, THREADS};
use crate::twin::{ADDRESS, HIGH};

/// Of which all lines of up to four bytes are made.
const SOME: [u8; 17] = *b"NXCRADKOMZ\t\n\r-019";
/// Of which all lines of five bytes and an LF are made; X, A, D and K have good ones.
const FEW: [u8; 10] = *b"XADKZ\t\n-01";
/// The functions that are tried, those that are none among them.
const FUNCTIONS: u32 = 301;
/// The most numbers that a letter is tried with.
const MOST_COUNT: usize = 12;

/// Good lines, written with spaces for tabs.
const GOOD: [&str; 23] = [
    "N 1 100",
    "N 16 18446744073709551615 5 4294967297 18446744073709551613",
    "N 1 100 1 5 9 13 17 21 25 29",
    "X 2 7",
    "X 16 18446744073709551615",
    "C 3 300 19 0 0 0 -5",
    "C 1 100 104 5 8 9 0",
    "C 1 140187412345673 67 4294967295 4294967296 18446744073709551612 0",
    "C 16 1 26 0 0 0 2147483647",
    "R 4 217 -1 1",
    "R 1 6 9 0",
    "R 1 165 18446744073709551614 1",
    "A 1 100",
    "A 16 18446744073709551615",
    "D 1",
    "D 16",
    "K 5 1",
    "K 4095 4094",
    "O 1 5 2",
    "O 16 18446744073709551615 4095",
    "M 8 1 2 0 0",
    "M 18446744073709551612 2 4095 1 1",
    "Z",
];

/// Numbers of each kind, at both ends, and past them.
const VALUES: [Field; 29] = [
    -18_446_744_073_709_551_616,
    -9_223_372_036_854_775_809,
    -4_294_967_296,
    -2_147_483_649,
    -2_147_483_648,
    -1,
    0,
    1,
    2,
    3,
    4,
    5,
    2_147_483_647,
    2_147_483_648,
    4_294_967_292,
    4_294_967_293,
    4_294_967_294,
    4_294_967_295,
    4_294_967_296,
    4_294_967_297,
    4_294_967_298,
    4_294_967_299,
    9_223_372_036_854_775_807,
    18_446_744_073_709_551_612,
    18_446_744_073_709_551_613,
    18_446_744_073_709_551_614,
    18_446_744_073_709_551_615,
    18_446_744_073_709_551_616,
    18_446_744_073_709_551_617,
];

pub fn lines() -> Vec<Vec<u8>> {
    let mut lines = short();
    lines.extend(changed());
    lines.extend(counted());
    lines.extend(of_fields());
    lines.extend(of_functions());
    lines.extend(long());
    lines
}

/// All lines of at most two bytes, those of three and four over some, and those of five and an LF over the few.
fn short() -> Vec<Vec<u8>> {
    let bytes: Vec<u8> = (0..=u8::MAX).collect();
    let mut lines: Vec<Vec<u8>> = (0..=2).flat_map(|length| all(&bytes, length)).collect();
    lines.extend((3..=4).flat_map(|length| all(&SOME, length)));
    for mut line in all(&FEW, 5) {
        line.push(b'\n');
        lines.push(line);
    }
    lines
}

/// All of that length over these bytes.
fn all(bytes: &[u8], length: usize) -> Vec<Vec<u8>> {
    (0..length).fold(vec![Vec::new()], |shorter, _| {
        let longer = |line: &Vec<u8>| {
            let line = line.clone();
            bytes.iter().map(move |&byte| [&line[..], &[byte]].concat())
        };
        shorter.iter().flat_map(longer).collect()
    })
}

/// Good lines, cut off at each byte, without each byte, with each byte for another, and with each byte more.
fn changed() -> Vec<Vec<u8>> {
    let mut lines = Vec::new();
    for good in GOOD.map(bytes) {
        for at in 0..good.len() {
            let (before, after) = good.split_at(at);
            lines.push(before.to_vec());
            lines.push([before, &after[1..]].concat());
            for byte in 0..=u8::MAX {
                lines.push([before, &[byte], &after[1..]].concat());
                lines.push([before, &[byte], after].concat());
            }
        }
        lines.push(good);
    }
    lines
}

/// Each byte as a letter, with each count of numbers.
fn counted() -> Vec<Vec<u8>> {
    let mut lines = Vec::new();
    for letter in 0..=u8::MAX {
        for number in ["\t0", "\t1", "\t5", "\t-1", "\t01", "\t"] {
            for count in 0..=MOST_COUNT {
                let numbers = number.repeat(count);
                lines.push([&[letter], numbers.as_bytes(), b"\n"].concat());
            }
        }
    }
    lines
}

/// Good lines with each odd field in each place, and with two of a few.
fn of_fields() -> Vec<Vec<u8>> {
    const TWO: [&str; 13] = [
        "-1",
        "-0",
        "01",
        "0",
        "2",
        "17",
        "233",
        "4095",
        "4096",
        "4294967297",
        "18446744073709551615",
        "18446744073709551617",
        "",
    ];
    let mut lines = Vec::new();
    for good in GOOD {
        let fields: Vec<&str> = good.split(' ').collect();
        for at in 1..fields.len() {
            for odd in NUMBERS.iter().chain(&MALFORMED) {
                lines.push(with(&fields, &[(at, odd)]));
            }
            for behind in at + 1..fields.len() {
                for odd in TWO {
                    for other in TWO {
                        lines.push(with(&fields, &[(at, odd), (behind, other)]));
                    }
                }
            }
        }
    }
    lines
}

/// The fields with others in those places, as a line.
fn with(fields: &[&str], others: &[(usize, &str)]) -> Vec<u8> {
    let mut fields = fields.to_vec();
    for &(at, other) in others {
        fields[at] = other;
    }
    (fields.join("\t") + "\n").into_bytes()
}

/// C and R of each function, with each number in each place.
fn of_functions() -> Vec<Vec<u8>> {
    let mut lines = Vec::new();
    for function in 0..FUNCTIONS {
        let mut call = |[a, b, c]: [Field; 3], n: Field| {
            lines.push(bytes(&format!("C 1 100 {function} {a} {b} {c} {n}")));
        };
        call([5, 8, 9], 0);
        call([5, 8, 0], 0);
        for value in VALUES {
            call([value, 0, 0], 0);
            call([0, value, 0], 0);
            call([0, 0, value], 0);
            call([0; 3], value);
        }
        for value in VALUES {
            for pending in -1..=2 {
                lines.push(bytes(&format!("R 1 {function} {value} {pending}")));
            }
        }
    }
    lines
}

/// Lines of each length about the longest, and far beyond: digits, tabs, what is no number, LFs inside; with an LF and without.
fn long() -> Vec<Vec<u8>> {
    let greatest = b"\t18446744073709551613".repeat(1 + MOST_HANDLES);
    let longest = [b"N\t16", &greatest[..]].concat();
    let starts: [&[u8]; 7] = [
        &longest,
        b"N\t1\t1\t",
        b"X\t1\t",
        b"R\t1\t19\t-",
        b"Z",
        b"Z\n",
        b"",
    ];
    let lengths = (0..=2 * MOST_BYTES + 40).chain([4_095, 65_535, 65_536, 65_537, 1_000_000]);
    let mut lines = Vec::new();
    for length in lengths {
        for start in starts {
            for filler in [b"1", b"0", b"\t", b"x", b"\n", b"Z"] {
                let mut line = start.to_vec();
                line.resize(length, filler[0]);
                lines.push(line.clone());
                line.push(b'\n');
                lines.push(line);
            }
        }
    }
    // Such a line, cut to 8 or 16 bits of its length, would be a good one.
    for count in (0..=MOST_BYTES + 40).chain([32_769]) {
        lines.push(b"Z\n".repeat(count));
    }
    lines
}

pub fn handed() -> Vec<Handed> {
    const HANDLES: [Handle; 17] = [
        0,
        1,
        2,
        3,
        4,
        5,
        HIGH - 1,
        HIGH,
        HIGH + 1,
        HIGH + 2,
        HIGH + 3,
        ADDRESS,
        1 << 63,
        Handle::MAX - 3,
        Handle::MAX - 2,
        Handle::MAX - 1,
        Handle::MAX,
    ];
    const CLASSES: [Class; 15] = [
        0,
        1,
        4,
        5,
        9,
        255,
        256,
        4_094,
        4_095,
        4_096,
        4_097,
        4_096 + 5,
        65_536 + 5,
        0x8000_0005,
        Class::MAX,
    ];
    const FLAGS: [u32; 8] = [0, 1, 2, 3, 256, 257, 65_537, u32::MAX];
    const SIGNED: [i32; 6] = [0, 1, -1, 5, i32::MIN, i32::MAX];
    let threads = (0..=THREADS + 2).chain([256, 257, 65_537, u32::MAX]);
    let mut all = vec![Handed::End];
    for thread in threads {
        for number in HANDLES {
            all.push(enter(thread, number, 0, [0; MOST_HANDLES]));
            all.push(Handed::Leave {
                thread,
                result: number,
            });
            all.push(call(thread, number, 19, [0; 3], 0));
            all.push(Handed::Attach {
                thread,
                env: number,
            });
        }
        all.push(answer(thread, 19, 0, 0, 0));
        all.push(Handed::Detach { thread });
        for class in CLASSES {
            all.push(state(thread, 5, class));
        }
    }
    for class in CLASSES {
        for superclass in CLASSES {
            all.push(Handed::Declare { class, superclass });
        }
        for handle in HANDLES {
            all.push(state(1, handle, class));
        }
        for flags in [[0, 0], [0, 1], [1, 0], [1, 1]] {
            all.push(identify(8, 1, class, flags));
            all.push(identify(8, 2, class, flags));
        }
    }
    for sort in FLAGS {
        for identity in HANDLES {
            all.push(identify(identity, sort, 2, [0, 1]));
        }
        for is_static in FLAGS {
            for is_final in FLAGS {
                all.push(identify(8, sort, 2, [is_static, is_final]));
            }
        }
    }
    for count in (0..=10).chain([256, 264, 65_536, u32::MAX]) {
        for given in 0..=MOST_HANDLES {
            let mut handles = [0; MOST_HANDLES];
            handles[..given].fill(5);
            all.push(enter(1, 100, count, handles));
            for at in 0..MOST_HANDLES {
                for number in HANDLES {
                    handles[at] = number;
                    all.push(enter(1, 100, count, handles));
                }
                handles[at] = if at < given { 5 } else { 0 };
            }
        }
    }
    for function in (0..FUNCTIONS).chain([65_536 + 19, u32::MAX]) {
        for number in HANDLES {
            all.push(call(1, 100, function, [number, 0, 0], 0));
            all.push(call(1, 100, function, [0, number, 0], 0));
            all.push(call(1, 100, function, [0, 0, number], 0));
            all.push(call(1, 100, function, [number; 3], 0));
            for status in SIGNED {
                for pending in [0, 1, 2, u32::MAX] {
                    all.push(answer(1, function, number, status, pending));
                }
            }
        }
        for capacity in SIGNED {
            all.push(call(1, 100, function, [0; 3], capacity));
        }
    }
    all
}

fn state(thread: u32, handle: Handle, class: Class) -> Handed {
    Handed::State {
        thread,
        handle,
        class,
    }
}

fn identify(identity: Handle, sort: u32, class: Class, flags: [u32; 2]) -> Handed {
    let [is_static, is_final] = flags;
    Handed::Identify {
        identity,
        sort,
        class,
        is_static,
        is_final,
    }
}

fn enter(thread: u32, env: Handle, count: u32, handles: [Handle; MOST_HANDLES]) -> Handed {
    Handed::Enter {
        thread,
        env,
        count,
        handles,
    }
}

fn call(thread: u32, env: Handle, function: u32, places: [Handle; 3], capacity: i32) -> Handed {
    Handed::Call {
        thread,
        env,
        function,
        places,
        capacity,
    }
}

fn answer(thread: u32, function: u32, result: Handle, status: i32, pending: u32) -> Handed {
    Handed::Return {
        thread,
        function,
        result,
        status,
        pending,
    }
}

/// A line written with spaces for tabs.
fn bytes(line: &str) -> Vec<u8> {
    (line.replace(' ', "\t") + "\n").into_bytes()
}
