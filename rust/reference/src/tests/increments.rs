// Other increments than 25: series worked out by hand, refusals in their order, and the column of a text.

use super::*;

const MOST: u32 = 10_000_000;

fn by(increment: u32, shorts: &[u32], exercised: u32, draw: u32) -> Result<Allocation, u32> {
    let accounts = upward(shorts.len());
    allocate(Terms::new(b'W', exercised, draw).by(increment), List::by_account(&accounts, shorts), shorts.len())
}

// Increment, shorts, S, starting place, skip interval in millionths, blocks, amounts.
type ByHand = (u32, &'static [u32], u32, u32, u64, &'static [(u32, u32)], &'static [u32]);

const A: &[u32] = &[60, 200, 95];

const BY_HAND: [ByHand; 11] = [
    // 6 / 4 = 1.5
    (1, &[2, 1, 3], 4, 2, 500_000, &[(2, 2), (3, 3), (5, 5), (6, 6)], &[1, 1, 2]),
    // 6 / 2 = 3
    (2, &[2, 1, 3], 3, 5, 1_000_000, &[(5, 6), (2, 2)], &[1, 0, 2]),
    // 355 / 7 = 50.714286: the blocks begin where those of 25 in the source's example do.
    (
        10,
        A,
        65,
        1,
        40_714_286,
        &[(1, 10), (51, 60), (102, 111), (153, 162), (203, 212), (254, 263), (305, 309)],
        &[20, 37, 8],
    ),
    // 355 / 18 = 19.722222
    (
        10,
        A,
        175,
        1,
        9_722_222,
        &[
            (1, 10),
            (20, 29),
            (40, 49),
            (60, 69),
            (79, 88),
            (99, 108),
            (119, 128),
            (139, 148),
            (158, 167),
            (178, 187),
            (198, 207),
            (217, 226),
            (237, 246),
            (257, 266),
            (277, 286),
            (296, 305),
            (316, 325),
            (336, 340),
        ],
        &[31, 103, 41],
    ),
    // 12 / 2 = 6 is less than the increment.
    (10, &[3, 9], 11, 4, 0, &[(4, 1), (2, 2)], &[2, 9]),
    // 355 / 8 = 44.375
    (
        24,
        A,
        175,
        1,
        20_375_000,
        &[(1, 24), (45, 68), (89, 112), (134, 157), (178, 201), (222, 245), (267, 290), (311, 317)],
        &[40, 104, 31],
    ),
    // 355 / 7 = 50.714286, in the source's example and with one contract more in a block.
    (
        25,
        A,
        175,
        1,
        25_714_286,
        &[(1, 25), (51, 75), (102, 126), (153, 177), (203, 227), (254, 278), (305, 329)],
        &[35, 97, 43],
    ),
    (
        26,
        A,
        175,
        1,
        24_714_286,
        &[(1, 26), (51, 76), (102, 127), (153, 178), (203, 228), (254, 279), (305, 323)],
        &[36, 101, 38],
    ),
    // One block.
    (1_000, A, 175, 300, 0, &[(300, 119)], &[60, 59, 56]),
    // 3000 / 2 = 1500
    (1_000, &[900, 1300, 800], 1_500, 2_000, 500_000_000, &[(2_000, 2_999), (500, 999)], &[401, 300, 799]),
    // 3000 / 3 = 1000
    (1_000, &[900, 1300, 800], 2_001, 3_000, 0, &[(3_000, 999), (1_000, 1_999), (2_000, 2_000)], &[900, 1_100, 1]),
];

#[test]
fn series_worked_out_by_hand() {
    for (increment, shorts, exercised, draw, interval, expected, amounts) in BY_HAND {
        let total = shorts.iter().sum();
        let terms = Terms::new(b'W', exercised, draw).by(increment);
        let further = expected.len() as u32;
        assert_eq!(blocks(terms, total), expected, "{terms:?}");
        assert_eq!(skip_interval(total, further, increment), interval, "{terms:?}");
        let found = by(increment, shorts, exercised, draw);
        assert_eq!(found, Ok(Allocation { amounts: amounts.to_vec(), total, further }), "{terms:?}");
    }
}

// A text, and a text of last numbers, assigned by tens.
#[test]
fn texts_assigned_by_tens() {
    let [lines, lasts] = ["1,60\n2,200\n3,95\n", "1,60\n2,260\n3,355\n"];
    for whole in [
        text_by_increment("W,65,1,10\n", NAMES, lines),
        text_by_increment("W,65,1,0000000010\n", NAMES, lines),
        text_by_increment("W,65,1,10\n", LAST_NAMES, lasts),
        text_by_increment("W,65,1,10\n", LONG_NAMES, "7,1,60\n8,2,200\n9,3,95\n"),
    ] {
        assert_eq!(printed(&whole), b"account,assigned\n1,20\n2,37\n3,8\n");
    }
}

#[test]
fn increments_that_are_refused() {
    for increment in [0, 1_001, 1_002, 65_536, u32::MAX] {
        for (exercised, draw) in [(1, 1), (175, 340), (354, 355)] {
            assert_eq!(by(increment, A, exercised, draw), Err(23), "{increment}");
        }
        // Before the draw, and where S equals T; after S.
        assert_eq!(by(increment, A, 175, 0), Err(23));
        assert_eq!(by(increment, A, 175, 356), Err(23));
        assert_eq!(by(increment, A, 355, 0), Err(23));
        assert_eq!(by(increment, A, 355, 1), Err(23));
        assert_eq!(by(increment, &[355], 355, 1), Err(23));
        assert_eq!(by(increment, A, 0, 1), Err(8));
        assert_eq!(by(increment, A, 356, 1), Err(9));
        assert_eq!(by(increment, &[60, 0], 1, 1), Err(6));
    }
    for increment in [1, 2, 9, 10, 24, 25, 26, 999, 1_000] {
        assert_eq!(by(increment, A, 355, 0), Ok(Allocation { amounts: A.to_vec(), total: 355, further: 0 }));
        assert_eq!(by(increment, A, 354, 0), Err(10));
        assert_eq!(by(increment, A, 356, 0), Err(9));
        assert_eq!(by(increment, A, 354, 355).unwrap().further, 354u32.div_ceil(increment));
    }
}

#[test]
fn blocks_that_are_too_many() {
    let many = &[4_000_000, 6_000_000];
    for increment in 1..=9 {
        let most = increment * 1_000_000;
        assert_eq!(by(increment, many, most, 1).unwrap().further, 1_000_000);
        for exercised in [most + 1, MOST - 1] {
            assert_eq!(by(increment, many, exercised, 1), Err(24), "{increment} {exercised}");
            // Before the draw.
            assert_eq!(by(increment, many, exercised, 0), Err(24));
            assert_eq!(by(increment, many, exercised, MOST + 1), Err(24));
        }
        assert_eq!(by(increment, many, most, 0), Err(10));
        assert_eq!(by(increment, many, MOST + 1, 1), Err(9));
        // There are no blocks where S equals T.
        assert_eq!(by(increment, many, MOST, 0), Ok(Allocation { amounts: many.to_vec(), total: MOST, further: 0 }));
    }
    assert_eq!(by(10, many, MOST - 1, 1).unwrap().further, 1_000_000);
    for increment in [0, 1_001] {
        assert_eq!(by(increment, many, MOST - 1, 0), Err(23));
    }
    // T1 is above 1,000,000 only where T is.
    assert_eq!(by(1, &[1_000_001], 1_000_000, 1).unwrap().further, 1_000_000);
    assert_eq!(by(1, &[1_000_001], 1_000_001, 1).unwrap().further, 0);
    assert_eq!(by(1, &[1_000_002], 1_000_001, 1), Err(24));
}

// What the limit is for: T / T1 is 1.00000050000025, to six places 1.000001, so that 9 contracts are skipped where only
// 5 are not assigned, and the counter goes on for 4 contracts from its start.
#[test]
fn with_more_blocks_contracts_are_marked_twice() {
    let mut times = vec![0u8; MOST as usize];
    let terms = Terms::new(b'W', 9_999_995, 1).by(1);
    assert_eq!(skip_interval(MOST, terms.blocks(), 1), 1);
    turn(terms, MOST, |_, place| times[place as usize - 1] += 1);
    assert_eq!(times[..5], [2, 2, 2, 2, 1]);
    assert_eq!(times.iter().filter(|&&marks| marks > 1).count(), 4);
}

#[test]
fn other_methods_ignore_the_increment() {
    for (method, shorts, exercised, draw, amounts, total, further) in KNOWN {
        let accounts = upward(shorts.len());
        let expected = Ok(Allocation { amounts: amounts.to_vec(), total, further });
        for increment in [0, 1, 10, 25, 1_000, 1_001, u32::MAX] {
            let terms = Terms::new(method, exercised, draw).by(increment);
            let found = allocate(terms, List::by_account(&accounts, shorts), shorts.len());
            if method == b'W' {
                assert_eq!(found == expected, increment == 25, "{terms:?}");
            } else {
                assert_eq!(found, expected, "{terms:?}");
            }
        }
    }
    let many = [4_000_000, 6_000_000];
    for method in *b"PLR" {
        let terms = Terms::new(method, MOST - 1, 5).by(1);
        assert_eq!(allocate(terms, List::by_account(&[1, 2], &many), 2).map(|found| found.total), Ok(MOST));
    }
}

#[test]
fn the_same_share_at_every_increment() {
    for shorts in [&[7, 1, 30][..], &[25, 25, 26], &[12, 20, 9]] {
        let total: u32 = shorts.iter().sum();
        for increment in [1, 2, 3, 10, 24, 26, 50, 1_000] {
            for exercised in 1..=total {
                let mut sums = vec![0; shorts.len()];
                for place in 1..=total {
                    let amounts = by(increment, shorts, exercised, place).unwrap().amounts;
                    sums.iter_mut().zip(amounts).for_each(|(sum, amount)| *sum += amount);
                }
                assert!(sums.iter().zip(shorts).all(|(sum, short)| *sum == short * exercised), "{shorts:?}");
            }
        }
    }
}

#[test]
fn reading_refusals_with_an_increment() {
    for line in [
        "method,exercised,draw,increment",
        "method,exercised,draw,increment\r\n",
        "method,exercised,draw,increments\n",
        "method,exercised,draw,Increment\n",
        "method,exercised,draw,\n",
        "method,exercised,draw,increment,\n",
        "method,exercised,draw,increment,increment\n",
        "method,exercised,increment,draw\n",
        "method,exercised,increment\n",
        "increment,method,exercised,draw\n",
    ] {
        assert_eq!(read_text(format!("{line}W,1,1,1\n{NAMES}1,1\n").as_bytes()), Err(12), "{line:?}");
    }
    for (line, number) in [
        ("", 13),
        ("W,1,1,1", 13),
        ("W,1,1\n", 13),
        ("X,1,1\n", 13),
        ("X,1,1,1,1\n", 13),
        ("W,1,1,1,1\n", 13),
        ("X,1,1,1\n", 14),
        ("X,a,1,1\n", 14),
        ("X,1,1,a\n", 14),
        ("WW,1,1,\n", 14),
        ("W,1,1,\n", 13),
        ("W,1,,1\n", 13),
        ("W,a,1,1\n", 13),
        ("W,1,1,a\n", 13),
        ("W,1,1,-1\n", 13),
        ("W,1,1,1\r\n", 13),
        ("W,1,1,4294967296\n", 13),
        ("W,1,1,00000000001\n", 13),
    ] {
        assert_eq!(read_text(&text_by_increment(line, "no names", "")), Err(number), "{line:?}");
    }
    // Four fields under the short line 1, with a method that is none too.
    assert_eq!(read_text(&text("W,1,1,25\n", NAMES, "1,1\n")), Err(13));
    assert_eq!(read_text(&text("X,1,1,25\n", NAMES, "1,1\n")), Err(13));
    assert_eq!(read_text(&text_by_increment("W,1,1,1\n", "no names", "")), Err(12));
}

// The column stands in a text exactly where the increment is not 25, under every method; none is judged.
#[test]
fn increments_are_written_and_kept() {
    for method in METHODS {
        for increment in [0, 1, 10, 24, 25, 26, 1_000, 1_001, u32::MAX] {
            let terms = Terms::new(method, 7, 8).by(increment);
            let list = List::by_account(&[1, 2], &[5, 3]);
            let [shorts, lasts] = [(NAMES, "1,5\n2,3\n"), (LAST_NAMES, "1,5\n2,8\n")].map(|(names, lines)| {
                let line_2 = format!("{},7,8", char::from(method));
                match increment {
                    25 => text(&format!("{line_2}\n"), names, lines),
                    _ => text_by_increment(&format!("{line_2},{increment}\n"), names, lines),
                }
            });
            assert_eq!(write(terms, list, shorts.len()).as_ref(), Ok(&shorts));
            assert_eq!(write(terms, list, shorts.len() - 1), Err(4));
            assert_eq!(read_text(&shorts).unwrap().terms, terms);
            assert_eq!(change(&shorts, lasts.len()).as_ref(), Ok(&lasts));
            assert_eq!(change(&shorts, lasts.len() - 1), Err(4));
            assert_eq!(printed_change(&lasts), shorts);
        }
    }
}

#[test]
fn a_column_that_says_nothing_is_left_out() {
    for spelled in ["25", "025", "0000000025"] {
        let whole = text_by_increment(&format!("W,7,8,{spelled}\n"), NAMES, "1,5\n2,3\n");
        let series = read_text(&whole).unwrap();
        assert_eq!(series.terms, Terms::new(b'W', 7, 8));
        assert_eq!(write(series.terms, series.list(), MOST_BYTES), Ok(text("W,7,8\n", NAMES, "1,5\n2,3\n")));
        assert_eq!(printed_change(&whole), text("W,7,8\n", LAST_NAMES, "1,5\n2,8\n"));
        assert_eq!(printed(&whole), printed(&text("W,7,8\n", NAMES, "1,5\n2,3\n")));
    }
    let none = text_by_increment("P,0,0,26\n", NAMES, "");
    assert_eq!(write(read_text(&none).unwrap().terms, List::by_account(&[], &[]), MOST_BYTES), Ok(none));
}
