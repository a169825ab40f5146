use super::*;

mod increments;
mod jobs;
mod merge;

// Method, shorts, S, draw, amounts, T and the further number, from the document's table.
type Known = (u8, &'static [u32], u32, u32, &'static [u32], u32, u32);
const KNOWN: [Known; 12] = [
    (b'W', &[60, 200, 95], 175, 1, &[35, 97, 43], 355, 7),
    (b'W', &[60, 200, 95], 175, 340, &[34, 98, 43], 355, 7),
    (b'W', &[10, 20], 26, 29, &[10, 16], 30, 2),
    (b'W', &[50, 50], 30, 1, &[25, 5], 100, 2),
    (b'W', &[76, 1, 77], 150, 1, &[75, 0, 75], 154, 6),
    (b'P', &[5, 3, 2], 4, 0, &[2, 1, 1], 10, 1),
    (b'P', &[3], 1, 0, &[1], 3, 1),
    (b'P', &[1, 1, 1], 1, 5, &[0, 0, 1], 3, 1),
    (b'P', &[1, 1, 1], 2, 2, &[1, 0, 1], 3, 2),
    (b'P', &[3, 1, 2], 2, 0, &[1, 0, 1], 6, 2),
    (b'L', &[5, 8, 2, 10, 11], 13, 4855, &[0, 0, 0, 8, 5], 36, 18),
    (b'L', &[5, 8, 2, 10, 11], 2, 10000, &[1, 0, 0, 0, 1], 36, 36),
];

// The shorts of M and N, T = 36, and draws in and out of the ranges of W and L.
const SHORTS: [u32; 5] = [5, 8, 2, 10, 11];
const DRAWS: [u32; 8] = [0, 1, 18, 36, 37, 10_000, 10_001, u32::MAX];

const METHODS: [u8; 4] = *b"WPLR";

fn upward(count: usize) -> Vec<u32> {
    (1..=count as u32).collect()
}

fn by_account(
    method: u8,
    accounts: &[u32],
    shorts: &[u32],
    exercised: u32,
    draw: u32,
    room: usize,
) -> Result<Allocation, u32> {
    allocate(Terms::new(method, exercised, draw), List::by_account(accounts, shorts), room)
}

fn answer(method: u8, shorts: &[u32], exercised: u32, draw: u32) -> Result<Allocation, u32> {
    by_account(method, &upward(shorts.len()), shorts, exercised, draw, shorts.len())
}

// The first and last place of each block under W.
fn blocks(terms: Terms, total: u32) -> Vec<(u32, u32)> {
    let mut all: Vec<(u32, u32)> = Vec::new();
    turn(terms, total, |block, place| {
        if all.len() < block as usize {
            all.push((place, place));
        }
        all.last_mut().unwrap().1 = place;
    });
    all
}

#[test]
fn series_with_known_amounts() {
    for (method, shorts, exercised, draw, amounts, total, further) in KNOWN {
        let found = answer(method, shorts, exercised, draw);
        assert_eq!(found, Ok(Allocation { amounts: amounts.to_vec(), total, further }), "{method} {shorts:?}");
    }
}

#[test]
fn blocks_of_the_source_example() {
    let expected = [(1, 25), (51, 75), (102, 126), (153, 177), (203, 227), (254, 278), (305, 329)];
    assert_eq!(blocks(Terms::new(b'W', 175, 1), 355), expected);
    assert_eq!(skip_interval(355, 7, 25), 25_714_286);
}

#[test]
fn readings_that_look_the_same() {
    assert_eq!(skip_interval(30, 2, 25), 0);
    assert_eq!(skip_interval(100, 2, 25), 25_000_000);
    assert_eq!(skip_interval(154, 6, 25), 666_667);
    assert_eq!(blocks(Terms::new(b'W', 150, 1), 154)[3].0, 78);
    assert_eq!(blocks(Terms::new(b'W', 175, 1), 355)[2].0, 102);
    assert_eq!(starting_place(36, 4855), 18);
    // An exact half goes up: 3201 / 128 = 25.0078125.
    assert_eq!(skip_interval(3201, 128, 25), 7_813);
    assert_eq!(skip_interval(3203, 128, 25), 23_438);
    assert_eq!(skip_interval(3201, 128, 1), 24_007_813);
    assert_eq!(skip_interval(3201, 128, 26), 0);
}

#[test]
fn case_m_in_full() {
    let text = b"method,exercised,draw\nL,13,4855\naccount,short\n1,5\n2,8\n3,2\n4,10\n5,11\n";
    let output = b"account,assigned\n1,0\n2,0\n3,0\n4,8\n5,5\n";
    assert_eq!(printed(text), output);
    assert_eq!(respond(text, output.len()), Ok(output.to_vec()));
    assert_eq!(respond(text, output.len() - 1), Err(4));
    let series = read(text, [5; 3]).unwrap();
    assert_eq!(series.terms, Terms { method: b'L', exercised: 13, draw: 4855, increment: 25 });
    assert_eq!(series.codes, [1, 2, 3, 4, 5]);
    assert_eq!(series.accounts, [1, 2, 3, 4, 5]);
    assert_eq!((series.form, &series.numbers[..]), (Form::Shorts, &SHORTS[..]));
    assert_eq!(write(series.terms, series.list(), text.len()), Ok(text.to_vec()));
}

#[test]
fn facts_at_the_edges() {
    assert_eq!(starting_place(3, 3333), 1);
    assert_eq!(starting_place(3, 3334), 2);
    for method in METHODS {
        assert_eq!(answer(method, &SHORTS, 36, 1).unwrap().amounts, SHORTS);
        assert_eq!(answer(method, &SHORTS, 37, 1), Err(9));
    }
    for exercised in [13, 35] {
        assert!(answer(b'W', &SHORTS, exercised, 36).is_ok());
        assert_eq!(answer(b'W', &SHORTS, exercised, 0), Err(10));
        assert_eq!(answer(b'W', &SHORTS, exercised, 37), Err(10));
        assert_eq!(answer(b'L', &SHORTS, exercised, 0), Err(10));
        assert_eq!(answer(b'L', &SHORTS, exercised, 10_001), Err(10));
        assert_eq!(answer(b'L', &SHORTS, exercised, 10_000).unwrap().further, 36);
    }
    for draw in DRAWS {
        assert!(answer(b'P', &SHORTS, 13, draw).is_ok());
        assert_eq!(answer(b'R', &SHORTS, 13, draw).unwrap().further, draw % 36 + 1);
    }
    assert_eq!(answer(b'P', &SHORTS, 36, 0).unwrap().further, 0);
}

#[test]
fn cut_offs_of_round_two() {
    let found = KNOWN.iter().filter(|series| series.0 == b'P').map(|series| cut_off(series.1, series.2));
    assert_eq!(found.collect::<Vec<_>>(), [80_000, 99_999, 33_333, 66_666, 66_666].map(Some));
    // Nothing remains.
    assert_eq!(cut_off(&[2, 2], 2), None);
    assert_eq!(cut_off(&SHORTS, 36), None);
    assert_eq!(cut_off(&[10_000_000], 9_999_999), None);
    // A third of each: the largest decimal part, the second of three, one that all three share.
    assert_eq!(cut_off(&[25, 5], 10), Some(66_666));
    assert_eq!(cut_off(&[4, 5, 21], 10), Some(66_666));
    assert_eq!(cut_off(&[4, 4, 22], 10), Some(33_333));
    // Dropped decimals: a whole share of 2 is 1.99999, and a 17th decimal counts where an 18th does not.
    assert_eq!(cut_off(&[6, 6], 4), Some(99_999));
    assert_eq!(cut_off(&[1 << 17, 1 << 17], 2), None);
    assert_eq!(cut_off(&[1 << 18, 1 << 18], 2), Some(99_999));
    // 4,096 that share it.
    assert_eq!(cut_off(&[1; 4_096], 1), Some(24));
    assert_eq!(cut_off(&[1; 4_096], 4_095), Some(99_975));
}

#[test]
fn a_whole_series_needs_no_draw() {
    for method in METHODS {
        for draw in DRAWS {
            let whole = Allocation { amounts: SHORTS.to_vec(), total: 36, further: 0 };
            assert_eq!(answer(method, &SHORTS, 36, draw), Ok(whole), "{method} {draw}");
        }
    }
}

#[test]
fn one_position_needs_no_draw_under_l_and_r() {
    for exercised in 1..=36 {
        for draw in DRAWS {
            let all = Ok(Allocation { amounts: vec![exercised], total: 36, further: 0 });
            assert_eq!(answer(b'L', &[36], exercised, draw), all, "{draw}");
            assert_eq!(answer(b'R', &[36], exercised, draw), all, "{draw}");
            let wheel = answer(b'W', &[36], exercised, draw);
            if exercised == 36 {
                assert_eq!(wheel, all, "{draw}");
            } else if (1..=36).contains(&draw) {
                assert_eq!(wheel.unwrap().amounts, [exercised], "{draw}");
            } else {
                assert_eq!(wheel, Err(10), "{draw}");
            }
        }
    }
    assert_eq!(answer(b'L', &[1, 35], 35, 0), Err(10));
    assert_eq!(answer(b'L', &[1, 35], 36, 0).unwrap().further, 0);
    assert_eq!(answer(b'R', &[1, 35], 35, 0).unwrap().further, 1);
    assert_eq!(answer(b'R', &[1, 35], 36, 0).unwrap().further, 0);
}

#[test]
fn exercised_is_judged_before_the_draw() {
    for method in METHODS {
        for shorts in [&SHORTS[..], &[36]] {
            for draw in DRAWS {
                assert_eq!(answer(method, shorts, 0, draw), Err(8));
                assert_eq!(answer(method, shorts, 37, draw), Err(9));
            }
        }
    }
}

#[test]
fn amounts_add_up_and_keep_within_the_shorts() {
    let lists: [&[u32]; 5] = [&[1], &[7, 1, 30], &[25, 25, 25], &[100, 3, 3, 3, 1], &[13, 77, 26, 9]];
    for shorts in lists {
        let total: u32 = shorts.iter().sum();
        for method in METHODS {
            for exercised in 1..=total {
                for draw in 1..=total {
                    let found = answer(method, shorts, exercised, draw).unwrap();
                    assert_eq!(found.amounts.iter().sum::<u32>(), exercised);
                    for (amount, short) in found.amounts.iter().zip(shorts) {
                        assert!(amount <= short);
                        if method == b'P' {
                            assert!((short * exercised).abs_diff(total * amount) < total);
                        }
                    }
                }
            }
        }
    }
}

#[test]
fn shares_over_all_starting_places() {
    for shorts in [&[7, 1, 30][..], &[25, 25, 26], &[60, 20, 95]] {
        let total: u32 = shorts.iter().sum();
        for (method, exercised) in (1..=total).flat_map(|exercised| [(b'W', exercised), (b'R', exercised)]) {
            let mut sums = vec![0; shorts.len()];
            for place in 1..=total {
                let draw = if method == b'W' { place } else { place - 1 };
                let amounts = answer(method, shorts, exercised, draw).unwrap().amounts;
                for (sum, amount) in sums.iter_mut().zip(amounts) {
                    *sum += amount;
                }
            }
            for (sum, short) in sums.iter().zip(shorts) {
                assert_eq!(*sum, short * exercised);
            }
        }
    }
}

#[test]
fn allocating_refusals_in_order() {
    let many = upward(4_097);
    let ones = vec![1; 4_097];
    assert_eq!(by_account(b'X', &[1], &[], 0, 0, 0), Err(14));
    assert_eq!(by_account(b'w', &[1], &[1], 1, 1, 1), Err(14));
    assert_eq!(by_account(b'W', &many, &ones[..4_096], 0, 0, 0), Err(1));
    assert_eq!(by_account(b'W', &[], &[1], 0, 0, 0), Err(1));
    assert_eq!(by_account(b'W', &many, &ones, 0, 0, 0), Err(2));
    assert_eq!(by_account(b'W', &many[..4_096], &ones[..4_096], 1, 1, 4_096).map(|a| a.total), Ok(4_096));
    assert_eq!(by_account(b'W', &[], &[], 0, 0, 0), Err(3));
    assert_eq!(by_account(b'W', &[0], &[0], 0, 0, 0), Err(4));
    assert_eq!(by_account(b'W', &[0], &[0], 0, 0, 1), Err(5));
    assert_eq!(by_account(b'W', &[2, 2], &[1, 0], 0, 0, 2), Err(5));
    assert_eq!(by_account(b'W', &[2, 1], &[1, u32::MAX], 0, 0, 2), Err(5));
    assert_eq!(by_account(b'W', &[2, 1], &[0, 1], 0, 0, 2), Err(6));
    assert_eq!(by_account(b'W', &[2, 1], &[10_000_001, 1], 0, 0, 2), Err(7));
    assert_eq!(by_account(b'W', &[1, 2], &[10_000_000, 0], 0, 0, 2), Err(6));
    assert_eq!(by_account(b'W', &[1, 2], &[10_000_000, 1], 0, 0, 2), Err(7));
    assert_eq!(by_account(b'W', &[1, 2], &[u32::MAX, u32::MAX], 0, 0, 2), Err(7));
    assert_eq!(by_account(b'W', &[1], &[10_000_000], 0, 0, 1), Err(8));
    assert_eq!(by_account(b'W', &[1], &[10_000_000], 10_000_001, 0, 1), Err(9));
    assert_eq!(by_account(b'W', &[1], &[10_000_000], 9_999_999, 0, 1), Err(10));
    assert_eq!(by_account(b'W', &[1], &[10_000_000], 10_000_000, 0, 1).map(|a| a.total), Ok(10_000_000));
    assert_eq!(by_account(b'P', &[u32::MAX], &[10_000_000], 10_000_000, 0, 1).map(|a| a.total), Ok(10_000_000));
}

const NAMES: &str = "account,short\n";
const LONG_NAMES: &str = "code,account,short\n";
const LAST_NAMES: &str = "account,last\n";
const LONG_LAST_NAMES: &str = "code,account,last\n";

fn text(line_2: &str, line_3: &str, rest: &str) -> Vec<u8> {
    format!("method,exercised,draw\n{line_2}{line_3}{rest}").into_bytes()
}

fn text_by_increment(line_2: &str, line_3: &str, rest: &str) -> Vec<u8> {
    format!("method,exercised,draw,increment\n{line_2}{line_3}{rest}").into_bytes()
}

#[test]
fn reading_refusals_in_order() {
    let good = NAMES;
    assert_eq!(read_text(b""), Err(12));
    assert_eq!(read_text(b"\n"), Err(12));
    assert_eq!(read_text(b"method,exercised,draw"), Err(12));
    assert_eq!(read_text(b"method,exercised,draw\r\n"), Err(12));
    assert_eq!(read_text(b"method,exercised,draw\n"), Err(13));
    for (line, number) in [
        ("W,1,1", 13),
        ("W,1\n", 13),
        ("X,1\n", 13),
        ("X,1,1,1\n", 13),
        ("X,a,1\n", 14),
        (",a,1\n", 14),
        ("WW,1,1\n", 14),
        ("w,1,1\n", 14),
        ("W ,1,1\n", 14),
        ("W,a,1\n", 13),
        ("W,,1\n", 13),
        ("W,1,\n", 13),
        ("W,00000000001,1\n", 13),
        ("W,1,00000000000\n", 13),
        ("X,00000000001,1\n", 14),
        ("W,+1,1\n", 13),
        ("W,-1,1\n", 13),
        ("W, 1,1\n", 13),
        ("W,1,1\r\n", 13),
        ("W,4294967296,1\n", 13),
        ("W,99999999999999999999999999999999999999999,1\n", 13),
        ("W,1,é\n", 13),
    ] {
        assert_eq!(read_text(&text(line, "no names", "")), Err(number), "{line:?}");
    }
    for line in ["", "\n", "account,short", "account,short\r\n", "account,shorts\n", "1,1\n", " account,short\n"] {
        for line in [line.to_string(), line.replace("short", "last"), line.replace("short", "Last")] {
            assert_eq!(read_text(&text("W,1,1\n", &line, "")), Err(12), "{line:?}");
            assert_eq!(read_text(&text("W,1,1\n", &format!("code,{line}"), "")), Err(12), "code,{line:?}");
        }
    }
    for line in ["code,account\n", "account,code,short\n", "codes,account,short\n", "code,code,account,short\n"] {
        for line in [line.to_string(), line.replace("short", "last")] {
            assert_eq!(read_text(&text("W,1,1\n", &line, "")), Err(12), "{line:?}");
        }
    }
    for line in ["\n", "1,1", "1\n", "1,1,1\n", "1,\n", ",1\n", "1,1\n\n", "1,1\r\n", "a\n", "1,4294967296\n"] {
        assert_eq!(read_text(&text("W,1,1\n", good, line)), Err(13), "{line:?}");
    }
    let empty = read_text(&text("P,0,4294967295\n", good, "")).unwrap();
    assert_eq!((empty.terms, empty.accounts.len()), (Terms::new(b'P', 0, u32::MAX), 0));
    let most = "0,0\n".repeat(1_024);
    assert_eq!(read_text(&text("W,1,1\n", good, &most)).unwrap().accounts.len(), 1_024);
    for extra in ["0,0\n", "\n", "x", "0,0", "00000000001,1\n"] {
        assert_eq!(read_text(&text("W,1,1\n", good, &format!("{most}{extra}"))), Err(15));
    }
    // The 1,024th line is judged before the 1,025th is met.
    assert_eq!(read_text(&text("W,1,1\n", good, &format!("{}x\nx\n", "0,0\n".repeat(1_023)))), Err(13));
    assert_eq!(read_text(&vec![b'x'; 32_769]), Err(11));
    assert_eq!(read_text(&vec![b'x'; 32_768]), Err(12));
    let one = text("W,1,1\n", good, "1,1\n");
    for rooms in [[0, 1, 1], [1, 0, 1], [1, 1, 0], [0, 0, 9]] {
        assert_eq!(read(&one, rooms), Err(4), "{rooms:?}");
    }
    for rooms in [[1, 1, 1], [4, 2, 3]] {
        assert_eq!(read(&one, rooms).map(|s| s.numbers.len()), Ok(1), "{rooms:?}");
    }
    assert_eq!(read(&text("W,1,1\n", good, "1,1\nx\n"), [0; 3]), Err(13));
}

// What a number reads as: as S, draw, account and shorts, then as S, draw, increment, code, account and shorts.
fn read_in_each_field(number: &str) -> [Result<u32, u32>; 10] {
    std::array::from_fn(|field| {
        let mut numbers = ["1"; 10];
        numbers[field] = number;
        let [exercised, draw, account, short, exercised_2, draw_2, increment_2, code_2, account_2, short_2] = numbers;
        let short_form = text(&format!("W,{exercised},{draw}\n"), NAMES, &format!("{account},{short}\n"));
        let line_2 = format!("W,{exercised_2},{draw_2},{increment_2}\n");
        let long_form = text_by_increment(&line_2, LONG_NAMES, &format!("{code_2},{account_2},{short_2}\n"));
        let (a, b) = (read_text(&short_form)?, read_text(&long_form)?);
        assert_eq!((&a.codes, a.terms.increment), (&a.accounts, 25));
        let found = [a.terms.exercised, a.terms.draw, a.accounts[0], a.numbers[0]];
        let terms = [b.terms.exercised, b.terms.draw, b.terms.increment];
        Ok([&found[..], &terms, &[b.codes[0], b.accounts[0], b.numbers[0]]].concat()[field])
    })
}

#[test]
fn spellings_of_a_number() {
    for (number, value) in [
        ("0", 0),
        ("00", 0),
        ("0000000000", 0),
        ("1", 1),
        ("01", 1),
        ("0001", 1),
        ("0000000001", 1),
        ("0012000", 12_000),
        ("0999999999", 999_999_999),
        ("1000000000", 1_000_000_000),
        ("4294967295", u32::MAX),
    ] {
        assert_eq!(read_in_each_field(number), [Ok(value); 10], "{number}");
    }
    for number in [
        "",
        "00000000000",
        "00000000001",
        "000000000001",
        "04294967295",
        "4294967296",
        "8589934593",
        "9999999999",
        "10000000000",
        "0x1",
        "0 1",
        "-01",
        "000000000\u{661}",
    ] {
        assert_eq!(read_in_each_field(number), [Err(13); 10], "{number:?}");
    }
}

#[test]
fn two_spellings_are_one_account() {
    for (lines, number) in [
        ("1,3\n01,4\n", 5),
        ("01,3\n1,4\n", 5),
        ("0000000001,3\n0001,4\n", 5),
        ("0000,3\n", 5),
        ("0010,3\n9,4\n", 5),
        ("9,000\n", 6),
    ] {
        let found = printed(&text("W,1,1\n", "account,short\n", lines));
        assert_eq!(found, format!("refused\n{number}\n").into_bytes(), "{lines:?}");
    }
    let series = read_text(&text("W,1,1\n", "account,short\n", "1,3\n01,4\n")).unwrap();
    assert_eq!((series.accounts, series.numbers), (vec![1, 1], vec![3, 4]));
}

#[test]
fn spelling_changes_nothing_that_is_written() {
    for (method, shorts, exercised, draw, ..) in KNOWN {
        let accounts = upward(shorts.len());
        let terms = Terms::new(method, exercised, draw);
        let written = write(terms, List::by_account(&accounts, shorts), MOST_BYTES).unwrap();
        for width in 1..=MOST_DIGITS {
            let line_2 = format!("{},{exercised:0width$},{draw:0width$}\n", char::from(method));
            let lines = accounts.iter().zip(shorts).map(|(a, s)| format!("{a:0width$},{s:0width$}\n"));
            let spelled = text(&line_2, "account,short\n", &lines.collect::<String>());
            assert_eq!(printed(&spelled), printed(&written), "{width}");
            let series = read_text(&spelled).unwrap();
            let again = write(series.terms, series.list(), written.len());
            assert_eq!(again.as_ref(), Ok(&written), "{width}");
        }
    }
}

#[test]
fn writing_refusals_in_order() {
    let zeros = vec![0; 1_025];
    for form in FORMS {
        let written = |method, [codes, accounts, numbers]: [usize; 3], room| {
            let list = List { form, codes: &zeros[..codes], accounts: &zeros[..accounts], numbers: &zeros[..numbers] };
            write(Terms::new(method, 0, 0), list, room)
        };
        assert_eq!(written(b'w', [1, 1, 0], 0), Err(14));
        for lengths in [[1_024, 1_025, 1_025], [1_025, 1_024, 1_025], [1_025, 1_025, 1_024], [0, 1, 1], [0, 1, 2]] {
            assert_eq!(written(b'P', lengths, 0), Err(1), "{lengths:?}");
        }
        assert_eq!(written(b'W', [1_025; 3], 0), Err(15));
        assert_eq!(written(b'W', [1_024; 3], 0), Err(4));
    }
    for (form, line_3) in [(Form::Shorts, "account,short\n"), (Form::LastNumbers, "account,last\n")] {
        let none = List { form, ..List::by_account(&[], &[]) };
        let terms = Terms::new(b'P', 0, u32::MAX);
        let written = write(terms, none, 100).unwrap();
        assert_eq!(written, text("P,0,4294967295\n", line_3, ""));
        assert_eq!(write(terms, none, written.len()), Ok(written.clone()));
        assert_eq!(write(terms, none, written.len() - 1), Err(4));
    }
}

#[test]
fn writing_at_most_32_768_bytes() {
    // The names lines and line 2 have 47 bytes, with last numbers 46; each further line 32, the last one what is left.
    let mut numbers = vec![100_000_000; 1_022];
    let (mut codes, mut accounts) = (vec![u32::MAX; 1_022], vec![u32::MAX - 1; 1_022]);
    numbers.push(1);
    codes.push(1);
    for (form, account, last, length) in [
        (Form::Shorts, 200_000, 1_000_000, 32_768),
        (Form::Shorts, 200_000, 10_000_000, 32_769),
        (Form::Shorts, 200_000, u32::MAX, 32_771),
        (Form::LastNumbers, 200_000, 10_000_000, 32_768),
        (Form::LastNumbers, 2_000_000, 10_000_000, 32_769),
    ] {
        accounts.resize(1_022, 0);
        accounts.push(account);
        codes[1_022] = last;
        let list = List { form, codes: &codes, accounts: &accounts, numbers: &numbers };
        for room in [0, 32_767, 32_768, 32_771, 40_000] {
            let found = write(Terms::new(b'W', 0, 0), list, room).map(|text| text.len());
            let expected = if room < 32_768 { Err(4) } else { Ok(length) };
            assert_eq!(found, if length > 32_768 { Err(11) } else { expected }, "{last} {room}");
        }
    }
}

#[test]
fn printed_refusals() {
    assert_eq!(printed(b""), b"refused\n12\n");
    assert_eq!(printed(&text("W,1,1\n", "account,short\n", "")), b"refused\n3\n");
    assert_eq!(printed(&text("W,1,1\n", "account,short\n", "1,1\n1,0\n")), b"refused\n5\n");
    assert_eq!(printed(&text("W,1,3\n", "account,short\n", "1,2\n")), b"refused\n10\n");
    assert_eq!(printed(&text("L,1,0\n", "account,short\n", "1,1\n2,1\n")), b"refused\n10\n");
    // A text always has a draw, also where it is not judged.
    for (line, rest) in [("W,1,2\n", "1,1\n"), ("L,1,0\n", "1,1\n"), ("L,1,0\n", "1,2\n")] {
        assert_eq!(printed(&text(line, "account,short\n", rest)), b"account,assigned\n1,1\n");
    }
    assert_eq!(printed(&text("R,1,\n", "account,short\n", "1,1\n")), b"refused\n13\n");
    assert_eq!(printed(&text("R,2,1\n", "account,short\n", "1,1\n")), b"refused\n9\n");
    assert_eq!(printed(&text("W,1,\n", "account,short\n", "1,1\n")), b"refused\n13\n");
    assert_eq!(respond(b"", 10), Err(4));
    assert_eq!(respond(b"", 11), Ok(b"refused\n12\n".to_vec()));
}

// A, with the accounts in another order than the codes.
const CODED: List = List { form: Form::Shorts, codes: &[3, 7, 9], accounts: &[20, 4, 11], numbers: &[60, 200, 95] };
const CODED_TEXT: &str = "method,exercised,draw\nW,175,1\ncode,account,short\n3,20,60\n7,4,200\n9,11,95\n";

#[test]
fn the_wheel_goes_by_code() {
    let found = allocate(Terms::new(b'W', 175, 1), CODED, 3);
    assert_eq!(found, Ok(Allocation { amounts: vec![35, 97, 43], total: 355, further: 7 }));
    for method in *b"PLR" {
        assert_eq!(allocate(Terms::new(method, 175, 1), CODED, 3), Err(5));
    }
}

// The number that W meets with one contract exercised of a list, and P, L and R with the same.
fn met(codes: &[u32], accounts: &[u32], shorts: &[u32]) -> [u32; 2] {
    let list = List { form: Form::Shorts, codes, accounts, numbers: shorts };
    let met = |method| allocate(Terms::new(method, 1, 1), list, 9).map_or_else(|number| number, |_| 0);
    let [w, p, l, r] = METHODS.map(met);
    assert_eq!((l, r), (p, p), "{list:?}");
    [w, p]
}

#[test]
fn codes_and_accounts_are_judged() {
    for (codes, accounts, shorts, expected) in [
        (&[1, 2, 3][..], &[1, 2, 3][..], &[1, 1, 1][..], [0, 0]),
        (&[1, 2, u32::MAX], &[u32::MAX, 2, 1], &[1, 1, 1], [0, 5]),
        (&[0, 2, 3], &[1, 2, 3], &[1, 1, 1], [5, 0]),
        (&[1, 2, 2], &[1, 2, 3], &[1, 1, 1], [5, 0]),
        (&[2, 1, 3], &[1, 2, 3], &[1, 1, 1], [5, 0]),
        (&[1, 2, 3], &[0, 2, 3], &[1, 1, 1], [19, 5]),
        (&[1, 2, 3], &[1, 2, 0], &[1, 1, 1], [19, 5]),
        (&[1, 2, 3], &[4, 5, 5], &[1, 1, 1], [19, 5]),
        (&[1, 2, 3], &[5, 4, 5], &[1, 1, 1], [19, 5]),
        // Several in one position.
        (&[0, 2, 3], &[0, 2, 3], &[0, 1, 1], [5, 5]),
        (&[1, 2, 2], &[5, 4, 5], &[1, 1, 0], [5, 5]),
        (&[1, 2, 3], &[5, 4, 5], &[1, 1, 0], [19, 5]),
        (&[1, 2, 3], &[5, 4, 5], &[1, 1, u32::MAX], [19, 5]),
        (&[1, 2, 3], &[0, 4, 5], &[u32::MAX, 1, 1], [19, 5]),
        // An earlier position comes first.
        (&[1, 2, 2], &[5, 5, 6], &[1, 1, 1], [19, 5]),
        (&[1, 2, 2], &[5, 6, 6], &[1, 0, 1], [6, 6]),
        (&[1, 2, 3], &[5, 6, 6], &[1, u32::MAX, 1], [7, 7]),
        // Lengths: only W looks at the codes.
        (&[], &[1, 2, 3], &[1, 1, 1], [1, 0]),
        (&[1, 2], &[1, 2, 3], &[1, 1, 1], [1, 0]),
        (&[1, 2, 3, 4], &[1, 2, 3], &[1, 1, 1], [1, 0]),
        (&[1, 2, 3], &[1, 2], &[1, 1, 1], [1, 1]),
        (&[1, 2], &[1, 2], &[1, 1, 1], [1, 1]),
        (&[1], &[], &[], [1, 3]),
        (&[], &[], &[], [3, 3]),
    ] {
        assert_eq!(met(codes, accounts, shorts), expected, "{codes:?} {accounts:?} {shorts:?}");
    }
    let many = upward(4_097);
    assert_eq!(met(&many[..4_096], &many, &many), [1, 2]);
}

#[test]
fn texts_with_codes() {
    let series = read(CODED_TEXT.as_bytes(), [3; 3]).unwrap();
    assert_eq!((&series.codes[..], &series.accounts[..]), (CODED.codes, CODED.accounts));
    assert_eq!((series.terms, &series.numbers[..]), (Terms::new(b'W', 175, 1), CODED.numbers));
    assert_eq!(write(series.terms, CODED, CODED_TEXT.len()).unwrap(), CODED_TEXT.as_bytes());
    assert_eq!(write(series.terms, CODED, CODED_TEXT.len() - 1), Err(4));
    assert_eq!(printed(CODED_TEXT.as_bytes()), b"account,assigned\n20,35\n4,97\n11,43\n");
    for (lines, number) in [
        ("1,1\n", 13),
        ("1,1,1,1\n", 13),
        ("1,1,1", 13),
        (",1,1\n", 13),
        ("1,,1\n", 13),
        ("1,1,\n", 13),
        ("00000000001,1,1\n", 13),
        ("4294967296,1,1\n", 13),
        ("", 3),
        ("0,0,0\n", 5),
        ("1,0,0\n", 19),
        ("1,5,1\n2,6,1\n0003,0005,0\n", 19),
        ("1,5,1\n2,6,1\n02,5,0\n", 5),
    ] {
        let found = printed(&text("W,1,1\n", LONG_NAMES, lines));
        assert_eq!(found, format!("refused\n{number}\n").into_bytes(), "{lines:?}");
    }
    let most = "0,0,0\n".repeat(1_024);
    assert_eq!(read_text(&text("W,1,1\n", LONG_NAMES, &most)).unwrap().codes, [0; 1_024]);
    assert_eq!(read_text(&text("W,1,1\n", LONG_NAMES, &format!("{most}x"))), Err(15));
    assert_eq!(printed(&text("L,3,5000\n", LONG_NAMES, "0,4,2\n0,5,2\n")), b"account,assigned\n4,1\n5,2\n");
    let ranges = "account,first,last,first2,last2\n4,1,2,5,6\n5,3,4,7,8\n";
    let expected = format!("account,assigned\n4,1\n5,2\n{ranges}");
    assert_eq!(printed(&text("R,3,1\n", LONG_NAMES, "0,4,2\n0,5,2\n")), expected.as_bytes());
}

#[test]
fn a_code_column_that_says_nothing_is_left_out() {
    for (lines, written) in [
        ("", "account,short\n"),
        ("5,5,9\n", "account,short\n5,9\n"),
        ("05,5,9\n2,002,8\n", "account,short\n5,9\n2,8\n"),
        ("5,5,9\n7,6,1\n", "code,account,short\n5,5,9\n7,6,1\n"),
        ("5,6,9\n6,5,9\n", "code,account,short\n5,6,9\n6,5,9\n"),
    ] {
        let series = read_text(&text("W,1,1\n", LONG_NAMES, lines)).unwrap();
        let found = write(series.terms, series.list(), MOST_BYTES).unwrap();
        assert_eq!(String::from_utf8_lossy(&found), format!("method,exercised,draw\nW,1,1\n{written}"));
        assert_eq!(read_text(&found), Ok(series));
    }
}

// The source's exhibit, its customers A to J as accounts 1 to 10.
const EXHIBIT: [u32; 10] = [1, 50, 100, 2, 1, 1, 1000, 1, 10, 20];
const EXHIBIT_RANGES: [[u32; 4]; 10] = [
    [1, 1, 1187, 1187],
    [2, 51, 1188, 1237],
    [52, 151, 1238, 1337],
    [152, 153, 1338, 1339],
    [154, 154, 1340, 1340],
    [155, 155, 1341, 1341],
    [156, 1155, 1342, 2341],
    [1156, 1156, 2342, 2342],
    [1157, 1166, 2343, 2352],
    [1167, 1186, 2353, 2372],
];

#[test]
fn the_exhibit() {
    let amounts = vec![0, 0, 0, 0, 0, 0, 50, 0, 0, 0];
    assert_eq!(answer(b'R', &EXHIBIT, 50, 395), Ok(Allocation { amounts, total: 1186, further: 396 }));
    assert_eq!(ranges(&EXHIBIT), EXHIBIT_RANGES);
    let (mut lines, mut assigned, mut ranges) = (String::new(), String::new(), String::new());
    for (account, (short, [first, last, first2, last2])) in (1..).zip(EXHIBIT.iter().zip(EXHIBIT_RANGES)) {
        lines += &format!("{account},{short}\n");
        assigned += &format!("{account},{}\n", if account == 7 { 50 } else { 0 });
        ranges += &format!("{account},{first},{last},{first2},{last2}\n");
    }
    let expected = format!("account,assigned\n{assigned}account,first,last,first2,last2\n{ranges}");
    let text = text("R,50,395\n", NAMES, &lines);
    assert_eq!(String::from_utf8_lossy(&printed(&text)), expected);
    assert_eq!(respond(&text, expected.len() - 1), Err(4));
    assert_eq!(respond(&text, expected.len()).map(|out| out.len()), Ok(expected.len()));
    // The last contract, on from there to the top, and the draws that lead to the same place.
    let mut amounts = vec![1, 29, 0, 0, 0, 0, 0, 0, 0, 20];
    let answers = [1_166, 1_166 + 1_186, u32::MAX - u32::MAX % 1_186 - 20].map(|draw| answer(b'R', &EXHIBIT, 50, draw));
    assert_eq!(answers, [(); 3].map(|_| Ok(Allocation { amounts: amounts.clone(), total: 1_186, further: 1_167 })));
    amounts[9] = 1;
    amounts[1] = 0;
    assert_eq!(answer(b'R', &EXHIBIT, 2, 1_185), Ok(Allocation { amounts, total: 1_186, further: 1_186 }));
}

#[test]
fn places_of_the_remainder_draw() {
    for shorts in [&SHORTS[..], &[1, 35], &[35, 1], &[12, 12, 12]] {
        for exercised in [1, 2, 13, 35] {
            for draw in (0..=100).chain(u32::MAX - 100..=u32::MAX) {
                let found = answer(b'R', shorts, exercised, draw).unwrap();
                assert_eq!(found.further, draw - draw / 36 * 36 + 1);
                // The draw of L that leads to the same place.
                let draw = found.further * 10_000 / 36;
                assert_eq!(answer(b'L', shorts, exercised, draw), Ok(found), "{shorts:?} {exercised} {draw}");
            }
        }
    }
}

#[test]
fn ranges_are_printed_under_r_alone() {
    let names = "account,first,last,first2,last2\n";
    for (line, lines, expected) in [
        ("R,2,4294967295\n", "3,1\n7,1\n9,1\n", "3,1\n7,1\n9,0\n"),
        // Whole, with any draw, and one position.
        ("R,3,0\n", "3,1\n7,1\n9,1\n", "3,1\n7,1\n9,1\n"),
        ("R,3,4294967295\n", "3,1\n7,1\n9,1\n", "3,1\n7,1\n9,1\n"),
    ] {
        let expected = format!("account,assigned\n{expected}{names}3,1,1,4,4\n7,2,2,5,5\n9,3,3,6,6\n");
        assert_eq!(printed(&text(line, NAMES, lines)), expected.as_bytes(), "{line}");
        for method in ["W", "P", "L"] {
            let found = printed(&text(&line.replace('R', method), NAMES, lines));
            assert!(!found.ends_with(b",6,6\n") && !found.windows(6).any(|part| part == b"first2"), "{method}");
        }
    }
    let one = printed(&text("R,4,0\n", NAMES, "4294967295,10000000\n"));
    let expected = format!("account,assigned\n4294967295,4\n{names}4294967295,1,10000000,10000001,20000000\n");
    assert_eq!(one, expected.as_bytes());
    let refused = [("R,0,1\n", "1,1\n", 8), ("R,3,1\n", "1,1\n2,1\n", 9), ("R,1,1\n", "2,1\n1,1\n", 5)];
    for (line, lines, number) in refused {
        assert_eq!(printed(&text(line, NAMES, lines)), format!("refused\n{number}\n").as_bytes(), "{line}");
    }
}

// The shorts of M and N as last numbers.
const LASTS: [u32; 5] = [5, 13, 15, 25, 36];

fn by_last(accounts: &[u32], lasts: &[u32], exercised: u32, draw: u32) -> [Result<Allocation, u32>; 4] {
    let list = List { form: Form::LastNumbers, ..List::by_account(accounts, lasts) };
    METHODS.map(|method| allocate(Terms::new(method, exercised, draw), list, lasts.len()))
}

#[test]
fn shorts_and_last_numbers() {
    for (shorts, lasts) in [
        (&SHORTS[..], &LASTS[..]),
        (&[], &[]),
        (&[1], &[1]),
        (&[10_000_000], &[10_000_000]),
        (&[1, 9_999_998, 1], &[1, 9_999_999, 10_000_000]),
    ] {
        let accounts = upward(shorts.len());
        let [by_shorts, by_lasts] = [(Form::Shorts, shorts), (Form::LastNumbers, lasts)]
            .map(|(form, numbers)| List { form, ..List::by_account(&accounts, numbers) });
        for list in [by_shorts, by_lasts] {
            assert_eq!((&list.shorts()[..], &list.last_numbers()[..]), (shorts, lasts));
        }
        // The last contract of each first range.
        assert_eq!(ranges(shorts).iter().map(|range| range[1]).collect::<Vec<_>>(), lasts);
    }
}

#[test]
fn both_forms_allocate_alike() {
    for (_, shorts, exercised, draw, ..) in KNOWN {
        let accounts = upward(shorts.len());
        let lasts = List::by_account(&accounts, shorts).last_numbers();
        for (exercised, draw) in [(exercised, draw), (0, 1), (1, 0), (10_000_000, 1), (lasts[lasts.len() - 1], 0)] {
            let expected = METHODS.map(|method| answer(method, shorts, exercised, draw));
            assert_eq!(by_last(&accounts, &lasts, exercised, draw), expected, "{lasts:?} {exercised} {draw}");
        }
    }
}

// 20 stands where 6 stood, after 5 and 19; 7 goes by the last number.
#[test]
fn last_numbers_are_judged() {
    for (accounts, lasts, number) in [
        (&[1, 2, 3][..], &[0, 1, 2][..], 20),
        (&[1, 2, 3], &[5, 5, 6], 20),
        (&[1, 2, 3], &[5, 6, 6], 20),
        (&[1, 2, 3], &[5, 4, 6], 20),
        (&[1, 2, 3], &[5, 6, 0], 20),
        (&[1, 2, 3], &[5, 6, 5], 20),
        (&[1, 2, 3], &[10_000_001, 0, 0], 7),
        (&[1, 2, 3], &[1, 10_000_001, 0], 7),
        (&[1, 2, 3], &[9_999_999, 10_000_000, 10_000_001], 7),
        (&[1, 2, 3], &[9_999_999, 10_000_000, u32::MAX], 7),
        (&[1, 2, 3], &[9_999_999, 10_000_000, 10_000_000], 20),
        (&[1, 2, 3], &[9_999_999, 10_000_000, 9_999_999], 20),
        // Several in one position, and an earlier position first.
        (&[0], &[0], 5),
        (&[0], &[u32::MAX], 5),
        (&[2, 2], &[5, 5], 5),
        (&[2, 1], &[5, u32::MAX], 5),
        (&[2, 1], &[0, 5], 20),
        (&[2, 1], &[10_000_001, 5], 7),
        (&[], &[], 3),
        (&[1], &[], 1),
        (&[], &[0], 1),
    ] {
        assert_eq!(by_last(accounts, lasts, 0, 0), [(); 4].map(|_| Err(number)), "{accounts:?} {lasts:?}");
    }
    assert_eq!(by_last(&[1, 2], &[9_999_999, 10_000_000], 0, 0), [(); 4].map(|_| Err(8)));
    assert_eq!(by_last(&[1, 2], &[9_999_999, 10_000_000], 10_000_001, 0), [(); 4].map(|_| Err(9)));
    let by_code = |accounts, lasts| {
        let list = List { form: Form::LastNumbers, codes: &[3, 7, 9], accounts, numbers: lasts };
        allocate(Terms::new(b'W', 1, 1), list, 3).map(|found| found.total)
    };
    assert_eq!(by_code(&[20, 4, 11], &[60, 260, 355]), Ok(355));
    assert_eq!(by_code(&[20, 4, 20], &[60, 260, 260]), Err(19));
    assert_eq!(by_code(&[20, 4, 20], &[60, 60, 70]), Err(20));
    assert_eq!(by_code(&[20, 4, 11], &[60, 260, 259]), Err(20));
}

#[test]
fn texts_of_last_numbers() {
    for (line_3, codes) in [(LAST_NAMES, [20, 4, 11]), (LONG_LAST_NAMES, [3, 7, 9])] {
        let line = |(code, rest)| if line_3 == LAST_NAMES { format!("{rest}\n") } else { format!("{code},{rest}\n") };
        let lines: String = codes.into_iter().zip(["20,60", "4,060", "11,0"]).map(line).collect();
        let spelled = text("W,0,4294967295\n", line_3, &lines);
        let series = read(&spelled, [3; 3]).unwrap();
        assert_eq!((series.form, &series.codes[..]), (Form::LastNumbers, &codes[..]));
        assert_eq!((&series.accounts[..], &series.numbers[..]), (&[20, 4, 11][..], &[60, 60, 0][..]));
        let written = write(series.terms, series.list(), spelled.len() - 1).unwrap();
        assert_eq!(String::from_utf8_lossy(&written), String::from_utf8_lossy(&spelled).replace(",060\n", ",60\n"));
    }
    for (lines, number) in [("1,1\n", 13), ("1,1,1,1\n", 13), ("", 3), ("1,0,0\n", 19), ("1,5,1\n2,6,1\n", 20)] {
        let found = printed(&text("W,1,1\n", LONG_LAST_NAMES, lines));
        assert_eq!(found, format!("refused\n{number}\n").into_bytes(), "{lines:?}");
    }
    let most = "0,0\n".repeat(1_024);
    assert_eq!(read_text(&text("W,1,1\n", LAST_NAMES, &most)).unwrap().numbers, [0; 1_024]);
    assert_eq!(read_text(&text("W,1,1\n", LAST_NAMES, &format!("{most}x"))), Err(15));
}

const M_LINES: &str = "1,5\n2,8\n3,2\n4,10\n5,11\n";
const M_LAST_LINES: &str = "1,5\n2,13\n3,15\n4,25\n5,36\n";

#[test]
fn the_source_table_there_and_back() {
    let [shorts, lasts] = [(NAMES, M_LINES), (LAST_NAMES, M_LAST_LINES)].map(|(n, l)| text("L,13,4855\n", n, l));
    for (from, to) in [(&shorts, &lasts), (&lasts, &shorts)] {
        assert_eq!(change(from, to.len()).as_ref(), Ok(to));
        assert_eq!(change(from, to.len() - 1), Err(4));
        assert_eq!(printed_change(from), *to);
        assert_eq!(printed(from), b"account,assigned\n1,0\n2,0\n3,0\n4,8\n5,5\n");
    }
}

// The exhibit as last numbers prints the same ranges.
#[test]
fn ranges_from_last_numbers() {
    let accounts = upward(10);
    let list = List::by_account(&accounts, &EXHIBIT);
    let shorts = write(Terms::new(b'R', 50, 395), list, MOST_BYTES).unwrap();
    let lasts = change(&shorts, MOST_CHANGED).unwrap();
    assert!(lasts.ends_with(b"account,last\n1,1\n2,51\n3,151\n4,153\n5,154\n6,155\n7,1155\n8,1156\n9,1166\n10,1186\n"));
    assert_eq!(printed(&lasts), printed(&shorts));
    assert!(printed(&lasts).ends_with(b"10,1167,1186,2353,2372\n"));
}

#[test]
fn changes_with_codes_and_zeros() {
    for (line_3, lines, other, changed) in [
        (LONG_NAMES, "3,20,60\n7,4,200\n9,11,95\n", LONG_LAST_NAMES, "3,20,60\n7,4,260\n9,11,355\n"),
        (LONG_LAST_NAMES, "3,20,60\n7,4,260\n9,11,355\n", LONG_NAMES, "3,20,60\n7,4,200\n9,11,95\n"),
        // A column of codes that says nothing is left out, and no zero stands in front.
        (LONG_NAMES, "3,03,1\n007,7,0000000002\n", LAST_NAMES, "3,1\n7,3\n"),
        (LAST_NAMES, "0000000003,01\n7,010000000\n", NAMES, "3,1\n7,9999999\n"),
        (NAMES, "4294967294,9999999\n4294967295,1\n", LAST_NAMES, "4294967294,9999999\n4294967295,10000000\n"),
    ] {
        let found = printed_change(&text("W,09,00\n", line_3, lines));
        assert_eq!(String::from_utf8_lossy(&found), String::from_utf8(text("W,9,0\n", other, changed)).unwrap());
        let again = printed_change(&found);
        assert_eq!(change(&again, found.len()), Ok(found));
    }
}

// S and the draw are not judged.
#[test]
fn changes_of_any_terms() {
    for method in ["W", "P", "L", "R"] {
        for (exercised, draw) in [(0, 0), (1, 0), (36, 37), (37, 10_001), (u32::MAX, u32::MAX)] {
            let line_2 = format!("{method},{exercised},{draw}\n");
            let [shorts, lasts] = [(NAMES, M_LINES), (LAST_NAMES, M_LAST_LINES)].map(|(n, l)| text(&line_2, n, l));
            assert_eq!((printed_change(&shorts), printed_change(&lasts)), (lasts, shorts), "{line_2}");
        }
    }
}

#[test]
fn refused_changes() {
    for (whole, number) in [
        (b"".to_vec(), 12),
        (vec![b'x'; 32_769], 11),
        (text("X,1,1\n", NAMES, "1,1\n"), 14),
        (text("W,1\n", NAMES, "1,1\n"), 13),
        (text("W,1,1\n", "account,lasts\n", "1,1\n"), 12),
        (text("W,1,1\n", LAST_NAMES, "1,1\n2\n"), 13),
        (text("W,1,1\n", LAST_NAMES, &"1,1\n".repeat(1_025)), 15),
    ] {
        for room in [0, 40_000] {
            assert_eq!(change(&whole, room), Err(number));
        }
    }
    // By shorts, and by last numbers.
    for (line_2, lines, of_shorts, of_lasts) in [
        ("L,1,1\n", "", 3, 3),
        ("L,1,1\n", "0,0\n", 5, 5),
        ("L,1,1\n", "1,0\n", 6, 20),
        ("L,1,1\n", "2,5\n1,5\n", 5, 5),
        ("L,1,1\n", "1,5\n2,5\n", 0, 20),
        ("L,1,1\n", "1,5\n2,0\n", 6, 20),
        ("L,1,1\n", "1,10000001\n2,0\n", 7, 7),
        ("L,1,1\n", "1,1\n2,10000000\n", 7, 0),
        ("P,1,1\n", "1,1\n2,10000001\n", 7, 7),
        ("R,1,1\n", "1,1\n2,4294967295\n", 7, 7),
    ] {
        for (line_3, number) in [(NAMES, of_shorts), (LAST_NAMES, of_lasts)] {
            let whole = text(line_2, line_3, lines);
            assert_eq!(change(&whole, 40_000).err().unwrap_or(0), number, "{line_3}{lines}");
            assert_eq!(change(&whole, 10), Err(if number == 0 { 4 } else { number }), "{line_3}{lines}");
        }
    }
    // By the text's method: accounts that fall and codes that rise, and the other way round.
    for names in [LONG_NAMES, LONG_LAST_NAMES] {
        for (lines, of_w, of_others) in [
            ("1,9,1\n2,8,3\n", 0, 5),
            ("2,8,1\n1,9,3\n", 5, 0),
            ("1,9,1\n2,9,0\n", 19, 5),
            ("1,9,1\n2,0,0\n", 19, 5),
            ("0,9,1\n", 5, 0),
        ] {
            for method in METHODS {
                let found = change(&text(&format!("{},1,1\n", char::from(method)), names, lines), MOST_CHANGED);
                let expected = if method == b'W' { of_w } else { of_others };
                assert_eq!(found.err().unwrap_or(0), expected, "{method} {names}{lines}");
            }
        }
    }
}

// Ten digits in each code and account, in S, the draw and the increment; of the last numbers only T can have eight.
#[test]
fn the_longest_changed_text() {
    assert_eq!(MOST_CHANGED, 31_830);
    let codes: Vec<u32> = (u32::MAX - 1_023..=u32::MAX).collect();
    let accounts: Vec<u32> = codes.iter().rev().copied().collect();
    let mut shorts = vec![1; 1_024];
    (shorts[0], shorts[1_023]) = (1_000_000, 8_998_978);
    let list = List { form: Form::Shorts, codes: &codes, accounts: &accounts, numbers: &shorts };
    let terms = Terms::new(b'W', u32::MAX, u32::MAX);
    for (terms, head) in [(terms, 22 + 24), (terms.by(u32::MAX), 32 + 35)] {
        let whole = write(terms, list, MOST_BYTES).unwrap();
        let changed = change(&whole, MOST_CHANGED).unwrap();
        assert_eq!(changed.len(), head + 18 + 1_023 * 30 + 31);
        assert_eq!(change(&changed, whole.len()), Ok(whole));
    }
}
