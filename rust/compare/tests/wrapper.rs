// The safe wrapper, by the series with known amounts, the exhibit and the circular's days.

use dilbreth::{
    AfterDay, Allocated, Branch, Day, Form, Investor, Job, MarketMaker, Merged, Method, Refused, Terms,
    DEFAULT_INCREMENT, MOST_JOBS,
};

const FORMS: [Form; 2] = [Form::Shorts, Form::LastNumbers];

// Method, shorts, S, draw, increment, amounts and the further number.
type Known = (Method, &'static [u32], u32, u32, u32, &'static [u32], u32);

// The shorts of the exhibit.
const EXHIBIT: [u32; 10] = [1, 50, 100, 2, 1, 1, 1000, 1, 10, 20];

const KNOWN: [Known; 25] = [
    (Method::Wheel, &[60, 200, 95], 175, 1, 25, &[35, 97, 43], 7),
    (Method::Wheel, &[60, 200, 95], 175, 340, 25, &[34, 98, 43], 7),
    (Method::Wheel, &[10, 20], 26, 29, 25, &[10, 16], 2),
    (Method::Wheel, &[50, 50], 30, 1, 25, &[25, 5], 2),
    (Method::Wheel, &[76, 1, 77], 150, 1, 25, &[75, 0, 75], 6),
    (Method::ProRata, &[5, 3, 2], 4, 0, 25, &[2, 1, 1], 1),
    (Method::ProRata, &[3], 1, 0, 25, &[1], 1),
    (Method::ProRata, &[1, 1, 1], 1, 5, 25, &[0, 0, 1], 1),
    (Method::ProRata, &[1, 1, 1], 2, 2, 25, &[1, 0, 1], 2),
    (Method::ProRata, &[3, 1, 2], 2, 0, 25, &[1, 0, 1], 2),
    (Method::Lottery, &[5, 8, 2, 10, 11], 13, 4855, 25, &[0, 0, 0, 8, 5], 18),
    (Method::Lottery, &[5, 8, 2, 10, 11], 2, 10000, 25, &[1, 0, 0, 0, 1], 36),
    // The draw is not judged.
    (Method::Wheel, &[5, 8, 2, 10, 11], 36, 0, 25, &[5, 8, 2, 10, 11], 0),
    (Method::Lottery, &[5, 8, 2, 10, 11], 36, 0, 25, &[5, 8, 2, 10, 11], 0),
    (Method::Lottery, &[5, 8, 2, 10, 11], 36, 4855, 25, &[5, 8, 2, 10, 11], 0),
    (Method::Lottery, &[36], 13, 0, 25, &[13], 0),
    (Method::RemainderDraw, &EXHIBIT, 50, 395, 25, &[0, 0, 0, 0, 0, 0, 50, 0, 0, 0], 396),
    (Method::RemainderDraw, &EXHIBIT, 30, u32::MAX, 25, &[0, 0, 0, 0, 0, 0, 28, 1, 1, 0], 1128),
    (Method::RemainderDraw, &EXHIBIT, 30, 1185, 25, &[1, 28, 0, 0, 0, 0, 0, 0, 0, 1], 1186),
    (Method::RemainderDraw, &EXHIBIT, 1186, 395, 25, &EXHIBIT, 0),
    (Method::RemainderDraw, &[36], 13, 4855, 25, &[13], 0),
    // By tens, as one block, whole, and increments that are not looked at.
    (Method::Wheel, &[60, 200, 95], 65, 340, 10, &[10, 40, 15], 7),
    (Method::Wheel, &[60, 200, 95], 175, 300, 1_000, &[60, 59, 56], 1),
    (Method::Wheel, &[5, 8, 2, 10, 11], 36, 0, 1, &[5, 8, 2, 10, 11], 0),
    (Method::Lottery, &[5, 8, 2, 10, 11], 13, 4855, 0, &[0, 0, 0, 8, 5], 18),
];

// Writes lists with the terms that a text gave.
fn write(terms: Terms, codes: &[u32], accounts: &[u32], numbers: &[u32], text: &mut [u8]) -> Result<usize, Refused> {
    let Terms { method, exercised, draw, increment, form, .. } = terms;
    dilbreth::write(method, exercised, draw, increment, form, codes, accounts, numbers, text)
}

#[test]
fn series_with_known_amounts() {
    for (method, shorts, exercised, draw, increment, expected, further) in KNOWN {
        let accounts: Vec<u32> = (1..=shorts.len() as u32).collect();
        let mut amounts = vec![9; shorts.len() + 1];
        let lasts: Vec<u32> = (1..=shorts.len()).map(|count| shorts[..count].iter().sum()).collect();
        let total = lasts[lasts.len() - 1];
        for (form, numbers) in [(Form::Shorts, shorts), (Form::LastNumbers, &lasts)] {
            amounts.fill(9);
            let (list, out) = (&accounts, &mut amounts);
            let answer = dilbreth::allocate(method, exercised, draw, increment, form, list, list, numbers, out);
            assert_eq!(answer, Ok(Allocated { total, further }));
            assert_eq!(amounts[..shorts.len()], *expected);
            assert_eq!(amounts[shorts.len()], 9);
        }
        // W by codes with the accounts falling, the others without a code.
        let (codes, accounts) = match method {
            Method::Wheel => (accounts.clone(), accounts.iter().rev().map(|account| account * 10).collect()),
            _ => (vec![], accounts),
        };
        amounts.fill(9);
        let (form, out) = (Form::Shorts, &mut amounts);
        let answer = dilbreth::allocate(method, exercised, draw, increment, form, &codes, &accounts, shorts, out);
        assert_eq!(answer, Ok(Allocated { total, further }));
        assert_eq!(amounts[..shorts.len()], *expected);
    }
}

#[test]
fn case_m_in_full() {
    let text = b"method,exercised,draw\nL,13,4855\naccount,short\n1,5\n2,8\n3,2\n4,10\n5,11\n";
    let (mut codes, mut accounts, mut shorts) = ([0; 6], [0; 6], [0; 6]);
    let terms = dilbreth::read(text, &mut codes, &mut accounts, &mut shorts).unwrap();
    assert_eq!(
        terms,
        Terms { method: Method::Lottery, exercised: 13, draw: 4855, increment: 25, form: Form::Shorts, positions: 5 }
    );
    assert_eq!((codes, accounts, shorts), ([1, 2, 3, 4, 5, 0], [1, 2, 3, 4, 5, 0], [5, 8, 2, 10, 11, 0]));
    let mut bytes = [0; 100];
    let length = write(terms, &codes[..5], &accounts[..5], &shorts[..5], &mut bytes).unwrap();
    assert_eq!(bytes[..length], text[..]);
    let length = dilbreth::respond(text, &mut bytes).unwrap();
    assert_eq!(&bytes[..length], b"account,assigned\n1,0\n2,0\n3,0\n4,8\n5,5\n");
}

#[test]
fn the_exhibit_in_full() {
    let text = include_bytes!("../../../examples/remainder-draw.txt");
    let [mut codes, mut accounts, mut shorts] = [[0; 10]; 3];
    let terms = dilbreth::read(text, &mut codes, &mut accounts, &mut shorts).unwrap();
    assert_eq!(
        terms,
        Terms {
            method: Method::RemainderDraw,
            exercised: 50,
            draw: 395,
            increment: 25,
            form: Form::Shorts,
            positions: 10
        }
    );
    assert_eq!((codes, accounts, shorts), (accounts, [1, 2, 3, 4, 5, 6, 7, 8, 9, 10], EXHIBIT));
    let mut bytes = [0; 500];
    let length = write(terms, &codes, &accounts, &shorts, &mut bytes).unwrap();
    assert_eq!(bytes[..length], text[..]);
    let printed = include_bytes!("../../../examples/remainder-draw.out");
    let length = dilbreth::respond(text, &mut bytes).unwrap();
    assert_eq!(bytes[..length], printed[..]);
    assert_eq!(dilbreth::respond(text, &mut bytes[..printed.len() - 1]), Err(Refused(4)));
}

// No two numbers are equal, so each must reach its place.
#[test]
fn codes() {
    let text = b"method,exercised,draw\nW,175,340\ncode,account,short\n3,21,60\n7,4,200\n9,11,95\n";
    let (mut codes, mut accounts, mut shorts) = ([0; 3], [0; 3], [0; 3]);
    let terms = dilbreth::read(text, &mut codes, &mut accounts, &mut shorts).unwrap();
    assert_eq!(
        terms,
        Terms { method: Method::Wheel, exercised: 175, draw: 340, increment: 25, form: Form::Shorts, positions: 3 }
    );
    assert_eq!((codes, accounts, shorts), ([3, 7, 9], [21, 4, 11], [60, 200, 95]));
    assert_eq!(dilbreth::read(text, &mut [0; 2], &mut accounts, &mut shorts), Err(Refused(4)));
    let mut bytes = [0; 100];
    let length = write(terms, &codes, &accounts, &shorts, &mut bytes).unwrap();
    assert_eq!(bytes[..length], text[..]);
    let length = write(terms, &codes, &codes, &shorts, &mut bytes).unwrap();
    assert_eq!(&bytes[..length], b"method,exercised,draw\nW,175,340\naccount,short\n3,60\n7,200\n9,95\n");
    let length = dilbreth::respond(text, &mut bytes).unwrap();
    assert_eq!(&bytes[..length], b"account,assigned\n21,34\n4,98\n11,43\n");
}

#[test]
fn leading_zeros() {
    let text = b"method,exercised,draw\nL,0000000013,04855\naccount,short\n0001,0036\n4294967295,00000000000\n";
    let (mut codes, mut accounts, mut shorts) = ([0; 2], [0; 2], [0; 2]);
    assert_eq!(dilbreth::read(text, &mut codes, &mut accounts, &mut shorts), Err(Refused(13)));
    let text = b"method,exercised,draw\nL,0000000013,04855\naccount,short\n0001,0036\n4294967295,0000000000\n";
    let terms = dilbreth::read(text, &mut codes, &mut accounts, &mut shorts).unwrap();
    assert_eq!(
        terms,
        Terms { method: Method::Lottery, exercised: 13, draw: 4855, increment: 25, form: Form::Shorts, positions: 2 }
    );
    assert_eq!((codes, accounts, shorts), ([1, u32::MAX], [1, u32::MAX], [36, 0]));
    let mut bytes = [0; 100];
    let length = write(terms, &codes, &accounts, &shorts, &mut bytes).unwrap();
    assert_eq!(&bytes[..length], b"method,exercised,draw\nL,13,4855\naccount,short\n1,36\n4294967295,0\n");
    let text = b"method,exercised,draw\nL,0000000013,04855\naccount,short\n0001,0036\n";
    let length = dilbreth::respond(text, &mut bytes).unwrap();
    assert_eq!(&bytes[..length], b"account,assigned\n1,13\n");
}

#[test]
fn days_of_the_circular() {
    let after = |limit, long, short| Ok(AfterDay { limit, long, short });
    let x = Investor { opening_long: 15, opening_purchases: 20, closing_sales: 10, ..Investor::default() };
    assert_eq!(dilbreth::process_investor(Day::Ordinary, x), after(35, 25, 0));
    assert_eq!(dilbreth::process_investor(Day::Ordinary, Investor { exercised: 35, ..x }), after(35, 0, 10));
    assert_eq!(dilbreth::process_investor(Day::Ordinary, Investor { exercised: 36, ..x }), Err(Refused(18)));
    assert_eq!(dilbreth::process_investor(Day::Final, Investor { exercised: 25, ..x }), after(25, 0, 0));
    assert_eq!(dilbreth::process_investor(Day::Final, Investor { exercised: 26, ..x }), Err(Refused(18)));
    let y = Investor { opening_short: 20, opening_purchases: 20, ..Investor::default() };
    assert_eq!(dilbreth::process_investor(Day::Ordinary, y), after(20, 20, 20));
    assert_eq!(dilbreth::process_investor(Day::Ordinary, Investor { exercised: 20, ..y }), after(20, 0, 20));
    assert_eq!(dilbreth::process_investor(Day::Final, y), after(0, 0, 0));
    assert_eq!(dilbreth::process_investor(Day::Final, Investor { exercised: 1, ..y }), Err(Refused(18)));
    let z = MarketMaker { opening_short: 100, purchases: 100, sales: 100, ..MarketMaker::default() };
    assert_eq!(dilbreth::process_market_maker(Day::Ordinary, z), Ok(100));
    assert_eq!(dilbreth::process_market_maker(Day::Final, z), Ok(0));
}

// No two counts are equal, so each must reach its place.
#[test]
fn every_count_of_a_day() {
    let given = Investor {
        opening_long: 1_000,
        opening_short: 200,
        opening_purchases: 30,
        opening_sales: 4,
        closing_purchases: 5,
        closing_sales: 60,
        exercised: 700,
    };
    let after = |limit, long, short| Ok(AfterDay { limit, long, short });
    assert_eq!(dilbreth::process_investor(Day::Ordinary, given), after(1_030, 270, 199));
    assert_eq!(dilbreth::process_investor(Day::Final, given), after(771, 71, 0));
    // All of the short is closed; left short on the final day.
    let closed = Investor { closing_purchases: 204, closing_sales: 400, ..given };
    assert_eq!(dilbreth::process_investor(Day::Ordinary, closed), after(1_030, 0, 70));
    let short = Investor { opening_long: 0, exercised: 0, ..given };
    assert_eq!(dilbreth::process_investor(Day::Final, short), after(0, 0, 229));
    let refused = Investor { closing_purchases: 205, exercised: 1_031, ..given };
    assert_eq!(dilbreth::process_investor(Day::Ordinary, refused), Err(Refused(17)));
    assert_eq!(dilbreth::process_investor(Day::Final, refused), Err(Refused(17)));
    let refused = Investor { exercised: 10_000_001, ..refused };
    assert_eq!(dilbreth::process_investor(Day::Ordinary, refused), Err(Refused(16)));
    let given = MarketMaker { opening_long: 1_000, opening_short: 20, purchases: 300, sales: 4 };
    assert_eq!(dilbreth::process_market_maker(Day::Ordinary, given), Ok(1_300));
    assert_eq!(dilbreth::process_market_maker(Day::Final, given), Ok(1_276));
    let refused = MarketMaker { sales: 10_000_001, ..given };
    assert_eq!(dilbreth::process_market_maker(Day::Ordinary, refused), Err(Refused(16)));
}

// A text of last numbers through each call, and its change; no two numbers of a position are equal.
#[test]
fn last_numbers() {
    let lasts = b"method,exercised,draw\nW,175,340\ncode,account,last\n3,21,60\n7,4,260\n9,11,355\n";
    let shorts = b"method,exercised,draw\nW,175,340\ncode,account,short\n3,21,60\n7,4,200\n9,11,95\n";
    let (mut codes, mut accounts, mut numbers) = ([0; 3], [0; 3], [0; 3]);
    let terms = dilbreth::read(lasts, &mut codes, &mut accounts, &mut numbers).unwrap();
    let expected = Terms {
        method: Method::Wheel,
        exercised: 175,
        draw: 340,
        increment: 25,
        form: Form::LastNumbers,
        positions: 3,
    };
    assert_eq!(terms, expected);
    assert_eq!((codes, accounts, numbers), ([3, 7, 9], [21, 4, 11], [60, 260, 355]));
    let mut bytes = [0; 100];
    let length = write(terms, &codes, &accounts, &numbers, &mut bytes).unwrap();
    assert_eq!(bytes[..length], lasts[..]);
    for (from, to) in [(&lasts[..], &shorts[..]), (shorts, lasts)] {
        let length = dilbreth::change(from, &mut bytes).unwrap();
        assert_eq!(bytes[..length], to[..]);
        assert_eq!(dilbreth::change(from, &mut bytes[..to.len() - 1]), Err(Refused(4)));
        let length = dilbreth::respond(from, &mut bytes).unwrap();
        assert_eq!(&bytes[..length], b"account,assigned\n21,34\n4,98\n11,43\n");
    }
}

// A text with an increment through each call; no two numbers of line 2 are equal.
#[test]
fn increments() {
    assert_eq!(DEFAULT_INCREMENT, 25);
    let text = b"method,exercised,draw,increment\nW,65,340,10\naccount,short\n1,60\n2,200\n3,95\n";
    let changed = b"method,exercised,draw,increment\nW,65,340,10\naccount,last\n1,60\n2,260\n3,355\n";
    let (mut codes, mut accounts, mut shorts) = ([0; 3], [0; 3], [0; 3]);
    let terms = dilbreth::read(text, &mut codes, &mut accounts, &mut shorts).unwrap();
    let expected =
        Terms { method: Method::Wheel, exercised: 65, draw: 340, increment: 10, form: Form::Shorts, positions: 3 };
    assert_eq!((terms, shorts), (expected, [60, 200, 95]));
    let mut bytes = [0; 100];
    let length = write(terms, &codes, &accounts, &shorts, &mut bytes).unwrap();
    assert_eq!(bytes[..length], text[..]);
    let length = write(Terms { increment: 25, ..terms }, &codes, &accounts, &shorts, &mut bytes).unwrap();
    assert_eq!(&bytes[..length], b"method,exercised,draw\nW,65,340\naccount,short\n1,60\n2,200\n3,95\n");
    for (from, to) in [(&text[..], &changed[..]), (changed, text)] {
        let length = dilbreth::change(from, &mut bytes).unwrap();
        assert_eq!(bytes[..length], to[..]);
        let length = dilbreth::respond(from, &mut bytes).unwrap();
        assert_eq!(&bytes[..length], b"account,assigned\n1,10\n2,40\n3,15\n");
    }
    // An increment that is refused is read, written and changed.
    let text = b"method,exercised,draw,increment\nW,65,340,0\naccount,short\n1,60\n2,200\n3,95\n";
    let terms = dilbreth::read(text, &mut codes, &mut accounts, &mut shorts).unwrap();
    assert_eq!(terms, Terms { increment: 0, ..expected });
    let length = write(terms, &codes, &accounts, &shorts, &mut bytes).unwrap();
    assert_eq!(bytes[..length], text[..]);
    assert!(dilbreth::change(text, &mut bytes).is_ok());
    let length = dilbreth::respond(text, &mut bytes).unwrap();
    assert_eq!(&bytes[..length], b"refused\n23\n");
}

// No two numbers of a job are equal, so each must reach its place.
#[test]
fn jobs_of_a_book() {
    let (accounts, shorts) = ([1, 2, 9, 3, 21, 44, 4, 5], [5, 3, 0, 60, 200, 95, 7, 8]);
    let mut jobs = [
        Job::new(0, 2, Method::ProRata, 4, 6, 0),
        Job::new(3, 3, Method::Wheel, 65, 340, 10),
        Job::new(6, 2, Method::RemainderDraw, 16, 1, 25),
    ];
    assert_eq!(jobs.map(|job| job.stretch()), [0..2, 3..6, 6..8]);
    assert_eq!(jobs.map(|job| job.answer()), [None; 3]);
    let mut amounts = [9; 9];
    // Refused as a whole: nothing is answered.
    let late = [jobs[0], jobs[1], Job::new(6, 3, Method::RemainderDraw, 16, 1, 25)];
    for (mut book, number) in [(late.to_vec(), 22), (vec![jobs[0]; MOST_JOBS + 1], 21), (vec![jobs[1], jobs[0]], 22)] {
        let found = dilbreth::allocate_jobs(&accounts, &shorts, &mut book, &mut amounts);
        assert_eq!(found, Err(Refused(number)));
        assert!(book.iter().all(|job| job.answer().is_none()) && amounts == [9; 9]);
    }
    assert_eq!(dilbreth::allocate_jobs(&accounts, &shorts[1..], &mut jobs, &mut amounts), Err(Refused(1)));
    assert_eq!(dilbreth::allocate_jobs(&accounts, &shorts, &mut jobs, &mut amounts[..7]), Err(Refused(4)));
    assert_eq!(dilbreth::allocate_jobs(&accounts, &shorts, &mut jobs, &mut amounts), Ok(()));
    let allocated = |total, further| Some(Ok(Allocated { total, further }));
    assert_eq!(jobs.map(|job| job.answer()), [allocated(8, 1), allocated(355, 7), Some(Err(Refused(9)))]);
    assert_eq!(amounts, [3, 1, 9, 10, 40, 15, 9, 9, 9]);
    // Answers stand until the job is answered again.
    assert_eq!(dilbreth::allocate_jobs(&accounts, &shorts, &mut jobs, &mut []), Err(Refused(4)));
    assert_eq!(jobs[1].answer(), allocated(355, 7));
    assert_eq!(dilbreth::allocate_jobs(&accounts[..2], &[5, 4], &mut jobs[..1], &mut amounts), Ok(()));
    assert_eq!((jobs[0].answer(), amounts[..2].iter().sum()), (allocated(9, 1), 4u32));
}

// No two of the four lists are equal, so each must reach its place.
#[test]
fn lists_of_two_branches() {
    let first = Branch { accounts: &[2, 5, 9], shorts: &[30, 8, 1] };
    let second = Branch { accounts: &[1, 5, 7, 12], shorts: &[4, 12, 20, 3] };
    let none = Branch { accounts: &[], shorts: &[] };
    let large = Branch { accounts: &[7], shorts: &[10_000_001] };
    let (mut accounts, mut shorts) = ([99; 7], [98; 8]);
    for (one, other, [of_accounts, of_shorts], number) in [
        (Branch { shorts: &[30, 8], ..first }, none, [7, 8], 1),
        (first, none, [7, 8], 3),
        (Branch { shorts: &[30, 0, 1], ..first }, large, [7, 8], 6),
        (first, large, [7, 8], 7),
        (first, Branch { accounts: &[7, 7], shorts: &[1, 1] }, [7, 8], 5),
        (first, second, [5, 8], 4),
        (first, second, [7, 5], 4),
    ] {
        let found = dilbreth::merge(one, other, &mut accounts[..of_accounts], &mut shorts[..of_shorts]);
        assert_eq!((found, accounts, shorts), (Err(Refused(number)), [99; 7], [98; 8]));
    }
    let found = dilbreth::merge(first, second, &mut accounts[..6], &mut shorts);
    assert_eq!(found, Ok(Merged { positions: 6, total: 78 }));
    assert_eq!(accounts, [1, 2, 5, 7, 9, 12, 99]);
    assert_eq!(shorts, [4, 30, 20, 20, 1, 3, 98, 98]);
}

#[test]
fn refusals_are_errors() {
    let refused_by = |increment, method, codes: &[u32], accounts: &[u32], exercised, draw| {
        let found = FORMS.map(|form| {
            let out = &mut [0];
            dilbreth::allocate(method, exercised, draw, increment, form, codes, accounts, &[36], out).unwrap_err().0
        });
        assert_eq!(found[0], found[1]);
        found[0]
    };
    let refused = |method, codes: &[u32], accounts: &[u32], exercised, draw| {
        refused_by(DEFAULT_INCREMENT, method, codes, accounts, exercised, draw)
    };
    assert_eq!(refused(Method::Wheel, &[1], &[1], 37, 1), 9);
    assert_eq!(refused(Method::Wheel, &[1], &[1], 13, 0), 10);
    assert_eq!(refused(Method::Wheel, &[], &[1], 13, 1), 1);
    assert_eq!(refused(Method::Wheel, &[0], &[0], 13, 1), 5);
    assert_eq!(refused(Method::Wheel, &[1], &[0], 13, 1), 19);
    assert_eq!(refused(Method::ProRata, &[1], &[0], 13, 1), 5);
    assert_eq!(refused(Method::RemainderDraw, &[], &[0], 13, 1), 5);
    assert_eq!(refused(Method::RemainderDraw, &[], &[1], 37, 1), 9);
    // 0 is no increment; S, then the increment, then the draw.
    assert_eq!(refused_by(0, Method::Wheel, &[1], &[1], 36, 0), 23);
    assert_eq!(refused_by(1_001, Method::Wheel, &[1], &[1], 13, 0), 23);
    assert_eq!(refused_by(1_000, Method::Wheel, &[1], &[1], 13, 0), 10);
    assert_eq!(refused_by(0, Method::Wheel, &[1], &[1], 37, 0), 9);
    assert_eq!(refused_by(0, Method::RemainderDraw, &[], &[1], 37, 0), 9);
    let many = [[2_000_001], [2_000_002]];
    let found =
        many.map(|list| dilbreth::allocate(Method::Wheel, 2_000_001, 0, 2, FORMS[0], &[1], &[1], &list, &mut [0]));
    assert_eq!(found, [Ok(Allocated { total: 2_000_001, further: 0 }), Err(Refused(24))]);
    for (form, number) in FORMS.into_iter().zip([6, 20]) {
        let found = dilbreth::allocate(Method::ProRata, 1, 1, DEFAULT_INCREMENT, form, &[], &[1], &[0], &mut [0]);
        assert_eq!(found, Err(Refused(number)));
        for (codes, numbers) in [(&[1][..], &[][..]), (&[], &[1])] {
            let found = dilbreth::write(Method::Wheel, 1, 1, DEFAULT_INCREMENT, form, codes, &[1], numbers, &mut []);
            assert_eq!(found, Err(Refused(1)));
        }
    }
    assert_eq!(dilbreth::read(b"", &mut [], &mut [], &mut []), Err(Refused(12)));
    assert_eq!(dilbreth::change(b"", &mut []), Err(Refused(12)));
    assert_eq!(dilbreth::respond(b"", &mut []), Err(Refused(4)));
    assert_eq!(Refused(3).to_string(), "refused, 3: there are no positions");
}
