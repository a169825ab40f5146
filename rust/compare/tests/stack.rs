// The calls on a thread that has 64 KB of stack in all.

use compare::books::Book;
use compare::make::{self, Series};
use compare::random::Random;
use compare::{library_form, library_job, Terms, DEFAULT_INCREMENT, FORMS};
use dilbreth::calls;

fn on_a_small_stack(call: impl FnOnce() + Send + 'static) {
    std::thread::Builder::new().stack_size(64 * 1024).spawn(call).expect("a thread").join().expect("a return");
}

// All of 4,096 positions with 2,441 contracts each, in both forms.
fn allocate(method: u8, increment: u32, codes: Vec<u32>, accounts: Vec<u32>) {
    let list = Series::coded(codes, accounts, vec![2_441; 4_096]);
    let lists = FORMS.map(|form| list.in_form(form));
    for (list, (s, draw)) in lists.iter().flat_map(|list| [(list, (4_999_999, 10_000)), (list, (9_998_336, 0))]) {
        let Series { form, codes, accounts, numbers } = list.clone();
        let form = library_form(form).number();
        let mut amounts = vec![0; 4_096];
        on_a_small_stack(move || {
            let (mut total, mut further) = (0, 0);
            let (out, t, f) = (&mut amounts, &mut total, &mut further);
            let number = calls::allocate(method, s, draw, increment, form, &codes, &accounts, &numbers, out, t, f);
            assert_eq!((number, total), (0, 9_998_336));
            assert_eq!(amounts.iter().sum::<u32>(), s);
        });
    }
}

#[test]
fn allocating() {
    for method in make::METHODS {
        allocate(method, DEFAULT_INCREMENT, make::upward(4_096), make::upward(4_096));
    }
    // As many blocks as may be, and few.
    for increment in [5, 1_000] {
        allocate(b'W', increment, make::upward(4_096), make::upward(4_096));
    }
}

#[test]
fn allocating_by_code() {
    let mut random = Random::new(0x57AC_0001);
    let mut accounts = make::upward(4_096);
    accounts.reverse();
    let by_code = |codes, accounts| allocate(b'W', DEFAULT_INCREMENT, codes, accounts);
    by_code(make::upward(4_096), accounts.clone());
    for _ in 0..4 {
        make::shuffle(&mut random, &mut accounts);
        by_code(make::rising(&mut random, 4_096), accounts.clone());
    }
    by_code(make::upward(4_096), make::sharing_low_bits(&mut random, 4_096, 20));
    by_code(make::upward(4_096), make::sharing_upper_bits_of_product(&mut random, 4_096));
}

// The lists cut into as many jobs, each with 10,000,000 contracts.
fn allocate_jobs(count: u32, terms: Vec<Terms>) {
    let positions = 4_096 / count;
    let mut book = Book::default();
    for at in 0..count {
        let mut shorts = vec![10_000_000 / positions; positions as usize];
        shorts[0] += 10_000_000 % positions;
        book.add(&make::upward(positions as usize), &shorts, terms[at as usize % terms.len()]);
    }
    on_a_small_stack(move || {
        let Book { accounts, shorts, jobs, room } = book;
        let mut records: Vec<calls::Job> = jobs.iter().map(|job| library_job(*job)).collect();
        let mut amounts = vec![0; room];
        assert_eq!(calls::allocate_jobs(&accounts, &shorts, &mut records, &mut amounts), 0);
        for (record, job) in records.iter().zip(jobs) {
            assert_eq!((record.answer.refusal, record.answer.total), (0, 10_000_000));
            assert_eq!(amounts[job.stretch()].iter().sum::<u32>(), job.terms.exercised);
        }
    });
}

// All 4,096 positions as one job, as two and as 64, under every method and under all in turn.
#[test]
fn allocating_jobs() {
    for count in [1, 2, 64] {
        let each = make::METHODS.map(|method| Terms::new(method, 4_999_999, 10_000));
        for terms in each {
            allocate_jobs(count, vec![terms]);
        }
        allocate_jobs(count, each.to_vec());
        // As many blocks as may be, and series that need no draw.
        allocate_jobs(count, vec![each[0].by(5)]);
        allocate_jobs(count, make::METHODS.map(|method| Terms::new(method, 10_000_000, 0)).to_vec());
    }
}

// Lists of the accounts with one contract each; the number of the call and the positions of the merged list.
fn merge(first: Vec<u32>, second: Vec<u32>, answer: (u32, usize)) {
    on_a_small_stack(move || {
        let [of_first, of_second] = [&first, &second].map(|accounts| vec![1; accounts.len()]);
        let [mut accounts, mut shorts] = [(); 2].map(|_| vec![0; 4_096]);
        let (mut positions, mut total) = (0, 0);
        let (out, p, t) = (&mut shorts, &mut positions, &mut total);
        let number = calls::merge(&first, &of_first, &second, &of_second, &mut accounts, out, p, t);
        assert_eq!((number, positions), answer);
        assert_eq!(shorts.iter().sum::<u32>(), total);
    });
}

// The longest lists, and the longest that may be merged with no account in common, one above the other and in turn.
#[test]
fn merging() {
    let whole = make::upward(4_096);
    merge(whole.clone(), whole.clone(), (0, 4_096));
    merge(whole.clone(), whole.iter().map(|account| account + 4_096).collect(), (2, 0));
    let (low, high) = whole.split_at(2_048);
    merge(low.to_vec(), high.to_vec(), (0, 4_096));
    merge(high.to_vec(), low.to_vec(), (0, 4_096));
    let [odd, even] = [1, 2].map(|from| (from..=4_096).step_by(2).collect());
    merge(odd, even, (0, 4_096));
}

fn respond(text: Vec<u8>) {
    let printed = reference::printed(&text);
    assert!(printed.starts_with(b"account,assigned"));
    let mut output = vec![0; reference::MOST_PRINTED];
    on_a_small_stack(move || {
        let mut written = 0;
        assert_eq!(calls::respond(&text, &mut output, &mut written), 0);
        assert_eq!(&output[..written], &printed[..]);
    });
}

#[test]
fn responding() {
    let list = Series::by_account(make::upward(1_024), vec![977; 1_024]);
    for form in FORMS {
        for method in make::METHODS {
            for increment in [DEFAULT_INCREMENT, 1] {
                let terms = Terms::new(method, 700_000, 5).by(increment);
                respond(reference::write(terms, list.in_form(form).list(), usize::MAX).expect("a text"));
            }
        }
        respond(make::text_of_length(form, 32_768));
    }
}

#[test]
fn responding_with_ranges() {
    let accounts = (0..1_024).map(|i| u32::MAX - 1_023 + i).collect();
    let list = Series::by_account(accounts, vec![9_765; 1_024]);
    for (exercised, draw) in [(9_999_360, 0), (9_999_359, u32::MAX), (1, 9_999_360)] {
        for form in FORMS {
            let terms = Terms::new(b'R', exercised, draw).by(u32::MAX);
            respond(reference::write(terms, list.in_form(form).list(), usize::MAX).expect("a text"));
        }
    }
}

#[test]
fn reading_and_writing() {
    for text in FORMS.map(|form| make::text_of_length(form, 32_768)) {
        on_a_small_stack(move || {
            let [mut codes, mut accounts, mut numbers] = [(); 3].map(|_| vec![0; 1_024]);
            let terms = dilbreth::read(&text, &mut codes, &mut accounts, &mut numbers).expect("a series");
            let dilbreth::Terms { method, exercised, draw, increment, form, positions } = terms;
            let mut out = vec![0; 32_768];
            let text = &mut out;
            let length = dilbreth::write(method, exercised, draw, increment, form, &codes, &accounts, &numbers, text);
            assert_eq!((positions, length.is_ok()), (1_024, true));
        });
    }
}

// With accounts that fall, so that each is looked up, and with such as collide.
#[test]
fn changing() {
    let mut random = Random::new(0x57AC_0002);
    let colliding = make::sharing_upper_bits_of_product(&mut random, 1_024);
    let list = Series::coded(make::rising(&mut random, 1_024), colliding, vec![9_765; 1_024]);
    let [shorts, lasts] = FORMS.map(|form| {
        let text = reference::write(Terms::new(b'W', 1, 1), list.in_form(form).list(), usize::MAX).expect("a text");
        [text, make::text_of_length(form, 32_768)]
    });
    for text in shorts.into_iter().chain(lasts) {
        let changed = reference::change(&text, usize::MAX).expect("a changed text");
        let mut output = vec![0; reference::MOST_CHANGED];
        on_a_small_stack(move || {
            let mut written = 0;
            assert_eq!(calls::change(&text, &mut output, &mut written), 0);
            assert_eq!(&output[..written], &changed[..]);
        });
    }
}

#[test]
fn a_day_the_words_and_the_version() {
    on_a_small_stack(|| {
        let (mut limit, mut long, mut short) = (0, 0, 0);
        let after = (&mut limit, &mut long, &mut short);
        assert_eq!(calls::process_investor(1, 9, 8, 7, 6, 5, 4, 3, after.0, after.1, after.2), 0);
        assert_eq!((limit, long, short), (3, 0, 0));
        assert_eq!(calls::process_market_maker(1, 9, 8, 7, 6, &mut limit), 0);
        assert_eq!(limit, 2);
        let mut line = [0; 50];
        assert_eq!((0..=25).map(|number| calls::explain(number, &mut line)).max(), Some(50));
        assert_eq!(dilbreth::version(), dilbreth::VERSION);
    });
}
