// Calls on several threads at once, and that the archive has no place where a call could keep anything.

use std::process::Command;
use std::sync::Barrier;
use std::thread;

use compare::random::Random;
use compare::{archive, books, branches, days, make, Count};

// No writable data, and of other code only what copies and fills bytes.
#[test]
fn the_archive_keeps_nothing() {
    let run = |command: &mut Command| {
        let found = command.arg(archive::path()).output().expect("binutils");
        assert!(found.status.success());
        String::from_utf8(found.stdout).unwrap()
    };
    let sizes = run(&mut Command::new("size"));
    let mut objects = 0;
    for line in sizes.lines().skip(1) {
        let columns: Vec<&str> = line.split_whitespace().collect();
        assert_eq!((columns[1], columns[2]), ("0", "0"), "data and bss of {line}");
        objects += 1;
    }
    assert!(objects > 0, "{sizes}");
    let wanted = run(Command::new("nm").arg("--undefined-only"));
    for name in wanted.lines().filter_map(|line| line.trim_start().strip_prefix("U ")) {
        assert!(["memcpy", "memset"].contains(&name), "{name}");
    }
}

// Series, books, merged lists, texts, days and words of a thread's own, each compared with the separate version.
fn every_call(seed: u64) -> u64 {
    let mut random = Random::new(seed);
    let mut count = Count::new("on several threads");
    for number in 0..400 {
        for make::Call { terms, list, room } in make::calls(&mut random, 60, 5_000) {
            count.allocate(terms, list.list(), room);
            count.case(compare::write(terms, list.list(), 2_000));
        }
        let book = books::book(&mut random, books::Size { jobs: 8, positions: 20, total: 1_000 });
        count.case(compare::allocate_jobs(&book).map(|(number, _)| number == 0));
        let branches = branches::branches(&mut random, branches::Size { positions: 60, total: 5_000 });
        count.case(compare::merge(&branches).map(|number| number == 0));
        let text = make::text(&mut random, 60);
        count.case(compare::read(&text, [60; 3]));
        count.case(compare::respond(&text, reference::MOST_PRINTED));
        count.case(compare::change(&text, reference::MOST_CHANGED));
        let counts = days::investor(&mut random, number % 2);
        count.case(compare::process_investor(number % 2, counts).map(|number| number == 0));
        let counts = days::market_maker(&mut random);
        count.case(compare::process_market_maker(number % 2, counts).map(|number| number == 0));
        count.case(compare::explain(9, b"more is exercised than the positions hold\n", 50));
    }
    count.cases()
}

#[test]
fn every_call_on_several_threads() {
    let start = Barrier::new(8);
    let cases: u64 = thread::scope(|scope| {
        let (start, of) = (&start, every_call);
        let threads = [1, 2, 3, 4, 5, 6, 7, 8].map(|n| {
            scope.spawn(move || {
                start.wait();
                of(0x7472_0000 + n)
            })
        });
        threads.into_iter().map(|thread| thread.join().expect("a thread that ends")).sum()
    });
    println!("on 8 threads: {cases} cases");
    assert!(cases > 10_000);
}
