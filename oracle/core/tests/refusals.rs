//! The refusals in document 01's order, and what a query does to its buffers.

use oracle_core::book::{Book, Header, Part};
use oracle_core::{Outcome, reply, work_len};

/// One goal that is Yes; T 5.
fn book() -> Vec<u8> {
    let header =
        Header { provisional_cache: true, goals: 1, top_depth: 5, step_limit: 1, divisor: 1 };
    Book { header, parts: vec![Part::All(vec![])] }.to_bytes()
}

const CACHE_LEN: usize = 7 * 5;

struct Asked {
    book: Vec<u8>,
    cache: Vec<u8>,
    work: Vec<u8>,
    goal: usize,
    depth: usize,
}

impl Asked {
    fn reply(&mut self) -> (u8, u8) {
        let Asked { book, cache, work, goal, depth } = self;
        match reply(book, cache, work, *goal, *depth, 1000).outcome {
            Outcome::Replied { answer, refusal } => (answer, refusal),
            other => panic!("{other:?}"),
        }
    }
}

/// Everything is wrong at once; then one thing after the other is put right.
#[test]
fn first_in_order() {
    let good = book();
    let mut bad_book = good.clone();
    bad_book[2] = b'7'; // header
    bad_book[18] = b'9'; // a code that is none
    bad_book[47] = b' '; // newline
    bad_book.push(0); // length
    let mut asked = Asked {
        book: bad_book,
        cache: vec![9; CACHE_LEN + 1],
        work: vec![7; work_len(1) + 1],
        goal: 1,
        depth: 6,
    };
    let put_right: [fn(&mut Asked); 9] = [
        |a| a.book.truncate(48),
        |a| a.book[47] = b'\n',
        |a| a.book[2] = b'1',
        |a| a.book[18] = b'1',
        |a| a.goal = 0,
        |a| a.depth = 5,
        |a| a.cache.truncate(CACHE_LEN),
        |a| a.cache.fill(0),
        |a| a.work.truncate(work_len(1)),
    ];
    for (i, put_right) in put_right.iter().enumerate() {
        let (cache, work) = (asked.cache.clone(), asked.work.clone());
        assert_eq!(asked.reply(), (0, i as u8 + 1));
        assert!(asked.cache == cache && asked.work == work, "refusal {} changes nothing", i + 1);
        put_right(&mut asked);
    }
    assert_eq!(asked.book, good);
    assert_eq!(asked.reply(), (1, 0));
    assert_eq!(asked.cache[..5], [1, 1, 0, 1, 0]);
    assert!(asked.work.iter().all(|&b| b == 0));
}

fn refusal_of(bytes: &[u8]) -> u8 {
    Book::read(bytes).err().unwrap_or(0)
}

fn with_lines(body: &str) -> Vec<u8> {
    let header = "  1  1  5  1  1\n  1  0  0  0  0\n";
    format!("{header}{body}").into_bytes()
}

#[test]
fn lengths() {
    let good = book();
    assert_eq!(refusal_of(&[]), 1);
    assert_eq!(refusal_of(&good[..32]), 1);
    assert_eq!(refusal_of(&good[..47]), 1);
    let line = b"  3  0  0  0  0\n";
    let longest = [with_lines("  3997  0  0  0\n"), line.repeat(997)].concat();
    assert_eq!(longest.len(), 16_000);
    assert_eq!(refusal_of(&longest), 0);
    let too_long = [with_lines("  3998  0  0  0\n"), line.repeat(998)].concat();
    assert_eq!(refusal_of(&too_long), 1);
}

#[test]
fn fields() {
    for good in ["  0", "  9", " 10", "999"] {
        let refusal = refusal_of(&with_lines(&format!("{good}  0  0  0  0\n")));
        assert_eq!(refusal, 4, "{good:?} is well-formed and no code");
    }
    for bad in ["   ", " 00", "000", " 01", "1  ", " 1 ", "1 1", " +1", " -1", "  a", "\t 1"] {
        assert_eq!(refusal_of(&with_lines(&format!("{bad}  0  0  0  0\n"))), 2, "{bad:?}");
    }
    assert_eq!(refusal_of(&with_lines("  6  0  0  0  0\r")), 2);
}

#[test]
fn header_ranges() {
    let body = "\n  1  0  0  0  0\n  6  0  0  0  0\n";
    for good in ["  0  1  0  0  1", "  1  1 63 99 99"] {
        assert_eq!(refusal_of(format!("{good}{body}").as_bytes()), 0, "{good}");
    }
    for bad in [
        "  2  1  5  1  1",
        "  1  0  5  1  1",
        "  1 65  5  1  1",
        "  1  1 64  1  1",
        "  1  1  5100  1",
        "  1  1  5  1  0",
        "  1  1  5  1100",
    ] {
        assert_eq!(refusal_of(format!("{bad}{body}").as_bytes()), 3, "{bad}");
    }
    assert_eq!(refusal_of(format!("  1 64  5  1  1{body}").as_bytes()), 4);
}

#[test]
fn grammar() {
    let nest = |depth: usize| "  3  1  0  0  0\n".repeat(depth - 1) + "  6  0  0  0  0\n";
    assert_eq!(refusal_of(&with_lines(&nest(8))), 0);
    assert_eq!(refusal_of(&with_lines(&nest(9))), 4);
    for good in [
        "  2  0  3  1  0\n",
        "  5  1  0  0  0\n  3  0  0  0  0\n",
        "  3  2  0  0  0\n  5  0  0  0  0\n  5  0  0  0  0\n",
    ] {
        assert_eq!(refusal_of(&with_lines(good)), 0, "{good}");
    }
    for bad in [
        "  2  1  0  0  0\n",
        "  2  0  4  0  0\n",
        "  2  0  0  2  0\n",
        "  2  0  0  0  1\n",
        "  3  0  1  0  0\n",
        "  4  0  0  1  0\n",
        "  5  0  0  0  1\n",
        "  6  1  0  0  0\n",
        "  1  0  0  0  0\n",
        "  0  0  0  0  0\n",
        "  7  0  0  0  0\n",
        "  3  1  0  0  0\n",
        "  6  0  0  0  0\n  6  0  0  0  0\n",
        "  5  1  0  0  0\n  5  0  0  0  0\n",
        "  5  1  0  0  0\n  3  1  0  0  0\n  5  0  0  0  0\n",
    ] {
        assert_eq!(refusal_of(&with_lines(bad)), 4, "{bad}");
    }
}

#[test]
fn slots() {
    let refusal_with = |number: usize, slot: [u8; 5]| {
        let mut cache = vec![0; CACHE_LEN];
        cache[5 * number..5 * number + 5].copy_from_slice(&slot);
        let (work, book) = (vec![7; work_len(1)], book());
        Asked { book, cache, work, goal: 0, depth: 5 }.reply().1
    };
    assert_eq!(refusal_with(0, [1, 1, 5, 1, 31]), 0);
    assert_eq!(refusal_with(1, [1, 3, 0, 1, 0]), 0);
    assert_eq!(refusal_with(6, [1, 0, 5, 1, 0]), 0);
    for (number, slot) in [
        (0, [2, 0, 0, 1, 0]),
        (0, [0, 1, 0, 0, 0]),
        (0, [0, 0, 1, 0, 0]),
        (0, [0, 0, 0, 1, 0]),
        (0, [0, 0, 0, 0, 1]),
        (0, [1, 4, 0, 1, 0]),
        (0, [1, 0, 6, 1, 0]),
        (0, [1, 0, 0, 0, 0]),
        (0, [1, 0, 0, 2, 0]),
        (0, [1, 0, 0, 1, 32]),
        (1, [1, 0, 1, 1, 0]),
        (6, [1, 0, 4, 1, 0]),
        (6, [1, 0, 5, 0, 0]),
        (6, [1, 0, 5, 2, 0]),
    ] {
        assert_eq!(refusal_with(number, slot), 8, "slot {number} {slot:?}");
    }
}
