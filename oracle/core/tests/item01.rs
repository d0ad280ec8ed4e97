//! Item 1 of document 02: the plain form on small drafts and on generated ones, the call, and what
//! the original answers of a draft and of its plain form. Wrong readings of it, each found out by a
//! recorded draft (item01.txt).

use oracle_core::book::{Book, Header, LINE, MAX_LINES, MAX_NEST, Part};
use oracle_core::case::{Case, Expected, Query, read_cases};
use oracle_core::generate::{CLASSES, class_named};
use oracle_core::random::Random;
use oracle_core::recorded::{call, no, yes};
use oracle_core::tidy::wrong::{self, RIGHT, Reading, named};
use oracle_core::tidy::{self, RULES, Rule, Told, plain};
use oracle_core::{Limits, work_len};

fn book(parts: Vec<Part>) -> Book {
    let goals = parts.len();
    let header = Header { provisional_cache: true, goals, top_depth: 5, step_limit: 0, divisor: 1 };
    Book { header, parts }
}

fn all(parts: &[Part]) -> Part {
    Part::All(parts.to_vec())
}

fn any(parts: &[Part]) -> Part {
    Part::Any(parts.to_vec())
}

fn pick(parts: &[Part]) -> Part {
    Part::Pick(parts.to_vec())
}

/// Four lines that no rule moves: a, b, c, and one that is undecided.
fn leaves() -> [Part; 4] {
    [call(0, 0, true), call(0, 2, true), call(0, 0, false), Part::Undecided]
}

/// A draft of one goal's part becomes this.
fn becomes(draft: Part, tidy: Part) {
    assert_eq!(plain(&book(vec![draft.clone()])).0, book(vec![tidy]), "{draft:?}");
}

fn stays(part: Part) {
    becomes(part.clone(), part);
}

#[test]
fn item_1s_own_words() {
    let [a, b, c, _] = leaves();
    becomes(
        all(&[all(&[a.clone(), b.clone()]), c.clone()]),
        all(&[a.clone(), b.clone(), c.clone()]),
    );
    becomes(
        any(&[c.clone(), any(&[a.clone(), b.clone()])]),
        any(&[c.clone(), a.clone(), b.clone()]),
    );
    becomes(all(&[a.clone()]), a.clone());
    stays(all(&[any(&[a.clone(), b.clone()]), c.clone()]));
    stays(any(&[all(&[a.clone(), b.clone()]), all(&[b, c.clone()]), a]));
    stays(all(&[c.clone(), c]));
}

#[test]
fn t1_empty_lists_are_spliced() {
    let [a, _, c, _] = leaves();
    becomes(all(&[yes(), c.clone()]), c.clone());
    becomes(any(&[c.clone(), no()]), c.clone());
    becomes(all(&[yes()]), yes());
    becomes(all(&[yes(), yes(), all(&[yes()])]), yes());
    stays(all(&[no(), c.clone()]));
    stays(any(&[a, c, yes()]));
}

#[test]
fn t2_a_list_of_one_part_becomes_it() {
    let [a, b, _, undecided] = leaves();
    for only in [a.clone(), undecided, pick(&[a.clone(), b.clone()]), pick(&[]), yes(), no()] {
        becomes(all(&[only.clone()]), only.clone());
        becomes(any(&[only.clone()]), only.clone());
        becomes(
            any(&[a.clone(), all(&[any(&[only.clone()])])]),
            match only {
                Part::Any(_) => a.clone(),
                other => any(&[a.clone(), other]),
            },
        );
    }
    becomes(all(&[no()]), no());
}

#[test]
fn t3_candidates_are_tidied() {
    let [a, b, c, _] = leaves();
    let both = all(&[a.clone(), b.clone()]);
    becomes(pick(&[all(&[both.clone()])]), pick(&[both.clone()]));
    becomes(pick(&[any(&[a.clone()])]), pick(&[a.clone()]));
    becomes(
        pick(&[any(&[c.clone()]), no(), all(&[yes()]), c.clone()]),
        pick(&[c.clone(), no(), yes(), c]),
    );
    becomes(any(&[a.clone(), all(&[pick(&[all(&[b.clone()])])])]), any(&[a, pick(&[b])]));
}

#[test]
fn t4_a_pick_stays_a_pick() {
    let [a, b, c, _] = leaves();
    stays(pick(&[a.clone()]));
    stays(pick(&[]));
    stays(pick(&[any(&[a.clone(), b.clone()]), c.clone()]));
    stays(any(&[pick(&[a.clone(), b.clone()]), c.clone()]));
    stays(any(&[pick(&[]), c]));
    stays(all(&[pick(&[a]), b]));
}

#[test]
fn t5_until_no_rule_fits() {
    let [a, b, c, _] = leaves();
    let three = all(&[a.clone(), b.clone(), c.clone()]);
    becomes(all(&[any(&[all(&[a.clone(), b.clone()])]), c.clone()]), three);
    becomes(any(&[all(&[any(&[all(&[any(&[all(&[a.clone()])])])])])]), a.clone());
    becomes(any(&[all(&[any(&[]), yes()]), all(&[yes(), any(&[no(), a.clone()])])]), a);
    becomes(all(&[any(&[no(), b.clone()]), all(&[yes(), c.clone()])]), all(&[b, c]));
}

#[test]
fn t9_a_goals_own_part_and_goal_lines() {
    let [a, b, _, _] = leaves();
    [yes(), no(), pick(&[]), pick(&[a.clone()]), pick(&[a, b])].into_iter().for_each(stays);
    let three = book(vec![all(&[yes()]), no(), any(&[pick(&[])])]);
    assert_eq!(plain(&three).0, book(vec![yes(), no(), pick(&[])]));
}

/// What an output holds before a call: no zero, no digit and no blank.
fn found(len: usize) -> Vec<u8> {
    (0..len).map(|i| 0x80 | i as u8).collect()
}

/// T6 and T11: every byte of the output, on a draft and on a book that is plain.
#[test]
fn t6_t11_the_whole_output_is_written() {
    let a = "  2  0  0  1  0\n";
    let draft = format!("  1  1  5  0  1\n  1  0  0  0  0\n  3  2  0  0  0\n  3  0  0  0  0\n{a}");
    let tidy = format!("  1  1  5  0  1\n  1  0  0  0  0\n{a}");
    let mut out = found(draft.len());
    assert_eq!(tidy::call(draft.as_bytes(), &mut out), Told { length: 48, refusal: 0 });
    assert_eq!((&out[..48], &out[48..]), (tidy.as_bytes(), [0; 32].as_slice()));
    let mut again = found(tidy.len());
    assert_eq!(tidy::call(tidy.as_bytes(), &mut again).code(), 48);
    assert_eq!(again, tidy.as_bytes());
}

/// T7: the output is as long as the book, and neither shorter nor longer, whatever the tidy book takes.
#[test]
fn t7_the_outputs_length() {
    let draft = book(vec![all(&[yes(), no()])]).to_bytes();
    let n = draft.len();
    for len in [0, 1, 16, 48, n - 16, n - 1, n + 1, n + 16, n + 65_536] {
        let mut out = found(len);
        assert_eq!(tidy::call(&draft, &mut out), Told { length: 0, refusal: 14 });
        assert_eq!(out, found(len));
    }
    assert_eq!(tidy::call(&draft, &mut found(n)).code(), 48);
    assert_eq!(tidy::call(&draft, &mut found(n + 1)).code(), 917_504);
}

/// 1 to 4 come first, in their order, whatever the output's length.
#[test]
fn refusals_1_to_4_before_14() {
    let good = book(vec![all(&[yes(), yes()])]).to_bytes();
    let spoilt = |at: usize, byte: u8| {
        let mut bytes = good.clone();
        bytes[at] = byte;
        bytes
    };
    let header = 5; // the last column of the number of goals
    let books =
        [good[1..].to_vec(), spoilt(LINE, b'x'), spoilt(header, b'0'), spoilt(header, b'2')];
    for (i, bytes) in books.iter().enumerate() {
        for len in [bytes.len(), 0, bytes.len() - 1, bytes.len() + 16] {
            let mut out = found(len);
            assert_eq!(tidy::call(bytes, &mut out), Told { length: 0, refusal: 1 + i as u8 });
            assert_eq!(out, found(len));
        }
    }
    assert_eq!(tidy::call(&books[3], &mut found(4)).code(), 4 * 65_536);
}

/// Drafts of every class that has good books.
fn some_books(count: u64) -> Vec<Book> {
    let cases = CLASSES.iter().flat_map(|class| (0..count).map(|number| class.case(21, number)));
    cases.filter_map(|case| Book::read(&case.book).ok()).collect()
}

fn drafts(count: u64) -> Vec<Case> {
    let class = class_named("drafts").unwrap();
    (0..count).map(|number| class.case(22, number)).collect()
}

/// Every way to apply a rule to the part or inside it, one application each.
fn ways(part: &Part) -> Vec<Part> {
    let mut found = Vec::new();
    for rule in RULES {
        for at in rule.places(part) {
            let mut here = part.clone();
            rule.apply_at(&mut here, at);
            found.push(here);
        }
    }
    for (at, inner) in part.children().iter().enumerate() {
        for inner in ways(inner) {
            let mut changed = part.clone();
            changed.children_mut().unwrap()[at] = inner;
            found.push(changed);
        }
    }
    found
}

#[test]
fn each_part_that_fits_is_a_way() {
    let [a, b, c, _] = leaves();
    let (first, second) = (all(&[a.clone()]), all(&[b.clone(), c.clone()]));
    let found = ways(&all(&[first.clone(), second.clone()]));
    let tidied = [
        all(&[a.clone(), second.clone()]),
        all(&[first, b, c]),
        all(&[a, second]), // the first part becomes its only part
    ];
    assert_eq!(found, tidied);
}

/// Whichever rule is applied next, and wherever, the end is the same.
#[test]
fn t5_the_order_does_not_matter() {
    let mut r = Random::new(5);
    let (mut several, mut steps) = (0, 0);
    for case in drafts(400) {
        let book = Book::read(&case.book).unwrap();
        for part in book.parts.iter().filter(|part| part.lines() <= 60) {
            let tidy = plain(&self::book(vec![part.clone()])).0.parts.remove(0);
            for _ in 0..4 {
                let mut now = part.clone();
                while let Some(next) = Some(ways(&now)).filter(|ways| !ways.is_empty()) {
                    several += usize::from(next.len() > 1);
                    steps += 1;
                    now = next[r.below(next.len())].clone();
                }
                assert_eq!(now, tidy, "{}", case.name);
            }
        }
    }
    assert!(several > 10_000 && steps > 20_000, "{several} {steps}");
}

/// All parts of so many lines, with three sorts of leaves and no pick inside a pick.
fn parts_of(lines: usize, in_pick: bool) -> Vec<Part> {
    let mut found = if lines == 1 { leaves()[1..].to_vec() } else { vec![] };
    for parts in lists_of(lines - 1, in_pick) {
        found.extend([Part::All(parts.clone()), Part::Any(parts)]);
    }
    if !in_pick {
        found.extend(lists_of(lines - 1, true).into_iter().map(Part::Pick));
    }
    found
}

/// All lists of parts that have so many lines together.
fn lists_of(lines: usize, in_pick: bool) -> Vec<Vec<Part>> {
    if lines == 0 {
        return vec![vec![]];
    }
    let mut found = Vec::new();
    for first in 1..=lines {
        for rest in lists_of(lines - first, in_pick) {
            let firsts = parts_of(first, in_pick).into_iter();
            found.extend(firsts.map(|first| [vec![first], rest.clone()].concat()));
        }
    }
    found
}

/// All parts of up to five lines: whichever rule comes first, and wherever, the plain form is the
/// same; and on the original the tidy book answers as the draft does.
#[test]
fn every_small_part() {
    let tidied = |part: &Part| plain(&book(vec![part.clone()])).0;
    let (mut parts, mut changed) = (0, 0);
    for part in (1..=5).flat_map(|lines| parts_of(lines, false)) {
        let tidy = tidied(&part);
        let ways = ways(&part);
        assert!(ways.iter().all(|way| tidied(way) == tidy), "{part:?}");
        assert_eq!(ways.is_empty(), tidy.parts[0] == part);
        parts += 1;
        if ways.is_empty() {
            continue;
        }
        changed += 1;
        for (provisional_cache, step_limit) in [(true, 3), (false, 1)] {
            let header = Header { provisional_cache, step_limit, ..tidy.header };
            let asked = |part: &Part| {
                let book = Book { header, parts: vec![part.clone()] };
                let queries = [5, 0, 5].map(|depth| Query::new(0, depth, work_len(1))).to_vec();
                let (name, cache) = (String::new(), vec![0; header.cache_len()]);
                Case { name, book: book.to_bytes(), cache, queries }.replies(Limits::default())
            };
            assert!(asked(&part) == asked(&tidy.parts[0]), "{part:?}");
        }
    }
    assert_eq!((parts, changed), (17_406, 12_690));
}

/// The same with each rule preferred to the others, in all orders of the three.
#[test]
fn t5_nor_does_the_order_of_the_rules() {
    use Rule::{AllInAll, AnyInAny, OnlyPart};
    let orders = [
        [AllInAll, AnyInAny, OnlyPart],
        [AllInAll, OnlyPart, AnyInAny],
        [AnyInAny, AllInAll, OnlyPart],
        [AnyInAny, OnlyPart, AllInAll],
        [OnlyPart, AllInAll, AnyInAny],
        [OnlyPart, AnyInAny, AllInAll],
    ];
    fn apply(rule: Rule, part: &mut Part) -> bool {
        rule.apply(part) || part.children_mut().into_iter().flatten().any(|p| apply(rule, p))
    }
    for book in some_books(20) {
        for order in orders {
            let mut now = book.clone();
            for part in &mut now.parts {
                while order.iter().any(|rule| apply(*rule, part)) {}
            }
            assert_eq!(now, plain(&book).0);
        }
    }
}

/// What the plain form keeps: goals, header, and all lines but those of lists, in their order.
#[test]
fn the_plain_form_of_generated_books() {
    let mut changed = 0;
    for book in some_books(60) {
        let (tidy, applied) = plain(&book);
        let lines = |book: &Book| -> Vec<Part> {
            let all = book.parts.iter().flat_map(|part| part.in_order());
            all.filter(|part| !matches!(part, Part::All(_) | Part::Any(_))).cloned().collect()
        };
        let leaves = |book: &Book| -> Vec<usize> {
            lines(book).iter().map(|part| part.children().len()).collect()
        };
        assert_eq!((tidy.header, leaves(&tidy)), (book.header, leaves(&book)));
        assert!(tidy.parts.iter().all(|part| ways(part).is_empty()), "not plain: {tidy:?}");
        assert_eq!(tidy.lines() + applied.iter().sum::<u64>() as usize, book.lines());
        assert_eq!(Book::read(&tidy.to_bytes()), Ok(tidy.clone()));
        assert_eq!(plain(&tidy), (tidy, [0; 3]), "twice equals once");
        changed += usize::from(applied != [0; 3]);
    }
    assert!(changed > 500, "{changed}");
}

/// What the class is made for is in it.
#[test]
fn drafts_have_what_matters() {
    let books: Vec<Book> =
        drafts(2000).iter().map(|case| Book::read(&case.book).unwrap()).collect();
    let applied: Vec<[u64; 3]> = books.iter().map(|book| plain(book).1).collect();
    let percent = |count: usize| 100 * count / books.len();
    let uses = |rule: usize| percent(applied.iter().filter(|applied| applied[rule] > 0).count());
    let inside = |list: fn(&Part) -> bool, inner: fn(&Part) -> bool| {
        let has = |part: &&Part| list(part) && part.children().iter().any(inner);
        let in_some = |book: &&Book| book.parts.iter().flat_map(Part::in_order).any(|p| has(&p));
        percent(books.iter().filter(in_some).count())
    };
    let is_pick = |part: &Part| matches!(part, Part::Pick(_));
    let is_list = |part: &Part| matches!(part, Part::All(_) | Part::Any(_));
    let deep = |book: &&Book| book.parts.iter().any(|part| part.height() == MAX_NEST);
    let table = [
        percent(applied.iter().filter(|applied| **applied == [0; 3]).count()),
        uses(0),
        uses(1),
        uses(2),
        inside(is_pick, is_list),
        inside(|part| matches!(part, Part::All(p) | Part::Any(p) if p.len() == 1), is_pick),
        inside(is_list, |part| matches!(part, Part::All(p) | Part::Any(p) if p.is_empty())),
        percent(books.iter().filter(deep).count()),
    ];
    println!("{table:?}");
    assert!(table.into_iter().all(|percent| percent >= 5), "{table:?}");
    assert!(books.iter().filter(|book| book.lines() == MAX_LINES).count() >= 10);
}

/// T8, on the original: the tidy book gives every query the draft's answer, refusal and cache.
#[test]
fn the_tidy_book_answers_as_the_draft() {
    let limits = Limits { fuel: 2_000, ..Limits::default() };
    let (mut changed, mut queries, mut seen) = (0, 0, [0; 12]);
    let others = CLASSES.iter().flat_map(|class| (0..60).map(|number| class.case(23, number)));
    for case in drafts(3000).into_iter().chain(others) {
        let Ok(draft) = Book::read(&case.book) else { continue };
        let tidy = plain(&draft).0;
        if tidy == draft {
            continue;
        }
        let replies = case.replies(limits);
        let of_tidy = Case { book: tidy.to_bytes(), ..case.clone() }.replies(limits);
        assert!(replies == of_tidy, "{}: {replies:?}, tidy {of_tidy:?}", case.name);
        changed += 1;
        for reply in replies.into_iter().flatten() {
            let Expected::Reply { refusal, .. } = reply else { panic!("{}", case.name) };
            queries += 1;
            seen[usize::from(refusal)] += 1;
        }
    }
    println!("{changed} drafts changed, {queries} queries, by refusal {seen:?}");
    assert!(changed > 2_500 && queries > 6_000 && seen[10] > 50 && seen[11] > 50, "{seen:?}");
}

/// A recorded draft, its plain form, and the readings that it finds out.
struct Draft {
    case: Case,
    tidy: Case,
    catches: Vec<String>,
}

/// A book that is refused has no plain form, and is recorded twice.
fn recorded() -> Vec<Draft> {
    let text = include_str!("item01.txt");
    let claims = text.lines().filter_map(|line| line.strip_prefix("# catches: "));
    let cases = read_cases(text).unwrap();
    let pairs: Vec<&[Case]> = cases.chunks(2).collect();
    assert_eq!(pairs.len(), claims.clone().count());
    let draft = |(pair, claim): (&[Case], &str)| Draft {
        case: pair[0].clone(),
        tidy: pair[1].clone(),
        catches: claim.split(", ").map(String::from).collect(),
    };
    pairs.into_iter().zip(claims).map(draft).collect()
}

/// What a reading tells and leaves with outputs of several lengths.
fn calls(reading: Reading, draft: &Draft) -> Vec<(Told, Vec<u8>)> {
    let (book, tidy) = (&draft.case.book, &draft.tidy.book);
    let lengths = [book.len(), tidy.len(), 0, book.len() - 1, book.len() + 1, book.len() + 16];
    let call = |len: usize| {
        let mut out = found(len);
        (reading.call(book, &mut out), out)
    };
    lengths.into_iter().map(call).collect()
}

#[test]
fn recorded_drafts_are_tidied_as_recorded() {
    for draft in recorded() {
        let Draft { case, tidy, .. } = &draft;
        assert_eq!(tidy.name, format!("{}, tidy", case.name));
        let (told, out) = calls(RIGHT, &draft).remove(0);
        match Book::read(&case.book) {
            Err(refusal) => {
                assert_eq!((told, &tidy.book), (Told { length: 0, refusal }, &case.book))
            }
            Ok(_) => assert_eq!(out[..told.length], tidy.book, "{}", case.name),
        }
        for case in [case, tidy] {
            let replies: Vec<_> = case.queries.iter().map(|query| query.expected.clone()).collect();
            assert!(!replies.is_empty() && case.replies(Limits::default()) == replies);
        }
        assert_eq!(case.queries, tidy.queries, "{}", case.name);
    }
}

#[test]
fn every_wrong_reading_is_found_out() {
    let drafts = recorded();
    for draft in &drafts {
        for name in &draft.catches {
            let reading = named(name).unwrap_or_else(|| panic!("no reading {name:?}"));
            let found_out = calls(reading, draft) != calls(RIGHT, draft);
            assert!(found_out, "{} does not catch {name}", draft.case.name);
        }
    }
    for reading in wrong::all() {
        let caught = drafts.iter().any(|draft| draft.catches.iter().any(|n| n == reading.name));
        assert!(caught, "{} is caught by no draft", reading.name);
    }
}
