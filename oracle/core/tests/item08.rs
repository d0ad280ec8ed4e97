//! Item 8 of document 02 on the original: how many passes each slot says.

use oracle_core::Limits;
use oracle_core::book::{Book, Header, Part};
use oracle_core::case::{Case, Expected, Query};
use oracle_core::generate::reruns::{self, HEAD, Ring};
use oracle_core::generate::{CLASSES, class_named, examples};
use oracle_core::recorded::{call, no, yes};
use oracle_core::slot::{DEPTH, FLAGS, HELD, PASSES, RESULT};
use oracle_core::work_len;

fn header(goals: usize, top_depth: usize, step_limit: usize) -> Header {
    Header { provisional_cache: true, goals, top_depth, step_limit, divisor: 1 }
}

fn case(header: Header, parts: Vec<Part>, queries: &[(usize, usize)]) -> Case {
    let query = |(goal, depth): &(usize, usize)| Query::new(*goal, *depth, work_len(header.goals));
    let (book, cache) = (Book { header, parts }.to_bytes(), vec![0; header.cache_len()]);
    Case { name: String::new(), book, cache, queries: queries.iter().map(query).collect() }
}

/// The answers, and the cache after each; every query is accepted.
fn asked(case: &Case) -> Vec<(u8, Vec<u8>)> {
    let mut cache = case.cache.clone();
    let accepted = |reply| match reply {
        Some(Expected::Reply { answer, refusal: 0, cache: after }) => {
            cache = after.unwrap_or(cache.clone());
            (answer, cache.clone())
        }
        other => panic!("{other:?}"),
    };
    case.replies(Limits::default()).into_iter().map(accepted).collect()
}

/// Where slot `number` of a goal starts: 0 is that of success.
fn start(header: &Header, goal: usize, number: usize) -> usize {
    (goal * header.slots_per_goal() + number) * header.slot_len()
}

/// The result and the passes of a goal's only slot, and its number.
fn kept(header: &Header, cache: &[u8], goal: usize) -> (u8, u8, usize) {
    let slots = (0..header.slots_per_goal()).map(|number| (number, start(header, goal, number)));
    let held: Vec<(usize, usize)> = slots.filter(|(_, at)| cache[at + HELD] == 1).collect();
    let [(number, at)] = held[..] else { panic!("{} slots of goal {goal}", held.len()) };
    (cache[at + RESULT], cache[at + PASSES], number)
}

/// The same for a goal that is asked once, in a book of one goal and T 5.
fn one_goal(part: Part, step_limit: usize, depth: usize) -> (u8, u8, usize) {
    let header = header(1, 5, step_limit);
    kept(&header, &asked(&case(header, vec![part], &[(0, depth)]))[0].1, 0)
}

#[test]
fn document_01_s_table() {
    let passes = |example: &examples::Example| {
        let case = example.case();
        kept(&header(1, 5, example.step_limit), &asked(&case)[0].1, 0).1
    };
    let all: Vec<u8> = examples::table().iter().map(passes).collect();
    assert_eq!(all, [1, 1, 1, 1, 1, 1, 1, 1, 1, 1, 2, 1]);
}

/// What a run of the part of a book's only goal comes to, by document 01's words: calls of kind k
/// find `provisional`, or in the first run what such a cycle begins with. Tells the kinds met.
fn run(part: &Part, provisional: Option<u8>, met: &mut Vec<u8>) -> u8 {
    let (parts, deciding, empty) = match part {
        Part::Call { kind, .. } => {
            met.push(*kind);
            return provisional.unwrap_or([0, 2, 1, 3][usize::from(*kind)]);
        }
        Part::Undecided => return 2,
        Part::All(parts) => (parts, 0, 1),
        Part::Any(parts) | Part::Pick(parts) => (parts, 1, 0),
    };
    let mut answers = Vec::new();
    for part in parts {
        answers.push(run(part, provisional, met));
        if answers.last() == Some(&deciding) {
            break;
        }
    }
    [deciding, 2, 3].into_iter().find(|answer| answers.contains(answer)).unwrap_or(empty)
}

/// The answer and how many runs it takes, by document 01's words: "not a head, finish; fixpoint,
/// finish; no usages, finish; ambiguous, finish; L runs used, overflow; else rerun".
fn by_the_words(part: &Part, step_limit: usize) -> (u8, u8) {
    let (mut provisional, mut runs, mut head) = (None, 0, false);
    loop {
        let mut met = Vec::new();
        let answer = run(part, provisional, &mut met);
        runs += 1;
        head |= !met.is_empty();
        let first_fixpoint = || {
            let kind = [0, 2, 1, 3][usize::from(answer)];
            met.iter().all(|met| *met == kind)
        };
        let fixpoint = provisional.map_or_else(first_fixpoint, |before| before == answer);
        if !head || fixpoint || met.is_empty() || answer >= 2 {
            return (answer, runs);
        }
        if usize::from(runs) >= step_limit {
            return (3, runs);
        }
        provisional = Some(answer);
    }
}

/// Every all and any of up to three lines, on every kind of cycle and with L 0 to 3.
#[test]
fn rings_of_one_goal() {
    let calls = (0..4).map(|kind| call(0, kind, false));
    let lines: Vec<Part> = [yes(), no(), Part::Undecided].into_iter().chain(calls).collect();
    let (mut lists, mut longest) = (vec![vec![]], vec![vec![]]);
    for _ in 0..3 {
        let longer = |list: &Vec<Part>| {
            lines.iter().map(|line| [&list[..], &[line.clone()]].concat()).collect::<Vec<_>>()
        };
        longest = longest.iter().flat_map(longer).collect();
        lists.extend(longest.clone());
    }
    let mut seen = [0; 4];
    for (list, limit) in lists.iter().flat_map(|list| (0..4).map(move |limit| (list, limit))) {
        for part in [Part::All(list.clone()), Part::Any(list.clone())] {
            let (answer, runs) = by_the_words(&part, limit);
            assert_eq!(one_goal(part.clone(), limit, 5), (answer, runs, 0), "{part:?}, L {limit}");
            seen[usize::from(runs)] += 1;
        }
    }
    assert_eq!(seen, [0, 2840, 360, 0]);
}

/// A ring's result and passes, by what ends its runs and by L.
#[test]
fn up_to_the_step_limit() {
    let ends = |ring: Ring, limit: usize| {
        let header = reruns::header(4, limit, 2);
        let (result, passes, number) =
            kept(&header, &asked(&reruns::case(ring, header, HEAD))[0].1, HEAD);
        assert_eq!(number, 1 + 4, "it met overflow at depth 4");
        (result, passes)
    };
    for limit in [0, 1] {
        assert_eq!(ends(Ring::Limit, limit), (3, 1));
    }
    for limit in [2, 3, 4, 5, 99] {
        assert_eq!(ends(Ring::Limit, limit), (3, limit as u8));
    }
    let by_limit = |ring| [0, 1, 2, 3, 4, 5].map(|limit| ends(ring, limit));
    assert_eq!(by_limit(Ring::Fixpoint), [(3, 1), (3, 1), (3, 2), (0, 3), (0, 3), (0, 3)]);
    assert_eq!(by_limit(Ring::Undecided), [(3, 1), (3, 1), (2, 2), (2, 2), (2, 2), (2, 2)]);
    assert_eq!(by_limit(Ring::LateUndecided), [(3, 1), (3, 1), (3, 2), (2, 3), (2, 3), (2, 3)]);
}

/// Goal 2 is run below goal 1 first, which is not kept, and then in a frame of its own.
#[test]
fn frames_are_not_added() {
    let header = header(3, 4, 3);
    let parts = vec![
        Part::Any(vec![call(1, 0, true), call(2, 0, true)]),
        call(2, 0, true),
        call(1, 0, true),
    ];
    let case = case(header, parts, &[(0, 4)]);
    let (mut cache, mut work) = (case.cache.clone(), vec![0; work_len(3)]);
    let report = oracle_core::reply(&case.book, &mut cache, &mut work, 0, 4, 100);
    assert_eq!(report.goal_runs, 5);
    assert!((0..3).all(|goal| kept(&header, &cache, goal).1 == 1));
}

/// A result held for the head does not apply; it is replaced with the passes of the new frame.
#[test]
fn an_equal_result_replaces_passes() {
    let header = reruns::header(5, 5, 2);
    for before in 1..=5 {
        let case = reruns::held(Ring::Fixpoint, header, 0, before);
        assert_eq!(kept(&header, &case.cache, HEAD), (0, before, 1 + 4));
        assert_eq!(kept(&header, &asked(&case)[0].1, HEAD), (0, 3, 1 + 4));
    }
    let header = self::header(1, 5, 5);
    for before in 1..=5 {
        let part = Part::Any(vec![call(0, 0, true), yes()]);
        let mut case = case(header, vec![part], &[(0, 3)]);
        case.cache[..=FLAGS].copy_from_slice(&[1, 1, 5, before, 31]);
        assert_eq!(asked(&case)[0].1[..=FLAGS], [1, 1, 1, 2, 3]);
    }
}

/// A hit leaves the passes, whatever they are: at the root and below a caller, in both slots.
#[test]
fn a_hit_leaves_passes() {
    let header = header(2, 5, 5);
    for (number, depth) in [(0, 3), (4, 3)] {
        for passes in 1..=5 {
            let queries = [(0, depth), (1, depth + 1)];
            let mut case = case(header, vec![yes(), call(0, 0, true)], &queries);
            let at = start(&header, 0, number);
            case.cache[at..at + FLAGS].copy_from_slice(&[1, 0, depth as u8, passes]);
            for (answer, cache) in asked(&case) {
                assert_eq!(answer, 0);
                assert_eq!(kept(&header, &cache, 0), (0, passes, number));
            }
        }
    }
}

/// Where the form is tested: 1 to L, and 1 where L is 0.
#[test]
fn the_form() {
    for (limit, most) in [(0, 1), (1, 1), (2, 2), (5, 5), (99, 99)] {
        let header = header(1, 5, limit);
        for (number, passes) in (0..7).flat_map(|number| (0..=255).map(move |n| (number, n))) {
            let mut case = case(header, vec![yes()], &[(0, 5)]);
            let (at, depth) = (start(&header, 0, number), number.saturating_sub(1) as u8);
            case.cache[at..at + FLAGS].copy_from_slice(&[1, 1, depth, passes]);
            let refusal = match case.replies(Limits::default()).remove(0) {
                Some(Expected::Reply { refusal, .. }) => refusal,
                other => panic!("{other:?}"),
            };
            let right = (1..=most).contains(&passes);
            assert_eq!(refusal, if right { 0 } else { 8 }, "L {limit}, {passes} passes");
        }
    }
}

/// Every slot that any class's queries leave says 1 to the larger of 1 and L, and all of these
/// are seen: one, two, more, L.
#[test]
fn passes_of_every_class() {
    let limits = Limits { fuel: 2_000, ..Limits::default() };
    let mut seen = [0; 4];
    for case in CLASSES.iter().flat_map(|class| (0..150).map(|number| class.case(8, number))) {
        let Ok(book) = Book::read(&case.book) else { continue };
        for reply in case.replies(limits) {
            let Some(Expected::Reply { refusal: 0, cache: Some(cache), .. }) = reply else {
                continue;
            };
            for slot in cache.chunks(book.header.slot_len()).filter(|slot| slot[HELD] == 1) {
                let passes = usize::from(slot[PASSES]);
                assert!((1..=book.header.most_passes()).contains(&passes), "{}", case.name);
                seen[passes.min(3) - 1] += 1;
                seen[3] += u32::from(passes > 1 && passes == book.header.most_passes());
            }
        }
    }
    assert!(seen.iter().all(|count| *count > 200), "{seen:?}");
}

/// The cache with so many passes in every slot that is held; 0 leaves the byte out of account.
fn with_passes(header: &Header, cache: &[u8], passes: usize) -> Vec<u8> {
    let mut cache = cache.to_vec();
    for slot in cache.chunks_mut(header.slot_len()).filter(|slot| slot[HELD] == 1) {
        slot[PASSES] = passes as u8;
    }
    cache
}

/// Whatever passes a cache says at first, answers, refusals and all other bytes are the same.
#[test]
fn passes_decide_nothing() {
    let limits = Limits { fuel: 2_000, ..Limits::default() };
    let mut compared = 0;
    for name in ["made-cache", "changed-cache", "reruns", "refusals-race"] {
        let class = class_named(name).unwrap();
        for case in (0..400).map(|number| class.case(9, number)) {
            let header = Book::read(&case.book).unwrap().header;
            let replies = |passes: usize| {
                let cache = with_passes(&header, &case.cache, passes);
                let mut before = cache.clone();
                let told =
                    Case { cache, ..case.clone() }.replies(limits).into_iter().map(|reply| {
                        let Some(Expected::Reply { answer, refusal, cache }) = reply else {
                            return None;
                        };
                        before = cache.unwrap_or(before.clone());
                        Some((answer, refusal, with_passes(&header, &before, 0)))
                    });
                told.collect::<Vec<_>>()
            };
            let most = header.most_passes();
            let (fewest, half) = (replies(1), replies(most.div_ceil(2)));
            assert!(fewest == half && fewest == replies(most), "{}", case.name);
            compared += if most > 1 { case.queries.len() } else { 0 };
        }
    }
    assert!(compared > 2_000, "{compared}");
}

/// Where include/search_graph.h says that an accepted query leaves what it found: in the goal's
/// first slot, where that requires at most the depth asked, and else in that depth's slot.
#[test]
fn where_an_answer_stands() {
    let limits = Limits { fuel: 2_000, ..Limits::default() };
    let mut seen = [0; 2];
    for case in CLASSES.iter().flat_map(|class| (0..150).map(|number| class.case(10, number))) {
        let Ok(Book { header, .. }) = Book::read(&case.book) else { continue };
        let mut cache = case.cache.clone();
        for (query, reply) in case.queries.iter().zip(case.replies(limits)) {
            let Some(Expected::Reply { answer, refusal, cache: after }) = reply else { continue };
            cache = after.unwrap_or(cache);
            if refusal != 0 {
                continue;
            }
            let first = start(&header, query.goal, 0);
            let succeeded =
                cache[first + HELD] == 1 && usize::from(cache[first + DEPTH]) <= query.depth;
            let at = if succeeded { first } else { start(&header, query.goal, 1 + query.depth) };
            assert_eq!((cache[at + HELD], cache[at + RESULT]), (1, answer), "{}", case.name);
            seen[usize::from(succeeded)] += 1;
        }
    }
    assert!(seen.iter().all(|count| *count > 2_000), "{seen:?}");
}
