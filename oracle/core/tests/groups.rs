//! Item 12's groups, condition, choices and sets, on small books and on generated ones.

use oracle_core::book::{Book, Header, Part};
use oracle_core::generate::{CLASSES, class_named};
use oracle_core::groups::{
    Breach, MOST_CHOICES, Step, breach, build, choices, count_choices, groups, sets, steps,
};
use oracle_core::sets::{greatest, least, rounds};

fn book(parts: Vec<Part>) -> Book {
    let goals = parts.len();
    let header = Header { provisional_cache: true, goals, top_depth: 5, step_limit: 3, divisor: 1 };
    Book { header, parts }
}

fn call(goal: usize, kind: u8) -> Part {
    Part::Call { goal, kind, lower: true }
}

fn goals_of(book: &Book) -> Vec<Vec<usize>> {
    groups(book).into_iter().map(|group| group.goals).collect()
}

/// Good books of every class that has them.
fn some_books(count: u64) -> Vec<Book> {
    let cases = CLASSES.iter().flat_map(|class| (0..count).map(|number| class.case(3, number)));
    cases.filter_map(|case| Book::read(&case.book).ok()).collect()
}

#[test]
fn steps_have_the_lines_of_the_book() {
    let any = Part::Any(vec![call(0, 0), Part::Undecided]);
    let book = book(vec![Part::All(vec![call(1, 2), any]), call(0, 3)]);
    let step = |line, caller, called, kind| Step { line, caller, called, kind };
    assert_eq!(steps(&book), [step(3, 0, 1, 2), step(5, 0, 0, 0), step(8, 1, 0, 3)]);
    let bytes = book.to_bytes();
    let lines: Vec<&[u8]> = bytes.chunks(16).collect();
    assert!(steps(&book).iter().all(|step| lines[step.line].starts_with(b"  2")));
}

#[test]
fn linked_goals_are_a_group_and_called_groups_come_first() {
    let ring = book(vec![call(2, 0), call(2, 0), call(1, 0)]);
    assert_eq!(goals_of(&ring), [vec![1, 2], vec![0]]);
    let long_ring = book(vec![call(1, 0), call(2, 1), call(0, 3)]);
    assert_eq!(goals_of(&long_ring), [[0, 1, 2]]);
    let chain = book(vec![call(1, 2), call(2, 2), Part::Any(vec![])]);
    assert_eq!(goals_of(&chain), [[2], [1], [0]]);
    assert!(groups(&chain).iter().all(|group| group.inside.is_empty()));
    for book in some_books(20) {
        let groups = groups(&book);
        let place = |goal| groups.iter().position(|group| group.goals.contains(&goal));
        assert!(steps(&book).iter().all(|step| place(step.called) <= place(step.caller)));
        assert_eq!(groups.iter().map(|group| group.goals.len()).sum::<usize>(), book.parts.len());
    }
}

#[test]
fn a_breach_is_told_by_its_lines() {
    let both = |first, second| Part::Any(vec![call(0, first), call(0, second)]);
    let told = |goals: &[usize], inductive, coinductive| {
        Some(Breach { goals: goals.to_vec(), inductive, coinductive })
    };
    assert_eq!(breach(&groups(&book(vec![both(0, 2)]))), told(&[0], 3, 4));
    assert_eq!(breach(&groups(&book(vec![both(2, 0)]))), told(&[0], 4, 3));
    assert_eq!(breach(&groups(&book(vec![both(1, 2)]))), None);
    // A group's steps may stand in several goals, and steps that leave it do not count.
    let apart = book(vec![call(2, 1), call(1, 0), Part::All(vec![call(0, 2), call(1, 0)])]);
    assert_eq!(breach(&groups(&apart)), None);
    let around = book(vec![call(1, 2), call(2, 3), call(0, 0)]);
    assert_eq!(breach(&groups(&around)), told(&[0, 1, 2], 6, 2));
    // Of two groups, the one with the lower inductive line, whatever is called first.
    let own = |goal, first, second| Part::Any(vec![call(goal, first), call(goal, second)]);
    let two = book(vec![Part::All(vec![own(0, 0, 2), call(1, 0)]), own(1, 2, 0)]);
    assert_eq!(goals_of(&two), [[1], [0]]);
    assert_eq!(breach(&groups(&two)), told(&[0], 4, 5));
}

#[test]
fn every_choice_that_fits_is_tried() {
    // Least, greatest, either, either, and a goal without a step inside.
    let five = vec![call(0, 0), call(1, 2), call(2, 1), call(3, 3), call(2, 0)];
    let groups_of_five = groups(&book(five));
    let order: Vec<usize> = groups_of_five.iter().map(|group| group.goals[0]).collect();
    assert_eq!(order, [0, 1, 2, 3, 4]);
    let chosen = choices(&groups_of_five);
    let with = |third, fourth| vec![false, true, third, fourth, false];
    let all = [with(false, false), with(true, false), with(false, true), with(true, true)];
    assert_eq!(chosen, all);
    let free = |goals: usize| groups(&book((0..goals).map(|goal| call(goal, 1)).collect()));
    assert_eq!(choices(&free(6)).len(), 64);
    assert_eq!((count_choices(&free(7)), choices(&free(7)).len()), (128, MOST_CHOICES));
    assert_eq!((count_choices(&free(64)), choices(&free(64)).len()), (1 << 64, MOST_CHOICES));
    let broken = book(vec![Part::All(vec![call(0, 0), call(0, 2)])]);
    assert!(choices(&groups(&broken)).is_empty() && sets(&broken).is_empty());
}

#[test]
fn a_set_is_built_group_by_group() {
    // A style ring, an agreement ring that leans on it, and a goal that wants either.
    let ring = Part::Any(vec![call(1, 0), call(0, 2)]);
    let book = book(vec![call(0, 2), ring, Part::All(vec![call(1, 2), call(2, 1)])]);
    let built = sets(&book);
    assert_eq!(built.with_false, [[true, true, false], [true, true, true]]);
    assert!(built.choices_differ() && built.with_false == built.with_true);
    assert_eq!(least(&book, false), [false; 3]);
    let undecided = self::book(vec![Part::Undecided, call(0, 2)]);
    assert_eq!(sets(&undecided).with_false, [[false, false]]);
    assert_eq!(sets(&undecided).with_true, [[true, true]]);
}

/// All groups least is the book's least set, whatever the kinds; all greatest its greatest.
#[test]
fn the_sets_of_demand_3_are_two_choices() {
    for book in some_books(40) {
        let groups = groups(&book);
        for undecided in [false, true] {
            let all = |start| build(&book, &groups, &vec![start; groups.len()], undecided);
            assert_eq!(all(false), least(&book, undecided));
            assert_eq!(all(true), greatest(&book, undecided));
        }
        let fits = |kind| groups.iter().all(|group| group.first(kind).is_none());
        let sets = sets(&book);
        if fits(2) {
            assert_eq!(sets.with_false[0], least(&book, false));
        }
        if fits(0) {
            assert_eq!(sets.with_true[sets.with_true.len() - 1], greatest(&book, true));
        }
    }
}

/// A round of the whole book leaves the set of every choice as it is.
#[test]
fn every_set_stays_in_a_round() {
    for book in some_books(40) {
        let sets = sets(&book);
        for (undecided, each) in [(false, sets.with_false), (true, sets.with_true)] {
            for set in each {
                for goal in 0..book.parts.len() {
                    let mut after = set.clone();
                    rounds(&book, &[goal], set[goal], undecided, &mut after);
                    assert_eq!(after, set);
                }
            }
        }
    }
}

/// Without a step inside, a group has the same set either way, so one choice stands for both.
#[test]
fn a_group_without_a_step_inside_has_one_set() {
    let mut seen = 0;
    for book in some_books(40) {
        let groups = groups(&book);
        let Some(choice) = choices(&groups).pop() else { continue };
        let set = build(&book, &groups, &choice, false);
        for i in (0..groups.len()).filter(|i| groups[*i].inside.is_empty()) {
            let mut other = choice.clone();
            other[i] = !other[i];
            assert_eq!(build(&book, &groups, &other, false), set);
            seen += 1;
        }
    }
    assert!(seen > 1000);
}

/// What the class of mixed books is made for is in it.
#[test]
fn mixed_books_have_what_matters() {
    let class = class_named("mixed").unwrap();
    let books = (0..2000).map(|number| Book::read(&class.case(1, number).book).unwrap());
    let (books, broken): (Vec<Book>, Vec<Book>) =
        books.partition(|book| breach(&groups(book)).is_none());
    let count = |of: &dyn Fn(&Book) -> bool| books.iter().filter(|book| of(book)).count();
    let share = |of: &dyn Fn(&Book) -> bool| 100 * count(of) / books.len();
    let table = [
        broken.len() * 100 / 2000,
        share(&|book| book.is_mixed()),
        share(&|book| {
            let has = |kind| groups(book).iter().any(|group| group.first(kind).is_some());
            has(0) && has(2)
        }),
        share(&|book| sets(book).choices_differ()),
        share(&|book| sets(book).with_false != sets(book).with_true),
        share(&|book| !book.header.provisional_cache),
        share(&|book| book.parts.len() <= 5),
        share(&|book| book.parts.len() >= 9),
    ];
    println!("{table:?}");
    assert!(table.into_iter().all(|percent| percent >= 3), "{table:?}");
}
