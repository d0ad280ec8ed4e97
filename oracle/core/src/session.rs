//! The original as a Rust program would keep it between queries: the book read once, the cache in its own form.

use std::rc::Rc;

use original::hooks;
use original::search_graph::GlobalCache;

use crate::book::Book;
use crate::cache;
use crate::delegate::{self, End, Lent};

pub struct Session {
    book: Rc<Book>,
    cache: GlobalCache<Lent>,
}

impl Session {
    /// With an empty cache; none where the book is refused.
    pub fn new(book: &[u8]) -> Option<Session> {
        let book = Rc::new(Book::read(book).ok()?);
        Some(Session { book, cache: GlobalCache::new() })
    }

    /// Takes the cache from bytes, which are well-formed.
    pub fn load(&mut self, bytes: &[u8]) {
        self.cache = cache::load(&self.book.header, bytes);
    }

    /// The answer; none where the evaluation was refused.
    pub fn ask(&mut self, goal: usize, depth: usize) -> Option<u8> {
        hooks::start(2 * self.book.header.goals, false);
        let cache = std::mem::replace(&mut self.cache, GlobalCache::new());
        let (end, left, _) = delegate::evaluate(&self.book, cache, goal, depth, u64::MAX);
        self.cache = left;
        match end {
            End::Answer(answer) => Some(answer),
            End::Stopped(_) | End::Panicked => None,
        }
    }
}
