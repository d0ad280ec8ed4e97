//! Stands inside the original's module, to load and to print the private cache.

use super::*;
use crate::search_graph::PathsToNested;

/// One entry of the cache, outside of it.
pub struct Held<X: Cx> {
    pub input: X::Input,
    pub overflow: bool,
    pub required_depth: usize,
    pub result: X::Tracked<X::Result>,
    /// Nested goals with their path flags.
    pub nested: Vec<(X::Input, u8)>,
}

impl<X: Cx> GlobalCache<X> {
    pub fn load(&mut self, held: Held<X>) {
        let mut nested_goals = NestedGoals::default();
        for (input, flags) in held.nested {
            nested_goals.insert(input, PathsToNested::from_bits_retain(flags));
        }
        let entry = self.map.entry(held.input).or_default();
        let required_depth = RequiredDepth(held.required_depth);
        let result = held.result;
        if held.overflow {
            entry.with_overflow.insert(required_depth, WithOverflow { nested_goals, result });
        } else {
            entry.success = Some(Success { required_depth, nested_goals, result });
        }
    }

    pub fn for_each_held(&self, mut each: impl FnMut(Held<X>))
    where
        X::Tracked<X::Result>: Clone,
    {
        for (&input, entry) in &self.map {
            if let Some(Success { required_depth, nested_goals, result }) = &entry.success {
                let (nested, result) = (with_flags(nested_goals), result.clone());
                let required_depth = required_depth.0;
                each(Held { input, overflow: false, required_depth, result, nested });
            }
            for (depth, WithOverflow { nested_goals, result }) in &entry.with_overflow {
                let (nested, result) = (with_flags(nested_goals), result.clone());
                each(Held { input, overflow: true, required_depth: depth.0, result, nested });
            }
        }
    }
}

fn with_flags<X: Cx>(goals: &NestedGoals<X>) -> Vec<(X::Input, u8)> {
    goals.iter().map(|(goal, paths)| (goal, paths.bits())).collect()
}
