//! The edits of the original, as data. They let the oracle see and set what is private; none
//! changes what an evaluation does, but for the two places where document 01 refuses.

use crate::Edit;

pub const EDITS: &[Edit] = &[
    // The delegate's three constants come from the book's header.
    Edit {
        file: "mod.rs",
        find: "const ENABLE_PROVISIONAL_CACHE: bool;",
        put: "fn enable_provisional_cache() -> bool;",
        why: "constant 1 of 3 becomes a function",
    },
    Edit {
        file: "mod.rs",
        find: "const FIXPOINT_STEP_LIMIT: usize;",
        put: "fn fixpoint_step_limit() -> usize;",
        why: "constant 2 of 3 becomes a function",
    },
    Edit {
        file: "mod.rs",
        find: "const DIVIDE_AVAILABLE_DEPTH_ON_OVERFLOW: usize;",
        put: "fn divide_available_depth_on_overflow() -> usize;",
        why: "constant 3 of 3 becomes a function",
    },
    Edit {
        file: "mod.rs",
        find: "} else if D::ENABLE_PROVISIONAL_CACHE {",
        put: "} else if D::enable_provisional_cache() {",
        why: "constant 1 read when keeping an entry",
    },
    Edit {
        file: "mod.rs",
        find: "if !D::ENABLE_PROVISIONAL_CACHE {",
        put: "if !D::enable_provisional_cache() {",
        why: "constant 1 read when looking an entry up",
    },
    Edit {
        file: "mod.rs",
        find: "if i >= D::FIXPOINT_STEP_LIMIT {",
        put: "if i >= D::fixpoint_step_limit() {",
        why: "constant 2 read",
    },
    Edit {
        file: "mod.rs",
        find: "/ D::DIVIDE_AVAILABLE_DEPTH_ON_OVERFLOW)",
        put: "/ D::divide_available_depth_on_overflow())",
        why: "constant 3 read",
    },
    // The cache can be loaded and printed.
    Edit {
        file: "global_cache.rs",
        find: "use crate::search_graph::EvaluationResult;\n",
        put: "use crate::search_graph::EvaluationResult;\n\nmod cache_access;\n\
              pub use cache_access::Held;\n",
        why: "a module of our own loads and prints the private cache",
    },
    Edit {
        file: "mod.rs",
        find: "pub use global_cache::GlobalCache;\n",
        put: "pub use global_cache::{GlobalCache, Held};\n",
        why: "an entry of the cache, as loaded and printed",
    },
    // Refusal 10, and the high-water mark of live provisional entries.
    Edit {
        file: "mod.rs",
        find: "entry.push(provisional_cache_entry);",
        put: "entry.push(provisional_cache_entry);\n            \
              crate::hooks::entry_kept(self.live_provisional_entries());",
        why: "live provisional entries are counted; one too many is refusal 10",
    },
    // Refusal 11.
    Edit {
        file: "global_cache.rs",
        find: "assert_eq!(cx.get_tracked(&prev.result), evaluation_result.result);",
        put: "if cx.get_tracked(&prev.result) != evaluation_result.result {\n                    \
              crate::hooks::insert_differs();\n                }",
        why: "insert's assertion on an overflow entry is refusal 11",
    },
    Edit {
        file: "global_cache.rs",
        find: "assert_eq!(cx.get_tracked(&prev.result), evaluation_result.result, \"{input:?}\");",
        put: "if cx.get_tracked(&prev.result) != evaluation_result.result {\n                    \
              crate::hooks::insert_differs();\n                }",
        why: "insert's assertion on a success entry is refusal 11",
    },
    // Document 02, item 8: how many passes.
    Edit {
        file: "mod.rs",
        find: "            let result = D::compute_goal(self, cx, input, inspect);\n",
        put: "            crate::hooks::part_is_run();\n            \
              let result = D::compute_goal(self, cx, input, inspect);\n",
        why: "the loop's runs of a goal's part are counted, frame by frame",
    },
    // Document 01's statement on stack and entries after a finished frame.
    Edit {
        file: "mod.rs",
        find: "mod stack;\n",
        put: "mod checks;\nmod extensions;\nmod stack;\n\npub use extensions::extend_with_paths;\n",
        why: "modules of our own count entries, check finished frames and extend sets of paths",
    },
    Edit {
        file: "mod.rs",
        find: "        // Unfortunate, it looks like we actually have to compute this goal.\n",
        put: "        let goals_before = self.goals_if_checking();\n        \
              // Unfortunate, it looks like we actually have to compute this goal.\n",
        why: "the stack's goals are noted before a frame is pushed",
    },
    Edit {
        file: "mod.rs",
        find: "        result\n    }\n\n    fn handle_overflow",
        put: "        self.check_finished_frame(goals_before);\n        \
              result\n    }\n\n    fn handle_overflow",
        why: "stack and entries are checked after a frame is finished",
    },
];
