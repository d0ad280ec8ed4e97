//! The one collection that the original takes from its own crate.

pub type HashMap<K, V> = std::collections::HashMap<K, V, shims::FxBuildHasher>;
