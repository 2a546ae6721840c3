//! The maps of `GeneratorContext`. A missing entry is refusal 5, and a step from a node to its parent is counted.

pub mod hash_map {
    use crate::standins::levels::next_of_chain;
    use crate::standins::refusal::refuse;
    use std::hash::Hash;
    use std::ops::Index;

    pub struct HashMap<K, V>(std::collections::HashMap<K, V>);

    impl<K: Eq + Hash, V> FromIterator<(K, V)> for HashMap<K, V> {
        fn from_iter<I: IntoIterator<Item = (K, V)>>(entries: I) -> Self {
            HashMap(entries.into_iter().collect())
        }
    }

    impl<K: Eq + Hash, V> Index<&K> for HashMap<K, V> {
        type Output = V;

        fn index(&self, key: &K) -> &V {
            self.0.get(key).unwrap_or_else(|| refuse(5))
        }
    }

    /// `node_parents`: the one map that is walked.
    impl HashMap<u64, u64> {
        pub fn get(&self, id: &u64) -> Option<&u64> {
            let parent = self.0.get(id);
            if parent.is_some_and(|&parent| parent != 0) {
                next_of_chain();
            }
            parent
        }
    }
}
