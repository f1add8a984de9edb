//! `rustc_hash` as graphina names it: Debian's release of the crate has the hasher, but not yet the name `FxBuildHasher`.
use std::hash::BuildHasher;

pub use fx_hash::FxHasher;

#[derive(Clone, Copy, Default)]
pub struct FxBuildHasher;

impl BuildHasher for FxBuildHasher {
    type Hasher = FxHasher;

    fn build_hasher(&self) -> FxHasher {
        FxHasher::default()
    }
}

pub type FxHashMap<K, V> = std::collections::HashMap<K, V, FxBuildHasher>;
