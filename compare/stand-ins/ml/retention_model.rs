//! Named by ml/mod.rs; none of the files that are available uses it.
