// Reads the specifications, proofs, sources and promises of the repository: which items there are, whether each is a definition
// or a law, and which names each mentions.

pub mod asked;
pub mod code;
pub mod comments;
pub mod disk;
pub mod items;
pub mod kinds;
pub mod lists;
pub mod mentions;
pub mod promises;
pub mod reach;
pub mod sources;
pub mod tokens;
pub mod tree;
pub mod uses;

#[cfg(test)]
mod asked_test;
#[cfg(test)]
mod comments_test;
#[cfg(test)]
mod items_test;
#[cfg(test)]
mod lists_test;
#[cfg(test)]
mod mentions_test;
#[cfg(test)]
mod promises_test;
#[cfg(test)]
mod sources_test;
#[cfg(test)]
mod tree_test;
