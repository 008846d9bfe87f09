// A second implementation of documents 01 and 02, written from the papers alone: plain rather than fast.
// The differential test, the exhaustive check and the bench compare the library with it.

pub mod bits;
pub mod carry;
pub mod cover;
pub mod given;
pub mod image;
pub mod listed;
pub mod lookup;
pub mod plan;
pub mod script;
pub mod table;

#[cfg(test)]
mod cover_test;
#[cfg(test)]
mod edge_test;
#[cfg(test)]
mod editions_test;
#[cfg(test)]
mod image_test;
#[cfg(test)]
mod listed_test;
#[cfg(test)]
mod replacement_test;
#[cfg(test)]
mod script_test;
#[cfg(test)]
mod uncounted_test;
#[cfg(test)]
mod widths_test;
