//! A second reader and tidier of parts lists, written from the rules alone, so
//! that the proved one can be compared with something that shares no thought
//! with it; and a third, written for speed.

pub mod asked;
pub mod book;
pub mod books;
pub mod by_hand;
pub mod cases;
pub mod changes;
pub mod corpus;
pub mod fast;
pub mod generate;
pub mod large;
pub mod outside;
pub mod padding;
pub mod pairs;
pub mod reader;
pub mod report;
pub mod said;
pub mod same;
pub mod show;
pub mod stream;
pub mod tidy;
pub mod tidying;
pub mod views;

pub use reader::{read, row_answer, row_text, Refusal, Setting, Terms};
pub use same::same;
pub use tidy::tidy;

#[cfg(test)]
mod counter_examples;
#[cfg(test)]
mod repacking;
