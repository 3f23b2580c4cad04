//! The second checker of carillon phrases, and a second writer and player of them, made from the documents alone: document
//! 01, of document 02 requests #101 to #108, and for #103 the paper, source document 004.

pub mod check;
pub mod dispatch;
pub mod draft;
pub mod events;
pub mod examples;
#[cfg(feature = "linked")]
pub mod foreign;
pub mod layout;
pub mod note_order;
pub mod paper;
pub mod playing;
pub mod printed;
pub mod random;
pub mod range;
pub mod reading;
pub mod report;
pub mod struck;
pub mod walk;
pub mod writing;
