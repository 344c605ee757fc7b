//! A second implementation of the Cut Recorder, written from the customer's papers alone. The papers
//! are not here: docs/RULES.md stands for them, and names what the customer's words are in the code.
//!
//! It is made to be compared with the product, so it takes the plainest way to every answer:
//! refusal numbers are those of docs/RULES.md, section 7, zones are named from 1, and a set of zones
//! is a byte whose lowest bit stands for zone 1.

pub mod archive;
pub mod conversion;
pub mod demand3;
pub mod edition;
pub mod generate;
pub mod journal;
pub mod limits;
pub mod page;
pub mod print;
pub mod random;
pub mod recording;
pub mod site;
pub mod zone;
