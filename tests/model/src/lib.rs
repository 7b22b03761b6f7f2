//! An independent second model of the processor.
//!
//! It was written from the pages in `docs` alone and shares neither code nor data with the product, so that the two
//! can be held against each other. Every module names the page that it follows.

pub mod alu;
pub mod check;
pub mod decode;
pub mod event;
pub mod gen;
pub mod image;
pub mod law;
pub mod memory;
pub mod pipeline;
pub mod stepper;
pub mod text;
