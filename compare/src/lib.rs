//! An independent implementation of document 01 (the scope of the vertical advisory judge) and of what
//! document 02 adds, a generator of questions, sheets and flights, and what is needed to hold the
//! proved judge against it.

pub mod catalogue;
pub mod check;
pub mod edges;
pub mod exact;
pub mod examples;
pub mod ffi;
pub mod figures;
pub mod files;
pub mod flight;
pub mod generate;
pub mod independent;
pub mod instant;
pub mod meaning;
pub mod motion;
pub mod named;
pub mod pilots;
pub mod program;
pub mod rattle;
pub mod rows;
pub mod said;
pub mod screen;
pub mod sheet;
pub mod sheet_cases;
pub mod stream;
pub mod words;
pub mod words_program;
pub mod worked;
pub mod worked_flights;
pub mod worked_instants;
pub mod worked_words;
