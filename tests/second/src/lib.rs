//! A second associative processor, written plainly from the build
//! specification and from the page on the console's language. It exists to be
//! held against the board: clarity comes before speed.

pub mod array;
pub mod cells;
pub mod choices;
pub mod console;
pub mod image;
pub mod jobs;
pub mod line;
pub mod machine;
pub mod panel;
pub mod pulse;
pub mod resolve;
pub mod round;
pub mod syllable;
pub mod why;
pub mod wide;
