//! The second program behind the functions of include/dushvaneth.h, each under
//! the name `second_` in place of `dushvaneth_`: what a C caller is to see of
//! every call, worked out by the second program of tests/second and by what
//! the header adds to document 01. It exists to be held against the library,
//! so it shares nothing with it but the header's words.

pub mod arrays;
pub mod calls;
pub mod explainer;
pub mod images;
pub mod jobs;
pub mod lent;
pub mod panels;
pub mod pulses;
pub mod rounds;
