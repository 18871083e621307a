//! The transfer functions as published, and the token they look at.
pub mod congruence_analysis;
pub mod interval_analysis;
pub mod lexer;
