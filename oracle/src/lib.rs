//! Scripts of calls, answered by the original and by the model; random scripts; fixed lists of answers.

pub mod answer;
pub mod by_model;
pub mod by_original;
pub mod checks;
pub mod compare;
pub mod generate;
pub mod lists;
pub mod random;
pub mod script;
