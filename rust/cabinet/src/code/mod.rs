//! The code's numbers: layouts, fields and symbols.

pub mod conditions;
pub mod field;
pub mod layout;
pub mod numbers;
pub mod sixteen;
pub mod symbol;
