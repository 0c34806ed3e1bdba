//! Cases made from numbers.

pub mod case;
pub mod edition;
pub mod extended;
pub mod header;
pub mod octets;
pub mod reference;
pub mod spans;
pub mod table;
pub mod targets;
