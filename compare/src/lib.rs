//! A small engine of its own: stores, register, run file and listing, as docs/ describe them; and run files to compare on.
pub mod chance;
pub mod listing;
pub mod loads;
pub mod making;
pub mod orders;
pub mod register;
pub mod runfile;
pub mod stores;
