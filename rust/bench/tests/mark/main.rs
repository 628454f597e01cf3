//! `bench mark` as a marker runs it.

mod cases;
mod expected;
mod faults;
mod lists;
mod names;
mod position;
#[path = "../../../model/tests/proved/records.rs"]
mod records;
mod right;
mod running;
mod scratch;
mod speed;
mod students;
mod wrong;
