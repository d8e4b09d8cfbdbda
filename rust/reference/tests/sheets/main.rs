//! The reference of sheets against itself: translating, reading back and running must agree with
//! each other and with values of document 01 worked out by hand. No archive has a part in it.

mod conditions;
mod division;
mod exhaustive;
mod meaning;
mod readings;
mod round_trip;
