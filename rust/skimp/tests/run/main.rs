//! The archive's run: against the reference, against itself in slices of the budget, and against
//! values of document 01 worked out by hand.

mod call;
mod conditions;
mod damaged;
mod limits;
mod orders;
mod program;
mod programs;
mod refusals;
mod splits;
mod states;
mod vectors;
