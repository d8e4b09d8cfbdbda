//! The command as a user or a script meets it: what it prints, its exit status, and the files that
//! it leaves.

mod commands;
mod compare;
mod conditions;
mod files;
mod killed;
mod limits;
mod readme;
mod refusals;
mod run;
mod session;
mod statements;
