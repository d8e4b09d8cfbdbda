//! Links the static archive of the proved SKIMP functions.

#[path = "../link.rs"]
mod link;

fn main() -> std::process::ExitCode {
    link::link("skimp")
}
