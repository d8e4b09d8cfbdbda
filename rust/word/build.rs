//! Links the static archive of the proved word arithmetic.

#[path = "../link.rs"]
mod link;

fn main() -> std::process::ExitCode {
    link::link("word_probe")
}
