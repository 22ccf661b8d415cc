//! Prints docs/REFUSALS.md.

fn main() {
    print!("{}", nexus::refusals::page());
}
