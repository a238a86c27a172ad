//! Prints the log that the program `histories` has to print.

fn main() {
    print!("{}", tests::log::log());
}
