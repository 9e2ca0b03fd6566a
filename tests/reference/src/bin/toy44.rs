//! Prints the toy over four symbols, one table.

fn main() {
    print!("{}", reference::toy44::table());
}
