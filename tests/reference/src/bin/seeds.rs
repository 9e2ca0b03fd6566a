//! Prints the toy on seeds, one table.

fn main() {
    print!("{}", reference::toy_seeds::table());
}
