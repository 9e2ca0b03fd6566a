//! Prints the toy at degree 4, one table.

fn main() {
    print!("{}", reference::toys::degree_4());
}
