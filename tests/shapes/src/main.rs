//! Prints the fuzzer's shapes, one to a line: n, m, τ, t, degree, alphabet; those at degree 8, then those at degree
//! 4, then those of four symbols. It has a case for each, in this order. `shapes challenges DEGREE` prints the
//! challenges at which the leaf that is left out stands otherwise among its four; without a degree, those at 8.

fn main() {
    let words: Vec<String> = std::env::args().skip(1).collect();
    if words.first().map(String::as_str) == Some("challenges") {
        let degree = if words.get(1).map(String::as_str) == Some("4") {
            4
        } else {
            8
        };
        for delta in shapes::challenges(degree) {
            println!("{delta}");
        }
        return;
    }
    for (degree, alphabet) in shapes::SETTINGS {
        for (n, m, tau, t, degree, alphabet) in shapes::light(degree, alphabet) {
            println!("{n} {m} {tau} {t} {degree} {alphabet}");
        }
    }
}
