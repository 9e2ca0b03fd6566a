//! The test vectors of the repository, through the safe calls. Their form is that of vectors/README.md.

use solfadrus::{batch, commit, hash, prove, size, test, verify, Degree, Refusal};
use std::collections::HashMap;

/// A case: its lines, and the sizes that stand before it.
struct Case {
    lines: HashMap<String, String>,
    sizes: [usize; 4],
    degree: u32,
}

impl Case {
    fn text(&self, name: &str) -> &str {
        match self.lines.get(name) {
            Some(value) => value,
            None => panic!("COUNT {}: there is no {name}", self.lines["COUNT"]),
        }
    }

    fn number(&self, name: &str) -> usize {
        self.text(name).parse().unwrap()
    }

    fn bytes(&self, name: &str) -> Vec<u8> {
        let text = self.text(name);
        assert_eq!(text.len() % 2, 0);
        (0..text.len())
            .step_by(2)
            .map(|at| u8::from_str_radix(&text[at..at + 2], 16).unwrap())
            .collect()
    }

    /// The degree: of the case, or of those that follow a head.
    fn degree(&self) -> Result<Degree, Refusal> {
        Degree::try_from(self.degree)
    }

    /// Makes a call of this case on an output.
    fn call(&self, name: &str, out: &mut [u8]) -> Result<(), Refusal> {
        let lent = |name| self.bytes(name);
        let key = &lent("key");
        let degree = self.degree()?;
        match name {
            "test" => test(key, degree, &lent("witness")),
            "commit" => commit(key, degree, &lent("leaves"), &lent("witness"), out),
            "hash" => hash(key, degree, &lent("leaves"), &lent("hash_matrix"), out),
            "batch" => batch(
                key,
                degree,
                &lent("leaves"),
                &lent("witness"),
                &lent("batching"),
                out,
            ),
            "prove" => prove(
                key,
                degree,
                &lent("leaves"),
                &lent("witness"),
                &lent("hash_matrix"),
                &lent("batching"),
                out,
            ),
            "verify" => verify(
                key,
                degree,
                &lent("delta"),
                &lent("hash_matrix"),
                &lent("batching"),
                &lent("opened"),
                &lent("proof"),
            ),
            other => panic!("no call {other}"),
        }
    }
}

fn cases(file: &str) -> Vec<Case> {
    let path = format!("{}/../../vectors/{file}", env!("CARGO_MANIFEST_DIR"));
    let text = std::fs::read_to_string(&path).unwrap_or_else(|error| panic!("{path}: {error}"));
    let mut cases = Vec::new();
    let mut sizes = [0; 4];
    let mut degree = 0;
    for block in text.split("\n\n") {
        let mut lines = HashMap::new();
        for line in block.lines().filter(|line| !line.starts_with('#')) {
            let line = line.trim_matches(&['[', ']'][..]);
            let (name, value) = line.split_once(" =").unwrap();
            let value = value.trim_start().to_string();
            if name == "degree" {
                degree = value.parse().unwrap();
                continue;
            }
            match ["n", "m", "tau", "t"].iter().position(|size| *size == name) {
                Some(which) => sizes[which] = value.parse().unwrap(),
                None => assert!(lines.insert(name.to_string(), value).is_none()),
            }
        }
        if !lines.is_empty() {
            cases.push(Case {
                lines,
                sizes,
                degree,
            });
        }
    }
    assert!(!cases.is_empty());
    cases
}

#[test]
fn honest_proofs() {
    for case in cases("proofs.rsp") {
        let [n, m, tau, t] = case.sizes;
        let degree = case.degree().unwrap();
        for (name, expected, length) in [
            ("commit", "commit", size::commit(n, m, tau, t, degree)),
            ("hash", "hash", size::hash(n, m, tau, t, degree)),
            ("batch", "batch", size::batch(n, m, tau, t, degree)),
            ("prove", "proof", size::proof(n, m, tau, t, degree)),
        ] {
            let mut out = vec![0; length];
            assert_eq!(case.call(name, &mut out), Ok(()), "{name} {:?}", case.sizes);
            assert_eq!(out, case.bytes(expected), "{name} {:?}", case.sizes);
        }
        assert_eq!(case.call("test", &mut []), Ok(()));
        assert_eq!(case.call("verify", &mut []), Ok(()));
        for (name, length) in [
            ("key", size::key(n, m, tau, t, degree)),
            ("witness", size::witness(n, m, tau, t, degree)),
            ("leaves", size::leaves(n, m, tau, t, degree)),
            ("opened", size::opened(n, m, tau, t, degree)),
            ("hash_matrix", size::hash_matrix(n, m, tau, t, degree)),
            ("batching", size::batching(n, m, tau, t, degree)),
            ("delta", size::delta(n, m, tau, t, degree)),
        ] {
            assert_eq!(case.bytes(name).len(), length, "{name} {:?}", case.sizes);
        }
    }
}

#[test]
fn answers() {
    for case in cases("answers.rsp") {
        let name = case.text("call");
        let length = match name {
            "test" | "verify" => 0,
            _ => case.number("out_len"),
        };
        let what = case.text("what");
        let mut out = vec![0xEE; length];
        match case.call(name, &mut out) {
            Ok(()) => {
                assert_eq!(case.number("number"), 0, "{name}: {what}");
                if length > 0 {
                    assert_eq!(out, case.bytes("out"), "{name}: {what}");
                }
            }
            Err(refusal) => {
                let number = usize::from(refusal.reason.number());
                assert_eq!(number, case.number("number"), "{name}: {what}");
                let place = usize::from(refusal.place);
                assert_eq!(place, case.number("place"), "{name}: {what}");
                assert_eq!(out, vec![0xEE; length], "{name}: {what}");
            }
        }
    }
}
