//! Recorded sequences and what they must answer.

use reference::play::play;

fn same(name: &str) {
    let folder = concat!(env!("CARGO_MANIFEST_DIR"), "/tests/sequences");
    let input = std::fs::read(format!("{folder}/{name}.in")).unwrap();
    let expected = std::fs::read(format!("{folder}/{name}.out")).unwrap();
    assert!(play(&input) == expected, "{name} answers otherwise");
}

#[test]
fn mixed() {
    same("mixed");
}

#[test]
fn devices() {
    same("devices");
}

#[test]
fn receipts() {
    same("receipts");
}

#[test]
fn words() {
    same("words");
}
