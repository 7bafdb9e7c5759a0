//! Scripts of documents 01 and 02 against the oracle's player, and the examples.

use lists::draw::Draw;
use peatcloak::script::play;

#[test]
fn scripts_print_what_the_oracle_prints() {
    let mut draw = Draw::new(1);
    for number in 1..=200 {
        let script = lists::scripts::drawn::case(&mut draw, number).script;
        let theirs = lists::scripts::player::play(&script);
        assert_eq!(String::from_utf8_lossy(&play(&script)), theirs);
    }
    assert_eq!(play(b""), b"");
    assert_eq!(play(&[b'n'; 65_537]), b"0 26 - - - -\n");
}

#[test]
fn the_examples_print_what_stands_beside_them() {
    let examples = concat!(env!("CARGO_MANIFEST_DIR"), "/../../examples");
    for name in ["heads-up", "side-pots", "refused", "keys"] {
        let [script, printed] = ["txt", "out"].map(|end| format!("{examples}/{name}.{end}"));
        let read = |path| std::fs::read(&path).unwrap_or_else(|error| panic!("{path}: {error}"));
        assert_eq!(play(&read(script)), read(printed), "{name}");
    }
}
