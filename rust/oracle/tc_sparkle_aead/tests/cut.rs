//! The text that the build script cuts out of engine.rs is that file's own,
//! and an item that is missing or there twice is refused by name.

use std::fs;
use std::path::Path;

#[allow(dead_code)]
#[path = "../cut.rs"]
mod cut;

use cut::{ITEMS, Item};

const ENGINE: &str = include_str!("../../../../docs/src/tc_sparkle_aead/src/engine.rs");
const SCALAR: &str = include_str!(concat!(env!("OUT_DIR"), "/scalar.rs"));

/// The text that the build script wrote for `item`.
fn written(item: &Item) -> String {
    let name = format!("{}.rs", item.name);
    fs::read_to_string(Path::new(env!("OUT_DIR")).join(name)).expect("the build script wrote it")
}

#[test]
fn each_item_is_in_the_file_once() {
    for item in &ITEMS {
        let text = written(item);
        assert!(text.starts_with(item.first), "{}", item.name);
        assert!(text.ends_with(item.last), "{}", item.name);
        assert_eq!(ENGINE.matches(&text).count(), 1, "{}", item.name);
    }
}

#[test]
fn the_module_is_the_items_and_nothing_else() {
    let texts: Vec<String> = ITEMS.iter().map(written).collect();
    assert_eq!(SCALAR, texts.join("\n"));
}

#[test]
fn a_missing_item_is_refused() {
    for item in &ITEMS {
        let source = ENGINE.replace(&written(item), "");
        let message = cut::cut(&source, item).unwrap_err();
        assert!(message.contains(item.name), "{message}");
    }
}

#[test]
fn an_item_without_its_end_is_refused() {
    let item = &ITEMS[4];
    let source = format!("\n{}x: u32) -> u32 {{\n    x\n", item.first);
    let message = cut::cut(&source, item).unwrap_err();
    assert!(message.contains(item.name), "{message}");
}

#[test]
fn an_item_there_twice_is_refused() {
    for item in &ITEMS {
        let source = format!("{ENGINE}\n{}", written(item));
        let message = cut::cut(&source, item).unwrap_err();
        assert!(message.contains(item.name), "{message}");
    }
}
