//! Cuts the scalar permutation out of engine.rs, where it is private, without
//! changing a byte of it. Two build scripts use it: this crate's and that of
//! the benchmark. An item begins at its first line and ends at the bracket
//! that closes it in column 0.

use std::fs;
use std::path::Path;

/// An item of engine.rs to cut.
pub struct Item {
    /// The item's name.
    pub name: &'static str,
    /// How the item begins, from column 0 of its first line.
    pub first: &'static str,
    /// How the item ends, with the line break of its last line.
    pub last: &'static str,
}

/// The scalar permutation and what it uses.
pub const ITEMS: [Item; 5] = [
    Item {
        name: "MAX_STATE_WORDS",
        first: "pub(crate) const MAX_STATE_WORDS: ",
        last: ";\n",
    },
    Item {
        name: "RCON",
        first: "pub(crate) const RCON: ",
        last: "\n];\n",
    },
    Item {
        name: "sparkle_scalar",
        first: "fn sparkle_scalar(",
        last: "\n}\n",
    },
    Item {
        name: "arx_box",
        first: "#[inline]\nfn arx_box(",
        last: "\n}\n",
    },
    Item {
        name: "ell",
        first: "#[inline]\nfn ell(",
        last: "\n}\n",
    },
];

/// The text of `item` in `source`, where it is there exactly once.
pub fn cut<'a>(source: &'a str, item: &Item) -> Result<&'a str, String> {
    let Item { name, first, last } = item;
    let begin = format!("\n{first}");
    let count = source.matches(&begin).count();
    if count != 1 {
        return Err(format!(
            "item `{name}`: its beginning {first:?} is found {count} times, expected 1"
        ));
    }
    let text = source
        .find(&begin)
        .map(|before| &source[before + 1..])
        .unwrap_or_default();
    let length = text
        .find(last)
        .map(|before| before + last.len())
        .ok_or_else(|| format!("item `{name}`: no end {last:?} after its first line"))?;
    let text = &text[..length];
    let count = source.matches(text).count();
    if count != 1 {
        return Err(format!(
            "item `{name}`: its text is found {count} times, expected 1"
        ));
    }
    Ok(text)
}

/// Writes each item of the file `engine` to a file of its name in the folder
/// `out`, and all of them, a blank line between two, to `scalar.rs`.
pub fn write_scalar(engine: &Path, out: &Path) -> Result<(), String> {
    let source = fs::read_to_string(engine).map_err(|e| format!("{}: {e}", engine.display()))?;
    let mut texts = Vec::new();
    for item in &ITEMS {
        let text = cut(&source, item).map_err(|e| format!("{}: {e}", engine.display()))?;
        write(&out.join(format!("{}.rs", item.name)), text)?;
        texts.push(text);
    }
    write(&out.join("scalar.rs"), &texts.join("\n"))
}

/// Writes `text` to the file `path`.
fn write(path: &Path, text: &str) -> Result<(), String> {
    fs::write(path, text).map_err(|e| format!("{}: {e}", path.display()))
}
