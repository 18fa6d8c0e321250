//! The text files of tests/vectors: blocks that begin with a title in brackets, of lines `name = value`.
//! The second program's own tests read them with this file too.

use std::path::Path;

pub struct Block {
    pub title: String,
    values: Vec<(String, String)>,
}

impl Block {
    fn find(&self, name: &str) -> Option<&str> {
        let found = self.values.iter().find(|(other, _)| other == name);
        found.map(|(_, value)| value.as_str())
    }

    pub fn text(&self, name: &str) -> &str {
        let title = &self.title;
        self.find(name)
            .unwrap_or_else(|| panic!("[{title}] has no {name}"))
    }

    pub fn bytes(&self, name: &str) -> Vec<u8> {
        from_hex(self.text(name))
    }

    pub fn number(&self, name: &str) -> u32 {
        self.text(name).parse().expect("a number")
    }

    /// The names and bytes of all that the signature by itself has not.
    pub fn others(&self) -> impl Iterator<Item = (&str, Vec<u8>)> {
        let known = ["bits", "data", "hash", "signature"];
        let others = self.values.iter();
        others
            .filter(move |(name, _)| !known.contains(&name.as_str()))
            .map(|(name, value)| (name.as_str(), from_hex(value)))
    }
}

/// The lines of one of the files, comments and empty lines left out.
pub fn lines(file: &str) -> Vec<String> {
    let folder = Path::new(env!("CARGO_MANIFEST_DIR")).join("../tests/vectors");
    let text = std::fs::read_to_string(folder.join(file)).expect("a file of tests/vectors");
    let is_kept = |line: &&str| !line.is_empty() && !line.starts_with('#');
    text.lines().filter(is_kept).map(str::to_string).collect()
}

pub fn blocks(file: &str) -> Vec<Block> {
    let mut blocks: Vec<Block> = Vec::new();
    for line in lines(file) {
        match line
            .strip_prefix('[')
            .and_then(|line| line.strip_suffix(']'))
        {
            Some(title) => blocks.push(Block {
                title: title.to_string(),
                values: Vec::new(),
            }),
            None => {
                let (name, value) = line.split_once(" =").expect("a name and a value");
                let block = blocks.last_mut().expect("a title first");
                block
                    .values
                    .push((name.to_string(), value.trim().to_string()));
            }
        }
    }
    blocks
}

pub fn from_hex(text: &str) -> Vec<u8> {
    let digit = |digit: u8| (digit as char).to_digit(16).expect("a hexadecimal digit") as u8;
    let pairs = text.as_bytes().chunks(2);
    pairs
        .map(|pair| digit(pair[0]) << 4 | digit(pair[1]))
        .collect()
}
