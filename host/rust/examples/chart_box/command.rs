//! The words of a command.

use crate::trouble::Trouble;
use std::str::FromStr;
use vibetorch::Node;

pub enum Command {
    Write { node: Node, offset: u32, bytes: Vec<u8> },
    Read { node: Node, offset: u32, length: usize },
    Flush,
    Sync,
    Turn,
    End { node: Node },
}

impl Command {
    pub fn read(words: &[&str]) -> Result<Command, Trouble> {
        Ok(match words {
            ["write", node, offset, text] => {
                Command::Write { node: self::node(node)?, offset: number(offset)?, bytes: text.as_bytes().to_vec() }
            }
            ["read", node, offset, length] => {
                Command::Read { node: self::node(node)?, offset: number(offset)?, length: number(length)? }
            }
            ["flush"] => Command::Flush,
            ["sync"] => Command::Sync,
            ["turn"] => Command::Turn,
            ["end", node] => Command::End { node: self::node(node)? },
            _ => return Err(Trouble::Words(format!("'{}' is no command", words.join(" ")))),
        })
    }
}

pub fn number<T: FromStr>(word: &str) -> Result<T, Trouble> {
    word.parse().map_err(|_| Trouble::Words(format!("'{word}' is no number that fits here")))
}

fn node(word: &str) -> Result<Node, Trouble> {
    Ok(Node::new(number(word)?)?)
}
