//! A plain backtracking matcher over the same patterns and paths, for the bench: it reads and prints what the bench's program
//! does. Patterns are taken to be right.

use std::io::{self, Read};

enum Item {
    Byte(u8),
    One,
    Class([bool; 256]),
    Run { alone: bool },
    Deep { alone: bool },
    Choice(Vec<Vec<Item>>),
}

/// What is matched behind a sequence.
struct Next<'a> {
    items: &'a [Item],
    next: Option<&'a Next<'a>>,
}

fn class(text: &[u8], at: &mut usize) -> [bool; 256] {
    let negated = text[*at] == b'^';
    if negated {
        *at += 1;
    }
    let mut listed = [false; 256];
    let mut last = None;
    while text[*at] != b']' {
        let byte = text[*at];
        *at += 1;
        if byte == b'-' && last.is_some() && text[*at] != b']' {
            for between in last.unwrap()..=text[*at] {
                listed[between as usize] = true;
            }
            *at += 1;
            last = None;
            continue;
        }
        let byte = if byte == b'\\' { *at += 1; text[*at - 1] } else { byte };
        listed[byte as usize] = true;
        last = Some(byte);
    }
    *at += 1;
    let mut taken = listed.map(|is_listed| is_listed != negated);
    taken[0] = false;
    taken
}

fn star(text: &[u8], at: &mut usize, before: Option<&Item>) -> Item {
    let start = *at;
    while *at < text.len() && text[*at] == b'*' {
        *at += 1;
    }
    let alone = matches!(before, Some(Item::Byte(b'/'))) && (*at == text.len() || text[*at] == b'/');
    if *at - start > 1 { Item::Deep { alone } } else { Item::Run { alone } }
}

fn sequence(text: &[u8], at: &mut usize, depth: usize) -> Vec<Item> {
    let mut items = Vec::new();
    while *at < text.len() {
        let byte = text[*at];
        if depth > 0 && (byte == b',' || byte == b'}') {
            break;
        }
        if byte == b'*' {
            let item = star(text, at, items.last());
            items.push(item);
            continue;
        }
        *at += 1;
        items.push(match byte {
            b'?' => Item::One,
            b'[' => Item::Class(class(text, at)),
            b'{' => {
                let mut branches = vec![sequence(text, at, depth + 1)];
                while text[*at] == b',' {
                    *at += 1;
                    branches.push(sequence(text, at, depth + 1));
                }
                *at += 1;
                Item::Choice(branches)
            }
            b'\\' => {
                *at += 1;
                Item::Byte(text[*at - 1])
            }
            _ => Item::Byte(byte),
        });
    }
    items
}

/// Whether the items match after some more bytes that the test takes, at least `least`.
fn after(items: &[Item], text: &[u8], next: Option<&Next>, least: usize, takes: impl Fn(u8) -> bool) -> bool {
    let mut taken = 0;
    loop {
        if taken >= least && matches(items, &text[taken..], next) {
            return true;
        }
        if taken == text.len() || !takes(text[taken]) {
            return false;
        }
        taken += 1;
    }
}

fn matches(items: &[Item], text: &[u8], next: Option<&Next>) -> bool {
    let Some((item, rest)) = items.split_first() else {
        return match next {
            None => text.is_empty(),
            Some(next) => matches(next.items, text, next.next),
        };
    };
    let first = text.first().copied();
    let in_name = |byte: u8| byte != b'/' && byte != 0;
    match item {
        Item::Byte(byte) => first == Some(*byte) && matches(rest, &text[1..], next),
        Item::One => first.is_some_and(in_name) && matches(rest, &text[1..], next),
        Item::Class(taken) => first.is_some_and(|byte| taken[byte as usize]) && matches(rest, &text[1..], next),
        Item::Run { alone } => after(rest, text, next, *alone as usize, in_name),
        Item::Deep { alone } => {
            (!alone || first.is_some_and(in_name)) && after(rest, text, next, *alone as usize, |byte| byte != 0)
        }
        Item::Choice(branches) => {
            let next = Next { items: rest, next };
            branches.iter().any(|branch| matches(branch, text, Some(&next)))
        }
    }
}

fn main() {
    let mut input = Vec::new();
    io::stdin().read_to_end(&mut input).expect("standard input");
    let mut lines = input.split(|byte| *byte == b'\n');
    let rounds: u32 = std::str::from_utf8(lines.next().expect("rounds")).expect("text").parse().expect("a number");
    let patterns: Vec<Vec<Item>> =
        lines.by_ref().take_while(|line| !line.is_empty()).map(|line| sequence(line, &mut 0, 0)).collect();
    let paths: Vec<&[u8]> = lines.filter(|line| !line.is_empty()).collect();
    let mut count = 0;
    for _ in 0..rounds {
        count = patterns.iter().map(|pattern| paths.iter().filter(|path| matches(pattern, path, None)).count()).sum();
    }
    println!("{} patterns {} matches", patterns.len(), count);
}
