//! The worked example of docs/PLAY.md is plays/worked: its words, its bytes and its lines.

use reading::{stored, words};

/// The indented blocks behind the heading of the worked example.
fn blocks() -> Vec<Vec<String>> {
    let page = stored::text("docs/PLAY.md");
    let (_, part) = page.split_once("## A worked example\n").expect("there is one");
    let mut blocks = vec![vec![]];
    for line in part.lines().take_while(|line| !line.starts_with("## ")) {
        match line.strip_prefix("    ") {
            Some(line) => blocks.last_mut().expect("one is begun").push(line.to_string()),
            None if blocks.last().is_some_and(Vec::is_empty) => {}
            None => blocks.push(vec![]),
        }
    }
    blocks.into_iter().filter(|block| !block.is_empty()).collect()
}

/// The bytes of a line, up to its words.
fn bytes(line: &str) -> Vec<u8> {
    let digits = line.split("   ").next().expect("a first part").replace(' ', "");
    (0..digits.len() / 2).map(|i| u8::from_str_radix(&digits[2 * i..2 * i + 2], 16).expect("hex")).collect()
}

#[test]
fn the_page_tells_the_play() {
    let blocks = blocks();
    let [words, hex, lines] = &blocks[..] else { panic!("words, bytes and lines, and no others: {blocks:#?}") };
    let play = stored::bytes("plays/worked.play");
    assert_eq!(words::read(&words.join("\n")).expect("a play").write().as_ref(), Some(&play));
    assert_eq!(hex.iter().flat_map(|line| bytes(line)).collect::<Vec<u8>>(), play);
    assert_eq!(lines.join("\n") + "\n", stored::text("plays/worked.lines"));
    assert!(stored::text("docs/PLAY.md").contains(&format!("Its {} bytes:", play.len())));
}
