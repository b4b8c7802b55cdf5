//! The documents' example of a queue of requests is the one that is run, in the comment of
//! `Requests`; and the C header, with which the crate's declarations are compared, stands where
//! they look for it.

/// The lines of the first block of code that has this text, as a reader sees them.
fn example<'a>(lines: impl Iterator<Item = &'a str>, text: &str) -> Vec<&'a str> {
    let lines: Vec<&str> = lines.collect();
    let parts = lines.split(|line| line.starts_with("```"));
    let mut blocks = parts.skip(1).step_by(2);
    let block = blocks.find(|block| block.iter().any(|line| line.contains(text)));
    let shown = |line: &&&str| !line.starts_with("# ");
    block
        .unwrap_or_default()
        .iter()
        .filter(shown)
        .copied()
        .collect()
}

#[test]
fn the_example_in_the_documents_is_run() {
    let document = concat!(env!("CARGO_MANIFEST_DIR"), "/../../docs/USING.md");
    let document = std::fs::read_to_string(document).unwrap();
    let comment = include_str!("../src/requests.rs").lines();
    let comment = comment.filter_map(|line| line.strip_prefix("///"));
    let comment = comment.map(|line| line.strip_prefix(' ').unwrap_or(line));
    let shown = example(document.lines(), "Requests::new");
    assert!(shown.len() > 5);
    assert_eq!(shown, example(comment, "Requests::new"));
}

#[test]
fn the_header_is_where_the_declarations_are_compared_with_it() {
    let header = concat!(env!("CARGO_MANIFEST_DIR"), "/../../include/csq.h");
    assert!(std::path::Path::new(header).is_file());
}
