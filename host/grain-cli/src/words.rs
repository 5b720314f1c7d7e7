//! Words that fit: names shortened in the middle, sentences broken into lines, others' words in one line.

use console::measure_text_width as width;

/// A name in at most so many columns: its start and its end, where both don't fit whole.
pub fn shorten(name: &str, columns: usize) -> String {
    if width(name) <= columns {
        return name.to_string();
    }
    let room = columns.saturating_sub(1);
    let taken = |chars: &mut dyn Iterator<Item = char>, room: usize| -> Vec<char> {
        let mut used = 0;
        chars
            .take_while(|c| {
                used += width(c.encode_utf8(&mut [0; 4]));
                used <= room
            })
            .collect()
    };
    let start: String = taken(&mut name.chars(), room / 2).into_iter().collect();
    let end = taken(&mut name.chars().rev(), room - width(&start));
    let end: String = end.into_iter().rev().collect();
    format!("{start}…{end}")
}

/// A sentence in lines of at most so many columns, those after the first with this before them.
pub fn wrapped(sentence: &str, columns: usize, indent: &str) -> String {
    let mut lines = vec![String::new()];
    for word in sentence.split(' ') {
        let line = lines.last_mut().expect("there is a line");
        if line.is_empty() {
            line.push_str(word);
        } else if width(line) + 1 + width(word) <= columns {
            line.push(' ');
            line.push_str(word);
        } else {
            lines.push(format!("{indent}{word}"));
        }
    }
    lines.join("\n")
}

/// Others' words in messages: one line, without codes that a terminal would obey.
pub fn plain(words: &str) -> String {
    let plain = |c: char| if c.is_control() { '\u{fffd}' } else { c };
    words.chars().map(plain).collect()
}

#[cfg(test)]
mod tests {
    use super::*;

    #[test]
    fn a_name_keeps_both_ends() {
        assert_eq!(shorten("reel.y4m", 8), "reel.y4m");
        assert_eq!(shorten("reel-01-scan.y4m", 9), "reel….y4m");
        assert_eq!(shorten("映画の粒子.y4m", 9), "映画….y4m");
        for columns in 0..20 {
            assert!(width(&shorten("a name that is long", columns)) <= columns.max(1));
        }
    }

    #[test]
    fn a_sentence_is_broken_between_words() {
        assert_eq!(wrapped("one two three", 9, "  "), "one two\n  three");
        assert_eq!(wrapped("one two three", 80, "  "), "one two three");
    }
}
