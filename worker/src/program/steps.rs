//! The steps of a path, as they are written.

use wararish::LEVELS;

/// Where each step begins: with a dot or an opening bracket, and a good path has neither anywhere else.
fn begins(path: &[u8]) -> impl Iterator<Item = usize> + '_ {
    (0..path.len()).filter(|&i| matches!(path[i], b'.' | b'['))
}

fn count(path: &[u8]) -> usize {
    begins(path).count()
}

/// As many levels as the longest path has steps, so that none is made in vain.
pub fn levels(paths: &[&[u8]]) -> usize {
    paths.iter().map(|path| count(path)).max().unwrap_or(1).clamp(1, LEVELS)
}

/// The text of a step of a good path, from 1.
pub fn text(path: &[u8], step: usize) -> &[u8] {
    let mut begins = begins(path).skip(step - 1);
    let start = begins.next().expect("a walk tells a step of its path");
    let end = begins.next().unwrap_or(path.len());
    &path[start..end]
}

#[cfg(test)]
mod tests {
    use super::*;

    #[test]
    fn a_path_is_its_steps_behind_the_dollar() {
        for path in ["$", "$[0]", "$.frames[7].rate", "$._1[10][2].a", "$.a.b.c[16777215]"] {
            let steps: Vec<&[u8]> = (1..=count(path.as_bytes())).map(|step| text(path.as_bytes(), step)).collect();
            assert_eq!([b"$", &steps.concat()[..]].concat(), path.as_bytes());
        }
    }

    #[test]
    fn a_step_is_as_it_is_written() {
        let path = b"$.frames[7].rate";
        assert_eq!(count(path), 3);
        assert_eq!([1, 2, 3].map(|step| text(path, step)), [&b".frames"[..], b"[7]", b".rate"]);
    }
}
