//! The words of a record's line: `key=value`, in any order, each once.

pub struct Words<'a> {
    record: &'a str,
    words: Vec<(&'a str, &'a str)>,
}

impl<'a> Words<'a> {
    /// Splits the words after a record's own; each must have one of the keys, and none may stand twice.
    pub fn split(record: &'a str, words: &[&'a str], keys: &[&str]) -> Result<Words<'a>, String> {
        let mut split: Vec<(&str, &str)> = Vec::new();
        for word in words {
            let (key, value) = word.split_once('=').unwrap_or((word, ""));
            if !keys.contains(&key) || !word.contains('=') {
                return Err(format!("'{word}' is no word of a {record} line; expected {}=", keys.join("=, ")));
            }
            if split.iter().any(|(earlier, _)| *earlier == key) {
                return Err(format!("{key}= stands twice; expected it once"));
            }
            split.push((key, value));
        }
        Ok(Words { record, words: split })
    }

    /// The value of a word, which must be there: nothing is taken for granted where a text is silent.
    pub fn value<T>(&self, key: &str, parse: impl Fn(&str) -> Result<T, String>) -> Result<T, String> {
        let found = self.words.iter().find(|(at, _)| *at == key);
        let (_, value) = found.ok_or_else(|| format!("this {} line lacks {key}=; expected it", self.record))?;
        parse(value).map_err(|message| format!("{key}={value}: {message}"))
    }
}
