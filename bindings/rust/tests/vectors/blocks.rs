//! The text of a file of vectors, taken apart into blocks.

/// What is wrong in a file, and the number of the line.
pub struct Fault {
    pub line: usize,
    pub words: String,
}

impl Fault {
    pub fn new(line: usize, words: impl Into<String>) -> Fault {
        Fault { line, words: words.into() }
    }
}

/// A key with its values.
pub struct Line<'a> {
    pub number: usize,
    pub key: &'a str,
    pub values: Vec<u64>,
}

/// One call: what it is given, the refusal's number (0 where it is accepted), and what it gives.
pub struct Block<'a> {
    pub line: usize,
    pub name: &'a str,
    pub inputs: Vec<Line<'a>>,
    pub refusal: u64,
    pub outputs: Vec<Line<'a>>,
}

/// The blocks of a text, each as it stands or with what is wrong in it. A block of comments alone is no call.
pub fn blocks(text: &str) -> Vec<Result<Block<'_>, Fault>> {
    let numbered: Vec<(usize, &str)> = (1..).zip(text.lines()).filter(|(_, line)| !line.starts_with('#')).collect();
    let parts = numbered.split(|(_, line)| line.is_empty());
    parts.filter(|lines| !lines.is_empty()).map(block).collect()
}

fn block<'a>(lines: &[(usize, &'a str)]) -> Result<Block<'a>, Fault> {
    let (line, first) = lines[0];
    let name = first.strip_prefix("call ").ok_or_else(|| Fault::new(line, "a block starts with `call NAME`"))?;
    let outcome = lines.iter().position(|(_, line)| line.starts_with("=> ")).ok_or_else(|| Fault::new(line, "no line `=> NUMBER`"))?;
    let (at, number) = lines[outcome];
    let refusal = decimal(&number["=> ".len()..]).ok_or_else(|| Fault::new(at, "no number behind =>"))?;
    Ok(Block { line, name, inputs: taken_apart(&lines[1..outcome])?, refusal, outputs: taken_apart(&lines[outcome + 1..])? })
}

fn taken_apart<'a>(lines: &[(usize, &'a str)]) -> Result<Vec<Line<'a>>, Fault> {
    let mut taken = Vec::new();
    for &(number, line) in lines {
        let mut words = line.split(' ');
        let key = words.next().unwrap_or("");
        let read = if key == "file" { hexadecimal } else { decimal };
        let values = words.map(|word| read(word).ok_or_else(|| Fault::new(number, format!("`{word}` is no value of `{key}`"))));
        taken.push(Line { number, key, values: values.collect::<Result<_, _>>()? });
    }
    Ok(taken)
}

/// A number in digits alone: `parse` would take a sign too.
fn decimal(word: &str) -> Option<u64> {
    word.bytes().all(|byte| byte.is_ascii_digit()).then(|| word.parse().ok())?
}

/// A byte of a file, two digits.
fn hexadecimal(word: &str) -> Option<u64> {
    let digits = word.len() == 2 && word.bytes().all(|byte| byte.is_ascii_hexdigit());
    digits.then(|| u64::from_str_radix(word, 16).ok())?
}
