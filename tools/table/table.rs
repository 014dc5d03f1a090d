// Writes table files from a readable text; README.md beside it says the form of a text.
// It is a writer and not a checker: a text may break every rule of the table on purpose.
use std::fmt::Display;
use std::path::Path;

// A line of a text with its place, the text's file and the line's number; and what is written, or where and why nothing is.
type Place<'a> = (&'a Path, usize);
type Line<'a> = (Place<'a>, &'a str);
type Written<T> = Result<T, String>;

// What a text names: states, classes and nonterminals, each by its position in its list.
#[derive(Default)]
struct Names {
    states: Vec<String>,
    classes: Vec<String>,
    nonterminals: Vec<String>,
}

// A field while it is written, and the line that it begins at. Tag and length are those of the data unless the text says others.
struct Field<'a> {
    at: Place<'a>,
    tag: u8,
    length: Option<u16>,
    bare: bool,
    data: Vec<u8>,
}

fn wrong<T>((text, line): Place, what: impl Display) -> Written<T> {
    Err(format!("{}:{line}: {what}", text.display()))
}

fn number<N: std::str::FromStr>(at: Place, word: &str) -> Written<N> {
    word.trim()
        .parse()
        .or_else(|_| wrong(at, format!("'{}' is no number that fits here", word.trim())))
}

// A number, or a name of the list.
fn numbered(at: Place, word: &str, names: &[String]) -> Written<u16> {
    let word = word.trim();
    match names.iter().position(|name| name == word) {
        Some(i) => Ok(i as u16),
        None if word.starts_with(|c: char| c.is_ascii_digit()) => number(at, word),
        None => wrong(at, format!("no such name: '{word}'")),
    }
}

// A number or a name, or a range of them: 0..63.
fn range(at: Place, word: &str, names: &[String]) -> Written<std::ops::RangeInclusive<u16>> {
    match word.split_once("..") {
        Some((from, to)) => Ok(numbered(at, from, names)?..=numbered(at, to, names)?),
        None => numbered(at, word, names).map(|n| n..=n),
    }
}

// Kind, pick, low and high: "Zero", "Pick 1", "Join 60 pick 2", "Check 1..12 pick 1", "kind 4 pick 1 low 2 high 3".
fn kind(at: Place, text: &str) -> Written<(u8, u8, u32, u32)> {
    let words: Vec<&str> = text.split_whitespace().collect();
    match words.as_slice() {
        ["Zero"] => Ok((0, 0, 0, 0)),
        ["Pick", pick] => Ok((1, number(at, pick)?, 0, 0)),
        ["Join", low, "pick", pick] => Ok((2, number(at, pick)?, number(at, low)?, 0)),
        ["Check", between, "pick", pick] => match between.split_once("..") {
            Some((low, high)) => Ok((3, number(at, pick)?, number(at, low)?, number(at, high)?)),
            None => wrong(at, "Check wants LOW..HIGH"),
        },
        ["kind", kind, "pick", pick, "low", low, "high", high] => Ok((
            number(at, kind)?,
            number(at, pick)?,
            number(at, low)?,
            number(at, high)?,
        )),
        _ => wrong(at, format!("no such kind: '{text}'")),
    }
}

// "A <- 1 item, Check 1..12 pick 1, mark 1", with "252 times" in front for that many.
fn rule(at: Place, text: &str, names: &Names) -> Written<Vec<u8>> {
    let (times, text) = match text.split_once(" times ") {
        Some((times, rest)) => (number(at, times)?, rest),
        None => (1, text),
    };
    let Some((left, right)) = text.split_once("<-") else {
        return wrong(at, "a rule is LEFT <- N items, KIND, mark M");
    };
    let parts: Vec<&str> = right.split(',').map(str::trim).collect();
    let [items, gives, mark] = parts.as_slice() else {
        return wrong(at, "a rule has three parts: items, kind, mark");
    };
    let items: Vec<&str> = items.split_whitespace().collect();
    let [count, "item" | "items"] = items.as_slice() else {
        return wrong(at, "a rule says how many items it has");
    };
    let (kind, pick, low, high) = kind(at, gives)?;
    let Some(mark) = mark.strip_prefix("mark ") else {
        return wrong(at, "a rule ends with its mark, as mark 1");
    };
    let mark: u32 = number(at, mark)?;
    let mut one = numbered(at, left, &names.nonterminals)?.to_be_bytes().to_vec();
    one.extend([number(at, count)?, kind, pick]);
    one.extend([mark, low, high].iter().flat_map(|n| n.to_be_bytes()));
    Ok(one.repeat(times))
}

// "(STATE, OTHER) REST": every pair of the two ranges, in order, and the rest.
fn pairs<'a>(at: Place, text: &'a str, names: &Names, others: &[String]) -> Written<(Vec<[u16; 2]>, &'a str)> {
    let Some(((state, other), rest)) = text
        .strip_prefix('(')
        .and_then(|t| t.split_once(')'))
        .and_then(|(pair, rest)| Some((pair.split_once(',')?, rest.trim())))
    else {
        return wrong(at, "a record begins with a pair, as (2,4)");
    };
    let others = range(at, other, others)?;
    let states = range(at, state, &names.states)?;
    Ok((states.flat_map(|s| others.clone().map(move |o| [s, o])).collect(), rest))
}

// What an action does: "shift 2", "rules 0 1", "shift 2, rules 4", "nothing".
fn action_end(at: Place, text: &str, names: &Names) -> Written<Vec<u8>> {
    let mut target = 65535;
    let mut rules: Vec<u16> = vec![];
    for part in text.split(',').map(str::trim) {
        let words: Vec<&str> = part.split_whitespace().collect();
        match words.as_slice() {
            ["nothing"] => {}
            ["shift", to] => target = numbered(at, to, &names.states)?,
            ["rule" | "rules", numbers @ ..] => {
                for word in numbers {
                    rules.push(number(at, word)?);
                }
            }
            _ => return wrong(at, format!("no such action: '{part}'")),
        }
    }
    let mut end = target.to_be_bytes().to_vec();
    end.push(number(at, &rules.len().to_string())?);
    end.extend(rules.iter().flat_map(|n| n.to_be_bytes()));
    Ok(end)
}

fn action(at: Place, text: &str, names: &Names) -> Written<Vec<u8>> {
    let (keys, rest) = pairs(at, text, names, &names.classes)?;
    let end = action_end(at, rest, names)?;
    Ok(keys
        .iter()
        .flat_map(|key| key.iter().flat_map(|n| n.to_be_bytes()).chain(end.clone()))
        .collect())
}

fn goto(at: Place, text: &str, names: &Names) -> Written<Vec<u8>> {
    let (keys, to) = pairs(at, text, names, &names.nonterminals)?;
    let to = numbered(at, to, &names.states)?;
    Ok(keys
        .iter()
        .flat_map(|key| [key[0], key[1], to])
        .flat_map(|n| n.to_be_bytes())
        .collect())
}

// "states 8" and its like, behind the counts that stand already.
fn count(at: Place, text: &str, already: usize) -> Written<Vec<u8>> {
    let order = ["states", "classes", "nonterminals", "rules"];
    match text.split_once(' ') {
        Some((what, n)) if order.get(already) == Some(&what) => Ok(number::<u16>(at, n)?.to_be_bytes().to_vec()),
        _ => wrong(at, format!("the counts are, in this order: {}", order.join(", "))),
    }
}

// The line that begins a field, or the bytes behind the last one.
fn head<'a>(at: Place<'a>, line: &str) -> Written<Option<Field<'a>>> {
    let words: Vec<&str> = line.split_whitespace().collect();
    let (tag, data) = match words.as_slice() {
        ["counts"] => (1, vec![]),
        ["rules"] => (2, vec![]),
        ["actions"] => (3, vec![]),
        ["gotos"] => (4, vec![]),
        ["error", "unused"] => (5, vec![0]),
        ["error", "used"] => (5, vec![1]),
        ["error", n] => (5, vec![number(at, n)?]),
        ["behind"] => (0, vec![]),
        _ => return Ok(None),
    };
    Ok(Some(Field {
        at,
        tag,
        length: None,
        bare: tag == 0,
        data,
    }))
}

// Names are for the text alone: "names of states: begin line word".
fn name(at: Place, line: &str, names: &mut Names) -> Written<bool> {
    let Some((what, list)) = line.strip_prefix("names of ").and_then(|l| l.split_once(':')) else {
        return Ok(false);
    };
    let list = list.split_whitespace().map(str::to_string).collect();
    match what {
        "states" => names.states = list,
        "classes" => names.classes = list,
        "nonterminals" => names.nonterminals = list,
        _ => return wrong(at, format!("names of states, classes or nonterminals, not of {what}")),
    }
    Ok(true)
}

// A line inside a field: what it says for every field, else by the field that it stands in.
fn fill(at: Place, line: &str, part: u8, field: &mut Field, names: &Names) -> Written<()> {
    let words: Vec<&str> = line.split_whitespace().collect();
    let more = match words.as_slice() {
        ["tag", n] => {
            field.tag = number(at, n)?;
            vec![]
        }
        ["length", n] => {
            field.length = Some(number(at, n)?);
            vec![]
        }
        ["bytes", bytes @ ..] => bytes.iter().map(|b| number(at, b)).collect::<Written<Vec<u8>>>()?,
        _ => match part {
            1 => count(at, line, field.data.len() / 2)?,
            2 => rule(at, line, names)?,
            3 => action(at, line, names)?,
            4 => goto(at, line, names)?,
            _ => return wrong(at, format!("not understood: '{line}'")),
        },
    };
    field.data.extend(more);
    Ok(())
}

// The bytes of one table file.
fn table(lines: &[Line]) -> Written<Vec<u8>> {
    let mut names = Names::default();
    let mut fields: Vec<(u8, Field)> = vec![];
    let mut cut = 0;
    for &(at, line) in lines {
        if name(at, line, &mut names)? {
            continue;
        }
        if let Some(n) = line.strip_prefix("cut ") {
            cut = number(at, n)?;
        } else if let Some(field) = head(at, line)? {
            fields.push((field.tag, field));
        } else if let Some((part, field)) = fields.last_mut() {
            fill(at, line, *part, field, &names)?;
        } else {
            return wrong(at, format!("stands in no field: '{line}'"));
        }
    }
    let mut bytes = vec![];
    for (_, field) in fields {
        if !field.bare {
            let length = match field.length {
                Some(n) => n,
                None => number(field.at, &field.data.len().to_string())?,
            };
            bytes.push(field.tag);
            bytes.extend(length.to_be_bytes());
        }
        bytes.extend(field.data);
    }
    bytes.truncate(bytes.len().saturating_sub(cut));
    Ok(bytes)
}

// The lines of a text that say something.
fn lines_of<'a>(path: &'a Path, text: &'a str) -> Vec<Line<'a>> {
    let said = |line: &str| line.find('#').unwrap_or(line.len());
    text.lines()
        .enumerate()
        .map(|(i, l)| ((path, i + 1), l[..said(l)].trim()))
        .filter(|(_, l)| !l.is_empty())
        .collect()
}

// Takes "- OLD" and "+ NEW" lines into the lines of a base: each OLD stands there once, and the NEW lines below take its place.
fn changed<'a>(base: &[Line<'a>], edits: &[Line<'a>]) -> Written<Vec<Line<'a>>> {
    let mut lines = base.to_vec();
    let mut place = lines.len();
    for &(at, edit) in edits {
        if let Some(old) = edit.strip_prefix("- ").map(str::trim) {
            let found: Vec<usize> = (0..lines.len()).filter(|i| lines[*i].1 == old).collect();
            let [only] = found.as_slice() else {
                return wrong(at, format!("'{old}' stands {} times in the base", found.len()));
            };
            place = *only;
            lines.remove(place);
        } else if let Some(new) = edit.strip_prefix("+ ").map(str::trim) {
            lines.insert(place, (at, new));
            place += 1;
        } else {
            return wrong(at, "a change begins with - or +");
        }
    }
    Ok(lines)
}

fn fail(what: impl Display) -> ! {
    eprintln!("{what}");
    std::process::exit(1)
}

fn read(path: &Path) -> String {
    std::fs::read_to_string(path).unwrap_or_else(|e| fail(format!("{}: {e}", path.display())))
}

// Writes a file and its name on standard output.
fn write(folder: &Path, name: &str, bytes: Written<Vec<u8>>) {
    match bytes {
        Ok(bytes) => std::fs::write(folder.join(name), bytes).unwrap_or_else(|e| fail(format!("{name}: {e}"))),
        Err(what) => fail(what),
    }
    println!("{name}");
}

// A text of changes: "file NAME from TEXT", then the changes.
fn write_changed(path: &Path, folder: &Path, lines: &[Line]) {
    let mut rest = lines;
    while let [(at, first), more @ ..] = rest {
        let Some((name, base)) = first.strip_prefix("file ").and_then(|l| l.split_once(" from ")) else {
            fail(format!("{}:{}: file NAME from TEXT is missing", path.display(), at.1));
        };
        let end = more
            .iter()
            .position(|(_, l)| l.starts_with("file "))
            .unwrap_or(more.len());
        let base = path.with_file_name(base);
        let text = read(&base);
        write(
            folder,
            name,
            changed(&lines_of(&base, &text), &more[..end]).and_then(|all| table(&all)),
        );
        rest = &more[end..];
    }
}

const USE: &str = "table FOLDER TEXT..: writes the table files of the texts into the folder";

// The folder and the texts that the arguments name; or what is wrong with them.
fn named(args: &[String]) -> (&Path, &[String]) {
    let [folder, texts @ ..] = args else {
        fail(format!("no folder is named\n{USE}"))
    };
    if !Path::new(folder).is_dir() {
        fail(format!("'{folder}' is no folder\n{USE}"));
    }
    if texts.is_empty() {
        fail(format!("no text is named\n{USE}"));
    }
    (Path::new(folder), texts)
}

fn main() {
    let args: Vec<String> = std::env::args().skip(1).collect();
    let (folder, texts) = named(&args);
    for path in texts.iter().map(Path::new) {
        let text = read(path);
        let lines = lines_of(path, &text);
        if lines.first().is_some_and(|(_, l)| l.starts_with("file ")) {
            write_changed(path, folder, &lines);
        } else {
            let name = format!("{}.tab", path.file_stem().unwrap_or_default().to_string_lossy());
            write(folder, &name, table(&lines));
        }
    }
}
