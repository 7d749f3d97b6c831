//! A decoder that counts: the same text, with a call that counts at the head of every arm of a match and of both ways of every `if`.
//! An arm with alternatives becomes an arm for each, so that each is counted, and where a condition of several parts fails the first part
//! that does is counted. Nothing else of the text changes.

use std::collections::BTreeMap;

/// A place of the source that is counted: an arm with its alternatives, or the two ways of an `if`.
pub struct Case {
    function: String,
    /// The match that an arm belongs to; nothing for an `if`.
    of: String,
    what: String,
    /// What each of its counters counts.
    ways: Vec<String>,
    /// The first of its counters.
    first: usize,
}

/// The text with its counts, and the cases in the order of the source; the first counter has a number.
pub fn counted(text: &str, first: usize) -> (String, Vec<Case>) {
    let mut counter =
        Counter { text: plain(text), function: String::new(), of: String::new(), cases: BTreeMap::new(), counters: first };
    let mut out = String::new();
    let mut at = 0;
    while let Some(found) = counter.text[at..].find("fn ") {
        let start = at + found;
        let open = counter.open(start);
        let close = counter.close(open);
        let name = &counter.text[start + 3..];
        counter.function = name[..name.find('(').expect("the parameters of a function")].to_string();
        out += &counter.text[at..=open];
        out += &counter.walk(open + 1, close);
        at = close;
    }
    out += &counter.text[at..];
    (out, numbered(counter.cases.into_values().collect()))
}

/// Cases of a function that read the same are told apart by a number.
fn numbered(mut cases: Vec<Case>) -> Vec<Case> {
    let mut seen: BTreeMap<[String; 3], usize> = BTreeMap::new();
    for case in &mut cases {
        let times = seen.entry([case.function.clone(), case.of.clone(), case.what.clone()]).or_default();
        *times += 1;
        if *times > 1 {
            case.what += &format!(" ({times})");
        }
    }
    cases
}

/// The cases as a table of `crate::coverage`.
pub fn table(cases: &[Case]) -> String {
    let row = |c: &Case| {
        let (function, of, what, ways, first) = (&c.function, &c.of, &c.what, &c.ways, c.first);
        format!("    Case {{ function: {function:?}, of: {of:?}, what: {what:?}, ways: &{ways:?}, first: {first} }},\n")
    };
    format!("&[\n{}]\n", cases.iter().map(row).collect::<String>())
}

/// The text with every comment blanked, so that no word of it is taken for code. No string of the source holds two slashes.
fn plain(text: &str) -> String {
    let line = |line: &str| match line.find("//") {
        Some(place) => line[..place].to_string(),
        None => line.to_string(),
    };
    text.lines().map(|l| line(l) + "\n").collect()
}

struct Counter {
    text: String,
    function: String,
    of: String,
    /// By place: a body that stands behind several arms is counted once.
    cases: BTreeMap<usize, Case>,
    counters: usize,
}

impl Counter {
    /// The first opening brace from a place on that stands in no other bracket.
    fn open(&self, from: usize) -> usize {
        self.outside(from, self.text.len(), "{").expect("a block")
    }

    /// Where a word stands first, outside all brackets that open behind `from`.
    fn outside(&self, from: usize, to: usize, word: &str) -> Option<usize> {
        let mut depth = 0;
        for (i, c) in self.text[from..to].char_indices() {
            if depth == 0 && self.text[from + i..to].starts_with(word) {
                return Some(from + i);
            }
            depth += "([{".contains(c) as i32 - ")]}".contains(c) as i32;
        }
        None
    }

    /// The bracket that closes the one at a place.
    fn close(&self, open: usize) -> usize {
        let mut depth = 0;
        for (i, c) in self.text[open..].char_indices() {
            depth += "([{".contains(c) as i32 - ")]}".contains(c) as i32;
            if depth == 0 {
                return open + i;
            }
        }
        panic!("a bracket is not closed");
    }

    /// The next `match` or `if` from a place on.
    fn keyword(&self, from: usize, to: usize) -> Option<(usize, &'static str)> {
        let word = |c: char| c.is_alphanumeric() || c == '_';
        let places =
            ["match ", "if "].into_iter().flat_map(|k| self.text[from..to].match_indices(k).map(move |(i, _)| (from + i, k)));
        places.filter(|(i, _)| !self.text[..*i].ends_with(word)).min()
    }

    /// Counts what stands between two places.
    fn walk(&mut self, from: usize, to: usize) -> String {
        let mut out = String::new();
        let mut at = from;
        while let Some((place, keyword)) = self.keyword(at, to) {
            out += &self.text[at..place];
            let (text, end) = if keyword == "if " { self.branch(place) } else { self.matching(place) };
            out += &text;
            at = end;
        }
        out + &self.text[at..to]
    }

    /// The counters of a place: the first time they are made, later they are the same.
    fn count(&mut self, place: usize, what: &str, ways: Vec<String>) -> usize {
        let (counters, function, of) = (&mut self.counters, &self.function, &self.of);
        let case = self.cases.entry(place).or_insert_with(|| {
            let first = *counters;
            *counters += ways.len();
            Case { function: function.clone(), of: of.clone(), what: squeezed(what), ways, first }
        });
        case.first
    }

    /// An `if` and what follows it: both ways are counted.
    fn branch(&mut self, place: usize) -> (String, usize) {
        let open = self.open(place);
        let close = self.close(open);
        let condition = self.text[place..open].to_string();
        let tests = conjuncts(&condition);
        let ways = if tests.len() == 1 { vec!["no".to_string()] } else { tests.iter().map(|t| format!("not {t}")).collect() };
        let of = std::mem::take(&mut self.of);
        let first = self.count(place, &condition, [vec!["yes".to_string()], ways].concat());
        self.of = of;
        let not = failing(&tests, first + 1);
        let mut out = format!("{condition}{{ {} {} }}", hit(first), self.walk(open + 1, close));
        let rest = &self.text[close + 1..];
        let after = close + 1 + (rest.len() - rest.trim_start().len());
        if !self.text[after..].starts_with("else") {
            out += &format!(" else {{ {not} }}");
            return (out, close + 1);
        }
        let open = self.open(after);
        if self.text[after..open].contains("if ") {
            let (text, end) = self.branch(after + "else ".len());
            out += &format!(" else {{ {not} {text} }}");
            return (out, end);
        }
        let close = self.close(open);
        out += &format!(" else {{ {not} {} }}", self.walk(open + 1, close));
        (out, close + 1)
    }

    fn matching(&mut self, place: usize) -> (String, usize) {
        let open = self.open(place);
        let close = self.close(open);
        let of = std::mem::replace(&mut self.of, squeezed(&self.text[place..open]));
        let mut out = self.text[place..=open].to_string();
        let mut at = open + 1;
        while !self.text[at..close].trim().is_empty() {
            let (text, end) = self.arm(at, close);
            out += &text;
            at = end;
        }
        self.of = of;
        (out + "}", close + 1)
    }

    /// An arm of a match that ends at `to`: an arm for each alternative, each with the same body.
    fn arm(&mut self, from: usize, to: usize) -> (String, usize) {
        let arrow = self.outside(from, to, "=>").expect("an arm");
        let body = arrow + 2 + (self.text[arrow + 2..].len() - self.text[arrow + 2..].trim_start().len());
        let end = self.body_end(body, to);
        let pattern = self.text[from..arrow].to_string();
        let (pattern, guard) = match pattern.find(" if ") {
            Some(place) => pattern.split_at(place),
            None => (pattern.as_str(), ""),
        };
        let ways = alternatives(&squeezed(pattern));
        let answer = squeezed(&self.text[body..end]);
        let what = format!("{}{} => {}", squeezed(pattern), if guard.is_empty() { "" } else { guard.trim_end() }, short(&answer));
        let first = self.count(from, &what, ways.clone());
        let text = self.walk(body, end);
        let arms = ways.iter().enumerate().map(|(i, way)| format!("\n{way}{guard} => {{ {} {text} }},", hit(first + i)));
        let mut next = end;
        if self.text[next..to].trim_start().starts_with(',') {
            next += self.text[next..].find(',').expect("a comma") + 1;
        }
        (arms.collect(), next)
    }

    /// Where the body of an arm ends.
    fn body_end(&self, body: usize, to: usize) -> usize {
        if self.text[body..].starts_with('{') {
            self.close(body) + 1
        } else if self.text[body..].starts_with("match ") {
            self.close(self.open(body)) + 1
        } else {
            self.outside(body, to, ",").unwrap_or(to)
        }
    }
}

/// The parts of a condition, where all but the last can be asked again; the condition itself otherwise.
fn conjuncts(condition: &str) -> Vec<String> {
    let tests: Vec<String> = condition.trim_start_matches("if ").split("&&").map(squeezed).collect();
    let (_, others) = tests.split_last().expect("a condition");
    if others.iter().any(|t| t.contains("let ")) { vec![squeezed(condition)] } else { tests }
}

/// Counts the first part of a condition that fails.
fn failing(tests: &[String], first: usize) -> String {
    let (_, others) = tests.split_last().expect("a condition");
    let asked = others.iter().enumerate().map(|(i, test)| format!("if !({test}) {{ {} }} else ", hit(first + i)));
    format!("{}{{ {} }}", asked.collect::<String>(), hit(first + others.len()))
}

fn hit(counter: usize) -> String {
    format!("crate::coverage::hit({counter});")
}

fn squeezed(text: &str) -> String {
    text.split_whitespace().collect::<Vec<_>>().join(" ").replace(" )", ")")
}

/// An answer of one word, or a sign that there is more.
fn short(answer: &str) -> &str {
    if answer.chars().all(|c| c.is_alphanumeric() || c == '_') { answer } else { ".." }
}

/// The patterns of a pattern with no alternative left in them: each `|`, also in brackets, is multiplied out.
fn alternatives(pattern: &str) -> Vec<String> {
    let Some(bar) = pattern.find('|') else { return vec![squeezed(pattern)] };
    let (from, to) = element(pattern, bar);
    let mut out = Vec::new();
    for part in bars(&pattern[from..to]) {
        out.extend(alternatives(&format!("{}{}{}", &pattern[..from], part, &pattern[to..])));
    }
    out
}

/// The part of a pattern around a place, up to the next comma or bracket on either side, and behind the colon of a field.
fn element(pattern: &str, place: usize) -> (usize, usize) {
    let (mut from, mut depth) = (0, 0);
    for (i, c) in pattern[..place].char_indices().rev() {
        depth += ")]}".contains(c) as i32 - "([{".contains(c) as i32;
        if depth < 0 || depth == 0 && ",:".contains(c) {
            from = i + 1 + (pattern[i + 1..].len() - pattern[i + 1..].trim_start().len());
            break;
        }
    }
    let (mut to, mut depth) = (pattern.len(), 0);
    for (i, c) in pattern[place..].char_indices() {
        depth += "([{".contains(c) as i32 - ")]}".contains(c) as i32;
        if depth < 0 || depth == 0 && c == ',' {
            to = place + i;
            break;
        }
    }
    (from, to)
}

/// The parts between the bars that stand in no bracket.
fn bars(text: &str) -> Vec<&str> {
    let (mut parts, mut depth, mut last) = (Vec::new(), 0, 0);
    for (i, c) in text.char_indices() {
        depth += "([{".contains(c) as i32 - ")]}".contains(c) as i32;
        if depth == 0 && c == '|' {
            parts.push(text[last..i].trim());
            last = i + 1;
        }
    }
    parts.push(text[last..].trim());
    parts
}
