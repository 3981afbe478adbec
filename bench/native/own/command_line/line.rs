use shim::{Global, String};
#[derive(Clone, Copy, Debug, PartialEq, Eq)]
pub struct Search {
    pub workers: u32,
    pub slice: u32,
}
#[derive(Clone, Copy, Debug, PartialEq, Eq)]
pub struct Shop {
    pub jobs: u32,
    pub machines: u32,
    pub start: u32,
    pub deadline: u32,
}
#[derive(Clone, Copy, Debug, PartialEq, Eq)]
pub enum Format {
    One,
    Two,
}
#[derive(Clone, Copy, Debug, PartialEq, Eq)]
pub enum Emit {
    Plan,
    Script,
    Certificate,
}
#[derive(Clone, Copy, Debug, PartialEq, Eq)]
pub enum Line {
    Solve(Search),
    Certify(Search, Format),
    Check,
    Convert,
    Bench(Shop, u32),
    Jobshop(Search, Emit),
}
#[derive(Clone, Copy, Debug, PartialEq, Eq)]
pub enum LineError {
    Refused,
    OutOfMemory,
}
pub fn read_line(_: Global, words: &[String]) -> Result<Line, LineError> {
    line_of(words).ok_or(LineError::Refused)
}
fn line_of(words: &[String]) -> Option<Line> {
    let mut search = Search { workers: 4, slice: 1_000 };
    let mut format = None;
    let mut emit = None;
    let mut numbers = std::vec::Vec::new();
    let mut rest = words.iter().map(|word| word.0.as_str());
    let name = rest.next()?;
    while let Some(word) = rest.next() {
        match word {
            "--workers" => search.workers = rest.next()?.parse().ok().filter(|n| (1..=64).contains(n))?,
            "--slice" => search.slice = rest.next()?.parse().ok().filter(|n| (1..=1_000_000).contains(n))?,
            "--format" if name == "certify" && format.is_none() => match rest.next()? {
                "1" => format = Some(Format::One),
                "2" => format = Some(Format::Two),
                _ => return None,
            },
            "--emit" if name == "jobshop" && emit.is_none() => match rest.next()? {
                "plan" => emit = Some(Emit::Plan),
                "script" => emit = Some(Emit::Script),
                "certificate" => emit = Some(Emit::Certificate),
                _ => return None,
            },
            _ => numbers.push(word.parse::<u32>().ok()?),
        }
    }
    match (name, numbers.as_slice()) {
        ("solve", []) => Some(Line::Solve(search)),
        ("certify", []) => Some(Line::Certify(search, format.unwrap_or(Format::One))),
        ("check", []) => Some(Line::Check),
        ("convert", []) => Some(Line::Convert),
        ("bench", &[jobs, machines, start, deadline]) => Some(Line::Bench(Shop { jobs, machines, start, deadline }, search.workers)),
        ("jobshop", []) => Some(Line::Jobshop(search, emit.unwrap_or(Emit::Plan))),
        _ => None,
    }
}
