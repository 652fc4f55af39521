//! Judges answers: ours against the oracle's, a stored list, the worked cases.

mod files;
mod live;
mod open;
mod owner;
mod part;
mod reading;
mod records;
mod refusal;
mod rules;
mod table;

use files::Lines;
use live::Way;
use question::{parse, Question};
use refusal::parted;
use rules::{as_ours, due, verdict, Case, Verdict, NAMES};
use std::collections::BTreeMap;
use std::fs;
use std::io::{self, Write};

const USAGE: &str = "usage: judge asked QUESTIONS
       judge verdict QUESTIONS OURS CHECKED WRAPPING
       judge split TO_QUESTIONS TO_ANSWERS FILE..
       judge store QUESTIONS GIVEN CHECKED WRAPPING
       judge cases QUESTIONS EXPECTED CHECKED WRAPPING";

/// Room for the reading: a recording of 65,536 bytes nests up to 32,768 masters,
/// and the crate's terms have no bound.
const STACK: usize = 1 << 30;

fn main() {
    let judging = std::thread::Builder::new().stack_size(STACK).spawn(judge);
    let judged = judging.map(|judging| judging.join());
    match judged {
        Ok(Ok(Ok(true))) => {}
        Ok(Ok(Err(error))) => {
            eprintln!("judge: {error}");
            std::process::exit(1);
        }
        _ => std::process::exit(1),
    }
}

fn judge() -> Result<bool, String> {
    let arguments: Vec<String> = std::env::args().skip(1).collect();
    let words: Vec<&str> = arguments.iter().map(String::as_str).collect();
    match words[..] {
        ["asked", questions] => asked(questions),
        ["verdict", questions, ours, checked, wrapping] => {
            four(questions, ours, checked, wrapping, compare)
        }
        ["split", questions, answers, ref files @ ..] => split(questions, answers, files),
        ["store", questions, given, checked, wrapping] => {
            four(questions, given, checked, wrapping, store)
        }
        ["cases", questions, expected, checked, wrapping] => {
            four(questions, expected, checked, wrapping, cases)
        }
        _ => {
            eprintln!("{USAGE}");
            std::process::exit(2);
        }
    }
}

/// Prints the lines that are put to the crate: the questions, of which a live one has a plain
/// one in its place where there is any.
fn asked(questions: &str) -> Result<bool, String> {
    let mut lines = Vec::new();
    for line in Lines::read(questions)?.all() {
        lines.extend(live::asked(line));
        lines.push(b'\n');
    }
    let written = io::stdout().write_all(&lines);
    written.map_err(|error| error.to_string())?;
    Ok(true)
}

/// Reads four files of as many lines and puts them to a judgement.
fn four(
    questions: &str,
    ours: &str,
    checked: &str,
    wrapping: &str,
    judgement: fn(&[Case]) -> Result<bool, String>,
) -> Result<bool, String> {
    let names = [questions, ours, checked, wrapping];
    let files: Vec<Lines> = names
        .map(Lines::read)
        .into_iter()
        .collect::<Result<_, _>>()?;
    let lines: Vec<Vec<&[u8]>> = files.iter().map(Lines::all).collect();
    for (name, answers) in names.iter().zip(&lines).skip(1) {
        if answers.len() != lines[0].len() {
            let (asked, told) = (lines[0].len(), answers.len());
            return Err(format!("{asked} questions, but {told} answers in {name}"));
        }
    }
    let cases: Vec<Case> = (0..lines[0].len())
        .map(|i| Case {
            question: lines[0][i],
            ours: lines[1][i],
            checked: lines[2][i],
            wrapping: lines[3][i],
        })
        .collect();
    judgement(&cases)
}

/// Counts the verdicts, and shows the shortest question that is unexplained.
fn compare(cases: &[Case]) -> Result<bool, String> {
    let verdicts: Vec<Verdict> = cases.iter().map(verdict).collect();
    let count = |wanted: Verdict| verdicts.iter().filter(|v| **v == wanted).count();
    let (equal, one) = (count(Verdict::Equal), count(Verdict::EqualToOne));
    println!("questions {}", cases.len());
    println!("equal {}", equal + one);
    if one > 0 {
        println!("equal to one of two unlike builds {one}");
    }
    for name in NAMES {
        println!("exception {name} {}", count(Verdict::Exception(name)));
    }
    println!("unexplained {}", count(Verdict::Unexplained));
    for (way, number) in ways(cases) {
        println!("{way} {number}");
    }
    for (sort, number) in sorts(cases) {
        println!("ours {sort} {number}");
    }
    let unexplained = cases.iter().zip(&verdicts);
    let smallest = unexplained
        .filter(|(_, verdict)| **verdict == Verdict::Unexplained)
        .map(|(case, _)| case)
        .min_by_key(|case| case.question.len());
    if let Some(case) = smallest {
        show(case, "ours");
        if let Some(due) = parse(case.question).and_then(|asked| due(&asked)) {
            show_line("due of ours", due.ours.as_bytes());
            show_line("due of checked", due.checked.as_bytes());
            show_line("due of wrapping", due.wrapping.as_bytes());
        }
    }
    Ok(smallest.is_none())
}

/// How many questions are live, and how they are held to the crate; nothing if none is.
fn ways(cases: &[Case]) -> Vec<(&'static str, usize)> {
    let ways: Vec<Way> = cases
        .iter()
        .filter_map(|case| match parse(case.question) {
            Some(Question::Live(asked)) => Some(live::held(&asked).way),
            _ => None,
        })
        .collect();
    if ways.is_empty() {
        return Vec::new();
    }
    let count = |wanted: Way| ways.iter().filter(|way| **way == wanted).count();
    let replaced: Vec<usize> = ways
        .iter()
        .filter_map(|way| match way {
            Way::Replaced(sizes) => Some(*sizes),
            _ => None,
        })
        .collect();
    vec![
        ("live questions", ways.len()),
        ("live by the crate with replaced sizes", replaced.len()),
        ("live replaced sizes", replaced.iter().sum()),
        ("live by the crate as plain ones", count(Way::Same)),
        ("live by the judge, 17", count(Way::Unknown)),
        (
            "live by the judge, refused in an ending",
            count(Way::Ending),
        ),
        ("live by the judge, a size without room", count(Way::NoRoom)),
        (
            "live by the judge, replaced bytes read",
            count(Way::Otherwise),
        ),
    ]
}

/// How often ours accepts, gives each refusal, or finds no question; and how often each
/// refusal has another address than 0.
fn sorts(cases: &[Case]) -> BTreeMap<String, usize> {
    let mut sorts = BTreeMap::new();
    for case in cases {
        let mut words = case.ours.split(|byte| *byte == b' ');
        let sort = match (words.next(), words.next()) {
            (Some(b"refused"), Some(number)) => {
                let sort = format!("refused {:>2}", String::from_utf8_lossy(number));
                let told = parted(&String::from_utf8_lossy(case.ours));
                let elsewhere = told.is_some_and(|(_, address)| address != 0);
                *sorts.entry(format!("{sort} not at 0")).or_insert(0) += usize::from(elsewhere);
                sort
            }
            (Some(b"bad"), _) => "bad question".to_string(),
            _ => "accepted".to_string(),
        };
        *sorts.entry(sort).or_insert(0) += 1;
    }
    sorts
}

/// Prints a case.
fn show(case: &Case, ours: &str) {
    let lines = [
        ("question", case.question),
        (ours, case.ours),
        ("checked", case.checked),
        ("wrapping", case.wrapping),
    ];
    for (name, line) in lines {
        show_line(name, line);
    }
}

/// Prints a line; of a long one the first bytes, and how many it has.
fn show_line(name: &str, line: &[u8]) {
    if line.len() <= SHOWN {
        println!("{name}: {}", line.escape_ascii());
    } else {
        let begin = line[..SHOWN].escape_ascii();
        println!("{name}: {begin}.. ({} bytes)", line.len());
    }
}

/// So much of a line is shown.
const SHOWN: usize = 2_000;

/// Parts stored lines into questions and what is given for them. Where nothing
/// is given the line is empty.
fn split(questions: &str, answers: &str, names: &[&str]) -> Result<bool, String> {
    let (mut asked, mut given) = (Vec::new(), Vec::new());
    for name in names {
        for line in Lines::read(name)?.all() {
            let stored = files::stored(line).map_err(|error| format!("{name}: {error}"))?;
            if let Some(stored) = stored {
                asked.extend(stored.question);
                asked.push(b'\n');
                given.extend(stored.answer);
                given.push(b'\n');
            }
        }
    }
    fs::write(questions, asked).map_err(|error| format!("{questions}: {error}"))?;
    fs::write(answers, given).map_err(|error| format!("{answers}: {error}"))?;
    Ok(true)
}

/// Prints the answers of a stored list: the checked oracle's, a refusal with its address, or
/// the given one where the crate has none or the difference is a listed exception.
fn store(cases: &[Case]) -> Result<bool, String> {
    let mut answers = Vec::new();
    for case in cases {
        let asked = parse(case.question);
        let given = !case.ours.is_empty();
        let theirs = match &asked {
            Some(asked) => as_ours(asked, case.checked),
            None => case.checked.to_vec(),
        };
        let fits = if given {
            // What the oracle says need not be given, but for a refusal, whose address it
            // does not say. Where it has no answer the judge may know ours, and then that
            // is it.
            let unknown =
                case.checked == b"no answer" && asked.is_none_or(|asked| due(&asked).is_none());
            let refused = case.ours.starts_with(b"refused ");
            let verdict = verdict(case);
            unknown
                || matches!(verdict, Verdict::Exception(_))
                || refused && verdict == Verdict::Equal
        } else {
            let case = Case {
                ours: &theirs,
                ..*case
            };
            case.checked != b"no answer" && verdict(&case) != Verdict::Unexplained
        };
        if !fits {
            let question = case.question.escape_ascii();
            let (ours, theirs) = (case.ours.escape_ascii(), case.checked.escape_ascii());
            return Err(format!(
                "no listed exception: {question} | {ours} (oracle: {theirs})"
            ));
        }
        answers.extend_from_slice(if given { case.ours } else { &theirs });
        answers.push(b'\n');
    }
    let written = io::stdout().write_all(&answers);
    written.map_err(|error| error.to_string())?;
    Ok(true)
}

/// Compares both builds with what is expected, shows every difference.
/// `checked: ANSWER | wrapping: ANSWER` is expected where the builds differ.
fn cases(cases: &[Case]) -> Result<bool, String> {
    let mut wrong = 0;
    for case in cases {
        let (checked, wrapping) = expected(case.ours);
        if case.checked != checked || case.wrapping != wrapping {
            wrong += 1;
            show(case, "expected");
        }
    }
    println!("cases {} wrong {wrong}", cases.len());
    Ok(wrong == 0)
}

/// What each build is to answer.
fn expected(text: &[u8]) -> (&[u8], &[u8]) {
    let unlike = text.strip_prefix(b"checked: ").and_then(|rest| {
        let bar = b" | wrapping: ";
        let place = rest.windows(bar.len()).position(|part| part == bar)?;
        Some((&rest[..place], &rest[place + bar.len()..]))
    });
    unlike.unwrap_or((text, text))
}
