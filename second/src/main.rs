//! The command: without arguments the program of document 01; with them the
//! other calls on a file, the examples, and the generator.

#![forbid(unsafe_code)]

use second::examples::examples;
use second::make::{all_cases, program_input, small_cases, Case};
use second::program::refusal_line;
use std::fs;
use std::io::{self, Error, Read, Write};
use std::path::Path;
use std::process::ExitCode;

const USAGE: &str = "second                                  stdin to stdout
second check FILE
second normal FILE
second element FILE VARIABLE COORDINATE..
second body FILE VARIABLE
second list FILE
second examples DIR
second make SEED COUNT DIR
second small SEED COUNT DIR";

fn main() -> ExitCode {
    match obey() {
        Ok(()) => ExitCode::SUCCESS,
        Err(error) => {
            eprintln!("{error}");
            ExitCode::FAILURE
        }
    }
}

/// Does what the arguments say.
fn obey() -> io::Result<()> {
    let arguments: Vec<String> = std::env::args().skip(1).collect();
    let words: Vec<&str> = arguments.iter().map(String::as_str).collect();
    let answer = match words.as_slice() {
        [] => {
            let mut input = Vec::new();
            io::stdin().read_to_end(&mut input)?;
            second::program(&input)
        }
        ["check", file] => check(&fs::read(file)?),
        ["normal", file] => normal(&fs::read(file)?),
        ["element", file, variable, point @ ..] => element(&fs::read(file)?, variable, point)?,
        ["body", file, variable] => body(&fs::read(file)?, variable)?,
        ["list", file] => second::list(&fs::read(file)?).into_bytes(),
        ["examples", dir] => write_examples(Path::new(dir))?,
        ["make", seed, count, dir] => {
            write_cases(Path::new(dir), &all_cases(number(seed)?, number(count)?))?
        }
        ["small", seed, count, dir] => {
            write_cases(Path::new(dir), &small_cases(number(seed)?, number(count)?))?
        }
        _ => return Err(Error::other(format!("usage:\n{USAGE}"))),
    };
    io::stdout().write_all(&answer)
}

/// A number from the command line.
fn number<T: std::str::FromStr>(word: &str) -> io::Result<T> {
    word.parse().map_err(|_| Error::other(format!("{word} is no number here")))
}

/// A number's line, or the refusal's.
fn line(answer: Result<u64, second::Refusal>) -> Vec<u8> {
    match answer {
        Ok(number) => format!("{number}\n").into_bytes(),
        Err(refusal) => refusal_line(&refusal).into_bytes(),
    }
}

fn check(sheet: &[u8]) -> Vec<u8> {
    match second::check(sheet) {
        Ok(total) => format!("accepted {total}\n").into_bytes(),
        Err(refusal) => line(Err(refusal)),
    }
}

fn normal(sheet: &[u8]) -> Vec<u8> {
    let mut out = vec![0; 65_536];
    match second::normalise(sheet, &mut out) {
        Ok(length) => out[..length as usize].to_vec(),
        Err(refusal) => line(Err(refusal)),
    }
}

fn element(sheet: &[u8], variable: &str, point: &[&str]) -> io::Result<Vec<u8>> {
    let point: Vec<i64> = point.iter().map(|x| number(x)).collect::<io::Result<_>>()?;
    Ok(line(second::element(sheet, number(variable)?, &point)))
}

fn body(sheet: &[u8], variable: &str) -> io::Result<Vec<u8>> {
    let (start, length) = second::body(sheet, number(variable)?);
    Ok(format!("{start} {length}\n").into_bytes())
}

/// For each example its sheet, listing, inputs, what the program prints, and
/// its normal form or the refusal of it.
fn write_examples(dir: &Path) -> io::Result<Vec<u8>> {
    fs::create_dir_all(dir)?;
    for example in examples() {
        let put = |ending: &str, bytes: &[u8]| {
            fs::write(dir.join(format!("{}.{ending}", example.name)), bytes)
        };
        put("sheet", &example.sheet)?;
        put("list", second::list(&example.sheet).as_bytes())?;
        put("in", decimal(&example.inputs).as_bytes())?;
        put("out", &second::program(&program_input(&example.sheet, &example.inputs)))?;
        let mut out = vec![0; 65_536];
        match second::normalise(&example.sheet, &mut out) {
            Ok(length) => put("normal", &out[..length as usize])?,
            Err(refusal) => put("normal.refused", refusal_line(&refusal).as_bytes())?,
        }
    }
    Ok(format!("{} examples\n", examples().len()).into_bytes())
}

/// Numbers on one line.
fn decimal<T: ToString>(numbers: &[T]) -> String {
    let words: Vec<String> = numbers.iter().map(T::to_string).collect();
    words.join(" ") + "\n"
}

/// For each case its sheet, the program's input, and the other questions.
fn write_cases(dir: &Path, cases: &[Case]) -> io::Result<Vec<u8>> {
    fs::create_dir_all(dir)?;
    for (index, case) in cases.iter().enumerate() {
        let name = format!("{index:04}-{}", case.name);
        fs::write(dir.join(format!("{name}.sheet")), &case.sheet)?;
        fs::write(dir.join(format!("{name}.stdin")), &case.stdin)?;
        fs::write(dir.join(format!("{name}.case")), case_text(case))?;
    }
    Ok(format!("{} cases\n", cases.len()).into_bytes())
}

fn case_text(case: &Case) -> String {
    let lent = [case.codes, case.values, case.out];
    let words = |name: &str, numbers: String| format!("{name} {numbers}").trim().to_string();
    [
        words("inputs", decimal(&case.inputs)),
        words("lent", decimal(&lent)),
        words("element", format!("{} {}", case.variable, decimal(&case.point))),
        words("body", case.body.to_string()),
    ]
    .join("\n")
        + "\n"
}
