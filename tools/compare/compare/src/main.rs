//! `compare`: runs RustyLR's `Context` beside another program on random cases and says where they differ.

mod arbitrary;
mod arguments;
mod batch;
mod cases;
mod chance;
mod coverage;
mod describe;
mod findings;
mod grammar;
mod items;
mod judge;
mod kinds;
mod programs;
mod run;
mod sample;
mod sentences;
mod shrink;
mod smaller;
mod sorts;
mod streams;
mod tables;
mod tidy;

use arguments::{Arguments, USAGE, arguments};
use cases::Case;
use findings::Findings;
use judge::{Class, broken_at, first_difference};
use programs::Program;
use run::{Plan, Run};
use sample::Sample;
use shrink::{Builds, classes_of};
use std::fs;
use std::path::Path;
use std::process::ExitCode;
use std::time::Instant;

fn main() -> ExitCode {
    let good = arguments().and_then(|arguments| match &arguments.script {
        Some(script) => on_script(&arguments, script),
        None => on_random_cases(&arguments),
    });
    match good {
        Ok(true) => ExitCode::SUCCESS,
        Ok(false) => ExitCode::from(1),
        Err(message) => {
            eprintln!("{message}\n{USAGE}");
            ExitCode::from(2)
        }
    }
}

fn builds_in(arguments: &Arguments) -> Builds {
    let program = |build: &str| {
        let path = arguments.original.join(build).join("original");
        Program::new(&format!("original, {build}"), &format!("{} {}", path.display(), arguments.layout))
    };
    Builds { debug: program("debug"), release: program("release") }
}

fn on_random_cases(arguments: &Arguments) -> Result<bool, String> {
    let builds = builds_in(arguments);
    let other = Program::new("other", &arguments.other);
    let mut run = Run {
        builds: &builds,
        other: &other,
        coverage: Default::default(),
        findings: Default::default(),
        sample: Sample::new(if arguments.sample.is_some() { arguments.sample_cases } else { 0 }),
        last_seed: arguments.seed,
    };
    let plan = Plan {
        first_seed: arguments.seed,
        grammars: arguments.grammars,
        arbitrary: arguments.arbitrary,
        terms: arguments.terms,
        most_time: arguments.time,
        debug_every: arguments.debug_every,
    };
    let begun = Instant::now();
    run.go(&plan)?;
    report(&run, arguments, begun);
    if let Some(folder) = &arguments.sample {
        run.sample.write(folder).map_err(|e| format!("{}: {e}", folder.display()))?;
    }
    write_smallest(arguments, &run.findings, &builds)?;
    Ok(run.findings.good())
}

fn report(run: &Run, arguments: &Arguments, begun: Instant) {
    println!("seeds {} to {}, {} grammars each", arguments.seed, run.last_seed, arguments.grammars);
    println!("\ncoverage");
    run.coverage.print();
    println!("\ndifferences, in cases");
    run.findings.print_others();
    run.findings.print_classes();
    let (inside, outside) = (run.coverage.count("inside, terms"), run.coverage.count("outside, terms"));
    let verdict = if run.findings.good() { "no difference inside the conditions" } else { "THERE ARE DIFFERENCES" };
    println!("\n{inside} terms inside the conditions, {outside} outside, {} s: {verdict}", begun.elapsed().as_secs());
}

/// Scripts of more cases than this are summed up only.
const CASES_SHOWN: usize = 100;
/// Cases of a script that go through the programs together.
const CASES_OF_BATCH: usize = 500;

/// Says for each case of a script how the builds differ from the rules, and whether the other program does.
fn on_script(arguments: &Arguments, script: &Path) -> Result<bool, String> {
    let builds = builds_in(arguments);
    let other = Program::new("other", &arguments.other);
    let text = fs::read_to_string(script).map_err(|e| format!("{}: {e}", script.display()))?;
    let cases = cases::cases_of(&text)?;
    let mut findings = Findings::default();
    let mut terms_inside = 0;
    for batch in cases.chunks(CASES_OF_BATCH) {
        terms_inside += batch.iter().map(terms_inside_of).sum::<usize>();
        hold_to_rules(&other, batch, &mut findings)?;
        for (case, class) in batch.iter().zip(classes_of(batch, &builds)?) {
            if cases.len() <= CASES_SHOWN {
                show(&case.name, &class);
            }
            class.into_iter().for_each(|(class, _)| findings.differs(case, class));
        }
    }
    findings.print_others();
    if cases.len() > CASES_SHOWN {
        findings.print_classes();
    }
    println!("{} cases, {terms_inside} terms inside the conditions", cases.len());
    write_smallest(arguments, &findings, &builds)?;
    Ok(findings.good())
}

/// Notes where the other program departs from the rules.
fn hold_to_rules(other: &Program, cases: &[Case], findings: &mut Findings) -> Result<(), String> {
    let steps: Vec<_> = cases.iter().map(Case::steps).collect();
    let scripts: Vec<String> = cases.iter().map(Case::script).collect();
    let lengths: Vec<usize> = steps.iter().map(Vec::len).collect();
    for (number, outcome) in other.run(&scripts, &lengths)?.iter().enumerate() {
        if let Some(difference) = first_difference(&steps[number], outcome) {
            findings.other_differs(&cases[number], &difference);
        }
    }
    Ok(())
}

fn terms_inside_of(case: &Case) -> usize {
    let steps = case.steps();
    steps.iter().zip(broken_at(&steps)).filter(|(step, broken)| step.is_term && broken.none()).count()
}

fn show(name: &str, class: &Option<(Class, usize)>) {
    match class {
        None => println!("{name}: the same"),
        Some((class, at)) => {
            println!("{name}: command {at}, conditions broken: {}", class.broken.text());
            println!("  debug: {}\n  release: {}", class.debug, class.release);
        }
    }
}

fn write_smallest(arguments: &Arguments, findings: &Findings, builds: &Builds) -> Result<(), String> {
    match &arguments.smallest {
        Some(file) => fs::write(file, findings.smallest_script(builds)?).map_err(|e| e.to_string()),
        None => Ok(()),
    }
}
