//! Makes a case smaller as long as it stays in its class.

use crate::cases::Case;
use crate::judge::{Class, broken_at, class_of, first_difference};
use crate::programs::Program;
use crate::smaller::{Step, after, steps_of};
use crate::tidy::tidy;

/// The builds of the original.
pub struct Builds {
    pub debug: Program,
    pub release: Program,
}

/// The class of each case, with the step of its first difference.
pub fn classes_of(cases: &[Case], builds: &Builds) -> Result<Vec<Option<(Class, usize)>>, String> {
    let steps: Vec<_> = cases.iter().map(Case::steps).collect();
    let scripts: Vec<String> = cases.iter().map(Case::script).collect();
    let lengths: Vec<usize> = steps.iter().map(Vec::len).collect();
    let debug = builds.debug.run(&scripts, &lengths)?;
    let release = builds.release.run(&scripts, &lengths)?;
    let class = |n: usize| {
        let difference = |outcome| first_difference(&steps[n], outcome);
        class_of(&broken_at(&steps[n]), &difference(&debug[n]), &difference(&release[n]))
    };
    Ok((0..cases.len()).map(class).collect())
}

/// A small case of the same class: all steps that keep the class alone are tried together, then half of them, and so on.
pub fn shrink(case: &Case, class: &Class, builds: &Builds) -> Result<Case, String> {
    let mut best = case.clone();
    loop {
        let single: Vec<Vec<Step>> = steps_of(&best).into_iter().map(|step| vec![step]).collect();
        let good: Vec<Step> = keeping(&best, single, class, builds)?.into_iter().flatten().collect();
        let halves = std::iter::successors(Some(good.len()), |n| Some(n / 2)).take_while(|n| *n > 0);
        let together = halves.map(|n| good[..n].to_vec()).collect();
        match keeping(&best, together, class, builds)?.first() {
            Some(steps) => best = after(&best, steps).expect("a right table"),
            None => break,
        }
    }
    let tidied = tidy(&best);
    let kept = classes_of(std::slice::from_ref(&tidied), builds)?;
    Ok(if is_of(&kept[0], class) { tidied } else { best })
}

fn is_of(found: &Option<(Class, usize)>, class: &Class) -> bool {
    found.as_ref().is_some_and(|(c, _)| c == class)
}

/// Those of the lists of steps that leave the case in its class.
fn keeping(case: &Case, lists: Vec<Vec<Step>>, class: &Class, builds: &Builds) -> Result<Vec<Vec<Step>>, String> {
    let (lists, cases): (Vec<_>, Vec<_>) =
        lists.into_iter().filter_map(|list| after(case, &list).map(|next| (list, next))).unzip();
    let classes = classes_of(&cases, builds)?;
    Ok(lists.into_iter().zip(classes).filter(|(_, found)| is_of(found, class)).map(|(list, _)| list).collect())
}
