//! The one spelling of terms and of certificates.
use crate::draft::Step;
use crate::term::{Follows, Op, Term, FORMS};

/// A term's text.
pub fn text_of(term: Term) -> String {
    let mut text = String::new();
    print(term, &mut text);
    text
}

/// A position's text.
pub fn position(path: &[u32]) -> String {
    let numbers: String = path.iter().map(|k| format!(" {}", k)).collect();
    format!("(at{})", numbers)
}

/// A step's line.
pub fn step(step: &Step) -> String {
    let given = if step.ahead { String::new() } else { format!(" {}", text_of(step.after)) };
    format!("(step {} {} {}{})\n", step.law, if step.ahead { "forward" } else { "backward" }, position(&step.at), given)
}

/// The text of a certificate with these steps, of the first version that has them.
pub fn certificate(steps: &[Step]) -> String {
    let version = steps.iter().map(version_of).max().unwrap_or(1);
    let lines: String = steps.iter().map(step).collect();
    format!("laws {}\n{}", version, lines)
}

/// The first version that has a step's law, and the forms of its tree.
fn version_of(step: &Step) -> u8 {
    let is_new = !step.ahead && step.after.has_new_form;
    step.law.version().max(if is_new { 2 } else { 1 })
}

/// How many bytes the certificate with these steps has, at most.
pub fn length(steps: &[Step]) -> usize {
    "laws 3\n".len() + steps.iter().map(step_length).sum::<usize>()
}

/// How many bytes a step's line has.
pub fn step_length(step: &Step) -> usize {
    let digits = |k: u32| std::iter::successors(Some(k), |&rest| Some(rest / 10).filter(|&rest| rest > 0)).count();
    let numbers: usize = step.at.iter().map(|&k| " ".len() + digits(k)).sum();
    let given = if step.ahead { "forward".len() } else { "backward ".len() + step.after.length as usize };
    "(step   (at))\n".len() + step.law.to_string().len() + numbers + given
}

fn print(term: Term, text: &mut String) {
    match term.op {
        Op::Int => text.push_str(&term.number.to_string()),
        Op::Letter => text.extend(u32::try_from(term.number).ok().and_then(char::from_u32)),
        _ => print_form(term, text),
    }
}

fn print_form(term: Term, text: &mut String) {
    let &(word, _, follows, _) = &FORMS[term.op as usize];
    if follows == Follows::Children(0) {
        return text.push_str(word);
    }
    text.push('(');
    text.push_str(word);
    if let Follows::Number(_) = follows {
        text.push_str(&format!(" {}", term.number));
    }
    if let Some(ty) = term.ty {
        text.push(' ');
        print(ty, text);
    }
    let column = match follows {
        Follows::Column(before, behind) => before..term.kids.len().saturating_sub(behind),
        _ => 0..0,
    };
    for (k, kid) in term.kids.iter().enumerate() {
        let begins = !column.is_empty() && k == column.start;
        text.push_str(if begins { " (col " } else { " " });
        print(kid, text);
        if !column.is_empty() && k + 1 == column.end {
            text.push(')');
        }
    }
    text.push(')');
}

#[cfg(test)]
mod tests {
    use super::*;
    use crate::laws;
    use crate::read::read_file;

    #[test]
    fn lengths_are_those_of_texts() {
        let nets = [
            "(pSwitch (fst x) (col time integral) (arr (none Int)) (parB time (delay 12 -7)))",
            "(arr (len (list Int 1 (nth (list Int) 0 2))))",
        ];
        for net in nets {
            let (_, net) = read_file(format!("yampa 1 input Int {}", net).as_bytes()).expect("a network");
            for ahead in [true, false] {
                let one = Step { law: laws::NEST, ahead, at: vec![1, 20], before: net, after: net };
                assert_eq!(step_length(&one), step(&one).len());
            }
        }
    }
}
