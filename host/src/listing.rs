//! A rule set as text, to read together with its block file.
//!
//! Document 01 leaves out EB3 text; this is not that language but a similar notation, for people: expressions
//! in infix, terms with the sources' operators (`.` sequence, `|` choice, `*` star, `=>` guard, `|||`
//! interleaving, `|[a, b]|` parallel on labels a and b, and quantified forms), then the words of the stream.

use crate::blocks;
use crate::rules::{Argument, Condition, Data, Mask, RuleSet, Term, NO_LABELS};
use crate::Sizes;

/// Names for the numbers of a rule set, a title, and notes to print first.
#[derive(Clone, Debug, Default)]
pub struct Names {
    pub title: String,
    pub notes: Vec<String>,
    pub domains: Vec<String>,
    pub labels: Vec<String>,
    pub functions: Vec<String>,
    pub processes: Vec<String>,
}

const HOW_TO_READ: &str = "x0, x1, ... are variables by their numbers; elements of a domain count from \
    0. In a function x0 is its parameter, and x1, x2 are those of the label of the last event. \"now \
    f(x)\" is f's value over the whole history, \"before f(x)\" its value without the last event. \
    Operators, the tightest first: * star, . sequence, => guard, | choice, ||| interleaving and \
    |[...]| parallel on the labels named; \"| x: D : E\" and \"||| x: D : E\" stand for one copy of E \
    for each element of D.";

/// The whole listing.
pub fn listing(rules: &RuleSet, names: &Names, sizes: Sizes) -> String {
    let printer = Printer { rules, names };
    let words = rules.stream().len();
    let mut text = format!("{}\n{}\n\n", names.title, "=".repeat(names.title.chars().count()));
    let blocks = blocks::blocks_for(words);
    let file = format!("{blocks} block{}, {words} words used.", if blocks == 1 { "" } else { "s" });
    let Sizes { cells, reach, breadth, size } = sizes;
    text += &wrapped(
        "",
        &format!("{file} C {cells} cells, G {reach} words, W {breadth} moves, start size {size} words."),
        0,
    );
    for note in &names.notes {
        text += &format!("\n{}", wrapped("", note, 0));
    }
    text += &format!("\n{}", wrapped("", HOW_TO_READ, 0));
    text += &printer.domains();
    text += &printer.labels();
    text += &printer.functions();
    text += &printer.processes();
    text += &printer.words();
    text
}

/// A paragraph in lines of at most 110 characters: the first begins with `lead`, the others with `indent`
/// spaces.
fn wrapped(lead: &str, paragraph: &str, indent: usize) -> String {
    let mut lines = vec![lead.to_string()];
    let mut at_start = true;
    for word in paragraph.split(' ') {
        let line = lines.last_mut().expect("there is a line");
        if at_start {
            line.push_str(word);
            at_start = false;
        } else if line.chars().count() + 1 + word.chars().count() <= 110 {
            *line += " ";
            *line += word;
        } else {
            lines.push(format!("{}{word}", " ".repeat(indent)));
        }
    }
    lines.join("\n") + "\n"
}

struct Printer<'a> {
    rules: &'a RuleSet,
    names: &'a Names,
}

/// The name of a number, or the number itself if it has no name.
fn named(names: &[String], number: u16) -> String {
    names.get(usize::from(number)).cloned().unwrap_or_else(|| format!("#{number}"))
}

fn in_brackets(inner: String, needed: bool) -> String {
    if needed {
        format!("({inner})")
    } else {
        inner
    }
}

impl Printer<'_> {
    fn domains(&self) -> String {
        let mut text = String::from("\nDomains\n");
        for (number, size) in (0..).zip(&self.rules.domains) {
            text += &format!("  {number:2}  {}, {size} elements\n", named(&self.names.domains, number));
        }
        text
    }

    /// A name with its parameters, which are the variables from `first` up.
    fn head(&self, name: &str, parameters: &[u16], first: u16) -> String {
        let parameter =
            |(number, domain): (u16, &u16)| format!("x{number}: {}", named(&self.names.domains, *domain));
        let list: Vec<String> = (first..).zip(parameters).map(parameter).collect();
        if list.is_empty() {
            name.to_string()
        } else {
            format!("{name}({})", list.join(", "))
        }
    }

    fn labels(&self) -> String {
        let mut text = String::from("\nLabels\n");
        for (number, parameters) in (0..).zip(&self.rules.labels) {
            text +=
                &format!("  {number:2}  {}\n", self.head(&named(&self.names.labels, number), parameters, 1));
        }
        text
    }

    fn functions(&self) -> String {
        let mut text = String::from("\nFunctions\n");
        for (number, function) in (0..).zip(&self.rules.functions) {
            let name = named(&self.names.functions, number);
            text += &format!("  {number:2}  {}\n", self.head(&name, &[function.domain], 0));
            text += &format!("        {:28} {}\n", "empty history", self.data(&function.at_start, 0));
            for (label, data) in (0..).zip(&function.at_label) {
                let parameters = self.rules.labels.get(usize::from(label)).map_or(&[][..], Vec::as_slice);
                let head = self.head(&named(&self.names.labels, label), parameters, 1);
                text += &format!("        {head:28} {}\n", self.data(data, 0));
            }
        }
        text
    }

    fn processes(&self) -> String {
        let mut text = String::from("\nProcesses\n");
        for (number, process) in (0..).zip(&self.rules.processes) {
            let name = named(&self.names.processes, number);
            text += &format!("  {number:2}  {} =\n", self.head(&name, &process.parameters, 0));
            let scope = process.parameters.len() as u16;
            text += &wrapped("        ", &self.term(&process.term, scope, 0), 10);
        }
        text
    }

    /// The words of the stream, section by section.
    fn words(&self) -> String {
        let stream = self.rules.stream();
        let [domains, labels, functions, processes] = self.rules.sections();
        let mut text = String::from("\nWords\n");
        let mut part = |name: &str, words: &[u16]| {
            let words: Vec<String> = words.iter().map(u16::to_string).collect();
            text += &wrapped(&format!("      {name:20} "), &words.join(" "), 27);
        };
        part("edition, blocks", &stream[..2]);
        part("domains", &domains);
        part("labels", &labels);
        part("function count", &functions[..1]);
        for (number, function) in (0..).zip(&self.rules.functions) {
            let mut words = vec![function.domain];
            function.at_start.spell(&mut words);
            function.at_label.iter().for_each(|data| data.spell(&mut words));
            part(&named(&self.names.functions, number), &words);
        }
        part("process count", &processes[..1]);
        for (number, process) in (0..).zip(&self.rules.processes) {
            let mut words = vec![process.parameters.len() as u16];
            words.extend(&process.parameters);
            process.term.spell(&mut words);
            part(&named(&self.names.processes, number), &words);
        }
        text
    }

    /// A data expression, in brackets if its operator binds less tightly than `place`: 0 if, 1 sums and
    /// differences, 2 the rest.
    fn data(&self, data: &Data, place: u8) -> String {
        match data {
            Data::Undefined => "undefined".to_string(),
            Data::Constant(value) => value.to_string(),
            Data::Variable(number) => format!("x{number}"),
            Data::Add(left, right) => {
                in_brackets(format!("{} + {}", self.data(left, 1), self.data(right, 2)), place > 1)
            }
            Data::Subtract(left, right) => {
                in_brackets(format!("{} - {}", self.data(left, 1), self.data(right, 2)), place > 1)
            }
            Data::If(condition, yes, no) => {
                let (condition, yes, no) =
                    (self.condition(condition, 0), self.data(yes, 1), self.data(no, 0));
                in_brackets(format!("if {condition} then {yes} else {no}"), place > 0)
            }
            Data::Now(function, argument) => self.value("now", *function, argument),
            Data::Before(function, argument) => self.value("before", *function, argument),
        }
    }

    fn value(&self, when: &str, function: u16, argument: &Data) -> String {
        format!("{when} {}({})", named(&self.names.functions, function), self.data(argument, 0))
    }

    /// A condition, in brackets if its operator binds less tightly than `place`: 0 or, 1 and, 2 comparisons,
    /// 3 the rest.
    fn condition(&self, condition: &Condition, place: u8) -> String {
        let compared = |left, sign, right| {
            in_brackets(format!("{} {sign} {}", self.data(left, 1), self.data(right, 1)), place > 2)
        };
        match condition {
            Condition::Equal(left, right) => compared(left, "=", right),
            Condition::Less(left, right) => compared(left, "<", right),
            Condition::And(left, right) => in_brackets(
                format!("{} and {}", self.condition(left, 1), self.condition(right, 2)),
                place > 1,
            ),
            Condition::Or(left, right) => {
                in_brackets(format!("{} or {}", self.condition(left, 0), self.condition(right, 1)), place > 0)
            }
            Condition::Not(inner) => format!("not {}", self.condition(inner, 3)),
            Condition::True => "true".to_string(),
        }
    }

    fn arguments(&self, name: String, arguments: &[Argument]) -> String {
        let argument = |argument: &Argument| match argument {
            Argument::Constant(value) => value.to_string(),
            Argument::Variable(number) => format!("x{number}"),
        };
        let list: Vec<String> = arguments.iter().map(argument).collect();
        if list.is_empty() {
            name
        } else {
            format!("{name}({})", list.join(", "))
        }
    }

    fn parallel(&self, mask: &Mask) -> String {
        if *mask == NO_LABELS {
            return "|||".to_string();
        }
        let set = (0..64u16).filter(|label| mask[usize::from(label / 16)] >> (label % 16) & 1 == 1);
        let labels: Vec<String> = set.map(|label| named(&self.names.labels, label)).collect();
        format!("|[{}]|", labels.join(", "))
    }

    /// A term with `scope` variables in scope, in brackets if its operator binds less tightly than `place`: 0
    /// parallel and quantifiers, 1 choice, 2 guard, 3 sequence, 4 star, 5 the rest.
    fn term(&self, term: &Term, scope: u16, place: u8) -> String {
        let at = |term: &Term, place| self.term(term, scope, place);
        let (text, binding) = match term {
            Term::Internal => ("lambda".to_string(), 5),
            Term::Action(label, arguments) => {
                (self.arguments(named(&self.names.labels, *label), arguments), 5)
            }
            Term::Sequence(left, right) => (format!("{} . {}", at(left, 4), at(right, 3)), 3),
            Term::Choice(left, right) => (format!("{} | {}", at(left, 2), at(right, 1)), 1),
            Term::Star(inner) => (format!("{}*", at(inner, 5)), 4),
            Term::Parallel(mask, left, right) => {
                (format!("{} {} {}", at(left, 1), self.parallel(mask), at(right, 1)), 0)
            }
            Term::Guard(condition, inner) => {
                (format!("{} => {}", self.condition(condition, 0), at(inner, 2)), 2)
            }
            Term::ChoiceOver(domain, inner) => (self.quantified("|".to_string(), *domain, inner, scope), 0),
            Term::ParallelOver(domain, mask, inner) => {
                (self.quantified(self.parallel(mask), *domain, inner, scope), 0)
            }
            Term::Call(process, arguments) => {
                (self.arguments(named(&self.names.processes, *process), arguments), 5)
            }
        };
        in_brackets(text, binding < place)
    }

    /// A quantifier with its inside: a quantifier directly inside another needs no brackets; other terms do
    /// if they bind less tightly than a star.
    fn quantified(&self, operator: String, domain: u16, inner: &Term, scope: u16) -> String {
        let nested = matches!(inner, Term::ChoiceOver(..) | Term::ParallelOver(..));
        let inner = self.term(inner, scope + 1, if nested { 0 } else { 4 });
        format!("{operator} x{scope}: {} : {inner}", named(&self.names.domains, domain))
    }
}
