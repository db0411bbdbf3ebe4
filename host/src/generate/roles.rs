//! The role of each word of a rule stream, and the words that are wrong in its place, each with its refusal.
//!
//! Document 01, "Blocks and the rule stream" and refusals 3 to 6. A well-formed stream in which one word is
//! replaced by such a wrong word is refused with that word's number: everything before it is right, and the
//! words after it are not judged. The stream is spelled here a second time, with scopes; the tests compare it
//! with that of `rules`.

use crate::refusal::{EDITION, FORM, KIND, REFERENCE};
use crate::rules::{count_of, Argument, Condition, Data, Mask, RuleSet, Term};

/// The role of a word.
#[derive(Clone, Debug, PartialEq, Eq)]
pub enum Role {
    Edition,
    BlockCount,
    /// A count or size, with its range.
    Count {
        least: u16,
        most: u16,
    },
    /// The number of a domain, variable, function, label or process, which must be below `defined`.
    Reference {
        defined: u16,
    },
    /// A code of a data expression, where before is allowed or not.
    DataCode {
        before: bool,
    },
    Constant,
    ConditionCode,
    /// A code of a rule term; `full` if no other variable can be bound.
    TermCode {
        full: bool,
    },
    ArgumentCode,
    ArgumentConstant {
        elements: u16,
    },
    /// The number of a variable as argument. For each variable in scope: whether it has the parameter's
    /// domain.
    ArgumentVariable {
        fitting: Vec<bool>,
    },
    /// A mask word, with the bits that have a label.
    MaskWord {
        defined: u16,
    },
}

/// A word of a stream and its role.
#[derive(Clone, Debug)]
pub struct Marked {
    pub word: u16,
    pub role: Role,
}

/// Words outside the range of all codes, some of which have a low byte that is a code.
const NO_CODES: [u16; 10] = [14, 15, 19, 31, 32, 255, 256 + 1, 256 + 13, 256 + 20, 65535];

impl Role {
    /// The words that are wrong here, each with its refusal; `right` is the word that the stream has.
    pub fn faults(&self, right: u16) -> Vec<(u16, u8)> {
        match self {
            Role::Edition => [0, 2, 256, 257, 65535].map(|word| (word, EDITION)).to_vec(),
            Role::BlockCount => {
                [0, right - 1, right + 1, right + 256, 65535].map(|word| (word, EDITION)).to_vec()
            }
            Role::Count { least, most } => {
                let outside = [least.wrapping_sub(1), most + 1, most + 2, least + 256, 65535];
                outside.map(|word| (word, FORM)).to_vec()
            }
            Role::Reference { defined } => {
                [*defined, defined + 1, defined + 256, 32768, 65535].map(|word| (word, REFERENCE)).to_vec()
            }
            Role::DataCode { before } => codes_but(|code| code <= 6 || (code == 7 && *before)),
            Role::Constant => vec![(65535, FORM)],
            Role::ConditionCode => codes_but(|code| (8..=13).contains(&code)),
            Role::TermCode { full } => {
                codes_but(|code| (20..=29).contains(&code) && !(*full && (code == 27 || code == 28)))
            }
            Role::ArgumentCode => codes_but(|code| code == 1 || code == 2),
            Role::ArgumentConstant { elements } => {
                let outside = [*elements, elements + 1, 255 + elements, 65534].map(|word| (word, KIND));
                [&outside[..], &[(65535, FORM)]].concat()
            }
            Role::ArgumentVariable { fitting } => {
                let count = fitting.len() as u16;
                let other =
                    (0..count).filter(|&number| !fitting[usize::from(number)]).map(|number| (number, KIND));
                other.chain([count, count + 1, count + 256, 65535].map(|word| (word, REFERENCE))).collect()
            }
            Role::MaskWord { defined } => {
                let undefined = (0..16).map(|bit| 1u16 << bit).filter(|bit| bit & defined == 0);
                undefined.map(|bit| (right | bit, REFERENCE)).collect()
            }
        }
    }
}

/// Every code that is not allowed here, with refusal 4. 30, done, is allowed in no rule set.
pub(super) fn codes_but(allowed: impl Fn(u16) -> bool) -> Vec<(u16, u8)> {
    (0..=30).chain(NO_CODES).filter(|&code| !allowed(code)).map(|code| (code, FORM)).collect()
}

/// The stream of a well-formed rule set, each word with its role.
pub fn marked(rules: &RuleSet) -> Vec<Marked> {
    let mut marking = Marking { rules, words: Vec::new(), scope: Vec::new(), defined_processes: 0 };
    let [edition, blocks] = [rules.stream()[0], rules.stream()[1]];
    marking.push(edition, Role::Edition);
    marking.push(blocks, Role::BlockCount);
    marking.count(count_of(&rules.domains), 1, 16);
    rules.domains.iter().for_each(|&size| marking.count(size, 1, 64));
    marking.count(count_of(&rules.labels), 1, 64);
    rules.labels.iter().for_each(|parameters| marking.parameters(parameters, 2));
    marking.functions();
    marking.processes();
    marking.words
}

/// How many variables an expression may use, and how many functions by now and by before.
#[derive(Clone, Copy)]
struct Names {
    variables: u16,
    now: u16,
    before: u16,
}

struct Marking<'a> {
    rules: &'a RuleSet,
    words: Vec<Marked>,
    /// The domains of the variables in scope, within a process.
    scope: Vec<u16>,
    defined_processes: u16,
}

impl Marking<'_> {
    fn push(&mut self, word: u16, role: Role) {
        self.words.push(Marked { word, role });
    }

    fn count(&mut self, word: u16, least: u16, most: u16) {
        self.push(word, Role::Count { least, most });
    }

    fn reference(&mut self, word: u16, defined: u16) {
        self.push(word, Role::Reference { defined });
    }

    fn parameters(&mut self, domains: &[u16], most: u16) {
        self.count(count_of(domains), 0, most);
        domains.iter().for_each(|&domain| self.reference(domain, count_of(&self.rules.domains)));
    }

    fn functions(&mut self) {
        let count = count_of(&self.rules.functions);
        self.count(count, 0, 16);
        for (number, function) in (0..).zip(&self.rules.functions) {
            self.reference(function.domain, count_of(&self.rules.domains));
            self.data(&function.at_start, Names { variables: 1, now: number, before: 0 });
            for (parameters, data) in self.rules.labels.iter().zip(&function.at_label) {
                self.data(data, Names { variables: 1 + count_of(parameters), now: number, before: count });
            }
        }
    }

    fn processes(&mut self) {
        let count = count_of(&self.rules.processes);
        self.count(count, 1, 32);
        for (number, process) in (0..).zip(&self.rules.processes) {
            self.parameters(&process.parameters, if number + 1 == count { 0 } else { 4 });
            self.scope = process.parameters.clone();
            self.defined_processes = number;
            self.term(&process.term);
        }
    }

    fn data(&mut self, data: &Data, names: Names) {
        let mut code = |word| self.push(word, Role::DataCode { before: names.before > 0 });
        match data {
            Data::Undefined => code(0),
            Data::Constant(value) => {
                code(1);
                self.push(*value, Role::Constant);
            }
            Data::Variable(number) => {
                code(2);
                self.reference(*number, names.variables);
            }
            Data::Add(left, right) | Data::Subtract(left, right) => {
                code(if matches!(data, Data::Add(..)) { 3 } else { 4 });
                self.data(left, names);
                self.data(right, names);
            }
            Data::If(condition, yes, no) => {
                code(5);
                self.condition(condition, names);
                self.data(yes, names);
                self.data(no, names);
            }
            Data::Now(function, argument) => {
                code(6);
                self.reference(*function, names.now);
                self.data(argument, names);
            }
            Data::Before(function, argument) => {
                code(7);
                self.reference(*function, names.before);
                self.data(argument, names);
            }
        }
    }

    fn condition(&mut self, condition: &Condition, names: Names) {
        let mut code = |word| self.push(word, Role::ConditionCode);
        match condition {
            Condition::Equal(left, right) | Condition::Less(left, right) => {
                code(if matches!(condition, Condition::Equal(..)) { 8 } else { 9 });
                self.data(left, names);
                self.data(right, names);
            }
            Condition::And(left, right) | Condition::Or(left, right) => {
                code(if matches!(condition, Condition::And(..)) { 10 } else { 11 });
                self.condition(left, names);
                self.condition(right, names);
            }
            Condition::Not(inner) => {
                code(12);
                self.condition(inner, names);
            }
            Condition::True => code(13),
        }
    }

    fn term(&mut self, term: &Term) {
        let code = match term {
            Term::Internal => 20,
            Term::Action(..) => 21,
            Term::Sequence(..) => 22,
            Term::Choice(..) => 23,
            Term::Star(..) => 24,
            Term::Parallel(..) => 25,
            Term::Guard(..) => 26,
            Term::ChoiceOver(..) => 27,
            Term::ParallelOver(..) => 28,
            Term::Call(..) => 29,
        };
        self.push(code, Role::TermCode { full: self.scope.len() == 8 });
        self.operands(term);
    }

    fn operands(&mut self, term: &Term) {
        match term {
            Term::Internal => {}
            Term::Action(label, arguments) => {
                self.reference(*label, count_of(&self.rules.labels));
                self.arguments(arguments, &self.rules.labels[usize::from(*label)]);
            }
            Term::Sequence(left, right) | Term::Choice(left, right) => {
                self.term(left);
                self.term(right);
            }
            Term::Star(inner) => self.term(inner),
            Term::Parallel(mask, left, right) => {
                self.mask(mask);
                self.term(left);
                self.term(right);
            }
            Term::Guard(condition, inner) => {
                let now = count_of(&self.rules.functions);
                self.condition(condition, Names { variables: count_of(&self.scope), now, before: 0 });
                self.term(inner);
            }
            Term::ChoiceOver(domain, inner) => {
                self.reference(*domain, count_of(&self.rules.domains));
                self.under(*domain, inner);
            }
            Term::ParallelOver(domain, mask, inner) => {
                self.reference(*domain, count_of(&self.rules.domains));
                self.mask(mask);
                self.under(*domain, inner);
            }
            Term::Call(process, arguments) => {
                self.reference(*process, self.defined_processes);
                self.arguments(arguments, &self.rules.processes[usize::from(*process)].parameters);
            }
        }
    }

    fn under(&mut self, domain: u16, inner: &Term) {
        self.scope.push(domain);
        self.term(inner);
        self.scope.pop();
    }

    fn mask(&mut self, mask: &Mask) {
        let labels = self.rules.labels.len();
        for (place, &word) in mask.iter().enumerate() {
            let here = labels.saturating_sub(16 * place).min(16);
            self.push(word, Role::MaskWord { defined: ((1u32 << here) - 1) as u16 });
        }
    }

    fn arguments(&mut self, arguments: &[Argument], parameters: &[u16]) {
        for (argument, domain) in arguments.iter().zip(parameters) {
            match argument {
                Argument::Constant(value) => {
                    self.push(1, Role::ArgumentCode);
                    let elements = self.rules.domains[usize::from(*domain)];
                    self.push(*value, Role::ArgumentConstant { elements });
                }
                Argument::Variable(number) => {
                    self.push(2, Role::ArgumentCode);
                    let fitting = self.scope.iter().map(|bound| bound == domain).collect();
                    self.push(*number, Role::ArgumentVariable { fitting });
                }
            }
        }
    }
}
