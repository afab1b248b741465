//! Terms as text: one line for each let and branch, everything else within a line.

use super::labels::Names;
use super::types::Formulas;
use oracle::tables::Type;
use oracle::term::Term;

/// The term's lines, joined.
pub fn term_text(formulas: Formulas, term: &Term) -> String {
    let mut writer = Writer {
        formulas,
        names: Names::new(formulas.legend),
        text: String::new(),
        indent: 1,
    };
    writer.indentation();
    writer.block(term);
    writer.text.push('\n');
    writer.text
}

struct Writer<'a> {
    formulas: Formulas<'a>,
    names: Names,
    text: String,
    indent: usize,
}

impl Writer<'_> {
    fn push(&mut self, text: &str) {
        self.text.push_str(text);
    }

    fn indentation(&mut self) {
        // Deep terms are not set in further than can be read.
        self.text.push_str(&"  ".repeat(self.indent.min(40)));
    }

    fn new_line(&mut self) {
        self.text.truncate(self.text.trim_end().len());
        self.text.push('\n');
        self.indentation();
    }

    /// A term that may take several lines.
    fn block(&mut self, term: &Term) {
        match term {
            Term::Let(bound, body) => {
                // What is bound is written before the name is in scope, but after it in the text.
                let before = std::mem::take(&mut self.text);
                self.push("let = ");
                self.nested_block(bound);
                let bound = self.text.split_off("let =".len());
                self.text = before;
                let name = self.names.bind();
                self.push(&format!("let {name} ={bound}"));
                if bound.contains('\n') {
                    self.new_line();
                    self.push("in");
                } else {
                    self.push(" in");
                }
                self.new_line();
                self.block(body);
                self.names.leave();
            }
            Term::Case(subject, left, right) => {
                self.push("case ");
                self.part(subject);
                self.push(" of");
                self.branch("left", left);
                self.branch("right", right);
            }
            _ => self.line(term),
        }
    }

    /// A block that is set in and starts on its own line if it is a let or a case.
    fn nested_block(&mut self, term: &Term) {
        if matches!(term, Term::Let(..) | Term::Case(..)) {
            self.indent += 2;
            self.new_line();
            self.block(term);
            self.indent -= 2;
        } else {
            self.line(term);
        }
    }

    fn branch(&mut self, side: &str, branch: &Term) {
        self.indent += 1;
        self.new_line();
        let name = self.names.bind();
        self.push(&format!("{side} {name}: "));
        self.indent += 1;
        if matches!(branch, Term::Let(..) | Term::Case(..)) {
            self.new_line();
        }
        self.block(branch);
        self.indent -= 2;
        self.names.leave();
    }

    /// A term that is no let and no case.
    fn line(&mut self, term: &Term) {
        match term {
            Term::Variable(number) => {
                let name = self.names.variable(*number);
                self.push(&name);
            }
            Term::Call(number, arguments) => {
                let name = self.names.call(*number);
                self.push(&format!("{name}("));
                for (index, argument) in arguments.iter().enumerate() {
                    self.push(if index > 0 { ", " } else { "" });
                    self.nested_block(argument);
                }
                self.push(")");
            }
            Term::Function(type_number, body) => {
                let name = self.names.bind();
                let domain = match self.formulas.tables.type_at(*type_number) {
                    Type::Function(domain, _) => self.formulas.short(domain),
                    other => panic!("a function of type {other:?}"),
                };
                self.push(&format!("λ{name}: {domain}. "));
                self.nested_block(body);
                self.names.leave();
            }
            Term::Application(head, operand) => {
                self.part(head);
                self.push(" ");
                self.part(operand);
            }
            Term::Pair(_, left, right) => {
                self.push("(");
                self.nested_block(left);
                self.push(", ");
                self.nested_block(right);
                self.push(")");
            }
            Term::First(operand) => self.prefixed("first", operand),
            Term::Second(operand) => self.prefixed("second", operand),
            Term::Left(_, operand) => self.prefixed("left", operand),
            Term::Right(_, operand) => self.prefixed("right", operand),
            Term::Unit(_) => self.push("()"),
            Term::Let(..) | Term::Case(..) => self.block(term),
        }
    }

    fn prefixed(&mut self, word: &str, operand: &Term) {
        self.push(&format!("{word} "));
        self.part(operand);
    }

    /// An operand, in parentheses unless it needs none.
    fn part(&mut self, term: &Term) {
        let needs_none = matches!(
            term,
            Term::Variable(_) | Term::Call(..) | Term::Pair(..) | Term::Unit(_)
        );
        if needs_none {
            self.line(term);
        } else {
            self.push("(");
            self.nested_block(term);
            self.push(")");
        }
    }
}
