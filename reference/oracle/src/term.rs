//! Terms (the paper's recipes) as trees; variables are de Bruijn numbers.

/// A node with its parts. Calls carry their number; functions, pairs, injections and units their
/// type.
#[derive(Clone, Debug, PartialEq, Eq)]
pub enum Term {
    Variable(u32),
    Call(u32, Vec<Term>),
    Function(u32, Box<Term>),
    Application(Box<Term>, Box<Term>),
    Let(Box<Term>, Box<Term>),
    Pair(u32, Box<Term>, Box<Term>),
    First(Box<Term>),
    Second(Box<Term>),
    Left(u32, Box<Term>),
    Right(u32, Box<Term>),
    Case(Box<Term>, Box<Term>, Box<Term>),
    Unit(u32),
}

/// How a part stands to its node.
#[derive(Clone, Copy, Debug, PartialEq, Eq)]
pub enum Role {
    /// An operand position (the paper's operand place).
    Operand,
    /// The bound part of a let.
    Bound,
    /// A part under one binder: a function's or let's body, or a branch.
    Scope,
}

impl Role {
    /// The number of variables bound around a part of this role.
    pub fn binders(self) -> u32 {
        u32::from(self == Role::Scope)
    }
}

/// The parts of a node by its kind, said once for both ways to borrow them: `$iter` is how a call's
/// arguments are borrowed.
macro_rules! parts {
    ($term:expr, $iter:ident) => {
        match $term {
            Term::Variable(_) | Term::Unit(_) => [None, None, None],
            Term::Call(_, arguments) => {
                assert!(arguments.len() <= 3, "a call has at most three arguments");
                let mut arguments = arguments.$iter();
                [arguments.next(), arguments.next(), arguments.next()]
            }
            Term::Function(_, part)
            | Term::First(part)
            | Term::Second(part)
            | Term::Left(_, part)
            | Term::Right(_, part) => [Some(part), None, None],
            Term::Application(one, two) | Term::Let(one, two) | Term::Pair(_, one, two) => {
                [Some(one), Some(two), None]
            }
            Term::Case(subject, left, right) => [Some(subject), Some(left), Some(right)],
        }
    };
}

impl Term {
    /// The parts in order, each with its role.
    pub fn parts(&self) -> impl Iterator<Item = (Role, &Term)> {
        let parts: [Option<&Term>; 3] = parts!(self, iter);
        self.roles().into_iter().zip(parts.into_iter().flatten())
    }

    /// The parts in order, each with its role, to be changed in place.
    pub fn parts_mut(&mut self) -> impl Iterator<Item = (Role, &mut Term)> {
        let roles = self.roles();
        let parts: [Option<&mut Term>; 3] = parts!(self, iter_mut);
        roles.into_iter().zip(parts.into_iter().flatten())
    }

    /// The roles of the first, second and third part.
    fn roles(&self) -> [Role; 3] {
        match self {
            Term::Function(..) => [Role::Scope; 3],
            Term::Let(..) => [Role::Bound, Role::Scope, Role::Scope],
            Term::Case(..) => [Role::Operand, Role::Scope, Role::Scope],
            _ => [Role::Operand; 3],
        }
    }

    /// The number of nodes, which is the length in words.
    pub fn size(&self) -> usize {
        1 + self.parts().map(|(_, part)| part.size()).sum::<usize>()
    }

    /// Whether a node of this kind is a value if its operands are.
    pub fn has_value_kind(&self) -> bool {
        use Term::*;
        matches!(
            self,
            Variable(_) | Function(..) | Pair(..) | Left(..) | Right(..) | Unit(_)
        )
    }

    /// A value (the paper's V): variables, functions and units; pairs and injections whose parts are
    /// values. Everything else is a computation (the paper's P).
    pub fn is_value(&self) -> bool {
        let mut parts = self.parts();
        self.has_value_kind() && parts.all(|(role, part)| role != Role::Operand || part.is_value())
    }

    /// The number of operand positions in the whole term that hold a computation.
    pub fn computation_operands(&self) -> usize {
        self.parts()
            .map(|(role, part)| {
                let here = role == Role::Operand && !part.is_value();
                usize::from(here) + part.computation_operands()
            })
            .sum()
    }

    /// All nodes in prefix order.
    pub fn nodes(&self) -> Vec<&Term> {
        let mut nodes = Vec::new();
        let mut pending = vec![self];
        while let Some(node) = pending.pop() {
            nodes.push(node);
            let parts: Vec<&Term> = node.parts().map(|(_, part)| part).collect();
            pending.extend(parts.into_iter().rev());
        }
        nodes
    }

    /// The node with this index in prefix order, which the term has, to be changed in place.
    pub fn node_mut(&mut self, index: usize) -> &mut Term {
        fn find<'a>(term: &'a mut Term, remaining: &mut usize) -> Option<&'a mut Term> {
            if *remaining == 0 {
                return Some(term);
            }
            *remaining -= 1;
            term.parts_mut().find_map(|(_, part)| find(part, remaining))
        }
        find(self, &mut { index }).expect("the index is that of a node of the term")
    }
}
