//! Parts of types, and the two statements of demand 3 about them.

use crate::tables::{Tables, Type};
use crate::term::Term;
use crate::typing::node_types;

/// Marks `number` and all its parts; a type is part of itself.
fn mark_parts(tables: &Tables, number: u32, marked: &mut [bool]) {
    let mut pending = vec![number];
    while let Some(number) = pending.pop() {
        let mark = &mut marked[number as usize];
        if *mark {
            continue;
        }
        *mark = true;
        if let Some((left, right)) = tables.type_at(number).parts() {
            pending.extend([left, right]);
        }
    }
}

/// The types of the whole term, of the inputs, and of the calls which occur in the term.
fn interface_types(tables: &Tables, term: &Term, type_number: u32) -> Vec<u32> {
    let mut types = vec![type_number];
    types.extend(&tables.inputs);
    for node in term.nodes() {
        if let Term::Call(number, _) = node {
            types.extend(tables.signature_at(*number).types());
        }
    }
    types
}

/// For each type, whether it is part of an interface type of the term.
fn interface_parts(tables: &Tables, term: &Term, type_number: u32) -> Vec<bool> {
    let mut marked = vec![false; tables.types.len()];
    for number in interface_types(tables, term, type_number) {
        mark_parts(tables, number, &mut marked);
    }
    marked
}

/// The subformula property of a well-typed term: every node's type is part of an interface type of
/// the same term.
pub fn has_subformula_property(tables: &Tables, term: &Term) -> bool {
    let types = node_types(tables, term).expect("the term is well typed");
    let marked = interface_parts(tables, term, types[0]);
    types.iter().all(|&number| marked[number as usize])
}

/// Whether this type has a function in it.
pub fn has_function(tables: &Tables, number: u32) -> bool {
    let mut marked = vec![false; tables.types.len()];
    mark_parts(tables, number, &mut marked);
    any_function(tables, &marked)
}

/// Demand 3's premise: the types of the inputs, of the result and of the term's calls have no function in
/// them.
pub fn has_first_order_interface(tables: &Tables, term: &Term, type_number: u32) -> bool {
    !any_function(tables, &interface_parts(tables, term, type_number))
}

fn any_function(tables: &Tables, marked: &[bool]) -> bool {
    let functions = tables.types.iter().zip(marked);
    functions
        .filter(|(_, &marked)| marked)
        .any(|(entry, _)| matches!(entry, Type::Function(..)))
}
