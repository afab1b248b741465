//! One step in place: words before the redex stay, words behind it move at most once.

use crate::depths::Depths;
use crate::measure::Plan;
use crate::renaming::{lower, raise, Substitution};
use oracle::words::{pack_term, LET, VARIABLE};
use std::ops::Range;

/// The current term in the front of one scratch buffer, and a second one for new stretches.
pub struct Buffers<'a> {
    pub current: &'a mut [u64],
    pub length: usize,
    pub stretch: &'a mut [u64],
}

impl Buffers<'_> {
    /// The words of the current term.
    pub fn term(&self) -> &[u64] {
        &self.current[..self.length]
    }

    /// Rewrites by the plan; the next term is not longer than either buffer.
    pub fn rewrite(
        &mut self,
        plan: Plan,
        calls: &[u64],
        depths: &mut Depths,
        substitution: &mut Substitution,
    ) {
        match plan {
            Plan::Insert { node, computation } => {
                self.insert_let(node, computation, calls, depths);
            }
            Plan::MoveLet { bound, outer_body } => {
                // let (let P, b), c becomes let P, let b, c: P moves over the inner let's word.
                self.current.copy_within(bound.clone(), bound.start - 1);
                self.current[bound.end - 1] = pack_term(LET, 0, 0);
                raise(&mut self.current[outer_body], 1, calls, depths);
            }
            Plan::MoveCase {
                left,
                right,
                outer_body,
            } => self.move_case(left, right, outer_body, calls, depths),
            Plan::Substitute { redex, body, value } => {
                let body = &self.current[body];
                let value = &self.current[value];
                let length = substitution.write(self.stretch, body, value, calls);
                self.replace(redex, length);
            }
            Plan::Keep { redex, part } => self.keep(redex, part),
            Plan::Drop { redex, body } => {
                lower(&mut self.current[body.clone()], calls, depths);
                self.keep(redex, body);
            }
        }
    }

    /// The node with a new variable for the computation, under a let that binds the computation.
    fn insert_let(
        &mut self,
        node: Range<usize>,
        computation: Range<usize>,
        calls: &[u64],
        depths: &mut Depths,
    ) {
        let new_length = node.len() + 2;
        let new_variable = pack_term(VARIABLE, 0, 0);
        self.stretch[0] = pack_term(LET, 0, 0);
        let mut length = self.append(1, computation.clone());
        let node_start = length;
        length = self.append(length, node.start..computation.start);
        let variable_place = length;
        self.stretch[variable_place] = new_variable;
        self.append(length + 1, computation.end..node.end);
        // The new variable is raised with the node's other parts, and then set again.
        let new_node = &mut self.stretch[node_start..new_length];
        raise(new_node, 0, calls, depths);
        self.stretch[variable_place] = new_variable;
        self.replace(node, new_length);
    }

    /// let (case v, l, r), c becomes case v, (let l, c), (let r, c).
    fn move_case(
        &mut self,
        left: Range<usize>,
        right: Range<usize>,
        outer_body: Range<usize>,
        calls: &[u64],
        depths: &mut Depths,
    ) {
        let redex = left.start - 3..outer_body.end;
        raise(&mut self.current[outer_body.clone()], 1, calls, depths);
        let case_and_subject = left.start - 2..left.start;
        let mut length = self.append(0, case_and_subject);
        for branch in [left, right] {
            self.stretch[length] = pack_term(LET, 0, 0);
            length = self.append(length + 1, branch);
            length = self.append(length, outer_body.clone());
        }
        self.replace(redex, length);
    }

    /// Copies words of the term to the new stretch, at `length`; answers its length then.
    fn append(&mut self, length: usize, words: Range<usize>) -> usize {
        let end = length + words.len();
        self.stretch[length..end].copy_from_slice(&self.current[words]);
        end
    }

    /// Puts the new stretch, of this length, in the place of these words.
    fn replace(&mut self, words: Range<usize>, new_length: usize) {
        let new_end = words.start + new_length;
        self.current.copy_within(words.end..self.length, new_end);
        self.current[words.start..new_end].copy_from_slice(&self.stretch[..new_length]);
        self.length = self.length - words.len() + new_length;
    }

    /// Puts a part of these words in their place.
    fn keep(&mut self, words: Range<usize>, part: Range<usize>) {
        let new_end = words.start + part.len();
        self.current.copy_within(part, words.start);
        self.current.copy_within(words.end..self.length, new_end);
        self.length = self.length - words.end + new_end;
    }
}
