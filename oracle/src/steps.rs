//! The steps between statements that paths follow.

use crate::program::{Program, Statement};

/// For each statement, by its index from 0, the indices it steps to; none of these lists is empty.
#[derive(Clone, Debug)]
pub struct Steps {
    pub forward: Vec<Vec<usize>>,
    pub backward: Vec<Vec<usize>>,
}

impl Steps {
    pub fn new(program: &Program) -> Steps {
        let statements = program.statements();
        let mut backward = vec![Vec::new(); statements.len()];
        let mut forward = Vec::with_capacity(statements.len());
        for (at, statement) in statements.iter().enumerate() {
            let targets = match *statement {
                Statement::Branch { then, other, .. } if then == other => vec![then as usize - 1],
                Statement::Branch { then, other, .. } => {
                    vec![then as usize - 1, other as usize - 1]
                }
                Statement::Write(_) => vec![at],
                _ => vec![at + 1],
            };
            if !matches!(statement, Statement::Write(_)) {
                targets.iter().for_each(|&target| backward[target].push(at));
            }
            forward.push(targets);
        }
        for (at, sources) in backward.iter_mut().enumerate() {
            if sources.is_empty() {
                sources.push(at);
            }
        }
        Steps { forward, backward }
    }
}
