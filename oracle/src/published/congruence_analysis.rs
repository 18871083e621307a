//! The transfer functions of one analysis. Licence: Apache-2.0, see NOTICE.
//! Between the two marks stands the text of bril-lib/src/analysis/congruence_analysis.rs, unchanged; the rest is ours.
use super::lexer::{Token, TokenValue};
use crate::domains::{Congruence, LatticeNoContext};
use core::cmp::Ordering;

// ---- cut from bril-lib/src/analysis/congruence_analysis.rs begins ----

#[derive(Debug, Clone, Copy, PartialEq, Eq, Hash)]
pub struct CongruenceAnalysis;

impl CongruenceAnalysis {
    fn transfer_binary_op(token: Token, lhs: Congruence, rhs: Congruence) -> Congruence {
        match token.value {
            TokenValue::Add => lhs + rhs,
            TokenValue::Mul => lhs * rhs,
            TokenValue::Sub => lhs - rhs,
            TokenValue::Div => lhs / rhs,
            TokenValue::Mod => Congruence::top_(),
            TokenValue::Equal => lhs.equals(rhs),
            TokenValue::And => lhs.logical_and(rhs),
            TokenValue::Or => lhs.logical_or(rhs),
            TokenValue::LessThan => match lhs.strict_cmp(rhs) {
                Some(Ordering::Less) => Congruence::from(1, 0),
                Some(_) => Congruence::from(0, 0),
                _ => Congruence::top_(),
            },
            TokenValue::GreaterThan => match lhs.strict_cmp(rhs) {
                Some(Ordering::Greater) => Congruence::from(1, 0),
                Some(_) => Congruence::from(0, 0),
                _ => Congruence::top_(),
            },
            TokenValue::LessThanOrEq => match lhs.strict_cmp(rhs) {
                Some(Ordering::Greater) => Congruence::from(0, 0),
                Some(_) => Congruence::from(1, 0),
                _ => Congruence::top_(),
            },
            TokenValue::GreaterThanOrEq => match lhs.strict_cmp(rhs) {
                Some(Ordering::Less) => Congruence::from(0, 0),
                Some(_) => Congruence::from(1, 0),
                _ => Congruence::top_(),
            },
            _ => {
                panic!("Unexpected binary operator.")
            }
        }
    }

    fn transfer_unary_op(token: Token, operand: Congruence) -> Congruence {
        match token.value {
            TokenValue::Not => operand.logical_not(),
            TokenValue::Identity => operand,
            _ => {
                panic!("Unexpected unary operator.");
            }
        }
    }
}
// ---- cut ends ----

pub fn binary(token: Token, lhs: Congruence, rhs: Congruence) -> Congruence {
    CongruenceAnalysis::transfer_binary_op(token, lhs, rhs)
}

pub fn unary(token: Token, operand: Congruence) -> Congruence {
    CongruenceAnalysis::transfer_unary_op(token, operand)
}
