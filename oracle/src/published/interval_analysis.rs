//! The transfer functions of one analysis. Licence: Apache-2.0, see NOTICE.
//! Between the two marks stands the text of bril-lib/src/analysis/interval_analysis.rs, unchanged; the rest is ours.
use super::lexer::{Token, TokenValue};
use crate::domains::{BOOL_RANGE, FALSE_RANGE, Interval, LatticeNoContext, TRUE_RANGE};
use core::cmp::Ordering;

// ---- cut from bril-lib/src/analysis/interval_analysis.rs begins ----
#[derive(Debug, Clone, Copy, PartialEq, Eq, Hash)]
pub struct IntervalAnalysis;

impl IntervalAnalysis {
    fn transfer_binary_op(token: Token, lhs: Interval, rhs: Interval) -> Interval {
        match token.value {
            TokenValue::Add => lhs + rhs,
            TokenValue::Mul => lhs * rhs,
            TokenValue::Sub => lhs - rhs,
            TokenValue::Div => Interval::top_(),
            TokenValue::Mod => lhs % rhs,
            TokenValue::Equal => lhs.equals(rhs),
            TokenValue::And => lhs.logical_and(rhs),
            TokenValue::Or => lhs.logical_or(rhs),
            TokenValue::LessThan => match lhs.strict_cmp(rhs) {
                Some(Ordering::Less) => TRUE_RANGE,
                Some(_) => FALSE_RANGE,
                _ => BOOL_RANGE,
            },
            TokenValue::GreaterThan => match lhs.strict_cmp(rhs) {
                Some(Ordering::Greater) => TRUE_RANGE,
                Some(_) => FALSE_RANGE,
                _ => BOOL_RANGE,
            },
            TokenValue::LessThanOrEq => match lhs.weak_cmp(rhs) {
                Some(Ordering::Greater) => FALSE_RANGE,
                Some(_) => TRUE_RANGE,
                _ => BOOL_RANGE,
            },
            TokenValue::GreaterThanOrEq => match lhs.weak_cmp(rhs) {
                Some(Ordering::Less) => FALSE_RANGE,
                Some(_) => TRUE_RANGE,
                _ => BOOL_RANGE,
            },
            _ => {
                panic!("Unexpected binary operator.")
            }
        }
    }

    fn transfer_unary_op(token: Token, operand: Interval) -> Interval {
        match token.value {
            TokenValue::Not => operand.logical_not(),
            TokenValue::Identity => operand,
            _ => {
                panic!("Unexpected unary operator.");
            }
        }
    }
}
// ---- cut ends ----

pub fn binary(token: Token, lhs: Interval, rhs: Interval) -> Interval {
    IntervalAnalysis::transfer_binary_op(token, lhs, rhs)
}

pub fn unary(token: Token, operand: Interval) -> Interval {
    IntervalAnalysis::transfer_unary_op(token, operand)
}
