//! A stand-in for the token that the transfer functions look at: the operators of a sheet, by their numbers.

#[derive(Clone, Copy)]
pub enum TokenValue {
    Add,
    Sub,
    Mul,
    Div,
    Mod,
    Equal,
    And,
    Or,
    LessThan,
    GreaterThan,
    LessThanOrEq,
    GreaterThanOrEq,
    Not,
    Identity,
}

#[derive(Clone, Copy)]
pub struct Token {
    pub value: TokenValue,
}

/// The operator that a sheet numbers so: 2 to 15, none for any other number.
pub fn token(number: i64) -> Option<Token> {
    use TokenValue::*;
    let value = match number {
        2 => Add,
        3 => Sub,
        4 => Mul,
        5 => Div,
        6 => Mod,
        7 => Equal,
        8 => And,
        9 => Or,
        10 => LessThan,
        11 => GreaterThan,
        12 => LessThanOrEq,
        13 => GreaterThanOrEq,
        14 => Not,
        15 => Identity,
        _ => return None,
    };
    Some(Token { value })
}
