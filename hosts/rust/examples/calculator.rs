//! A calculator: reads expressions and prints their values. Tab completes the words that are its
//! arguments.

use std::env;

use comvizga::{Config, DefaultEditor, ReadlineError, Result};

fn main() -> Result<()> {
    let config = Config::builder()
        .max_history_size(1000)?
        .history_ignore_space(true)
        .keyseq_timeout(Some(50))
        .hints(true)
        .brackets(true)
        .build();
    let mut editor = DefaultEditor::with_config(config)?;
    let words: Vec<String> = env::args().skip(1).collect();
    editor.set_completer(move |_line, _cursor| words.clone());
    loop {
        match editor.readline("> ") {
            Ok(line) => {
                editor.add_history_entry(line.as_str())?;
                if let Some(answer) = answer_to(&line) {
                    println!("{answer}");
                }
            }
            Err(ReadlineError::Interrupted) => {} // C-c drops a line
            Err(ReadlineError::Eof) => return Ok(()),
            Err(error) => return Err(error),
        }
    }
}

/// How many brackets and signs may stand round a number.
const MOST_NESTED: usize = 200;

/// Why a line has no value, and the byte at which what is at fault begins.
type Refusal = (&'static str, usize);

/// Returns what is answered to a line: its value, or what is wrong with it. A blank line has none.
fn answer_to(line: &str) -> Option<String> {
    if line.chars().all(is_blank) {
        return None;
    }
    Some(match value_of(line) {
        Ok(value) => value.to_string(),
        Err((message, at)) => format!("{}: {message}", place_in(line, at)),
    })
}

/// Returns the place of a byte in words: columns are counted from 1, and lines where there are
/// several.
fn place_in(line: &str, at: usize) -> String {
    let before = line.get(..at).unwrap_or(line);
    let rows = before.matches('\n').count() + 1;
    let column = before.chars().rev().take_while(|c| *c != '\n').count() + 1;
    if line.contains('\n') {
        format!("line {rows}, column {column}")
    } else {
        format!("column {column}")
    }
}

/// A part of a line that stands for itself.
#[derive(Clone, Copy, PartialEq)]
enum Token {
    /// A number.
    Number(i64),
    /// A name, none of which has a value.
    Name,
    /// An operator, a bracket or `=`.
    Mark(char),
}

/// The tokens that are left, with the places at which they begin.
struct Reader {
    tokens: Vec<(Token, usize)>,
    next: usize,
    end: usize,
}

/// Returns the value of a line.
fn value_of(line: &str) -> std::result::Result<i64, Refusal> {
    let mut reader = scan(line)?;
    let value = reader.sum(MOST_NESTED)?;
    if reader.peek().is_some() || reader.end < line.len() {
        return Err(("expected an operator or the end", reader.place()));
    }
    Ok(value)
}

/// Returns the tokens of a line, up to a character that is foreign to arithmetic.
fn scan(line: &str) -> std::result::Result<Reader, Refusal> {
    let mut tokens = Vec::new();
    let mut at = 0;
    loop {
        at += span(&line[at..], is_blank);
        let rest = &line[at..];
        let (token, length) = match rest.chars().next() {
            Some('0'..='9') => {
                let length = span(rest, |c| c.is_ascii_digit());
                let number = rest[..length].parse();
                let number = number.map_err(|_| ("the number is too large", at))?;
                (Token::Number(number), length)
            }
            Some('a'..='z' | 'A'..='Z' | '_') => {
                let length = span(rest, |c| c.is_ascii_alphanumeric() || c == '_');
                (Token::Name, length)
            }
            Some(mark) if "+-*/%()=".contains(mark) => (Token::Mark(mark), 1),
            _ => break,
        };
        tokens.push((token, at));
        at += length;
    }
    Ok(Reader {
        tokens,
        next: 0,
        end: at,
    })
}

/// Returns whether a character is a blank.
fn is_blank(c: char) -> bool {
    matches!(c, ' ' | '\t' | '\n')
}

/// Returns how many bytes at the front are characters of a kind.
fn span(text: &str, is_of_kind: impl Fn(char) -> bool) -> usize {
    text.find(|c| !is_of_kind(c)).unwrap_or(text.len())
}

impl Reader {
    /// Returns the next token.
    fn peek(&self) -> Option<Token> {
        self.tokens.get(self.next).map(|(token, _)| *token)
    }

    /// Returns the place of the next token, or that of the end.
    fn place(&self) -> usize {
        self.tokens.get(self.next).map_or(self.end, |(_, at)| *at)
    }

    /// Passes the next token if it is one of these marks. Returns it, with its place.
    fn pass(&mut self, marks: &str) -> Option<(char, usize)> {
        let at = self.place();
        match self.peek() {
            Some(Token::Mark(mark)) if marks.contains(mark) => {
                self.next += 1;
                Some((mark, at))
            }
            _ => None,
        }
    }

    /// Reads products with `+` and `-` between them.
    fn sum(&mut self, depth: usize) -> std::result::Result<i64, Refusal> {
        let mut value = self.product(depth)?;
        while let Some(operator) = self.pass("+-") {
            value = apply(operator, value, self.product(depth)?)?;
        }
        Ok(value)
    }

    /// Reads operands with `*`, `/` and `%` between them.
    fn product(&mut self, depth: usize) -> std::result::Result<i64, Refusal> {
        let mut value = self.operand(depth)?;
        while let Some(operator) = self.pass("*/%") {
            value = apply(operator, value, self.operand(depth)?)?;
        }
        Ok(value)
    }

    /// Reads a number, a negation, or a sum in brackets.
    fn operand(&mut self, depth: usize) -> std::result::Result<i64, Refusal> {
        let at = self.place();
        if let Some((mark, _)) = self.pass("-(") {
            let inner = depth.checked_sub(1);
            let inner = inner.ok_or(("brackets are nested too deeply", at))?;
            return match mark {
                '-' => apply((mark, at), 0, self.operand(inner)?),
                _ => {
                    let value = self.sum(inner)?;
                    let closing = self.pass(")");
                    closing.map(|_| value).ok_or(("expected )", self.place()))
                }
            };
        }
        match self.peek() {
            Some(Token::Number(value)) => {
                self.next += 1;
                Ok(value)
            }
            Some(Token::Name) => Err(("this name has no value", at)),
            _ => Err(("expected a number, a name or (", at)),
        }
    }
}

/// Returns what an operator, which stands at a place, makes of two numbers.
fn apply((mark, at): (char, usize), left: i64, right: i64) -> std::result::Result<i64, Refusal> {
    let value = match mark {
        '+' => left.checked_add(right),
        '-' => left.checked_sub(right),
        '*' => left.checked_mul(right),
        _ if right == 0 => return Err(("division by zero", at)),
        '/' => left.checked_div(right),
        _ => Some(left.wrapping_rem(right)),
    };
    value.ok_or(("the result does not fit 64 bits", at))
}

#[cfg(test)]
mod tests {
    use super::*;

    #[test]
    fn expressions_have_values() {
        let values = [
            ("3*(4+5)", "27"),
            ("-7 / 2", "-3"),
            ("-7 % 2", "-1"),
            ("1 - 2 - 3", "-4"),
            ("2 + 3 * 4", "14"),
            ("2 *\n(3 + 4)", "14"),
            ("--5", "5"),
            ("(-9223372036854775807 - 1) % -1", "0"),
        ];
        for (line, value) in values {
            assert_eq!(answer_to(line).as_deref(), Some(value), "{line}");
        }
        assert_eq!(answer_to(" \t"), None);
    }

    #[test]
    fn other_lines_are_explained() {
        let complaints = [
            ("27 / (3 - 3)", "column 4: division by zero"),
            ("x", "column 1: this name has no value"),
            ("(1", "column 3: expected )"),
            ("1 + é", "column 5: expected a number, a name or ("),
            ("1 +", "column 4: expected a number, a name or ("),
            ("2 3", "column 3: expected an operator or the end"),
            ("é2\u{a0}", "column 1: expected a number, a name or ("),
            (
                "1\n+ 2 3",
                "line 2, column 5: expected an operator or the end",
            ),
            (
                "9223372036854775807 + 1",
                "column 21: the result does not fit 64 bits",
            ),
            ("9223372036854775808", "column 1: the number is too large"),
            (
                "-(-9223372036854775807 - 1)",
                "column 1: the result does not fit 64 bits",
            ),
        ];
        for (line, complaint) in complaints {
            assert_eq!(answer_to(line).as_deref(), Some(complaint), "{line}");
        }
    }

    #[test]
    fn nesting_has_an_end() {
        let nested = |depth| format!("{}1{}", "(".repeat(depth), ")".repeat(depth));
        assert_eq!(answer_to(&nested(MOST_NESTED)).as_deref(), Some("1"));
        assert_eq!(
            answer_to(&nested(MOST_NESTED + 1)).as_deref(),
            Some("column 201: brackets are nested too deeply")
        );
    }
}
