//! What was found of a body, for both formats.

use falzheod::table::{from_tokens, Table};
use falzheod::{drain, Cause, CheckError, Limit, Place, Refusal, Upload};

/// What was found of a body.
pub struct Finding {
    /// 0 passes; 9 where the walk of the drain fails; 1 where a limit is passed; 4 where
    /// a reading would find no root.
    pub number: u32,
    /// A short fixed word for the reason.
    pub cause: Option<&'static str>,
    /// The drain's row, where the number is 9.
    pub row: Option<usize>,
    /// Where the fault is, if it has a place.
    pub place: Option<Place>,
    /// A second place that the message speaks of, and what is there.
    pub other: Option<(&'static str, Place)>,
    /// What is so, without the place.
    pub message: String,
}

impl Finding {
    pub fn of(body: &[u8], checked: &Result<Upload<'_>, CheckError>) -> Finding {
        match checked {
            Ok(upload) => passed(body, upload),
            Err(error) => refused(body, error),
        }
    }

    pub fn passes(&self) -> bool {
        self.number == 0
    }
}

fn passed(body: &[u8], upload: &Upload<'_>) -> Finding {
    let (tokens, bytes) = (upload.rows().len(), body.len());
    Finding {
        number: 0,
        cause: None,
        row: None,
        place: None,
        other: None,
        message: format!("passes: {tokens} tokens, {bytes} bytes"),
    }
}

fn refused(body: &[u8], error: &CheckError) -> Finding {
    let place = error.place();
    let said = error.to_string();
    let message = said.strip_prefix(&format!("{place}: ")).unwrap_or(&said);
    Finding {
        number: number(error),
        cause: Some(cause(error)),
        row: error.cause().and_then(|_| row(body)),
        // these two are said of the body as a whole
        place: (!matches!(error, CheckError::Empty | CheckError::Table)).then_some(place),
        other: other(error),
        message: message.to_string(),
    }
}

fn number(error: &CheckError) -> u32 {
    match error {
        CheckError::Empty | CheckError::NotUtf8 { .. } | CheckError::NoElement { .. } => 4,
        CheckError::TooLarge { .. } | CheckError::Table => 1,
        _ => 9,
    }
}

fn cause(error: &CheckError) -> &'static str {
    match (error, error.cause()) {
        (_, Some(Cause::Token)) => "token",
        (_, Some(Cause::Mismatched)) => "mismatched",
        (_, Some(Cause::Unclosed)) => "unclosed",
        (_, Some(Cause::Repeated)) => "repeated",
        (_, Some(Cause::Reference { .. })) => "reference",
        (CheckError::Empty, _) => "empty",
        (CheckError::NotUtf8 { .. }, _) => "not-utf-8",
        (CheckError::NoElement { .. }, _) => "no-element",
        (CheckError::TooLarge { limit, .. }, _) => match limit {
            Limit::Bytes => "limit-bytes",
            Limit::Rows => "limit-tokens",
            Limit::Open => "limit-open",
        },
        _ => "table",
    }
}

fn other(error: &CheckError) -> Option<(&'static str, Place)> {
    match error {
        CheckError::Mismatched { opened, .. } | CheckError::Unclosed { opened, .. } => {
            Some(("opened here", *opened))
        }
        CheckError::Repeated { first, .. } => Some(("first here", *first)),
        _ => None,
    }
}

/// The row that the drain refuses.
fn row(body: &[u8]) -> Option<usize> {
    let Table { rows, end } = from_tokens(body);
    match drain(body, &rows, end) {
        Err(Refusal::IllFormed { row, .. }) => Some(row),
        _ => None,
    }
}
