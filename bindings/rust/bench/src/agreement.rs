//! All rows of a call give the same answer and write the same to the buffers: nothing is timed
//! before that.

use plain::layout::PRODUCT_GROUPS;
use plain::settings::SETTINGS;

use crate::calls::{Answer, Buffers, Call, Question, Row, Takes, CALLS};

/// Every call on a book, accepted or not, in every setting and for every product group, and in one
/// past the last. The plain Rust, a call's last row, says what is due.
pub fn agree_on(book: &[u8]) -> Result<(), String> {
    for call in &CALLS {
        let (plain, others) = call.rows.split_last().expect("a call has rows");
        for question in questions(call, book) {
            let due = asked(plain, question);
            if let Some(row) = others.iter().find(|row| asked(row, question) != due) {
                return Err(format!(
                    "{} differs from {} in setting {}, group {}",
                    row.name, plain.name, question.setting, question.group
                ));
            }
        }
    }
    Ok(())
}

fn questions<'a>(call: &Call, book: &'a [u8]) -> Vec<Question<'a>> {
    let (last_setting, last_group) = match call.takes {
        Takes::Nothing => (0, 0),
        Takes::Setting => (SETTINGS, 0),
        Takes::SettingAndGroup => (SETTINGS, PRODUCT_GROUPS + 1),
    };
    let mut questions = Vec::new();
    for setting in 0..=last_setting {
        for group in 0..=last_group {
            questions.push(Question {
                book,
                setting,
                group,
            });
        }
    }
    questions
}

fn asked(row: &Row, question: Question) -> (Answer, Buffers) {
    let mut buffers = Buffers::new();
    ((row.answer)(question, &mut buffers), buffers)
}

#[cfg(test)]
mod tests {
    use super::agree_on;
    use crate::books;

    #[test]
    fn all_rows_agree_on_random_books() {
        for book in books::untimed() {
            agree_on(&book).unwrap();
        }
    }

    #[test]
    fn all_rows_agree_on_the_samples() {
        for (name, book) in books::samples().unwrap() {
            agree_on(&book).unwrap_or_else(|trouble| panic!("{name}: {trouble}"));
        }
    }
}
