//! What the words of a query tell of what it may change in a session beyond its transactions.

use postgres_codec::Mark;

/// The words of those statements that may change a session: a default draws a number, which an
/// INSERT needs no word for, also where it is a part of a SELECT.
const TELLING: [&str; 5] = ["temp", "temporary", "default", "insert", "pg_settings"];
/// The words before a `(` after which nothing is called, or what changes nothing.
const KNOWN: &str =
    "abs all and any array array_agg as avg between by case cast ceil coalesce concat \
    count date_trunc distinct else except exists extract filter floor from \
    generate_series greatest having in intersect is join json_agg jsonb_agg lateral \
    least left length like limit lower max md5 min not now nullif numeric offset on or \
    over position rank replace returning right round row row_number select string_agg \
    substring sum then trim union upper using values when where";

/// What a query leaves, by its words. Where they stand in a text or a name counts too: so the ways
/// to write those matter little.
pub fn of_query(query: &str) -> Mark {
    let is_hidden = ["--", "/*", "&\""].iter().any(|sign| query.contains(*sign));
    if is_hidden || has_telling_word(query) || !are_known(query) {
        Mark::Marked
    } else {
        Mark::Plain
    }
}

fn has_telling_word(query: &str) -> bool {
    query
        .split(|letter: char| letter.is_ascii() && !letter.is_ascii_alphanumeric() && letter != '_')
        .any(is_telling)
}

fn is_telling(word: &str) -> bool {
    let is_temporary = word
        .as_bytes()
        .get(..7)
        .is_some_and(|begin| begin.eq_ignore_ascii_case(b"pg_temp"));
    is_temporary
        || TELLING
            .iter()
            .any(|telling| telling.eq_ignore_ascii_case(word))
}

// Whether each `(` has a known word before it.
fn are_known(query: &str) -> bool {
    let Some((before, _)) = query.rsplit_once('(') else {
        return true;
    };
    before.split('(').all(ends_in_known)
}

// A name with a point in it is none of those that are known.
fn ends_in_known(text: &str) -> bool {
    let text = text.trim_ascii_end();
    let word = text
        .rsplit(|letter: char| !is_of_name(letter))
        .next()
        .unwrap_or("");
    let is_part = text
        .trim_end_matches(is_of_name)
        .trim_ascii_end()
        .ends_with('.');
    !is_part
        && (word.is_empty()
            || KNOWN
                .split(' ')
                .any(|known| known.eq_ignore_ascii_case(word)))
}

fn is_of_name(letter: char) -> bool {
    // (some servers take the vertical tab for a space)
    letter.is_ascii_alphanumeric()
        || matches!(letter, '_' | '$' | '.' | '"' | '\u{b}')
        || !letter.is_ascii()
}
