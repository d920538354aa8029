// Made from crates/dump_captures/src/pairing.rt by rust/erase.
//! What a packet answers, and what got no answer.

use crate::objects::{close_object, open_summary};
use crate::options::Options;
use packet_fields::Form;
use packet_fields::field::field;
use packet_pairs::{Answered, Asked, Pairs, show_answered, show_asked};
use rattle_std::io;
use rattle_std::io::Write;
#[allow(unused_imports)]
use rattle_std::prelude::*;

/// Prints what a packet answers.
#[inline]
pub fn show_answer<W: Write>(
    output: &mut W,
    form: Form,
    answer: Option<Answered>,
) -> io::Result<()> {
    match answer {
        Some(answered) => show_answered(output, form, &answered),
        None => Ok(()),
    }
}

/// Prints the questions that got no answer, where answers are looked for.
pub(crate) fn show_unanswered<W: Write>(
    output: &mut W,
    options: &Options,
    file: Option<&str>,
    pairs: &Pairs,
) -> io::Result<()> {
    if options.pairs && options.prints {
        return show_waiting(output, options, file, pairs);
    }
    Ok(())
}

// Prints the questions that wait, and how many were dropped.
fn show_waiting<W: Write>(
    output: &mut W,
    options: &Options,
    file: Option<&str>,
    pairs: &Pairs,
) -> io::Result<()> {
    let (earlier, later) = pairs.waiting();
    show_questions(output, options, file, earlier)?;
    show_questions(output, options, file, later)?;
    show_dropped(output, options, file, pairs.dropped())
}

// Prints these questions.
fn show_questions<W: Write>(
    output: &mut W,
    options: &Options,
    file: Option<&str>,
    questions: &[Asked],
) -> io::Result<()> {
    for question in questions {
        show_question(output, options, file, question)?;
    }
    Ok(())
}

fn show_question<W: Write>(
    output: &mut W,
    options: &Options,
    file: Option<&str>,
    question: &Asked,
) -> io::Result<()> {
    match options.form {
        Form::Json => {
            open_summary(output, "unanswered", file)?;
            show_asked(output, Form::Json, question)?;
            close_object(output)
        }
        Form::Lines => show_in_lines(output, options.is_brief, question),
    }
}

// Prints a question in lines, or on one.
fn show_in_lines<W: Write>(output: &mut W, is_brief: bool, question: &Asked) -> io::Result<()> {
    if is_brief {
        let mut lines = Vec::new();
        show_asked(&mut lines, Form::Lines, question)?;
        return show_on_a_line(output, lines.as_slice());
    }
    output.write_all(b"unanswered\n")?;
    show_asked(output, Form::Lines, question)
}

// Prints how many questions were dropped, where there are any.
fn show_dropped<W: Write>(
    output: &mut W,
    options: &Options,
    file: Option<&str>,
    dropped: u64,
) -> io::Result<()> {
    if dropped == 0 {
        return Ok(());
    }
    show_count(output, options, file, dropped)
}

fn show_count<W: Write>(
    output: &mut W,
    options: &Options,
    file: Option<&str>,
    dropped: u64,
) -> io::Result<()> {
    match options.form {
        Form::Json => {
            open_summary(output, "unanswered", file)?;
            field(output, Form::Json, "dropped", dropped)?;
            close_object(output)
        }
        Form::Lines => show_dropped_in_lines(output, options.is_brief, dropped),
    }
}

// Prints the same in lines, or on one.
fn show_dropped_in_lines<W: Write>(output: &mut W, is_brief: bool, dropped: u64) -> io::Result<()> {
    if is_brief {
        let mut lines = Vec::new();
        field(&mut lines, Form::Lines, "dropped", dropped)?;
        return show_on_a_line(output, lines.as_slice());
    }
    output.write_all(b"unanswered\n")?;
    field(output, Form::Lines, "dropped", dropped)
}

// Prints these lines on one that begins with what they are.
fn show_on_a_line<W: Write>(output: &mut W, lines: &[u8]) -> io::Result<()> {
    output.write_all(b"unanswered")?;
    put_as_words(output, lines)?;
    output.write_all(b"\n")
}

// Prints lines as words of one: each loses its end and the first of the spaces before it.
fn put_as_words<W: Write>(output: &mut W, lines: &[u8]) -> io::Result<()> {
    let mut begins = true;
    for octet in lines {
        let ends = is_end(*octet);
        put_unless(output, *octet, begins | ends)?;
        begins = !begins & ends;
    }
    Ok(())
}

// Whether an octet is the end of a line.
fn is_end(octet: u8) -> bool {
    octet == b'\n'
}

// Prints an octet, or nothing.
fn put_unless<W: Write>(output: &mut W, octet: u8, is_left_out: bool) -> io::Result<()> {
    if is_left_out {
        return Ok(());
    }
    output.write_all(&[octet])
}
