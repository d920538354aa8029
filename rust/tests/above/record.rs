// Made from crates/tests_above/src/record.rt by rust/erase.
mod classes;
mod edns;
mod entries;
mod name;
mod name_dotted;
mod name_text_refusal;
mod rdata;
mod rdata_refusal;
mod record;
mod refusal;
mod strings;
mod text;
mod text_entry;
mod text_lines;
mod text_refusal;
mod types;
mod update;
