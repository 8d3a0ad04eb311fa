//! Sloefertand's second program: fourteen tables, found by trying all small trees, making all
//! small texts, and drawing some long patterns and some large trees.

mod batch;
mod buffers;
mod carrying;
mod checks;
mod classes;
mod compaction;
mod counts;
mod damage;
mod damaged_proposals;
mod deep_tags;
mod digest;
mod document;
mod document_calls;
mod documents;
mod draws;
mod either_order;
mod evidence;
#[cfg(test)]
mod examples;
mod id_edges;
mod id_orders;
mod identities;
mod large_mends;
mod large_proposals;
mod letters;
mod limits;
mod lines;
mod long_reads;
mod made_texts;
mod mend_orders;
mod mending;
mod mends;
mod mode;
mod mode_lines;
mod node_set;
mod numbering;
mod pairs;
mod pattern;
mod pattern_texts;
mod placing;
mod plans;
mod printed_plans;
mod printer;
mod proposal_trees;
mod proposals;
mod read_trees;
mod refusal;
mod right_lists;
mod right_tags;
mod right_texts;
mod rows;
mod single_bytes;
mod table_damages;
mod tag_damages;
mod tag_levels;
mod tag_trees;
mod tags;
mod tags_read;
mod tally;
mod texts;
mod tree;
mod tree_tags;
mod tree_texts;
mod two_damages;
mod updates;
mod verdict;
mod widening;
mod wider;
mod wider_plans;
mod word_damages;

use numbering::Numbering;
use pairs::Pairs;
use std::env;
use std::ffi::OsString;
use std::io::{self, BufWriter, Write};
use std::process::ExitCode;

const USAGE: &str = "usage: second [test_documents | test_texts | test_small | pairs | documents | damage | plans | texts | deletes | reads | tags | lines | evidence | tags-read | identities | wider | mends | counts]";

/// What is asked for.
#[derive(Clone, Copy, PartialEq, Eq)]
enum Wanted {
    All,
    OnDocuments,
    OnTexts,
    Others,
    Pairs,
    Documents,
    Damage,
    Plans,
    Texts,
    Deletes,
    Reads,
    Tags,
    Lines,
    Evidence,
    TagsRead,
    Identities,
    Wider,
    Mends,
    Counts,
}

/// What the arguments ask for, if they make sense.
fn wanted(arguments: &[OsString]) -> Option<Wanted> {
    match arguments {
        [] => Some(Wanted::All),
        [one] => match one.to_str()? {
            "test_documents" => Some(Wanted::OnDocuments),
            "test_texts" => Some(Wanted::OnTexts),
            "test_small" => Some(Wanted::Others),
            "pairs" => Some(Wanted::Pairs),
            "documents" => Some(Wanted::Documents),
            "damage" => Some(Wanted::Damage),
            "plans" => Some(Wanted::Plans),
            "texts" => Some(Wanted::Texts),
            "deletes" => Some(Wanted::Deletes),
            "reads" => Some(Wanted::Reads),
            "tags" => Some(Wanted::Tags),
            "lines" => Some(Wanted::Lines),
            "evidence" => Some(Wanted::Evidence),
            "tags-read" => Some(Wanted::TagsRead),
            "identities" => Some(Wanted::Identities),
            "wider" => Some(Wanted::Wider),
            "mends" => Some(Wanted::Mends),
            "counts" => Some(Wanted::Counts),
            _ => None,
        },
        _ => None,
    }
}

/// Writes the tables over documents, which `test_documents` prints too, and gives their counts.
fn write_on_documents(numbering: &Numbering, out: &mut dyn Write) -> io::Result<counts::Counts> {
    let mut counts = documents::write(numbering, out)?;
    counts.extend(either_order::write(numbering, out)?);
    counts.extend(long_reads::write(out)?);
    counts.extend(identities::write(out)?);
    counts.extend(mends::write(out)?);
    Ok(counts)
}

/// Writes the tables over texts, which `test_texts` prints too, and gives their counts.
fn write_on_texts(out: &mut dyn Write) -> io::Result<counts::Counts> {
    let mut counts = texts::write(out)?;
    counts.extend(tree_tags::write(out)?);
    counts.extend(tags_read::write(out)?);
    Ok(counts)
}

/// Writes the other tables, which `test_small` prints too, and gives their counts.
fn write_others(numbering: &Numbering, out: &mut dyn Write) -> io::Result<counts::Counts> {
    let pairs = Pairs::tried(numbering);
    let mut counts = pairs.write(out)?;
    counts.extend(damage::write(out)?);
    counts.extend(plans::write(numbering, &pairs, out)?);
    counts.extend(lines::write(out)?);
    counts.extend(proposals::write(numbering, out)?);
    counts.extend(wider::write(numbering, &pairs, out)?);
    Ok(counts)
}

/// Writes all tables, by these groups, and gives all their counts.
fn write_all(numbering: &Numbering, out: &mut dyn Write) -> io::Result<counts::Counts> {
    let mut counts = write_on_documents(numbering, out)?;
    counts.extend(write_on_texts(out)?);
    counts.extend(write_others(numbering, out)?);
    Ok(counts)
}

/// Writes what is asked for.
fn run(wanted: Wanted, out: &mut dyn Write) -> io::Result<()> {
    let numbering = Numbering::full();
    match wanted {
        Wanted::All => {
            write_all(&numbering, out)?;
        }
        Wanted::OnDocuments => {
            write_on_documents(&numbering, out)?;
        }
        Wanted::OnTexts => {
            write_on_texts(out)?;
        }
        Wanted::Others => {
            write_others(&numbering, out)?;
        }
        Wanted::Pairs => {
            Pairs::tried(&numbering).write(out)?;
        }
        Wanted::Documents => {
            documents::write(&numbering, out)?;
        }
        Wanted::Damage => {
            damage::write(out)?;
        }
        Wanted::Plans => {
            plans::write(&numbering, &Pairs::tried(&numbering), out)?;
        }
        Wanted::Texts => {
            texts::write(out)?;
        }
        Wanted::Deletes => {
            either_order::write(&numbering, out)?;
        }
        Wanted::Reads => {
            long_reads::write(out)?;
        }
        Wanted::Tags => {
            tree_tags::write(out)?;
        }
        Wanted::Lines => {
            lines::write(out)?;
        }
        Wanted::Evidence => {
            proposals::write(&numbering, out)?;
        }
        Wanted::TagsRead => {
            tags_read::write(out)?;
        }
        Wanted::Identities => {
            identities::write(out)?;
        }
        Wanted::Wider => {
            wider::write(&numbering, &Pairs::tried(&numbering), out)?;
        }
        Wanted::Mends => {
            mends::write(out)?;
        }
        Wanted::Counts => counts::write(&write_all(&numbering, &mut io::sink())?, out)?,
    }
    out.flush()
}

fn main() -> ExitCode {
    let arguments: Vec<OsString> = env::args_os().skip(1).collect();
    let Some(wanted) = wanted(&arguments) else {
        eprintln!("{USAGE}");
        return ExitCode::from(2);
    };
    let mut out = BufWriter::new(io::stdout().lock());
    match run(wanted, &mut out) {
        Ok(()) => ExitCode::SUCCESS,
        Err(error) => {
            eprintln!("second: {error}");
            ExitCode::FAILURE
        }
    }
}
