//! The inputs of the differential run, in groups.

mod chains;
mod changed;
mod edges;
mod faults;
mod good;
mod large;
mod long;
mod many;
mod many_stretches;
mod mark_lists;
mod marks;
mod noise;
pub mod patterned;
pub mod positions;
mod records;
pub mod shapes;
mod stretches;
mod tables;
mod tiny;

use crate::part::{Group, Groups};
use crate::random::Random;

const fn group<Element>(
    name: &'static str,
    draw: fn(&mut Random) -> Vec<Vec<Element>>,
) -> Group<Element> {
    Group { name, draw }
}

pub const READING_ONCE: Groups<u8> = &[
    group("the lines of 01", edges::lines_of_01),
    group("the lines of 106", marks::lines_of_106),
    group("every byte where a command is due", edges::command_bytes),
    group("every byte as a mark's side", edges::sides),
    group(
        "marks at the limits, whole and cut short",
        edges::marks_at_the_limits,
    ),
    group(
        "lengths at the limits, whole and cut short",
        edges::lengths_at_the_limits,
    ),
    group(
        "operands of a match at the limits",
        edges::operands_at_the_limits,
    ),
    group(
        "2,047 to 2,049 matches, whole, cut short and faulty",
        many::around_the_most_matches,
    ),
    group("one change in a script of 2,048 matches", many::changed),
    group(
        "511 to 513 marks, whole, cut short and faulty",
        marks::around_the_most,
    ),
    group("about 2,048 matches and 512 marks", marks::longest),
    group("scripts past 29,707 bytes", many::past_the_longest),
];

pub const READING_EACH_ROUND: Groups<u8> = &[
    group("few good matches", good::few_matches),
    group("many good matches", good::many_matches),
    group("good scripts cut short at every byte", changed::cut_short),
    group("one byte changed", changed::byte_changed),
    group("one byte put in or taken out", changed::byte_moved),
    group("noise", noise::noise),
    group(
        "a good beginning, then noise",
        noise::behind_a_good_beginning,
    ),
    group("one fault behind good matches", faults::one_fault),
    group("several faults at one command", faults::several_faults),
    group("tails", faults::tails),
];

pub const LISTS_ONCE: Groups<u32> = &[
    group("the lines of the request", records::lines_of_101),
    group("p and q at the limits", records::lengths_at_the_limits),
    group(
        "numbers of a record at the limits",
        records::record_at_the_limits,
    ),
    group(
        "every list of up to two records in one letter, faulty ones too",
        records::every_tiny_list,
    ),
    group(
        "2,047 to 2,049 records, good and with every fault",
        records::around_the_most,
    ),
    group("up to 65,537 records", records::past_the_most),
    group("the lines of 106, as lists", mark_lists::lines_of_106),
    group("numbers of a mark at the limits", mark_lists::at_the_limits),
    group(
        "every list of up to a record and two marks in one letter, faulty ones too",
        mark_lists::every_tiny_list,
    ),
    group(
        "511 to 513 marks, good and with every fault, and too many records",
        mark_lists::around_the_most,
    ),
];

pub const LISTS_EACH_ROUND: Groups<u32> = &[
    group("few good records", records::few),
    group("many good records", records::many),
    group("good records of telling numbers", records::telling),
    group(
        "one fault at the first, a middle and the last record",
        records::one_fault,
    ),
    group("several faults at one record", records::several_faults),
    group("several faulty records", records::several_faulty),
    group(
        "a count that is no multiple of four",
        records::no_multiple_of_four,
    ),
    group("p or q out of range", records::lengths_out_of_range),
    group("many good marks", mark_lists::many),
    group(
        "one fault at the first, a middle and the last mark",
        mark_lists::one_fault,
    ),
    group(
        "faulty records and faulty marks, several of each",
        mark_lists::several_faulty,
    ),
    group(
        "counts that are odd, or no multiple of four, or both",
        mark_lists::odd_counts,
    ),
    group("any numbers", records::noise),
];

pub const LONGEST: Groups<u8> = &[group("2,047 and 2,048 matches", many::longest)];

pub const EDGES: Groups<u8> = &[
    group("the lines of 01", edges::lines_of_01),
    group("the lines of 106", marks::lines_of_106),
    group(
        "2,047 to 2,049 matches, whole, cut short and faulty",
        many::around_the_most_matches,
    ),
    group(
        "511 to 513 marks, whole, cut short and faulty",
        marks::around_the_most,
    ),
    group("about 2,048 matches and 512 marks", marks::longest),
    group("scripts past 29,707 bytes", many::past_the_longest),
];

pub const EVERY_TINY_SCRIPT: Groups<u8> = &[
    group("every script of two matches in 5 letters", tiny::every_pair),
    group(
        "every script of three matches in 3 letters",
        tiny::every_triple,
    ),
    group(
        "every script of a match and up to two marks in 3 letters",
        tiny::every_match_and_marks,
    ),
    group(
        "every script of two matches and a mark in 3 letters",
        tiny::every_pair_and_mark,
    ),
];

/// Scripts whose rows are few enough to try buffers of every length.
pub const FEW_ROWS: Groups<u8> = &[
    group("the lines of 01", edges::lines_of_01),
    group("the lines of 106", marks::lines_of_106),
    group("a few tiny scripts", tiny::a_few),
    group("a few tiny scripts with marks", |random| {
        marks::into(random, tiny::a_few)
    }),
];

pub const CHAINS_ONCE: Groups<u8> = &[group("the lines of 104", chains::lines_of_104)];

pub const CHAINS: Groups<u8> = &[
    group("direct pieces in few letters", chains::few_letters),
    group("equally long matches on a grid", chains::on_a_grid),
    group("links that hardly gain anything", chains::hardly_worth_it),
    group("15 to 60 matches", chains::many_pieces),
];

pub const CHAINS_WITH_MARKS: Groups<u8> = &[
    group("direct pieces in few letters, with marks", |random| {
        marks::into(random, chains::few_letters)
    }),
    group("equally long matches on a grid, with marks", |random| {
        marks::into(random, chains::on_a_grid)
    }),
    group("15 to 60 matches, with marks", |random| {
        marks::into(random, chains::many_pieces)
    }),
    group("overlaps, with marks", |random| {
        marks::into(random, shapes::overlaps)
    }),
    group("few matches in many letters, with marks", marks::among_few),
    group("many marks that no match spans", marks::unspanned),
];

pub const CHAINS_OF_FEW_ROWS: Groups<u8> = &[
    group("up to three matches", chains::a_few),
    group("up to three matches, with marks", |random| {
        marks::into(random, chains::a_few)
    }),
];

pub const LARGE: Groups<u8> = &[
    group("zigzags of up to 3,000 rows", large::zigzags),
    group("staircases of up to 2,048 matches", large::staircases),
    group(
        "31 to 33, 63 to 65 and 255 to 257 matches, cut by the last",
        large::around_the_columns,
    ),
    group("1,000 to 3,001 rows in blocks", large::blocks),
    group("many matches, few overlaps", large::few_overlaps),
    group("2,048 matches that share no letter", large::no_overlaps),
    group("more pieces than any table holds", large::too_many_pieces),
];

pub const LARGE_WITH_MARKS: Groups<u8> = &[
    group(
        "31 to 33, 63 to 65 and 255 to 257 matches, cut by a mark",
        large::columns_cut_by_a_mark,
    ),
    group(
        "3,000 rows and one more by a mark",
        large::one_row_by_a_mark,
    ),
    group("1,000 to 3,001 rows in blocks, with marks", |random| {
        marks::into(random, large::blocks)
    }),
    group("many matches, few overlaps, with marks", |random| {
        marks::into(random, large::few_overlaps)
    }),
    group("2,048 matches that share no letter, with marks", |random| {
        marks::into(random, large::no_overlaps)
    }),
];

pub const LONG_ONCE: Groups<u8> = &[
    group("33 to 2,048 matches that overlap", long::overlapping),
    group("zigzags beside up to 2,046 matches", long::many_matches),
    group("511 to 43,000 cuts on a side", long::many_cuts),
    group(
        "many cuts in a late turn, up to 2,048 matches",
        long::large_crowds,
    ),
];

pub const LONG_EACH_ROUND: Groups<u8> = &[
    group("zigzags beside 25 matches and more", long::walkers),
    group("zigzags under long matches", long::zigzags_inside),
    group("staircases of 20 steps and more", long::staircases),
    group("many cuts in a late turn", long::crowds),
];

pub const LONG_ONCE_WITH_MARKS: Groups<u8> = &[
    group("33 to 2,048 matches that overlap, with marks", |random| {
        marks::into(random, long::overlapping)
    }),
    group(
        "many cuts in a late turn, up to 2,048 matches, with marks",
        |random| marks::into(random, long::large_crowds),
    ),
];

pub const LONG_WITH_MARKS: Groups<u8> = &[
    group("zigzags beside 25 matches and more, with marks", |random| {
        marks::into(random, long::walkers)
    }),
    group(
        "staircases that only marks cut",
        long::staircases_cut_by_marks,
    ),
];

pub const SHAPES: Groups<u8> = &[
    group("up to five matches in 5 letters", tiny::sampled),
    group("overlaps", shapes::overlaps),
    group("nested matches", shapes::nested),
    group("the same match several times", shapes::identical),
    group("palindromes", shapes::palindromes),
    group("zigzags", shapes::zigzags),
    group("staircases", shapes::staircases),
    group("long matches and few cuts", shapes::long_matches),
];

pub const SHAPES_WITH_MARKS: Groups<u8> = &[
    group("up to five matches in 5 letters, with marks", |random| {
        marks::into(random, tiny::sampled)
    }),
    group("overlaps, with marks", |random| {
        marks::into(random, shapes::overlaps)
    }),
    group("nested matches, with marks", |random| {
        marks::into(random, shapes::nested)
    }),
    group("the same match several times, with marks", |random| {
        marks::into(random, shapes::identical)
    }),
    group("palindromes, with marks", |random| {
        marks::into(random, shapes::palindromes)
    }),
    group("zigzags, with marks", |random| {
        marks::into(random, shapes::zigzags)
    }),
    group("staircases, with marks", |random| {
        marks::into(random, shapes::staircases)
    }),
    group("long matches and few cuts, with marks", |random| {
        marks::into(random, shapes::long_matches)
    }),
    group("few matches in many letters, with marks", marks::among_few),
    group("many marks that no match spans", marks::unspanned),
];

pub const FAULTS: Groups<u8> = &[
    group("good scripts cut short at every byte", changed::cut_short),
    group("one byte changed", changed::byte_changed),
    group("one fault behind good matches", faults::one_fault),
    group("several faults at one command", faults::several_faults),
    group("tails", faults::tails),
];

pub const TABLES: Groups<u32> = &[
    group("rows of few numbers", tables::few_numbers),
    group("any numbers", tables::any_numbers),
    group("lengths around powers of two", tables::powers_of_two),
    group("few stretches in many directions", tables::directions),
    group("tables of the slow program", tables::of_scripts),
    group("every length up to three rows", tables::every_small_length),
];

pub const LONG_TABLES: Groups<u32> = &[
    group("3,000 rows and more", tables::long),
    group("rows of a pattern", tables::patterned),
];

pub const STRETCHES: Groups<u32> = &[
    group("rows that overlap", stretches::overlaps),
    group("rows that touch", stretches::touching),
    group("rows within others", stretches::nested),
    group("few rows many times", stretches::equal),
    group("rows of no letter", stretches::empty),
    group("numbers around 2^31 and 2^32", stretches::around_32_bits),
    group("A and B far from alike", stretches::columns_that_differ),
];

pub const MANY_STRETCHES: Groups<u32> = &[
    group(
        "3,000 to 40,000 rows apart, in five orders",
        many_stretches::in_some_orders,
    ),
    group("one row over many", many_stretches::one_over_all),
    group(
        "some rows of many reach over others",
        many_stretches::reaching_on,
    ),
    group(
        "many rows that touch, with holes",
        many_stretches::touching_with_holes,
    ),
    group("many rows that overlap", many_stretches::overlaps),
    group("many rows near the beginning", many_stretches::skewed),
    group("many rows many times", many_stretches::duplicates),
    group("many rows of one left end", many_stretches::one_left_end),
];

/// Scripts whose tables are worth summing up, beside others.
pub const OWN_TABLES: Groups<u8> = &[
    group("the lines of 01", edges::lines_of_01),
    group("up to 29,970 rows of one letter", large::single_letters),
];
