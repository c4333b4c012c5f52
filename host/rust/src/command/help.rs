//! What the command tells of itself.

/// The command's name and its version.
pub const VERSION: &str = concat!("latchtwig ", env!("CARGO_PKG_VERSION"));

/// All commands and options.
pub const TEXT: &str = "\
latchtwig reads SAT formulas and the logs of SAT solvers, and says whether they keep the rules of their format.

usage: latchtwig check [OPTION..] FILE..
       latchtwig list [OPTION..] FILE..
       latchtwig log [OPTION..] FILE..
       latchtwig --help | --version

check   says of each FILE that it is accepted, or where and why it is refused.
list    prints what was read before that: the header and each clause, or a log's verdict and literals.
log     is list for solvers' logs.

FILE may be of any length. It is held in memory whole. `-` is standard input.

--format F        the format: plain, weighted, grouped, log or weighted2022. Where it is not named, it is
                  found out: by the word after `p` of the header, `cnf`, `wcnf` or `gcnf`; of a text
                  without a header by the file's ending, .cnf or .dimacs for plain, .wcnf for
                  weighted2022, .gcnf for grouped, .log or .out for log; else it is plain.
--lenient         apply no count of a header, and pass over log lines of no known kind. All else is
                  refused as without it.
--cr              a CR without LF ends a line too. Without this a text of such lines is one comment if
                  it begins with one, and so a formula without clauses.
--require-header  refuse a text without a header, and a header with a count of 0, which leaves the count
                  open. Without this an empty file is a formula.
--json            print one JSON object a line: one for each FILE, after those of what list prints.
--                what follows is a FILE, even if it begins with `-`.

A refusal is told as FILE:LINE:COLUMN, its number, what was expected and what was found; then the line,
with odd bytes escaped, and a caret under the byte. Columns count bytes.

Exit status: 0 if every FILE is accepted, 1 if one is refused, 2 if there is trouble: the words are wrong,
a FILE cannot be read or changes while it is read, or what is found cannot be written. Trouble is told on
standard error, or with --json, as far as it is a FILE's, on standard output.
";
