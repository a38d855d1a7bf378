//! Prints the tables of the benchmark: `bench [LETTERS] [SECONDS]`. The letters
//! choose among the tables a to j; the seconds bound the search of table e.

mod calls;
#[cfg(feature = "library")]
mod columns;
#[cfg(feature = "library")]
mod expansions;
mod growth;
mod search;
#[cfg(feature = "library")]
mod shares;
mod tables;
#[cfg(feature = "library")]
mod trees;
mod worst;

/// How long the search of table e may take where no argument says so.
const SEARCH_SECONDS: f64 = 90.0;

fn main() {
    let mut letters = "abcdefghij".to_string();
    let mut seconds = SEARCH_SECONDS;
    for argument in std::env::args().skip(1) {
        match argument.parse() {
            Ok(number) => seconds = number,
            Err(_) => letters = argument,
        }
    }
    if !bench::library::LINKED {
        println!("The proved library is not linked: the tables are the twin's alone.\n");
    }
    for letter in letters.chars() {
        match letter {
            'a' => tables::paper(),
            'b' => tables::verdicts(),
            'c' => tables::ratios(),
            'd' => growth::growth(),
            'e' => {
                worst::late_sheets();
                worst::words();
                search::search(seconds);
            }
            #[cfg(feature = "library")]
            'f' => trees::trees(),
            'g' => worst::lengths(),
            #[cfg(feature = "library")]
            'h' => expansions::clause_sheets(),
            #[cfg(feature = "library")]
            'i' => shares::shares(),
            #[cfg(feature = "library")]
            'j' => columns::columns(),
            #[cfg(not(feature = "library"))]
            'f' | 'h' | 'i' | 'j' => println!("({letter}) The library is not linked.\n"),
            _ => eprintln!("no table {letter}"),
        }
    }
}
