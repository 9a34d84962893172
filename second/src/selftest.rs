//! Tests of this program by means other than its own: a search beside the algebra, a shift
//! register beside the long division, Rust's own numbers beside the written ones.

mod blocks;
mod frames;
mod lines;
mod messages;
mod reader;
mod survey;

/// Nothing, or what was found wrong.
type Outcome = Result<(), String>;

const TESTS: [(&str, fn() -> Outcome); 31] = [
    ("the field multiplies as polynomials do", blocks::field),
    ("the generator has seventeen roots in a row", blocks::roots),
    (
        "the parity sums and the least words belong to the code",
        blocks::code,
    ),
    (
        "long division agrees with a shift register",
        blocks::divisions,
    ),
    (
        "up to eight wrong places are put right",
        blocks::few_wrong_places,
    ),
    (
        "the row of changed places leads to the word",
        blocks::changed_places,
    ),
    ("the corrector agrees with a search", blocks::search),
    ("patterns that fool a vote are refused", blocks::votes),
    ("the published block is written and read", blocks::published),
    (
        "a frame's rows and columns are words in either order",
        frames::product_frames,
    ),
    (
        "eight bad rows leave the sent frame",
        frames::eight_bad_rows,
    ),
    ("nine bad rows can leave another", frames::nine_bad_rows),
    ("frames agree with a search", frames::search),
    ("another length is no frame", frames::lengths),
    ("headers have the published bytes", messages::published),
    ("messages read back", messages::messages_read_back),
    ("groups read back", messages::groups_read_back),
    ("repeats add nothing to a group", messages::repeats),
    (
        "lengths are right where messages can have them",
        messages::lengths,
    ),
    ("logs give the counts they were made from", survey::logs),
    (
        "counts are possible where a small log has them",
        survey::small_counts,
    ),
    ("a log in pieces is told as the whole one", reader::cuttings),
    (
        "a short log is told alike however it is cut",
        reader::all_cuttings,
    ),
    ("the longest log comes in pieces too", reader::longest_log),
    ("readers that pieces lead to are good ones", reader::reached),
    ("to readers that are good pieces lead", reader::reachable),
    ("exact decimals are exact", survey::decimals),
    ("channels and kilohertz belong together", survey::channels),
    ("cases are cases and bad lines are none", lines::cases),
    (
        "a refusal or a repeat leaves what was lent",
        lines::refusals,
    ),
    ("answer 11 leaves a reader as it was", lines::readers),
];

/// Whether all went well; a line on standard output for each test.
pub fn run() -> bool {
    let mut failed = 0;
    for (name, test) in TESTS {
        match test() {
            Ok(()) => println!("ok      {name}"),
            Err(fault) => {
                failed += 1;
                println!("FAILED  {name}: {fault}");
            }
        }
    }
    println!("{} passed, {failed} failed", TESTS.len() - failed);
    failed == 0
}

fn expect(holds: bool, fault: impl Fn() -> String) -> Outcome {
    if holds {
        Ok(())
    } else {
        Err(fault())
    }
}

fn expect_equal<T: PartialEq + std::fmt::Debug>(found: T, wanted: T, what: &str) -> Outcome {
    expect(found == wanted, || {
        format!("{what}: {found:?} instead of {wanted:?}")
    })
}
