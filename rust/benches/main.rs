//! The engine beside other ways to the same answers: one program, one machine, the same input.

mod agreement;
mod before;
mod changing;
mod checking;
mod deliveries;
mod drawing;
mod growth;
mod inputs;
mod joining;
mod machine;
mod paging;
mod peers;
mod table;
mod timing;
mod verdict;

fn print_method() {
    println!("# Benchmarks\n");
    machine::print();
    println!(
        "- input: a SplitMix64 generator, seed {:#x}. Lists are random subsets of 0..200,000, so that of any list",
        inputs::SEED
    );
    println!(
        "  about 30 in 100 stand in any other (intersection of 4: of 0..80,000, 75 in 100); \"wide gaps\" are random 32-bit"
    );
    println!("  numbers, which hardly ever meet. In the tables of growth the subsets are as dense as those of 0..200,000");
    println!(
        "- time: {} samples of about {} ms or one repeat, the contenders of a case in turns; ratios are of best times",
        timing::SAMPLES,
        timing::SAMPLE_MILLISECONDS
    );
    println!(
        "- caches are warm: each sample has one repeat off the clock before it. Rows are not cleared between repeats, except"
    );
    println!("  where it says zeroed; zeroing is off the clock");
    println!("- engine: one run through the library, its tests of lists and expression counted; codes, arguments and reply row");
    println!("  are prepared. Same steps: the same in idiomatic Rust, with the same tests, refusals, replies, moves and places");
    println!("- BTreeSet, CRoaring and sqlite3 work on prepared sets, bitmaps and tables; building them is a column of its own.");
    println!("  Merges and BTreeSet make a new vector for the result, CRoaring and sqlite3 write into a prepared row");
    println!(
        "- page by page: each page is a run of its own from the bookmark of the one before, and so tests the lists again and"
    );
    println!("  goes from place 0 to the bookmark. A hop over 64 numbers is one move");
    if cfg!(before) {
        println!(
            "- before: the engine of an earlier landing, linked too; the contests that it takes part in have {} samples. Each",
            timing::SAMPLES_BEFORE
        );
        println!("  function of both engines begins a page: where the linker puts it else can make a tenth");
    }
    println!(
        "- one change: a number comes into one of the lists or goes out of it, by a call that tests lists, expression and kept"
    );
    println!(
        "  members, as the same steps do. Drawn afresh: the rows are changed by hand, and runs draw all members again. No tests:"
    );
    println!("  lists and members are taken as right, and only the one number is looked up");
    println!("- every list was delivered. Moves by hand: one walk makes the tests, then whole words of bits are copied");
    println!(
        "- joined: a daily delivery as long as the full one, of which 4,000 numbers a list are new and 4,000 of the full one's"
    );
    println!("  are missing. The outcome that is encoded beside it is prepared: merging the numbers is not counted there");
    println!("- before it is timed, every contender's whole result is compared with the others'");
}

fn main() {
    print_method();
    agreement::demand();
    let drawn = drawing::all();
    let checked = checking::run();
    let paged = paging::all();
    changing::run();
    let speeds = deliveries::all();
    let joined = joining::all();
    growth::all();
    verdict::print(&drawn, &checked.results, &speeds, &joined);
    before::print(&drawn, &checked, &paged);
}
