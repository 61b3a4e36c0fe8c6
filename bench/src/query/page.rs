//! The page of figures.

use crate::clock::{geometric_mean, median};
use crate::contest::{Cell, BACKTRACKING, FROM_WORDS, PROVED, SQLITE, UNPROVED};
use crate::drawings::{Drawing, BOTTLE, CAP_FIXED};
use crate::figures::count;
use crate::frame::{CLASSES, LABELS};
use crate::text::{micro, ratio, row};
use crate::two_way::{BOTH, ONCE};
use crate::{numbers, sqlite, work, Results};

const MATCHERS: &str = "\
- *proved query*: `matcher_query`. It checks the feed and the drawing, translates the drawing, runs the translation and reads the rows. Each slice is lent with just the words
  that are needed; of the work slice that is what *Work words* tells.
- *SQLite* VERSION in process and in memory: tables indexed both ways, one `SELECT DISTINCT … ORDER BY` for each drawing, prepared once. It is prepared in a database with
  statistics (`ANALYZE`) and in one without; the quicker one counts.
- *backtracking*: a search in Rust. Next is the node with most edges to those before it, of these the one of the smallest class, or a fixed one. Candidates come from the shortest
  list of neighbours, which are kept by label in both directions. Once all picked nodes have their objects, one way to go on is enough. The rows are sorted, and equal ones dropped.
- *backtracking from the words*: the same search, in the same order of nodes. Its index is built from the words of the feed each time, only of the classes and labels that the drawing names and
  in the directions that the search looks at, by counting, in slices that it keeps from query to query. The feed is not checked.
- *unproved algebra*: the same translation, run and rows by the same algorithms in plain Rust (`bench/src/query/algebra.rs` over `bench/src/peer/`), which are told below.

All five first gave the same rows, both algebras the same instructions, the same refusal and the same words in the work slice; otherwise the bench fails. Then they take turns. A time is processor time, the median of the turns in three passes.
**A ratio is the other's time to the proved query's, the median of the turns: above 1 the proved query is faster.** The tables and the statement of SQLite and the index and the order of nodes of
the search are ready before the clock starts. The proved query starts from the words of feed and drawing each time, and the search from the words from those of the feed. What that spares the
others is told under *Before the first query*.
";

const FRAMES: &str = "\
Regions stand on a grid, and each touches about three others: beside it, over or under it, or diagonally. `touch` has each touching pair in both directions, as long as a table's
4,096 pairs allow it. With 4,000 regions that would be 12,000 pairs, and 6,000 in one direction: so the largest frame has 4,096 touching pairs, each in one direction, from the lower
number to the higher. Its regions touch only about two others, and most drawings find fewer rows on it than on the frame of 1,300. `above` has the touching pairs that stand one over the other,
`covers` about one in eight touching pairs and those of bottles (a cap covers a neck over a body) and trays (three rims cover a floor), which are placed at random. Every region is in
the class `region`, some are in others. The same frames come out of every run.
";

const ONE_CAP: &str = "\
The bottle is asked about every cap, and about one that is known, that of the first bottle of the frame: its node is then fixed to this object. **A ratio is the time of the bottle to the time
of the bottle with its cap fixed, of the same matcher and in the same run: above 1 the fixed node saves time.** The proved query loads every table that the drawing names, as before, and checks
the feed; what becomes smaller are the registers behind the selection of the cap. A search begins at the known cap.
";

const STORED_ONCE: &str = "\
The frames above have each touching pair in both directions. Here each stands once, in chance order, and `touch` is two-way: its part of the feed is half as long, the translations are the
same word for word, and so are all registers and rows; otherwise the bench fails. The check of the feed sees fewer pairs, and each load of `touch` turns and merges them. **A ratio is the time
of the proved query with each pair stored once to its time with both directions stored, the median of the turns: below 1 the two-way label is faster.**
";

const SELECTIVE: &str = "\
There SQLite begins at the few objects of a small class, or at a known one, goes on by its indexes, and is done after few look-ups. ";

const SEARCH: &str = "\
Document 01 fixes the program and the registers: every table is loaded as a whole; every combination writes two tags and tau for each pair of its table, and anew the edges at both ends and the \
path of each picked node; a register is given up after its last use, but the pairs of all registers, beside the rows, tell how much more is written. A search writes nothing but its rows, and begins where there is \
least to try: on the bottle, the tray and the tree it looks at a few regions around a small class, the program at every touching pair. Where many embeddings share a row the program composes the \
unpicked middles of a chain away, and a search goes through each of them.";

const FROM_THE_WORDS: &str = "\
*Backtracking* shows what a query costs where one frame is asked many times: the index is built once, and then a search looks at few of its objects. *Backtracking from the words* shows what it \
costs where each frame is new: both then start from the same words, and whoever reads all of them once has paid most of what a selective drawing costs. The proved query also checks these words; \
the search believes them.";

const BESIDE_UNPROVED: &str = "\
In each query the proved one takes its scratch from the stack and zeroes it, in six lengths, from 1,024 words to 65,536, by the pairs that the work slice takes. The unproved one keeps its own from query to query. The proved translation hands the drawing on by value from step to step. What is paid so, whatever the frame, is in the next table; how \
the operators differ is in [bench-run.md](bench-run.md).";

/// The algorithms of both algebras.
const KERNELS: &str = "\
Both algebras work in the same ways:

- *feed*: a pass over each table that tells only whether all its pairs pass; where not, a walk to the first that does not.
- *composition* with a table of equal sides without gaps: on the left it cuts a part out of the other table, by two searches and a copy; on the right it picks the pairs whose right lies between
  two numbers, or copies the table where all do. With gaps, on the right: it picks the pairs whose right is found in it.
- *other compositions*, where the first table has one pair for each left: each pair gives what is found as it stands. The pairs of a value in the second table are found by subtraction where it
  has one pair for each left without gaps, else by an index in the scratch that has a word for each of its lefts, else by halving. Where the first table has more pairs for a left, they give the
  union of what is found, by marks or by merges; it is found by an index with a word for each number of the range, or by halving.
- *inverse*: by counts where the rights lie close, else by merges.
- *intersection* of a table with one that has eight times as many pairs, or more: each pair is sought from the last place on, in steps that double, then by halving. Else by one pass over both.
- *registers*: one pass over the list finds the last use of each. After an instruction, what it used last gives up its pairs, and what stands behind is moved down, each pair at most once.
- *rows*: read as they stand where they ascend; else their places are sorted.
";

/// From this ratio on a query is called even.
const EVEN: f64 = 0.9;

fn frames(results: &Results) -> String {
    let names = LABELS.iter().chain(&CLASSES[1..]).map(|name| name.to_string());
    let mut text = row(["regions", "neighbours"].map(String::from).into_iter().chain(names).chain(["words of the feed".into()]));
    text += &format!("|{}\n", "---:|".repeat(2 + LABELS.len() + CLASSES.len()));
    for frame in &results.frames {
        let sizes = frame.labels.iter().map(Vec::len).chain(frame.classes[1..].iter().map(Vec::len));
        let neighbours = format!("{:.1}{}", frame.neighbours, if frame.both { "" } else { ", one direction" });
        text += &row([count(frame.regions), neighbours].into_iter().chain(sizes.map(count)).chain([count(frame.feed.len())]));
    }
    text
}

fn drawings(results: &Results) -> String {
    let mut text = String::from("| drawing | nodes, picked ones with a star | edges |\n|---|---|---|\n");
    for drawing in &results.drawings {
        let (nodes, edges) = drawing.text();
        text += &row([drawing.name.into(), nodes, edges]);
    }
    text
}

/// The times and ratios of one query. Where it is refused the others have their times.
fn figures(cell: &Cell) -> [String; 6] {
    let other = |which| ratio(cell.ratio(which));
    let time = |which| format!("({} µs)", micro(cell.time(which)));
    match cell.refused {
        None => [count(cell.room.all), micro(cell.time(PROVED)), other(SQLITE), other(BACKTRACKING), other(FROM_WORDS), other(UNPROVED)],
        Some((number, place)) => {
            let refused = format!("refused: {number} at {place}");
            [String::new(), refused, time(SQLITE), time(BACKTRACKING), time(FROM_WORDS), "refused".into()]
        }
    }
}

fn table(results: &Results) -> String {
    let mut text = String::from(
        "| drawing | regions | rows | pairs in registers | proved query, µs | SQLite / proved | backtracking / proved | from the words / proved | unproved / proved |\n\
        |---|---:|---:|---:|---:|---:|---:|---:|---:|\n",
    );
    for (drawing, cells) in results.drawings.iter().zip(&results.cells) {
        for (i, cell) in cells.iter().enumerate() {
            let name = if i == 0 { drawing.name } else { "" };
            text += &row([name.into(), count(cell.regions), count(cell.rows)].into_iter().chain(figures(cell)));
        }
    }
    text
}

/// The queries that are not refused, with their drawings.
fn accepted(results: &Results) -> Vec<(&Drawing, &Cell)> {
    let all = results.drawings.iter().zip(&results.cells).flat_map(|(drawing, cells)| cells.iter().map(move |cell| (drawing, cell)));
    all.filter(|(_, cell)| cell.refused.is_none()).collect()
}

/// These queries by drawing: the regions, and the ratio behind a colon.
fn listed(queries: &[(&Drawing, &Cell)], which: usize) -> String {
    let mut parts: Vec<(&str, Vec<String>)> = Vec::new();
    for (drawing, cell) in queries {
        let one = format!("{}: {}", count(cell.regions), ratio(cell.ratio(which)));
        match parts.last_mut() {
            Some(last) if last.0 == drawing.name => last.1.push(one),
            _ => parts.push((drawing.name, vec![one])),
        }
    }
    parts.iter().map(|(name, each)| format!("{name} ({})", each.join(", "))).collect::<Vec<_>>().join(", ")
}

/// In how many queries the proved one is faster, and the least, the median and the greatest ratio.
fn outcome(results: &Results, which: usize) -> String {
    let queries = accepted(results);
    let mut ratios: Vec<f64> = queries.iter().map(|(_, cell)| cell.ratio(which)).collect();
    ratios.sort_by(f64::total_cmp);
    let faster = ratios.iter().filter(|&&x| x > 1.0).count();
    format!(
        "the proved query is faster in {faster} of {}; the ratio goes from {} to {}, the median is {}",
        ratios.len(),
        ratio(ratios[0]),
        ratio(ratios[ratios.len() - 1]),
        ratio(median(ratios.clone()))
    )
}

/// The queries with the least ratios, least first; or with the greatest, greatest first.
fn extreme(results: &Results, which: usize, greatest: bool) -> String {
    let mut queries = accepted(results);
    queries.sort_by(|(_, a), (_, b)| a.ratio(which).total_cmp(&b.ratio(which)));
    if greatest {
        queries.reverse();
    }
    listed(&queries[..3], which)
}

fn beside_sqlite(results: &Results) -> String {
    let slower: Vec<_> = accepted(results).into_iter().filter(|(_, cell)| cell.ratio(SQLITE) < 1.0).collect();
    let loses = if slower.is_empty() { String::from("nothing") } else { listed(&slower, SQLITE) };
    let selective = !slower.is_empty() && slower.iter().all(|(drawing, _)| drawing.is_selective());
    format!(
        "**SQLite**: {}. It loses on {loses}. {}The program of document 01 copies every table that the drawing names before it looks at any, and the feed is checked in each query; what a query costs \
        on an empty frame is in the next table. It gains most on {}.\n",
        outcome(results, SQLITE),
        if selective { SELECTIVE } else { "" },
        extreme(results, SQLITE, true)
    )
}

fn beside_search(results: &Results) -> String {
    let even: Vec<_> = accepted(results).into_iter().filter(|(_, cell)| cell.ratio(BACKTRACKING) >= EVEN).collect();
    let even = if even.is_empty() { String::from("nothing") } else { listed(&even, BACKTRACKING) };
    format!(
        "**Backtracking**: {}. Even or better, {EVEN} and above, is {even}. {SEARCH} The ratio is least on {}, and greatest on {}.\n",
        outcome(results, BACKTRACKING),
        extreme(results, BACKTRACKING, false),
        extreme(results, BACKTRACKING, true)
    )
}

/// What the two ways to time the search show.
fn from_words(results: &Results) -> String {
    let mean = |which| ratio(geometric_mean(accepted(results).iter().map(|(_, cell)| cell.ratio(which))));
    format!(
        "**Backtracking from the words**: {}. The ratio is least on {}, and greatest on {}. The geometric mean is {}, that of the search whose index is ready {}. {FROM_THE_WORDS}\n",
        outcome(results, FROM_WORDS),
        extreme(results, FROM_WORDS, false),
        extreme(results, FROM_WORDS, true),
        mean(FROM_WORDS),
        mean(BACKTRACKING)
    )
}

fn beside_unproved(results: &Results) -> String {
    let at = |i: usize| {
        let cells = results.cells.iter().map(|cells| &cells[i]).filter(|cell| cell.refused.is_none());
        format!("{} at {}", ratio(median(cells.map(|cell| cell.ratio(UNPROVED)).collect())), count(results.frames[i].regions))
    };
    let medians: Vec<String> = (0..results.frames.len()).map(at).collect();
    format!("**Unproved algebra**: the median ratio by regions is {}. {BESIDE_UNPROVED}\n\n{KERNELS}", medians.join(", "))
}

fn refusals(results: &Results) -> String {
    let mut text = String::new();
    for (drawing, cells) in results.drawings.iter().zip(&results.cells) {
        for (cell, (number, place)) in cells.iter().filter_map(|cell| Some((cell, cell.refused?))) {
            text += &format!(
                "\nThe {} on {} regions is refused with {number} at instruction {place}: that register would hold more than 65,536 pairs. The others find {} rows.\n",
                drawing.name,
                count(cell.regions),
                count(cell.rows)
            );
        }
    }
    text
}

/// The bottle beside the bottle with its cap fixed, on each frame.
fn one_cap(results: &Results) -> String {
    let of = |name: &str| results.drawings.iter().position(|drawing| drawing.name == name).map(|i| &results.cells[i]);
    let (Some(all), Some(one)) = (of(BOTTLE), of(CAP_FIXED)) else { return String::new() };
    let mut text = String::from(
        "| regions | rows | rows, cap fixed | pairs in registers | pairs, cap fixed | proved query, µs | proved query, cap fixed, µs | proved: bottle / cap fixed | \
        SQLite: bottle / cap fixed | backtracking: bottle / cap fixed |\n|---:|---:|---:|---:|---:|---:|---:|---:|---:|---:|\n",
    );
    let mut ratios = Vec::new();
    for (a, b) in all.iter().zip(one) {
        let sizes = [a.regions, a.rows, b.rows, a.room.all, b.room.all].map(count);
        let times = [a, b].map(|cell| micro(cell.time(PROVED)));
        let saved = [PROVED, SQLITE, BACKTRACKING].map(|which| a.time(which) / b.time(which));
        ratios.push(saved[0]);
        text += &row(sizes.into_iter().chain(times).chain(saved.map(ratio)));
    }
    ratios.sort_by(f64::total_cmp);
    let [least, most] = [0, ratios.len() - 1].map(|k| ratio(ratios[k]));
    format!("{text}\nThe bottle takes the proved query {least} to {most} times as long as the bottle with its cap fixed.\n")
}

fn fixed_cost(results: &Results) -> String {
    let mut text = String::from("| drawing | proved query, µs | unproved algebra, µs |\n|---|---:|---:|\n");
    for (drawing, cells) in results.drawings.iter().zip(&results.bare) {
        text += &row([drawing.name.into(), micro(cells[0].time(PROVED)), micro(cells[0].time(UNPROVED))]);
    }
    text
}

fn preparation(results: &Results) -> String {
    let mut text = String::from(
        "| regions | check of the feed, in each proved query, µs | SQLite: load, indexes, statistics, µs | backtracking: index, µs |\n|---:|---:|---:|---:|\n",
    );
    for (frame, times) in results.frames.iter().zip(&results.preparation) {
        text += &row([count(frame.regions)].into_iter().chain(times.map(micro)));
    }
    text
}

/// The feeds with both directions of each touching pair, and with each once.
fn halved(results: &Results) -> String {
    let mut text = String::from(
        "| regions | words of the feed, both directions | words, each pair once | check, both directions, µs | check, each pair once, µs |\n\
        |---:|---:|---:|---:|---:|\n",
    );
    for (regions, words, checks) in &results.touching.feeds {
        text += &row([count(*regions)].into_iter().chain(words.map(count)).chain(checks.map(micro)));
    }
    text
}

/// The queries on both.
fn stored_once(results: &Results) -> String {
    let mut text =
        String::from("| drawing | regions | rows | both directions, µs | each pair once, µs | once / both |\n|---|---:|---:|---:|---:|---:|\n");
    let mut ratios = Vec::new();
    for (drawing, times) in results.drawings.iter().zip(&results.touching.times) {
        for (i, ways) in times.iter().enumerate() {
            let name = if i == 0 { drawing.name } else { "" };
            let [both, once] = ways.times().map(micro);
            let rows = ways.refused.map_or(count(ways.rows), |(number, place)| format!("refused: {number} at {place}"));
            let slower = ways.ratio(ONCE, BOTH);
            ratios.push((slower, format!("{}, {}", drawing.name, count(ways.regions))));
            text += &row([name.into(), count(ways.regions), rows, both, once, ratio(slower)]);
        }
    }
    ratios.sort_by(|a, b| a.0.total_cmp(&b.0));
    let [least, most] = [0, ratios.len() - 1].map(|k| format!("{} ({})", ratio(ratios[k].0), ratios[k].1));
    let usual = ratio(median(ratios.iter().map(|one| one.0).collect()));
    format!("{text}\nThe ratio goes from {least} to {most}, the median is {usual}.\n")
}

pub fn page(results: &Results) -> String {
    [
        "# The query, beside SQLite, a search and an unproved algebra\n\nWritten by `bench/query`; x86-64, one core. \
        Each whole query is timed beside four others, on the same frames and drawings, in one process.\n\n",
        &MATCHERS.replace("VERSION", &sqlite::version()),
        "\n![Time of each query against the regions of the frame](bench-query.svg)\n\n",
        &table(results),
        &refusals(results),
        "\n## Where it gains and where it loses\n\n",
        &[beside_sqlite(results), beside_search(results), from_words(results), beside_unproved(results)].join("\n"),
        "\nThe fixed cost, as time of a query where all tables are empty:\n\n",
        &fixed_cost(results),
        "\n## Work words\n\n",
        &work::section(results),
        "\n## Other numbers\n\n",
        &numbers::section(results),
        "\n## What a fixed node saves\n\n",
        ONE_CAP,
        "\n",
        &one_cap(results),
        "\n## Frames\n\n",
        FRAMES,
        "\n",
        &frames(results),
        "\n## Drawings\n\n",
        &drawings(results),
        "\n## Before the first query\n\nWhat SQLite and the search do once for each frame, and the proved query each time; the search indexes every class and label in both directions:\n\n",
        &preparation(results),
        "\n## Touching pairs stored once\n\n",
        STORED_ONCE,
        "\n",
        &halved(results),
        "\n",
        &stored_once(results),
    ]
    .concat()
}
