//! The page for the wall: its worked pages, the bytes that are lent for it, its widths, and that it
//! says what the recording says.

use second::demand3::{self, Recorded};
use second::edition::EDITIONS;
use second::generate::{case_b, journals, with_edition, CASE_A, GATED, STORED};
use second::journal;
use second::limits::{doubled, heaviest, widest};
use second::page;
use second::print;
use second::random::{drive, edition, stocks, Random};
use second::recording::{self, Shown, ShownZone};
use second::site::Run;

const PAGE_A: &str = "\
Z1 F    2      4
Z2 F    1     24
Z3 -    0     30
L13     1      2
T             60
";

/// A journal without its edition: zone 1 hands 0 cars to zone 2, and 0 and 4 to zone 3, and starts.
const EMPTY_HANDED: [u8; 16] = [8, 4, 0, 5, 0, 7, 0, 9, 0x01, 0, 0x02, 0, 0x02, 4, 0x80, 0];

/// The page of a run whose recording is complete, lent more than enough bytes.
fn page(run: &Run) -> String {
    let mut lent = [0; page::MOST_BYTES];
    let (refusal, written) = page::write(run, &mut lent);
    assert_eq!(refusal, 0);
    String::from_utf8(lent[..written].to_vec()).expect("a page is text")
}

/// A line of a page that is there.
fn line(page: &str, index: usize) -> &str {
    page.lines().nth(index).expect("the page has the line")
}

#[test]
fn the_page_of_case_a() {
    for edition in EDITIONS {
        assert_eq!(print::page(&with_edition(edition, &CASE_A)), PAGE_A);
    }
}

#[test]
fn the_page_of_case_b_has_no_line() {
    let text = "\
Z1 F    1     11
Z2 F    2     10
Z3 F    1      9
T             30
";
    assert_eq!(page(&case_b()), text);
}

/// A line with items alone is shown, also where they have no cars; from edition 2 on these are line
/// checks, and no items of the recording.
#[test]
fn lines_are_left_out_by_their_items() {
    let first = "\
Z1 F    3      1
Z2 -    0      7
Z3 -    0      9
L12     1      0
L13     2      4
T             21
";
    let later = "\
Z1 F    1      1
Z2 -    0      7
Z3 -    0      9
L13     1      4
T             21
";
    for (edition, text) in EDITIONS.into_iter().zip([first, later, later]) {
        assert_eq!(print::page(&with_edition(edition, &EMPTY_HANDED)), text);
    }
}

/// The total is that of the recording, which may be above 65,535 and above 99,999; and so may a
/// line's cars be above 65,535.
#[test]
fn high_numbers() {
    let text = "\
Z1 -    0  65535
Z2 F    1    255
T          65790
";
    assert_eq!(print::page(GATED[0]), text);
    let text = "\
Z1 -    0  65535
Z2 F  257  65535
T         131070
";
    assert_eq!(page(&doubled()), text);
    // Beside the 65,535 of the opening, 121 entries of 255 cars are inside.
    let text = "\
Z1 F    1      1
Z2 F  499    254
L21   377  96135
T          96390
";
    assert_eq!(page(&heaviest()), text);
}

/// The longest page of a run: 49 lines (second::limits says why none has more) and 8 zones.
#[test]
fn the_page_with_the_most_lines() {
    for (edition, items) in [(1, 30), (2, 29), (3, 29)] {
        let run = widest(edition);
        let page = page(&run);
        assert_eq!(page.len(), 17 * (8 + 49 + 1));
        assert_eq!(line(&page, 0), "Z1 F    7   8007");
        assert_eq!(line(&page, 8), format!("L21    {items}   3690"));
        assert_eq!(line(&page, 57), "T          64000");
        let senders: Vec<&str> = page.lines().skip(8).map(|line| &line[..3]).collect();
        let mut sorted = senders.clone();
        sorted.sort();
        assert_eq!(
            senders, sorted,
            "lines by sender, then receiver, then the total"
        );
    }
}

/// All 56 lines with the highest numbers that the columns hold: as many bytes as are enough for any
/// page. No run has such a recording.
#[test]
fn every_line_of_eight_zones() {
    let zone = ShownZone {
        firm: true,
        events: 9_999,
        stock: 999_999,
    };
    let mut shown = Shown {
        zones: vec![zone; 8],
        lines: Default::default(),
        total: 999_999,
    };
    for a in 0..8 {
        for b in (0..8).filter(|&b| b != a) {
            shown.lines[a][b] = vec![8 * a as u8 + b as u8; 1_000];
        }
    }
    let page = page::text(&shown);
    assert_eq!(page.len(), page::MOST_BYTES);
    assert!(page.lines().all(|line| line.len() == 16));
    assert_eq!(line(&page, 7), "Z8 F 9999 999999");
    assert_eq!(line(&page, 8), "L12  1000   1000");
    assert_eq!(line(&page, 15), "L21  1000   8000");
    assert_eq!(line(&page, 63), "L87  1000  62000");
    assert_eq!(line(&page, 64), "T         999999");
}

/// Too few bytes are left as they were, and so are those behind the page.
#[test]
fn lent_bytes() {
    let run = journal::read(&CASE_A).run;
    assert_eq!(PAGE_A.len(), 85);
    for length in 0..=100 {
        let mut lent = vec![0xEE; length];
        let answer = page::write(&run, &mut lent);
        let kept = if length < 85 {
            assert_eq!(answer, (14, 0));
            &lent
        } else {
            assert_eq!(answer, (0, 85));
            assert_eq!(lent[..85], *PAGE_A.as_bytes());
            &lent[85..]
        };
        assert!(kept.iter().all(|&byte| byte == 0xEE));
    }
}

/// What a line of a page says: its first five characters, and the numbers in its two columns.
type Said = (String, Option<u64>, u64);

/// The number in a column, right-aligned behind spaces.
fn number(column: &str) -> u64 {
    let number = column.trim_start().parse().expect("a number is there");
    assert_eq!(column, format!("{number:>width$}", width = column.len()));
    number
}

fn said(line: &str) -> Said {
    assert_eq!((line.len(), &line[9..10]), (16, " "));
    let (front, first, second) = (&line[..5], &line[5..9], &line[10..]);
    let first = (first != "    ").then(|| number(first));
    (front.to_string(), first, number(second))
}

/// What a page must say of a recording that was read from its bytes, and of its total.
fn expected(recorded: &Recorded, total: u32) -> Vec<Said> {
    let mut page = Vec::new();
    for (index, &firm) in recorded.firm.iter().enumerate() {
        let front = format!("Z{} {} ", index + 1, if firm { 'F' } else { '-' });
        let events = u64::from(recorded.events[index]);
        page.push((front, Some(events), recorded.stocks[index]));
    }
    for (a, row) in recorded.lines.iter().enumerate() {
        for (b, line) in row.iter().enumerate().filter(|(_, line)| !line.is_empty()) {
            let cars = line.iter().map(|&cars| u64::from(cars)).sum();
            let front = format!("L{}{}  ", a + 1, b + 1);
            page.push((front, Some(line.len() as u64), cars));
        }
    }
    page.push(("T    ".to_string(), None, u64::from(total)));
    page
}

#[test]
fn the_page_says_what_the_bytes_of_the_recording_say() {
    let mut random = Random::new(26);
    let mut complete = 0;
    for _ in 0..600 {
        let (edition, zones) = (edition(&mut random), random.within(2, 8));
        let (_, mut run) = Run::open(edition, zones, &stocks(&mut random, zones));
        drive(&mut random, edition, zones, 90, &mut |call| run.call(call));
        let mut lent = [0; print::MOST_BYTES];
        let (refusal, written, total) = recording::write(&run, &mut lent);
        if refusal != 0 {
            assert_eq!(page::write(&run, &mut lent), (refusal, 0));
            continue;
        }
        complete += 1;
        let recorded = demand3::parse(edition, run.size(), &lent[..written]);
        let recorded = recorded.expect("the bytes are a recording");
        let lines: Vec<Said> = page(&run).lines().map(said).collect();
        assert_eq!(lines, expected(&recorded, total));
    }
    println!("{complete} complete");
    assert!(complete > 200);
}

/// A journal whose recording is refused prints the same number in place of its page.
#[test]
fn journals_are_refused_as_for_their_recordings() {
    let mut refused = 0;
    for journal in journals(2_026, STORED) {
        let (line, page) = (print::line(&journal), print::page(&journal));
        if line.starts_with("refused ") {
            assert_eq!(page, line);
            refused += 1;
        } else {
            assert!(page.starts_with("Z1 ") && page.len() % 17 == 0);
        }
    }
    assert!(refused > 300);
}
