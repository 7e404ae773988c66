//! What watches tell, as it was worked out by hand.

use fdb_read_version::{LogError, Member, Watch, WatchCounts, WatchOptions, Wrong};

const COMMIT: &str = "{\"client\":\"a\",\"commit\":200,\"began\":10,\"ended\":14}\n";
const READ: &str = "{\"client\":\"b\",\"read\":100,\"began\":15,\"ended\":16}\n";
/// A line of another client, by which the end of the read is believed.
const VOUCHED: &str = "{\"client\":\"a\",\"read\":200,\"began\":16,\"ended\":16}\n";

fn said(line: u32) -> String {
    format!(
        "audit fault: Order {line}: client \"b\" read 100, but 200 was known: line 1 \
         (client \"a\", commit 200) had ended 1 before line {line} began\n"
    )
}

fn opened(behind: u64, key: &str) -> Watch {
    Watch::new(&WatchOptions { behind, key, ..WatchOptions::default() }).unwrap()
}

#[test]
fn a_fault_is_told_once() {
    let log = format!("{COMMIT}{READ}{VOUCHED}");
    for size in [1, 9, log.len()] {
        let mut watch = opened(0, "");
        for piece in log.as_bytes().chunks(size) {
            watch.push(piece).unwrap();
        }
        assert_eq!((watch.text(), watch.tell(false)), (String::new(), Ok(String::new())));
        // Any thread may use it.
        let told = std::thread::spawn(move || (watch.tell(true), watch));
        let (told, mut watch) = told.join().unwrap();
        assert_eq!((told, watch.text()), (Ok(said(2)), said(2)));
        assert_eq!((watch.tell(true), watch.text()), (Ok(String::new()), String::new()));
        assert_eq!((watch.end(), watch.text()), (Ok(true), String::new()));
    }
}

#[test]
fn what_waits() {
    let options = WatchOptions { behind: 5, totals: true, ..WatchOptions::default() };
    let mut watch = Watch::new(&options).unwrap();
    watch.push(format!("{COMMIT}{READ}").as_bytes()).unwrap();
    assert_eq!(watch.tell(true), Ok(String::new()));
    watch.push(b"{\"client\":\"b\",\"report\":200,\"began\":16,\"ended\":null}").unwrap();
    assert_eq!(watch.end(), Ok(true));
    let totals = "\
        audit total lines 3 reads 1 commits 1 asks 0 reports 1 refused 0 early 0\n\
        audit total faults 1 Order 1 Wrong 0 NotAbove 0 Twice 0 Stray 0\n\
        audit total client \"b\" faults 1 Order 1 Wrong 0 NotAbove 0 Twice 0 Stray 0\n";
    let wanted = format!("{}{totals}", said(2));
    assert_eq!((watch.push(b""), watch.end()), (Err(LogError::Over), Err(LogError::Over)));
    assert_eq!((watch.tell(true), watch.text()), (Err(LogError::Over), wanted));
}

#[test]
fn what_is_asked() {
    let options = WatchOptions { behind: 5, margin: 1, ..WatchOptions::default() };
    let mut watch = Watch::new(&options).unwrap();
    watch.push(format!("{COMMIT}{READ}").as_bytes()).unwrap();
    assert_eq!(watch.end(), Ok(false));
    let fine = "audit ok lines 2 reads 1 commits 1 asks 0 reports 0 refused 0 early 0\n";
    assert_eq!(watch.text(), fine);
    let (key, shown) = ("\u{e9}", "note");
    let options = WatchOptions { behind: 1 << 40, margin: 0, key, shown, totals: true, json: true };
    for (second, is_fault) in [("x", true), ("y", false)] {
        let mut watch = Watch::new(&options).unwrap();
        let of_key = |line: &str, key: &str| line.replace('}', &format!(",\"\u{e9}\":\"{key}\"}}"));
        watch.push(of_key(COMMIT, "x").as_bytes()).unwrap();
        watch.push(of_key(READ, second).as_bytes()).unwrap();
        assert_eq!(watch.end(), Ok(is_fault));
        let text = watch.text();
        let by = "\"follow\":1099511627776,\"margin\":0,\"by_key\":true,\
                  \"members\":[\"\u{e9}\",\"note\"]}";
        assert!(text.starts_with(if is_fault { "{\"fault\":\"Order\"," } else { "{\"total\":" }));
        assert!(text.contains(by), "{text}");
    }
}

#[test]
fn what_is_left_out() {
    let refused = |line, wrong| Err(LogError::Refused { line, wrong });
    let mut watch = opened(5, "");
    watch.push(format!("{COMMIT}{{}}\n[\n").as_bytes()).unwrap();
    assert_eq!(watch.tell(true), Ok(String::new()));
    let warnings = watch.warnings();
    let mut lines = warnings.lines();
    for said in ["NoCall 2: ", "NotJson 3: "] {
        let line = lines.next().unwrap();
        assert!(line.starts_with(&format!("fdb_audit: logs refused: {said}")), "{line}");
    }
    assert_eq!(lines.next(), None);
    assert_eq!(watch.end(), refused(3, Wrong::NotJson));
    let fine = "audit ok lines 1 reads 0 commits 1 asks 0 reports 0 refused 2 early 0\n";
    assert_eq!((watch.text(), watch.warnings()), (fine.to_string(), String::new()));
    let mut watch = opened(5, "");
    let wrong = "{\"client\":\"b\",\"read\":true,\"began\":10}\n";
    watch.push(format!("{COMMIT}{wrong}{READ}{{").as_bytes()).unwrap();
    assert_eq!((watch.end(), watch.text()), (Ok(true), said(3)));
    let mut watch = opened(5, "");
    watch.push(wrong.as_bytes()).unwrap();
    assert_eq!(watch.end(), refused(1, Wrong::BadMember(Member::Read)));
    let mut watch = opened(5, "k");
    watch.push(COMMIT.replace('}', ",\"k\":[]}").as_bytes()).unwrap();
    assert_eq!(watch.end(), refused(1, Wrong::BadMember(Member::Key)));
    assert_eq!(opened(5, "").end(), refused(0, Wrong::Empty));
}

/// A line of client `c`, by when it began and ended.
fn timed(began: u64, ended: u64) -> String {
    format!("{{\"client\":\"c\",\"read\":0,\"began\":{began},\"ended\":{ended}}}\n")
}

/// What is warned of a line that came early.
fn came(line: u64, by: u64, count: u64) -> String {
    format!(
        "fdb_audit: early line {line}: it began {by} before what had been settled; {count} so \
         far: --follow is too small, or a clock is ahead\n"
    )
}

/// Two lines of clients that vouch for one another.
fn first() -> String {
    timed(90, 110) + &timed(90, 110).replace("\"c\"", "\"d\"")
}

/// A watch of lines, of which some come once all is settled up to 5 before the newest end.
fn early(before: &str, after: &str) -> Watch {
    let mut watch = opened(5, "");
    watch.push(before.as_bytes()).unwrap();
    watch.tell(true).unwrap();
    watch.push(after.as_bytes()).unwrap();
    watch
}

#[test]
fn what_came_early() {
    // It is settled up to 105; a line that began at most 5 before that is judged all the same.
    let (first, judged, left) = (first(), timed(100, 105), timed(99, 110));
    let counts = |lines, refused, early| {
        format!(
            "audit early lines {lines} reads {lines} commits 0 asks 0 reports 0 \
             refused {refused} early {early} judged 1\n"
        )
    };
    let unjudged = |line| Err(LogError::Unjudged { line });
    let mut watch = early(&first, &judged);
    assert_eq!((watch.end(), watch.text()), (unjudged(3), counts(3, 0, 1)));
    assert_eq!(watch.warnings(), came(3, 5, 1));
    // The last is told that came early, and not the last of all.
    let mut watch = early(&first, &format!("{left}{judged}{}", timed(105, 106)));
    assert_eq!((watch.end(), watch.text()), (unjudged(4), counts(5, 0, 2)));
    assert_eq!(watch.warnings(), came(3, 6, 1) + &came(4, 5, 2));
    // A line that is refused goes first, and a fault before that.
    let mut watch = early(&format!("{first}{{}}\n"), &judged);
    let refused = Err(LogError::Refused { line: 3, wrong: Wrong::NoCall });
    assert_eq!((watch.end(), watch.text()), (refused, counts(3, 1, 1)));
    assert_eq!(watch.warnings(), came(4, 5, 1));
    let mut watch = early(&format!("{COMMIT}{READ}{first}"), &format!("{left}{{}}\n"));
    assert_eq!(watch.end(), Ok(true));
    assert!(watch.warnings().starts_with(&came(5, 6, 1)));
    assert_eq!(early(&first, &timed(105, 106)).end(), Ok(false));
}

#[test]
fn a_clock_that_is_ahead() {
    let ahead = timed(900, 999).replace("\"c\"", "\"e\"");
    let mut watch = early(&first(), &format!("{ahead}{}", timed(111, 112)));
    assert_eq!(watch.end(), Ok(false));
    let counts = "lines 4 reads 4 commits 0 asks 0 reports 0 refused 0 early 0 ahead 1";
    assert_eq!(watch.text(), format!("audit ok {counts}\n"));
    let said = "fdb_audit: a clock is ahead: above line 4 a line of another client ended 887 after it; \
                1 so far: it is not believed\n";
    assert_eq!(watch.warnings(), said);
}

/// What is kept of the stale read by a watch of 5, of which nothing is settled.
fn kept(lines: u64, clients: u64) -> String {
    let first = "{\"client\":\"a\",\"commit\":200,\"began\":10,\"ended\":14,\"kept_line\":1";
    let by = "\"kept_by\":\"--follow 5 --margin 0\"";
    format!("{first},\"kept_lines\":{lines},\"kept_clients\":{clients},{by}}}\n")
}

const SECOND_KEPT: &str = "{\"client\":\"b\",\"read\":100,\"began\":15,\"ended\":16,\
                           \"kept_line\":2,\"kept_lines\":2}\n";

#[test]
fn what_is_kept() {
    let mut watch = opened(5, "");
    assert_eq!(watch.keep(), Ok(String::new()));
    let (piece, rest) = READ.split_at(9);
    watch.push(format!("{COMMIT}{piece}").as_bytes()).unwrap();
    assert_eq!(watch.keep(), Ok(kept(1, 1)));
    watch.push(rest.as_bytes()).unwrap();
    let text = watch.keep().unwrap();
    assert_eq!(text, kept(2, 2) + SECOND_KEPT);
    let counts = WatchCounts { open: 2, kept: 2, newest_end: 16, ..WatchCounts::default() };
    assert_eq!(watch.counts(), Ok(WatchCounts { lines: 2, reads: 1, commits: 1, ..counts }));
    assert_eq!((watch.end(), watch.text()), (Ok(true), said(2)));
    assert_eq!((watch.keep(), watch.counts()), (Err(LogError::Over), Err(LogError::Over)));
    let options = WatchOptions { behind: 5, totals: true, json: true, ..WatchOptions::default() };
    let mut watch = Watch::restore(&options, text.as_bytes()).unwrap();
    assert_eq!((watch.text(), watch.keep()), (String::new(), Ok(text)));
    let again = watch.counts().unwrap();
    assert_eq!((again.lines, again.open, again.kept), (0, 2, 2));
    watch.push(b"{}\n").unwrap();
    assert_eq!(watch.end(), Ok(true));
    let text = watch.text();
    assert!(text.starts_with("{\"fault\":\"Order\",\"at\":{\"line\":2,"), "{text}");
    assert!(watch.warnings().starts_with("fdb_audit: logs refused: NoCall 3: "));
}

#[test]
fn what_goes_on() {
    // Line 4 says that the clock of line 3 is right; then line 2 is settled.
    let (third, fourth) = (timed(30, 31), timed(30, 31).replace("\"c\"", "\"d\""));
    let lines = [COMMIT.to_string(), READ.to_string(), third, fourth, timed(32, 33)];
    let options = WatchOptions { behind: 5, ..WatchOptions::default() };
    for cut in 0..lines.len() {
        let mut watch = Watch::new(&options).unwrap();
        for (number, line) in lines.iter().enumerate() {
            if number == cut {
                let kept = watch.keep().unwrap();
                watch = Watch::restore(&options, kept.as_bytes()).unwrap();
            }
            watch.push(line.as_bytes()).unwrap();
            let wanted = if number == 3 { said(2) } else { String::new() };
            assert_eq!(watch.tell(true), Ok(wanted), "{cut}, {number}");
        }
    }
}

#[test]
fn what_is_not_kept() {
    let options = WatchOptions { behind: 5, ..WatchOptions::default() };
    let text = kept(2, 2) + SECOND_KEPT;
    let refused = |options: WatchOptions<'_>, text: &str| {
        Watch::restore(&options, text.as_bytes()).map(drop).unwrap_err()
    };
    let others = [
        WatchOptions { behind: 6, ..options },
        WatchOptions { margin: 1, ..options },
        WatchOptions { key: "k", ..options },
        WatchOptions { shown: "k", ..options },
    ];
    let not_kept = |line| LogError::Refused { line, wrong: Wrong::NotKept };
    for other in others {
        assert_eq!(refused(other, &text), not_kept(1));
    }
    assert_eq!(refused(options, &format!("{text}{SECOND_KEPT}")), not_kept(3));
    let cut = LogError::Refused { line: 2, wrong: Wrong::NotJson };
    assert_eq!(refused(options, &text[..text.len() - 2]), cut);
    let client = LogError::Refused { line: 1, wrong: Wrong::BadMember(Member::Client) };
    assert_eq!(refused(options, "{\"client\":[]}\n"), client);
    let said = "line 3: it is not what a watch of these arguments keeps";
    assert_eq!(not_kept(3).to_string(), said);
    let empty = Err(LogError::Refused { line: 0, wrong: Wrong::Empty });
    assert_eq!(Watch::restore(&options, b"").unwrap().end(), empty);
}
