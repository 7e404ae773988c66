//! Bytes and lines are audited the same, and as was worked out by hand.

use fdb_read_version::{
    audit_lines, audit_lines_text, audit_log, audit_log_text, Audit, AuditOptions, Call, Fault,
    FaultKind, Late, Line, LogError, Means, Member, Reason, Times, Wanted, Wrong,
};

/// The same numbers on each machine (xorshift).
struct Drawn(u64);

impl Drawn {
    fn below(&mut self, limit: u64) -> u64 {
        self.0 ^= self.0 << 13;
        self.0 ^= self.0 >> 7;
        self.0 ^= self.0 << 17;
        self.0 % limit
    }

    fn line(&mut self, has_times: bool, above: &[Line]) -> Line {
        let version = 1 + self.below(5);
        let tellers: Vec<u32> = above.iter().filter_map(|it| it.client).collect();
        let call = match self.below(if has_times || tellers.is_empty() { 4 } else { 5 }) {
            0 => Call::Read(version),
            1 => Call::Commit(version),
            2 => Call::Ask(version),
            3 => Call::Report(version),
            _ => Call::Learn(tellers[self.below(tellers.len() as u64) as usize]),
        };
        let began = self.below(10);
        let ended = (self.below(5) > 0).then_some(began + self.below(4));
        Line {
            client: (!has_times || self.below(4) > 0).then_some(self.below(3) as u32),
            call,
            times: has_times.then_some(Times { began, ended }),
        }
    }
}

/// The line of a log of JSON Lines.
fn written(line: &Line) -> String {
    let mut members = vec![match line.call {
        Call::Read(version) => format!("\"read\":{version}"),
        Call::Commit(version) => format!("\"commit\":{version}"),
        Call::Ask(version) => format!("\"ask\":{version}"),
        Call::Report(version) => format!("\"report\":{version}"),
        Call::Learn(teller) => format!("\"learn\":\"{teller}\""),
        other => unreachable!("{other:?}"),
    }];
    members.extend(line.client.map(|it| format!("\"client\":\"{it}\"")));
    if let Some(Times { began, ended }) = line.times {
        let ended = ended.map_or("null".to_string(), |it| it.to_string());
        members.push(format!("\"began\":{began},\"ended\":{ended}"));
    }
    format!("{{{}}}\n", members.join(","))
}

#[test]
fn bytes_and_lines_agree() {
    let (mut drawn, mut counts) = (Drawn(5), [0; 2]);
    for _ in 0..3000 {
        let (has_times, mut lines) = (drawn.below(2) == 0, Vec::new());
        for _ in 0..=drawn.below(11) {
            let line = drawn.line(has_times, &lines);
            lines.push(line);
        }
        let complete = (drawn.below(2) == 0).then_some(drawn.below(3));
        let margin = drawn.below(3);
        let options = AuditOptions { complete, margin, ..AuditOptions::default() };
        let log: String = lines.iter().map(written).collect();
        let found = audit_log(log.as_bytes(), &options).unwrap();
        assert_eq!(audit_lines(&lines, &options), Ok(found.clone()), "{log}");
        let wanted = Wanted { all: true, ..Wanted::default() };
        let text = audit_log_text(log.as_bytes(), &options, wanted).unwrap();
        assert_eq!(text.lines().count(), found.len().max(1), "{log}");
        let mut pieces = Audit::new(&options, wanted).unwrap();
        for piece in log.as_bytes().chunks(1 + drawn.below(40) as usize) {
            pieces.push(piece).unwrap();
        }
        assert_eq!((pieces.text(), pieces.faults()), (String::new(), Ok(vec![])));
        assert_eq!(pieces.end(), Ok(!found.is_empty()), "{log}");
        assert_eq!((pieces.text(), pieces.faults()), (text, Ok(found.clone())), "{log}");
        counts[usize::from(found.is_empty())] += 1;
    }
    assert!(counts[0] > 300 && counts[1] > 150, "{counts:?}");
}

fn untimed(client: u32, call: Call) -> Line {
    Line { client: Some(client), call, times: None }
}

#[test]
fn by_hand() {
    let lines = [
        untimed(1, Call::Commit(5)),
        untimed(2, Call::Learn(1)),
        untimed(2, Call::Read(4)),
        untimed(1, Call::Ask(5)),
        untimed(3, Call::Read(1)),
        untimed(2, Call::Commit(3)),
        untimed(3, Call::Read(3)),
        untimed(4, Call::Report(5)),
        untimed(4, Call::Report(1 << 63)),
    ];
    let known = |version, means| Reason::Known { version, means };
    let learnt = Means::Learnt { of: 0, by: 1 };
    let reported = Reason::Reported { place: 5, version: 5, means: learnt };
    let fault = |place, kind, reason| Fault { place, kind, reason, late: None };
    let options = AuditOptions { complete: Some(2), ..AuditOptions::default() };
    let wanted = vec![
        fault(0, FaultKind::Twice, Reason::Drawn(3)),
        fault(2, FaultKind::Order, known(5, learnt)),
        fault(2, FaultKind::Wrong, Reason::Unreported),
        fault(3, FaultKind::NotAbove, known(5, Means::Own(0))),
        fault(3, FaultKind::Twice, Reason::Drawn(0)),
        fault(4, FaultKind::Order, known(2, Means::Start)),
        fault(4, FaultKind::Wrong, Reason::Unreported),
        fault(5, FaultKind::NotAbove, known(5, learnt)),
        fault(6, FaultKind::Wrong, reported),
        fault(7, FaultKind::Stray, Reason::Drawn(0)),
        fault(8, FaultKind::Stray, Reason::Undrawn),
    ];
    assert_eq!(audit_lines(&lines, &options), Ok(wanted));
    let said = "audit fault: Twice 1: client 1 drew 5, and so did line 4 (client 1, ask 5)\n";
    for (all, history, count) in [(false, true, 1), (true, false, 11), (true, true, 11)] {
        let wanted = Wanted { all, history, ..Wanted::default() };
        let text = audit_lines_text(&lines, &options, wanted).unwrap();
        assert!(text.starts_with(said), "{text}");
        assert_eq!(text.lines().count(), count, "{text}");
    }
    let log = b"{\"client\":\"a\",\"commit\":1}";
    let text = |history| {
        let wanted = Wanted { all: true, history, ..Wanted::default() };
        audit_log_text(log, &AuditOptions::default(), wanted).unwrap()
    };
    let ok = "audit ok lines 1 timed 0 reads 0 commits 1 asks 0 reports 0 learns 0 unreported 0\n";
    let history = "history 0 ask 1 line 1 client \"a\"\nhistory 1 report 1 line 1 client \"a\"\n";
    assert_eq!((text(false), text(true)), (ok.to_string(), format!("{ok}{history}")));
}

#[test]
fn times_by_hand() {
    // Above 32 bits, so that nothing may be cut off.
    let (far, version) = (1 << 33, 1 << 63);
    let line =
        |call, began, ended| Line { client: None, call, times: Some(Times { began, ended }) };
    let read = line(Call::Read(1), 2 * far, None);
    let lines = [line(Call::Commit(version), 0, Some(far)), read];
    let found = |lines: &[Line], margin| {
        audit_lines(lines, &AuditOptions { margin, ..AuditOptions::default() }).unwrap()
    };
    let reason = Reason::Known { version, means: Means::Ended(0) };
    let late = Some(Late { place: 0, by: far });
    let fault = Fault { place: 1, kind: FaultKind::Order, reason, late };
    assert_eq!((found(&lines, 0), found(&lines, far - 1)), (vec![fault], vec![fault]));
    assert_eq!(found(&lines, far), []);
    assert_eq!(found(&[line(Call::Commit(version), 0, None), read], 0), []);
}

#[test]
fn how_late() {
    let line = |client, call, began, ended| Line {
        client: Some(client),
        call,
        times: Some(Times { began, ended: Some(ended) }),
    };
    let lines = [
        line(1, Call::Commit(300), 10, 20),
        line(2, Call::Read(200), 5, 13), // outdates the next, before the first does
        line(3, Call::Read(100), 50, 51), // 37 after that
        line(1, Call::Read(250), 20, 55), // its own client had ended at 20, where it begins
        line(4, Call::Commit(300), 51, 52), // not above: as late as by its own version
        line(5, Call::Ask(9), 60, 61),   // the read of 200 was the first above 9
        line(5, Call::Ask(9), 60, 62),   // so too; and both are drawn twice
    ];
    let found: Vec<_> = audit_lines(&lines, &AuditOptions::default())
        .unwrap()
        .into_iter()
        .map(|it| (it.place, it.kind, it.late.map(|late| (late.place, late.by))))
        .collect();
    let wanted = [
        (2, FaultKind::Order, Some((1, 37))),
        (3, FaultKind::Order, Some((0, 0))),
        (4, FaultKind::NotAbove, Some((0, 31))),
        (5, FaultKind::NotAbove, Some((1, 47))),
        (5, FaultKind::Twice, None),
        (6, FaultKind::NotAbove, Some((1, 47))),
        (6, FaultKind::Twice, None),
    ];
    assert_eq!(found, wanted);
}

const KEYED: &str = r#"{"client":"a","commit":200,"began":10,"ended":14,"key":"x","node":[1]}
{"client":"b","read":100,"began":15,"ended":16,"key":"y","node":2}
{"client":"c","read":100,"began":16,"ended":17,"key":"x"}
"#;
const FAULT_IN_JSON: &str = concat!(
    r#"{"fault":"Order","at":{"line":3,"client":"c","read":100,"began":16,"ended":17,"members":"#,
    r#"{"key":"x","node":null,"nods":null}},"late":2,"first":{"line":1,"client":"a","commit":200,"#,
    r#""began":10,"ended":14,"members":{"key":"x","node":[1],"nods":null}},"reason":"known","#,
    r#""known":200,"by":{"line":1,"client":"a","commit":200,"began":10,"ended":14,"members":"#,
    r#"{"key":"x","node":[1],"nods":null}},"means":"ended"}"#,
    "\n",
);
const TOTALS_IN_JSON: &str = concat!(
    r#"{"total":{"lines":3,"timed":3,"reads":2,"commits":1,"asks":0,"reports":0,"learns":0,"#,
    r#""unreported":2,"ordered":1},"arguments":{"complete":null,"margin":0,"by_key":true,"#,
    r#""members":["key","node","nods"]}}
{"faults":1,"Order":1,"Wrong":0,"NotAbove":0,"Twice":0,"Stray":0}
{"client":"c","faults":1,"Order":1,"Wrong":0,"NotAbove":0,"Twice":0,"Stray":0}
{"members":{"key":"x"},"faults":1,"Order":1,"Wrong":0,"NotAbove":0,"Twice":0,"Stray":0}
{"members":{"node":null},"faults":1,"Order":1,"Wrong":0,"NotAbove":0,"Twice":0,"Stray":0}
{"members":{"nods":null},"faults":1,"Order":1,"Wrong":0,"NotAbove":0,"Twice":0,"Stray":0}
"#,
);

#[test]
fn by_key() {
    let plain = AuditOptions::default();
    let options = AuditOptions { key: "key", ..plain };
    let found = |options| audit_log(KEYED.as_bytes(), &options).unwrap();
    let lines: Vec<u32> = found(plain).iter().map(|it| it.place).collect();
    assert_eq!(lines, [1, 2]);
    let reason = Reason::Known { version: 200, means: Means::Ended(0) };
    let late = Some(Late { place: 0, by: 2 });
    assert_eq!(found(options), [Fault { place: 2, kind: FaultKind::Order, reason, late }]);
    let said =
        "audit fault: Order 3: client \"c\" read 100 \"key\":\"x\", but 200 was known: line 1 \
                (client \"a\", commit 200 \"key\":\"x\") had ended 2 before line 3 began\n";
    let text = audit_log_text(KEYED.as_bytes(), &options, Wanted::default());
    assert_eq!(text, Ok(said.to_string()));
    let refused = |line, wrong| Err(LogError::Refused { line, wrong });
    let one = |log: &str| audit_log(log.as_bytes(), &options);
    assert_eq!(
        one(r#"{"client":"a","read":1,"key":[]}"#),
        refused(1, Wrong::BadMember(Member::Key))
    );
    let learn = "{\"client\":\"a\",\"read\":1}\n{\"client\":\"a\",\"learn\":\"a\"}";
    assert_eq!(one(learn), refused(2, Wrong::BadMember(Member::Learn)));
    // Lines have no keys.
    let lines = [untimed(1, Call::Read(2)), untimed(1, Call::Read(1))];
    assert_eq!(audit_lines(&lines, &options), audit_lines(&lines, &plain));
}

#[test]
fn what_is_shown() {
    let text = |options, wanted| audit_log_text(KEYED.as_bytes(), options, wanted).unwrap();
    let options = AuditOptions { shown: "node,nods", ..AuditOptions::default() };
    let said = "audit fault: Order 2: client \"b\" read 100 \"node\":2, but 200 was known: line 1 \
                (client \"a\", commit 200 \"node\":[1]) had ended 1 before line 2 began\n";
    assert_eq!(text(&options, Wanted::default()), said);
    let options = AuditOptions { key: "key", ..options };
    let in_json = Wanted { json: true, ..Wanted::default() };
    let totals = Wanted { totals: true, ..in_json };
    assert_eq!(text(&options, in_json), FAULT_IN_JSON);
    assert_eq!(text(&options, totals), TOTALS_IN_JSON);
    let mut audit = Audit::new(&options, Wanted { all: true, ..totals }).unwrap();
    for piece in KEYED.as_bytes().chunks(9) {
        audit.push(piece).unwrap();
    }
    let all = format!("{FAULT_IN_JSON}{TOTALS_IN_JSON}");
    assert_eq!((audit.end(), audit.text()), (Ok(true), all));
}

#[test]
fn refusals() {
    let options = AuditOptions::default();
    let refused = |line, wrong| Err(LogError::Refused { line, wrong });
    let one = |log: &str| audit_log(log.as_bytes(), &options);
    assert_eq!(one("{\"client\":\"a\",\"read\":1}\n["), refused(2, Wrong::NotJson));
    assert_eq!(one("{\"read\":1}"), refused(1, Wrong::BadMember(Member::Client)));
    assert_eq!(one("{\"read\":1,\"ask\":1}"), refused(1, Wrong::TwoCalls));
    assert_eq!(one("{}"), refused(1, Wrong::NoCall));
    assert_eq!(one(""), refused(0, Wrong::Empty));
    assert_eq!(one("\n"), refused(1, Wrong::NotJson));
    assert_eq!(one(&" ".repeat(1_048_577)), refused(1, Wrong::TooLong));
    assert_eq!(audit_lines(&[], &options), Ok(vec![]));
    let line = |began, ended| Line {
        client: None,
        call: Call::Read(1),
        times: Some(Times { began, ended: Some(ended) }),
    };
    let late = audit_lines(&[line(1, 2), line(2, 1)], &options);
    assert_eq!(late, refused(2, Wrong::BadMember(Member::Ended)));
    let mixed = audit_lines(&[line(1, 2), untimed(1, Call::Read(1))], &options);
    assert_eq!(mixed, refused(2, Wrong::SomeTimes));
    let learnt = audit_lines(&[untimed(1, Call::Read(1)), untimed(2, Call::Learn(2))], &options);
    assert_eq!(learnt, refused(2, Wrong::BadMember(Member::Learn)));
}

#[test]
fn pieces_that_are_refused() {
    let opened = || Audit::new(&AuditOptions::default(), Wanted::default()).unwrap();
    let refused = |line, wrong| LogError::Refused { line, wrong };
    let mut audit = opened();
    assert_eq!(audit.push(b"{\"client\":\"a\",\"read\":1}\n{\"read\":"), Ok(()));
    let wrong = Wrong::BadMember(Member::Client);
    assert_eq!(audit.push(b"1}\n{"), Err(refused(2, wrong)));
    assert_eq!(audit.push(b""), Err(LogError::Over));
    assert_eq!(audit.end(), Err(LogError::Over));
    assert_eq!((audit.text(), audit.faults()), (String::new(), Ok(vec![])));
    assert_eq!(opened().end(), Err(refused(0, Wrong::Empty)));
    let mut audit = opened();
    assert_eq!(audit.push(b"["), Ok(()));
    // Any thread may use it.
    let (said, mut audit) = std::thread::spawn(move || (audit.end(), audit)).join().unwrap();
    assert_eq!(said, Err(refused(1, Wrong::NotJson)));
    assert_eq!(audit.end(), Err(LogError::Over));
}
