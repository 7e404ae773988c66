use fdb_read_version::{audit_lines, AuditOptions, Call, Line, LogError, Times};

fn main() -> Result<(), LogError> {
    let times = |began, ended| Some(Times { began, ended: Some(ended) });
    let lines = [
        Line { client: Some(1), call: Call::Commit(200), times: times(10, 14) },
        Line { client: Some(2), call: Call::Read(100), times: times(15, 16) },
    ];
    for fault in audit_lines(&lines, &AuditOptions::default())? {
        println!("{fault:?}");
    }
    Ok(())
}
