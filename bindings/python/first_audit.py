from fdb_read_version import Call, Member, audit, audit_text

calls = [
    Call(Member.COMMIT, 200, client=1, began=10, ended=14),
    Call(Member.READ, 100, client=2, began=15, ended=16),
]
for fault in audit(calls):
    print(fault)
print(audit_text(calls), end="")
