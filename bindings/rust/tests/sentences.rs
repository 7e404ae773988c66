//! What each error says.

use fdb_read_version::{ChainError, LogError, Member, QueueError, Wrong};
use std::error::Error;

#[test]
fn each_error_says_why() {
    let refused = |line, wrong| LogError::Refused { line, wrong };
    let said: [(&dyn Error, &str); 28] = [
        (&ChainError::BadEpoch, "the recovery version is out of range"),
        (&ChainError::NoProxy, "the number of commit proxies is out of range"),
        (&ChainError::UnknownProxy, "there is no such commit proxy"),
        (&ChainError::Early { expected: 7 }, "7 is the next number"),
        (&ChainError::Forgotten, "the answer is not kept any more"),
        (&ChainError::Exhausted, "the versions are used up"),
        (&ChainError::Memory, "out of memory"),
        (&ChainError::Unknown(77), "the library answers 77"),
        (&QueueError::BadConfig, "the configuration, or the time, is out of range"),
        (&QueueError::BadCount, "the request's count is out of range"),
        (&QueueError::BatchThrottled, "batch requests are not let in"),
        (&QueueError::Full, "the queue is full"),
        (&QueueError::TagTooLong, "the tag is too long"),
        (&QueueError::Memory, "out of memory"),
        (&QueueError::Unknown(77), "the library answers 77"),
        (&refused(0, Wrong::Empty), "the log has no line"),
        (&refused(1, Wrong::TooLong), "line 1: the line is too long"),
        (&refused(2, Wrong::TooMany), "line 2: there are too many lines"),
        (&refused(3, Wrong::NotJson), "line 3: it is no JSON"),
        (&refused(4, Wrong::NoCall), "line 4: it names no call"),
        (&refused(5, Wrong::TwoCalls), "line 5: it names two calls"),
        (&refused(6, Wrong::SomeTimes), "line 6: some lines have times, and some have none"),
        (&refused(7, Wrong::BadMember(Member::Key)), "line 7: its member key is bad"),
        (&refused(0, Wrong::NotKept), "it is not what a watch of these arguments keeps"),
        (&LogError::Unjudged { line: 8 }, "not all was judged: line 8 came early"),
        (&LogError::Over, "it is over"),
        (&LogError::Memory, "out of memory"),
        (&LogError::Unknown(77), "the library answers 77"),
    ];
    for (error, wanted) in said {
        assert_eq!(error.to_string(), wanted);
    }
}
