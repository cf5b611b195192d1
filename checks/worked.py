"""The worked rows that must stand somewhere, by what they show: each with its file, and with what stands there in this order.

What stands there is text, and `LINE -> ANSWER` is a line of a script with its answer below it. In a file of tests/ all of it stands in
one row. checks/tests reads the list.
"""

from __future__ import annotations

import re
from pathlib import Path
from typing import Iterator, Sequence

OPENING = ("object x 0 -> ok object x", "object y 10 -> ok object y", "site a 4 -> ok site a")
LIMITED = (*OPENING, "limit a object x 5 -> ok limit a", "start -> ok start")
DELIVERED = ("send a -> ok sent a 1", "apply a -> ok applied a 1", "report a -> ok reported a 1")
FIRST_RUN = ("object x 0 -> ok object x", "site a 4 -> ok site a", "start -> ok start", "propose add:x:5 -> ok proposed 1",
             "send a -> ok sent a 1", "apply a -> ok applied a 1", "show a -> ok show a sent 1 applied 1 reported 0 rounds 0 x=5")

FIVE_ROWS = "ordup,1,a,2\nobject,1,x,0\nobject,2,y,10\nlimit,1,object:x,{limit}\nchange,1,1,add:x:5\n"
DECIDED = FIVE_ROWS + "change,2,1,add:x:1\n"
RECORD = DECIDED + "round,1,2,-\nwindow,1,0,2\n"
SHARED = ("ordup,1,a,3\nobject,1,x,0\nlimit,1,object:x,5\nchange,1,1,add:x:3\nchange,2,1,add:x:3\nchange,3,1,add:x:3\nround,1,2,-\n"
          "round,2,3,-\nwindow,1,0,2\nwindow,2,1,3\n")
PLACED = ("ordup,2,a,3\nobject,1,x,0\nobject,2,y,10\nlimit,1,object:x,5@1\nlimit,2,object:x,3@2\nlimit,3,object:x,0@3\n"
          "change,1,1,add:x:3\nchange,2,1,add:x:1\nchange,3,1,add:x:1\nreport,3,2,-\nround,1,2,-\nround,2,3,-\nwindow,1,0,2\n"
          "window,2,2,3\n")
SECOND_VERSION = ("ordup,2,a,2\nobject,1,x,0\nobject,2,y,10\nlimit,1,object:x,5@1\nchange,1,1,add:x:5\nchange,2,1,add:x:1\n"
                  "round,1,2,-\nwindow,1,0,2\n")

SCRIPTS, RECORDS, OUTSIDE = "tests/scripts/", "tests/records/", "checks/outside"
OF_SCRIPTS, OF_MEMORY = "crates/tests_of_scripts/src/", "crates/tests_of_memory/src/"
OF_CLUSTERS, OF_THREADS = "crates/tests_of_clusters/src/", "crates/tests_of_threads/src/"
WORKED_ROWS = OF_SCRIPTS + "events/worked_rows.rt"


def printed(record: str) -> str:
    """A record as it stands below a script."""
    return "".join(f"| {row}\n" for row in record.splitlines())


def varied(before: Sequence[str], after: Sequence[str], told: str) -> str:
    """A change of a record in tests/records, and what the check then says."""
    return "".join(f"- {row}\n" for row in before) + "".join(f"+ {row}\n" for row in after) + f"= {told}\n"


WORKED: list[tuple[str, ...]] = [
    # ---- scripts
    ("an empty script", SCRIPTS + "lines.txt", "# An empty script"),
    ("the first run", "crates/test_fixtures/src/transcripts.rt", "a script of 64 bytes, and its 123 bytes of answers", *FIRST_RUN),
    ("the first run, as README shows it", "README.md", "$ ./ordup run < examples/first.ordup\n"
     + "".join(line.partition(" -> ")[2] + "\n" for line in FIRST_RUN)),
    ("the first run, as a script", "examples/first.ordup", "".join(line.partition(" -> ")[0] + "\n" for line in FIRST_RUN)),
    ("a lag that equals the limit, a round, late reports, and the record", SCRIPTS + "rounds.txt", *LIMITED,
     "propose add:x:5 -> ok proposed 1", "settle -> ok acked 1", "propose add:x:1 -> ok proposed 2", "settle -> ok round 2 a",
     "= yes 1", "certify a -> ok certified a 1 0-2", "settle -> ok waiting 2 a", "send a -> ok sent a 1", "send a -> ok sent a 2",
     "apply a -> ok applied a 1", "report a -> ok reported a 1", "settle -> ok waiting 2 a", "apply a -> ok applied a 2",
     "report a -> ok reported a 2", "settle -> ok acked 2", printed(RECORD.format(limit=5)) + "= yes 1\n",
     "certify a -> ok certified a 1 0-2"),
    ("a report in time", SCRIPTS + "rounds.txt", *LIMITED, "propose add:x:5 -> ok proposed 1", "settle -> ok acked 1", *DELIVERED,
     "propose add:x:1 -> ok proposed 2", "settle -> ok acked 2", "certify a -> ok certified a 0"),
    ("a head that is not acknowledged", SCRIPTS + "rounds.txt", *OPENING, "limit a object x 0 -> ok limit a", "start -> ok start",
     "propose set:x:0 -> ok proposed 1", "settle -> ok acked 1", *DELIVERED, "propose add:x:1 -> ok proposed 2",
     "settle -> ok round 2 a", "certify a -> ok certified a 1 1-2"),
    ("the path and not the net change", SCRIPTS + "weights.txt", *LIMITED, "propose add:x:3 -> ok proposed 1", "settle -> ok acked 1",
     "propose add:x:-3 -> ok proposed 2", "settle -> ok round 2 a", "certify a -> ok certified a 1 0-2"),
    ("a group that adds up", SCRIPTS + "weights.txt", *OPENING, "group g x y -> ok group g", "limit a group g 6 -> ok limit a",
     "start -> ok start", "propose add:x:3 add:y:3 -> ok proposed 1", "settle -> ok acked 1", "propose add:y:1 -> ok proposed 2",
     "settle -> ok round 2 a"),
    ("a count of updates", SCRIPTS + "weights.txt", *OPENING, "limit a count 2 -> ok limit a", "start -> ok start",
     "propose add:x:1 -> ok proposed 1", "settle -> ok acked 1", "propose add:x:1 -> ok proposed 2", "settle -> ok acked 2",
     "propose add:x:1 -> ok proposed 3", "settle -> ok round 3 a", "certify a -> ok certified a 1 0-3"),
    ("a swap", SCRIPTS + "message_sets.txt", *OPENING, "start -> ok start", "propose take:x:y take:y:x -> ok proposed 1",
     "send a -> ok sent a 1", "apply a -> ok applied a 1", "show a -> ok show a sent 1 applied 1 reported 0 rounds 0 x=10 y=0"),
    ("an update at the edge of what a value may be", "docs/MODEL.md", "object x 1000000000 -> ok object x",
     "limit a object x 5 -> ok limit a", "start -> ok start", "propose add:x:1 -> refused 9 OutOfRange",
     "propose mul:x:-1 -> ok proposed 1", "settle -> ok round 1 a", "= 2000000000"),
    ("a feed of one update", SCRIPTS + "feeds.txt", "site a 1 -> ok site a", "propose add:x:1 -> ok proposed 1",
     "propose add:x:1 -> ok proposed 2", "send a -> ok sent a 1", "send a -> refused 15 FeedFull", "apply a -> ok applied a 1",
     "send a -> ok sent a 2", "apply a -> ok applied a 2", "apply a -> refused 16 NothingToApply",
     "send a -> refused 14 NothingToSend"),
    ("an import limit", SCRIPTS + "queries.txt", *LIMITED, "propose add:x:3 -> ok proposed 1", "settle -> ok acked 1",
     "send a -> ok sent a 1", "begin q a 4 -> ok begun q 1", "read q x -> ok read q x value 0 import 3 total 3",
     "apply a -> ok applied a 1", "read q x -> ok read q x value 3 import 0 total 3", "propose add:x:2 -> ok proposed 2",
     "send a -> ok sent a 2", "apply a -> ok applied a 2", "read q x -> refused 20 OverImport",
     "end q -> ok end q place 1 sum 3 total 3 reads 2"),
    ("nothing to settle, and an update before the start", SCRIPTS + "feeds.txt", "propose add:x:1 -> refused 2 NotStarted",
     "settle -> refused 17 NothingToSettle", "report a -> ok reported a 0", "report a -> ok reported a 0"),
    ("message sets that are refused", SCRIPTS + "message_sets.txt", *LIMITED, "propose -> refused 11 Empty",
     "propose add:x:1 add:x:2 -> refused 12 Repeated", "propose add:z:1 -> refused 6 UnknownObject",
     "propose inc:x:1 -> refused 1 Syntax", "propose add:x:01 -> refused 1 Syntax", "propose add:x:1000000001 -> refused 9 OutOfRange",
     "propose set:x:7 add:y:1000000000 -> refused 9 OutOfRange", "propose add:x:1 -> ok proposed 1"),
    ("declarations that are refused", SCRIPTS + "declarations.txt", "object 9x 1 -> refused 4 BadName",
     "object x 1000000001 -> refused 9 OutOfRange", "object x 1 -> ok object x", "object x 2 -> refused 5 NameTaken",
     "group g -> refused 11 Empty", "group g x x -> refused 12 Repeated", "group g x z -> refused 6 UnknownObject",
     "start -> refused 11 Empty", "site a 0 -> refused 9 OutOfRange", "site a 1024 -> ok site a",
     "limit a group h 1 -> refused 7 UnknownGroup", "limit b all 1 -> refused 8 UnknownSite",
     "limit a all 1000000000000000000 -> ok limit a", "limit a all 3 -> refused 12 Repeated",
     "limit a count -1 -> refused 9 OutOfRange", "start -> ok start", "start -> refused 3 AlreadyStarted"),
    ("queries that are refused", SCRIPTS + "queries.txt", "begin q a 0 -> ok begun q 0", "begin q a 0 -> refused 19 QueryOpen",
     "read p x -> refused 18 UnknownQuery", "read q z -> refused 6 UnknownObject", "read q y -> ok read q y value 10 import 0 total 0",
     "abandon q -> ok abandoned q", "end q -> refused 18 UnknownQuery", "begin Q a 0 -> refused 4 BadName",
     "begin q b 0 -> refused 8 UnknownSite", "begin q a 1000000000000000001 -> refused 9 OutOfRange"),
    ("a site that is ahead", SCRIPTS + "rounds.txt", *LIMITED, "propose add:x:9 -> ok proposed 1", *DELIVERED, "settle -> ok acked 1",
     "propose add:x:9 -> ok proposed 2", "settle -> ok round 2 a", "certify a -> ok certified a 1 1-2"),
    # ---- lines
    ("a line that is too long", OF_SCRIPTS + "scripts/script.rt", "4097", "refused 1 Syntax\\nrefused 1 Syntax\\n"),
    ("a line that is too long, and the next one", OUTSIDE, 'lines("object x 0") + line + lines("", "object y 1")',
     '"ok object x", "refused 1 Syntax", "ok object y"'),
    ("a command in a line of the most bytes, and in one of one more", OUTSIDE,
     'for count, answer in ((4_096, "ok object x"), (4_097, "refused 1 Syntax")):'),
    ("a line of blanks at its edge", OUTSIDE, '(b" ", "spaces")', "for count in (4_096, 4_097)", "count == 4_096 else"),
    ("numbers of 19 and of 20 digits, and one below 0 that is 0", SCRIPTS + "lines.txt",
     "object b 9999999999999999999 -> refused 9 OutOfRange", "object b 10000000000000000000 -> refused 1 Syntax",
     "object b -0 -> refused 1 Syntax"),
    ("a tab", SCRIPTS + "lines.txt", "object\\x09x 1 -> refused 1 Syntax"),
    ("a comment, which has no answer", SCRIPTS + "lines.txt", "> # a comment: été\n> \n>   object   x   1  \nok object x\n"),
    ("a last line that has no end", OUTSIDE, 'run(["run"], SCRIPT[:-1]), said(ANSWERS)'),
    ("a reader that gives a byte a call", OUTSIDE, "a byte at a time", "run_in_bytes(job.words, job.given), said(job.output)"),
    # ---- names, sizes
    ("the 65th limit of a site", OUTSIDE,
     r'(64, "site a 4\n[object o# 0\nlimit a object o# 5\n]limit a object o0 5", "10 TooMany")'),
    ("amounts at their edge", OUTSIDE, "(10**18, \"ok limit a\"), (10**18 + 1, OUT_OF_RANGE)"),
    ("the 65th open query", OUTSIDE, r'(64, "object x 0\nsite a 4\nstart\n[begin q# a 0\n]begin q0 a 0", "10 TooMany")',
     'range(64)], "refused 10 TooMany"'),
    ("the 257th read of a query, which may import", OUTSIDE,
     r'(256, "object x 5\nsite a 4\nstart\nbegin q a 0\n[read q x\n]propose add:x:1\nsend a\napply a\nread q x", "10 TooMany")'),
    ("the 257th read of a query, whose import is 0", OUTSIDE, "256 reads and one more", '"ok read q x value 0 import 0 total 0"] * 256',
     '"refused 10 TooMany"'),
    ("a full log", OUTSIDE, '"propose add:x:1\\n" * 1_000_001', "1,000,000 updates and one more", "refused 13 LogFull"),
    # ---- sets, logs, ledgers and limits, by calls
    ("the changes of a set", WORKED_ROWS, "fn a_message_set_has_at_most_64_changes", "64), Ok(64)", "65), Err(Refusal::TooMany)"),
    ("a set of which one change is out of range", WORKED_ROWS, "Op::Set(7)", "Op::Add(1_000_000_000)",
     "fn a_refused_update_leaves_the_log", "refused, Err(Refusal::OutOfRange)", "log.len(), 0", "[0, 10]"),
    ("the weight of a swap", WORKED_ROWS, "fn a_swap_weighs_the_way_of_each_value", "[10, 10]", "[10, 0]"),
    ("the greatest weight of an update", WORKED_ROWS, "fn an_update_of_one_object_weighs_2000000000_at_most",
     "Op::Add(1)), Err(Refusal::OutOfRange)", "Op::Mul(-1)), Ok(1)", "[2_000_000_000, 0]"),
    ("the path of three updates", WORKED_ROWS, "fn spans_add_up_the_way_and_not_the_net_change", "&[3, -3, 0]), Ok(())",
     "0, 3), [6, 0, 6, 3]"),
    ("the postings of 10,000 updates", WORKED_ROWS, "for _pair in 0..5_000", "&[1, -1]",
     "fn each_update_that_moves_an_object_has_a_posting", "0, 10_000), [10_000, 0, 10_000, 10_000]",
     "2_500, 7_500), [5_000, 0, 5_000, 5_000]", "&log), [0, 10]", "x()), (10_000, Some((10_000, 10_000)))", "y()), (0, None)"),
    ("a ledger that is extended and reported to", WORKED_ROWS, "ledger.extend(log, groups, 1)", "ledger.extend(log, groups, 2)",
     "ledger.reported(log, groups, 1)", "ledger.reported(log, groups, 3)", "ledger.extend(log, groups, 3)", "primary, 3), Ok(1)",
     "primary, -4), Ok(2)", "primary, 2), Ok(3)", "(on_x(), 5)", "Ok([false, false, true, false, false, false])"),
    ("64 scopes with 1,088 entries", WORKED_ROWS, "for place in 2..1_026", "of_a_65th_scope, Some(Refusal::TooMany)",
     "table.entries().len(), 1_088", "on_x(), 1_025)", "at_the_last_place, None", "on_x(), 1_026)",
     "at_the_next_place, Some(Refusal::TooMany)", "fn a_table_has_64_scopes_and_1088_entries"),
    # ---- plans
    ("50 updates that wait for both sites", "tests/plans.txt", "ordup threads 1", "> object x 0\n> object y 10\n> site a 4\n> site b 4\n",
     "> limit a all 0\n> limit b all 0\n> start\n>49 propose add:x:1\n> propose add:x:1\\\n",
     "log 50\nrefused 0\npending 0\nsite a applied 50 rounds 50 x=50 y=10\nsite b applied 50 rounds 50 x=50 y=10\ncertified a 50\n"
     "certified b 50\n"),
    ("a plan without a start", "tests/plans.txt", "$ ordup threads 2\n> object x 0\n> site a 4\n! 3 malformed 3\n"),
    ("a plan that starts without a site", "tests/plans.txt", "$ ordup threads 2\n> object x 0\n> start\n! 3 malformed 2\n"),
    ("a plan that proposes before the start", "tests/plans.txt",
     "$ ordup threads 2\n> object x 0\n> site a 4\n> propose add:x:1\n! 3 malformed 3\n"),
    ("a plan with a command that is none of a plan", "tests/plans.txt",
     "$ ordup threads 2\n> object x 0\n> site a 4\n> start\n> send a\n! 3 malformed 4\n"),
    # ---- records
    ("a valid record", RECORDS + "samples.txt", RECORD.format(limit=5) + "= yes 1\n"),
    ("a limit that is not passed", RECORDS + "samples.txt", RECORD.format(limit=6) + "= no 8 WindowLight\n"),
    ("a record without its round", RECORDS + "samples.txt", DECIDED.format(limit=5) + "window,1,0,2\n= no 6 LimitsBroken\n"),
    ("a record without its window", RECORDS + "samples.txt", DECIDED.format(limit=5) + "round,1,2,-\n= no 7 CountDiffers\n"),
    ("a window of one light update", RECORDS + "samples.txt",
     DECIDED.format(limit=5) + "round,1,2,-\nwindow,1,1,2\n= no 8 WindowLight\n"),
    ("the first five rows of a record", RECORDS + "samples.txt", FIVE_ROWS.format(limit=5) + "= malformed 6\n"),
    ("a record that is cut off", RECORDS + "samples.txt", FIVE_ROWS.format(limit=5) + "change,2,1\\\n= malformed 6\n"),
    ("an empty record", RECORDS + "samples.txt", "# No row\n= malformed 1\n"),
    ("windows that share an update", RECORDS + "samples.txt", SHARED + "= no 10 WindowsMeet\n"),
    ("a round and a window that a run did not have", RECORDS + "samples.txt",
     DECIDED.format(limit=5) + "report,2,1,-\nround,1,2,-\nwindow,1,0,2\n= no 9 WindowBeforeReport\n"),
    ("a record of a report in time", RECORDS + "samples.txt", DECIDED.format(limit=5) + "report,2,1,-\n= yes 0\n"),
    ("an update that is not legal", RECORDS + "samples.txt",
     "ordup,1,a,1\nobject,1,x,1000000000\nchange,1,1,add:x:1\n= no 3 NotLegal\n"),
    ("a record of a site that is not there", OF_SCRIPTS + "records/sites.rt", "fn a_site_that_is_not_there_has_no_record",
     "UnknownSite"),
    # ---- records that are cut, read and written in part
    ("a record cut off at each byte", RECORDS + "spellings.txt", "# 121 bytes", RECORD.format(limit=5),
     "~ 0-10 malformed 1\n~ 11-23 malformed 2\n~ 24-36 malformed 3\n~ 37-56 malformed 4\n~ 57-75 malformed 5\n~ 76-94 malformed 6\n"
     "~ 95-96 no 6 LimitsBroken\n~ 97-106 malformed 7\n~ 107-108 no 7 CountDiffers\n~ 109-119 malformed 8\n~ 120-121 yes 1\n"),
    ("a reader of a record that fails after each byte", OUTSIDE, "for job in [*JOBS[3:]", "for count in range(len(job.given) + 1)",
     'fault("read fault"', "a read fails after {count} bytes"),
    ("a reader of the first run that fails", OUTSIDE,
     "for count, written in ((0, 0), (10, 0), (11, 12), (25, 22), (26, 31), (64, 123))"),
    ("a reader of the first run that fails, by calls", OF_SCRIPTS + "scripts/script.rt", "fn a_read_that_fails_is_not_tried_again",
     "(25, 22), (26, 31), (64, 123)"),
    ("a writer of the first run that fails after each byte, or takes none", OF_SCRIPTS + "scripts/script.rt",
     "fn a_full_writer_has_got_a_front_of_the_answers", "(first_run.as_slice(), 64, first_answers.as_slice())", "Full::TakesNothing",
     "for spare in 0..answers.len()", "ScriptFault::Write"),
    ("a writer that takes 7 bytes", OUTSIDE, "| head -c 7", 'exactly(b"ok obje")'),
    ("a writer that cannot be flushed", OF_SCRIPTS + "flushes.rt", "fn a_flush_that_fails_is_a_write_fault_after_all_is_written"),
    ("the most bytes of a script", OF_SCRIPTS + "scripts/script.rt", "(first_run, first_answers, 63, 72, Some(ScriptFault::TooLong))",
     "(first_run, first_answers, 64, 123, None)", "fn a_comment_without_an_end_is_too_long", "byte: b'#'", "output.is_empty()"),
    ("the most bytes of a record", OF_SCRIPTS + "records/limits.rt", '(RECORD, 121, "yes 1")', '(RECORD, 120, "read fault")',
     "fn a_record_of_more_bytes_than_the_limit_is_not_read"),
    ("a record that a writer takes a part of", OF_SCRIPTS + "records/writing.rt",
     "fn a_writer_that_fails_has_got_a_front_of_the_record", "for spare in 0..text.len()"),
    # ---- limits by places
    ("limits by their places", RECORDS + "places.txt", PLACED, "- ordup,2,a,3\n+ ordup,2,a,3\n= yes 2\n"),
    ("limits by their places, in the first version", RECORDS + "places.txt", PLACED, "+ ordup,1,a,3\n= malformed 4\n"),
    ("limits by their places, in a version that is none", RECORDS + "places.txt", PLACED, "+ ordup,3,a,3\n= malformed 1\n"),
    ("limits by their places, without a round and its window", RECORDS + "places.txt", PLACED,
     varied(("round,2,3,-", "window,1,0,2", "window,2,2,3"), ("window,1,0,2",), "no 9 LimitsBroken")),
    ("a lowered limit that a window does not pass", RECORDS + "places.txt", PLACED,
     varied(("limit,2,object:x,3@2",), ("limit,2,object:x,4@2",), "no 13 WindowLight")),
    ("a limit from a place that is not decided", RECORDS + "places.txt", PLACED,
     "- limit,2,object:x,3@2\n", "+ limit,2,object:x,3@5\n= malformed 5\n"),
    ("a limit from a place below the one before", RECORDS + "places.txt", PLACED,
     varied(("limit,3,object:x,0@3",), ("limit,3,object:x,0@1",), "malformed 6")),
    ("a limit from place 1 on", RECORDS + "samples.txt", SECOND_VERSION + "= yes 1\n"),
    ("one record in two versions", OF_SCRIPTS + "records/writing.rt", SECOND_VERSION,
     "fn a_record_is_written_in_the_first_version_where_that_can_tell_it", "(RECORD_IN_THE_SECOND_VERSION, RECORD)"),
    # ---- limits that change
    ("a limit that is lowered", SCRIPTS + "changed_limits.txt", *LIMITED, "propose add:x:3 -> ok proposed 1", "settle -> ok acked 1",
     "relimit a object x 2 -> refused 25 LagOver", "relimit a object x 3 -> ok relimit a 2", "propose add:x:1 -> ok proposed 2",
     "settle -> ok round 2 a", "relimit a object x 9 -> refused 24 HeadPending", "send a -> ok sent a 1", "send a -> ok sent a 2",
     "apply a -> ok applied a 1", "apply a -> ok applied a 2", "report a -> ok reported a 2", "settle -> ok acked 2",
     "relimit a object x 0 -> ok relimit a 3", "propose add:x:1 -> ok proposed 3", "settle -> ok round 3 a",
     "certify a -> ok certified a 2 0-2 2-3", printed(PLACED) + "= yes 2\n"),
    ("a limit on a scope that had none", SCRIPTS + "changed_limits.txt", *LIMITED, "propose add:x:5 -> ok proposed 1",
     "settle -> ok acked 1", "relimit a count 0 -> refused 25 LagOver", "relimit a count 1 -> ok relimit a 2",
     "propose add:y:1 -> ok proposed 2", "settle -> ok round 2 a", "certify a -> ok certified a 1 0-2"),
    ("changes of limits that are refused, and one before any update", SCRIPTS + "changed_limits.txt",
     "relimit a object x 9 -> refused 2 NotStarted", "start -> ok start", "relimit z all 1 -> refused 8 UnknownSite",
     "relimit a group h 1 -> refused 7 UnknownGroup", "relimit a all -1 -> refused 9 OutOfRange",
     "relimit a object x 9 -> ok relimit a 1", "| ordup,1,a,0\n", "| limit,1,object:x,9\n"),
    ("a limit that is lowered to the lag", OF_CLUSTERS + "cluster/changed_limits.rt", "set, 1, Ok(1)",
     "on_x(), 2, Err(Refusal::LagOver)", "on_x(), 3, Ok(2)", "Verdict::Fewest(0)", "fn a_limit_is_lowered_to_what_a_site_lags"),
    # ---- feeds, turns and clusters
    ("the capacities of a feed", OF_THREADS + "feed/one_thread.rt", "fn a_feed_holds_1_to_1024_parcels",
     "(0, Some(Refusal::OutOfRange))", "(1_025, Some(Refusal::OutOfRange))"),
    ("a full feed", OF_THREADS + "feed/one_thread.rt", "fn a_full_feed_hands_the_parcel_back", "back.refusal.number(), 15",
     "back.parcel.number, 2", "pop(&rt, &mut taker), Some(1)", "pop(&rt, &mut taker), None", "back.parcel).is_ok()"),
    ("a thousand parcels, and no look finds more than was begun", OF_THREADS + "feed/two_threads.rt", "TRIES: u64 = 10_000_000",
     "PARCELS: u64 = 1_000", "known <= begun.load(Ordering::SeqCst)", "pop(rt, &mut end), i + 1", "fn a_thousand_parcels_come_in_order(",
     "rt.alloc(), 4)"),
    ("a thousand parcels through a feed of one", OF_THREADS + "feed/two_threads.rt", "fn a_thousand_parcels_come_in_order_one_by_one",
     "rt.alloc(), 1)"),
    ("a site that agrees, and one that applied something else", OF_CLUSTERS + "holds/agreement.rt",
     "fn a_site_agrees_where_it_holds_what_it_applied", "&mut primary, 3)", "rt; agrees(", "&mut replica, 4)", "rt; !agrees("),
    ("turns that end", OF_CLUSTERS + "holds/waiting.rt", "fn waiting_ends_with_the_last_turn_or_the_acknowledgement",
     "Planned::new(3, 0)", "2, 2), Err(Refusal::NotYet { number: 2 })", "store.made, 2", "Planned::new(3, 0)", "2, 5), Ok(())",
     "store.made, 3"),
    ("turns of which one is refused", OF_CLUSTERS + "holds/waiting.rt", "fn waiting_ends_with_a_refused_growth", "for turns in [2, 5]",
     "Planned::new(0, 2)", "Err(Refusal::NoMemory)", "store.made, 2"),
    ("a cluster of one site", OF_CLUSTERS + "cluster/one_site.rt", "set, 1, Err(Refusal::Stopped)", "value: 0, import: 3, total: 3",
     "value: 3, import: 0, total: 3", "place: 1, sum: 3, total: 3, reads: 2", "set, 1, Ok(1)", "a(), 0)", "a(), 4)", "a(), 3, 1)",
     "2, 1, Err(Refusal::OutOfRange)", "1, 1, Ok(())", "fn an_update_is_acknowledged_and_read", "Scope::Object(x()), 5"),
    ("a cluster whose site may not lag", OF_CLUSTERS + "cluster/one_site.rt", "set, 3, waits", "1, 2, waits", "a(), 0, 0)",
     "fn a_round_waits_for_its_report", "Scope::All, 0", "Window { from: 0, to: 1 }"),
    ("a round for each report", OF_CLUSTERS + "cluster/open_rounds.rt", "number: 1 })", "number: 2 })", "cluster.stop()", "2, 1, second",
     "2, 1, Ok(())", "fn each_round_waits_for_its_own_report", '("a", 1, Some((Scope::All, 0)))', "from: 0, to: 1", "from: 1, to: 2",
     "seen(2, 2)"),
    ("a site that is held before it applies", OF_THREADS + "held_site.rt", "value: 3, applied: 1",
     "Err(Refusal::Behind { applied: 0 })", "(a()).applied(), 1", "(b()).applied(), 1",
     "fn a_site_that_is_held_before_it_applies_holds_up_nobody", "Held::BeforeApply", "!gate.gave_up()"),
    ("a site that is held under its lock", OF_THREADS + "held_site.rt", "is_raised_within(gate.holding(), TRIES)",
     "fn a_site_that_is_held_under_its_lock_holds_up_nobody", "Held::AtApply", "!gate.gave_up()"),
    ("after how many tries a gate gives up", "crates/test_cluster_fixtures/src/waiting.rt", "TRIES: u64 = 10_000_000"),
    ("two callers and one site", OF_THREADS + "two_callers.rt", "for _ in 0..20", "log.len(), 40", "sets_on(log, x()), 20",
     "sets_on(log, y()), 20", "end_value(x()), 20", "end_value(y()), 30", "37 <= applied", "applied <= 40", "expect_fewest(",
     "fn two_callers_wait_for_one_site", '("a", 1, Some((Scope::Count, 3)))'),
    ("a site that may lag by three updates", OF_THREADS + "lagging_site.rt", "for number in 1..=4", "100), answer",
     "Refusal::Behind { applied: 0 }", "value: 0,\n        applied: 0,", "4, TRIES), Ok(())", "Window { from: 0, to: 4 }", "value(x()), 4",
     "fn the_fourth_proposal_waits_for_a_site_that_may_lag_by_three", '("a", 1, Some((Scope::Count, 3)))'),
    # ---- want of memory
    ("no memory for an addition", OF_MEMORY + "additions.rt", "fn each_growth_of_each_addition_is_refused"),
    ("no memory for a line", OF_MEMORY + "lines.rt", "fn each_growth_of_each_line_is_refused"),
    ("the lines for which there is no memory", OF_MEMORY + "growths.rt", "read q x\nok read q x value 0 import 3 total 3",
     "end q\nok end q place 1 sum 3 total 3 reads 2", "relimit a object x 3\nok relimit a 2"),
    ("no memory for a primary, and for a run", OF_MEMORY + "starts.rt", "fn each_growth_of_a_new_primary_is_refused",
     "fn each_growth_of_a_run_is_refused"),
    ("no memory for what is made of a primary", OF_MEMORY + "copies.rt", "fn each_growth_of_what_is_made_of_a_primary_is_refused"),
    ("no memory for a changed limit", OF_MEMORY + "changed_limits.rt", "fn each_growth_of_a_changed_limit_is_refused"),
    ("no memory for a script, and for a plan", OF_SCRIPTS + "scripts/memory.rt", "fn a_script_with_each_growth_refused",
     "fn a_plan_with_each_growth_refused"),
    ("no memory for the program", "checks/allocations", 'Case(["run"], FIRST_SCRIPT, 0, 10)',
     'Case(["record", "a"], SCRIPT, 0, 20)', 'Case(["check"], RECORD, 0, 10, 1)'),
    ("no memory for a cluster", "crates/memory_trial/src/clusters.rt", "fn try_cluster_without_limits", "fn relimit<", "fn begin<",
     "fn propose<", "fn settle<"),
    ("calls that take no memory", "crates/tests_of_calls_without_memory/src/readers.rt",
     "fn the_readers_of_a_primary_take_no_memory"),
    ("values, sites, queries and records that take no memory", "crates/tests_of_calls_without_memory/src/values.rt",
     "fn values_conditions_sites_queries_and_records_take_no_memory"),
    ("steps that take no memory", "crates/tests_of_calls_without_memory/src/steps.rt", "fn a_world_is_stepped_without_memory",
     "fn a_primary_notes_what_is_sent_and_reported_without_memory"),
    ("ledgers that take no memory", "crates/tests_of_calls_without_memory/src/ledgers.rt", "fn ledgers_take_no_memory"),
]


def is_there(text: str, pieces: Sequence[str]) -> bool:
    """Whether these stand in a text, in this order."""
    at = 0
    for piece in pieces:
        line, arrow, answer = piece.partition(" -> ")
        piece = f"> {line}\n{answer}\n" if arrow else piece
        if piece not in text[at:]:
            return False
        at = text.index(piece, at) + len(piece)
    return True


def parts_of(text: str, name: str) -> list[str]:
    """The rows of a file of tests/, or the whole of another one: the functions of a test stand before it."""
    return re.split(r"\n(?=# )", text) if name.startswith("tests/") else [text]


def lost(top: Path) -> Iterator[tuple[str, str]]:
    """Each worked row that does not stand where it should: the file, and what to say."""
    for what, name, *pieces in WORKED:
        text = (top / name).read_text(encoding="utf-8") if (top / name).is_file() else ""
        if not any(is_there(f"\n{part}\n", pieces) for part in parts_of(text, name)):
            yield name, f"{what}: this worked row does not stand there"
