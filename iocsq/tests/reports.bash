# The tests of what is printed: what never happened, where a report comes from, the results of `check`. For
# iocsq/run-tests, whose variables and functions they use: source this.
# shellcheck disable=SC2154,SC2317 # iocsq/run-tests sets the variables, and expect calls the functions

# never_saw STATUS TEXT COMMAND..: the command ends with this status, and says on standard error what never happened.
never_saw() {
  local want=$1 text=$2 status
  shift 2
  "$@" >"$work/table" 2>"$work/said"
  status=$?
  cat "$work/table" "$work/said"
  ((status == want)) && grep -q '^What happened, and how often:$' "$work/table" &&
    if [[ $text ]]; then grep -qF -- "$text" "$work/said"; else [[ ! -s $work/said ]]; fi
}

# What never happened is named, unless the policy says that it never does.
run_coverage() {
  local way text
  if ! TEST=coverage iocsq_build "$work/coverage" skeleton/driver 0 "$@" 2>"$work/errors"; then
    fail "coverage: not compiled" "$work/errors"
    return
  fi
  while read -r way text; do
    expect "coverage: $way: $text" never_saw "$nothing" "iocsq: $text" "$work/coverage" "$way"
    expect "coverage: $way, as the policy says" never_saw 0 "" "$work/coverage" "$way" never
  done <<'END'
nothing nothing was inserted
completed nothing was cancelled
completed CsqCompleteCanceledIrp never ran
cancelled nothing was removed
END
  expect "coverage: reads are completed and cancelled" never_saw 0 "" "$work/coverage" both
  run_idle "$@"
  run_begun_again "$@"
}

# names_no_kind STORM: it is quiet, and its table is of one kind of queues.
names_no_kind() { never_saw 0 "" "$1" 6 1000 1 turns && ! grep -w kind "$work/table"; }

# An IO_CSQ that is initialized again: while it is empty, and with a request in it.
run_begun_again() {
  local program=$work/begun
  iocsq_build "$program" drivers/keys 4 "$@" && expect "coverage: an empty queue may be initialized again" names_no_kind "$program"
  printf 'open f\n1 read f\n1 open g\n' >"$program.txt"
  TEST=bounded iocsq_build "$program" drivers/keys 3 "$@" &&
    expect "a queue with a request in it is initialized again" ends_so "$disagrees" "1 wrong$" \
      "IoCsqInitializeEx of an IO_CSQ that was initialized before, and irp 0 is in its queue$" "$program" 0 "$program.txt"
  grep -m1 '^iocsq: t' "$work/said" >>"$work/reports"
}

# The same of the patient test.
run_idle() {
  local driver_objects idle=$work/idle
  cat >"$idle.c" <<'END'
#include "iocsq_test.h"
extern const IOCSQ_POLICY DriverPolicy;
const IOCSQ_POLICY DriverPolicy = { .NeverInserts = TRUE };
END
  TEST=patient iocsq_build "$idle" drivers/workers 4 "$@" &&
    expect "patient: nothing was inserted" ends_so "$nothing" "^inserted 0, " \
      "^iocsq: nothing was inserted: no request reached a queue" "$idle" 3 20 1
  "$@" -std=c11 "${warnings[@]}" -I"$top/include" -c "$idle.c" -o "$idle.o" && compile_driver drivers/workers 4 "$@" &&
    iocsq_link "$idle" patient "$idle.o" "${driver_objects[0]}" -- "$@" &&
    expect "patient: nothing was inserted, as the policy says" ends_so 0 "^inserted 0, " "" "$idle" 3 20 1
}

# ends_so STATUS PATTERN PATTERN COMMAND..: it ends with this status, and its report has both.
ends_so() {
  local want=$1 first=$2 second=$3 status
  shift 3
  { "$@"; } >"$work/said" 2>&1
  status=$?
  cat "$work/said"
  ((status == want)) && grep -qE -- "$first" "$work/said" && grep -qE -- "$second" "$work/said"
}

# never_peeked COMMAND..: it disagrees, and its report doesn't say that iocsq itself has peeked.
never_peeked() {
  local status
  { "$@"; } >"$work/said" 2>&1
  status=$?
  cat "$work/said"
  ((status == disagrees)) && ! grep -qF "iocsq itself" "$work/said"
}

# Where a report comes from: the driver's lines, and those of what it did last where it isn't at work any more; the
# history of an IRP whose last call was long ago; a bad address by either signal.
run_places() {
  local storm=$work/placed
  need addr2line "places" || return
  iocsq_build "$storm" drivers/reports 5 "$@" &&
    expect "places: the driver's calls" ends_so "$disagrees" "^  at reports.c:[0-9]+, in Finish$" \
      "^  called by reports.c:[0-9]+, in DispatchRead$" "$storm" 6 3000 1 turns &&
    keep_run drivers/reports 5 storm -g "$disagrees" PROGRAM 6 3000 1 turns
  iocsq_build "$storm" drivers/slots 1 "$@" &&
    expect "places: the callback before" ends_so "$disagrees" "^  the callback at slots.c:[0-9]+, in RemoveSlot$" \
      "answered irp [0-9]+, and skipped irp" "$storm" 6 3000 1 turns
  iocsq_build "$storm" drivers/priority 2 "$@" &&
    expect "places: the peek" ends_so "$disagrees" "^  at priority.c:[0-9]+, in (Write|Cleanup)$" \
      "^  the callback at priority.c:[0-9]+, in PeekRead$" "$storm" 6 3000 1 turns
  iocsq_build "$storm" usual/idle 3 "$@" &&
    expect "places: a wrong peek context" ends_so "$policy" "^  at idle.c:[0-9]+, in Cleanup$" \
      "^  If the driver means it, the Match of its policy says what it means. Otherwise it isn't" "$storm" 6 3000 1 turns
  iocsq_build "$storm" hand/own 2 "$@" &&
    expect "places: where the cancel routine was set" ends_so "$disagrees" \
      "^iocsq: t[0-9]+: irp [0-9]+: the driver doesn't look at Irp->Cancel after it has set the cancel routine: " \
      "^  The cancel routine was set at own.c:[0-9]+, in (Queue|Read)$" "$storm" 6 3000 1 turns &&
    keep_run hand/own 2 storm -g "$disagrees" PROGRAM 6 3000 1 turns &&
    expect "places: the threads of a schedule" grep -qE "^    # p1: t[0-9]+, in IRP_MJ_READ$" "$work/said"
  iocsq_build "$storm" drivers/keys 5 "$@" &&
    expect "places: a queue that is never used" ends_so "$nothing" "^iocsq: nothing was inserted \\(queues of kind 2\\): " \
      "^  The queues of kind 2 have their CsqInsertIrpEx at waiting.h:[0-9]+, in InsertWaiting$" "$storm" 6 1000 1 turns
  iocsq_build "$storm" usual/current 1 "$@" &&
    expect "places: no peek but the framework's, as the policy says" never_peeked "$storm" 6 3000 1 turns
  iocsq_build "$storm" usual/current 2 "$@" && expect "peeks: what iocsq's own ones write is undone" "$storm" 6 3000 1 turns
  iocsq_build "$storm" usual/current 3 "$@" &&
    expect "peeks: what isn't undone is counted" ends_so 0 "^  CsqPeekNextIrp +[0-9]{5,}$" \
      "^  peek: writes in iocsq's own that weren't undone +[0-9]{5,}$" "$storm" 6 1000 1 turns
  iocsq_build "$storm" usual/idle 2 "$@" && expect "peeks: the device isn't idle by iocsq's own" "$storm" 6 3000 1 turns
  iocsq_build "$storm" drivers/filter 3 "$@" &&
    expect "places: a bad address" ends_so 139 "^iocsq: t[0-9]+: the driver used a bad address$" \
      "^  (called by|at) filter.c:[0-9]+, in PassOn$" "$storm" 6 3000 1 turns &&
    keep_run drivers/filter 3 storm -g 139 PROGRAM 6 3000 1 turns
  sed 's/^    PEXTENSION Extension = DeviceObject->.*/&\n    extern int raise(int); raise(7);/' \
    "$top/iocsq/skeleton/driver.c" >"$work/bus.c"
  "$@" -std=c11 -w -I"$top/include/wdk" -c "$work/bus.c" -o "$work/bus.o" &&
    iocsq_link "$storm" storm "$work/bus.o" -- "$@" && expect "places: SIGBUS" ends_so 135 "^iocsq: t[0-9]+: the driver used a bad address$" \
      "^  (called by|at) bus.c:[0-9]+, in DispatchRead$" "$storm" 6 3000 1 turns
  iocsq_build "$storm" drivers/busy 2 "$@" &&
    expect "places: the history of an IRP that was never completed" ends_so "$disagrees" "and was never completed$" \
      "^ +[0-9]+ t[0-9]+ +CsqRemoveIrp\\(irp [0-9]+\\)$" "$storm" 6 3000 1 turns
}

# writes_schedules STORM: a seed of the storm writes each different schedule of requests that are in no IO_CSQ.
writes_schedules() {
  rm -f "$work/schedules"
  IOCSQ_SCHEDULES=$work/schedules "$1" 6 1000 2 turns && grep '^[0-9]*: p1 ' "$work/schedules"
}

# Whether no step of a schedule was refused.
are_accepted() { ! grep -v '^[0#]' "$work/schedules"; }

# judges_alike CSQSIM: csqsim's verdict on each schedule of the file is that of iocsq's judge, and some are refused.
judges_alike() {
  "$top/iocsq/judge" "$work/schedules" "$1" >"$work/said"
  local status=$?
  cat "$work/said"
  ((status == 1)) && tail -1 "$work/said" | grep -qE '^[0-9]{2,} schedules, of which both refuse [0-9]+, and 0 '
}

# The schedules of a storm, and the verdict of the judge inside: right drivers are accepted, and where a look is missing
# that is refused without the race. On those of all drivers without an IO_CSQ, right and wrong, csqsim agrees.
run_judge() {
  local driver number pattern csqsim=${CSQSIM:-$top/crates/csqsim/out/csqsim}
  while read -r driver number pattern; do
    iocsq_build "$work/judged" "$driver" "$number" "$@" 2>"$work/errors" || fail "judge, $driver: not compiled" "$work/errors"
    expect "judge, $driver $number: its schedules" writes_schedules "$work/judged"
    if [[ $pattern == none ]]; then
      expect "judge, $driver: each is accepted" are_accepted
    else
      expect "judge, $driver $number: one is refused" grep -E "^[1-9][0-9]*: .*$pattern" "$work/schedules"
    fi
  done <<'END'
hand/own 0 none
hand/slot 0 none
hand/start 0 none
hand/system 0 none
hand/timed 0 none
hand/worker 0 none
usual/transfer 0 none
hand/own 2 p1 arm 0;p1 end
hand/own 3 p1 test 0;p1 arm 0
hand/worker 3 rearm 0;p[0-9]+ end
END
  rm -f "$work/schedules"
  iocsq_build "$work/judged" unusual/sweep 0 "$@" 2>"$work/errors" &&
    expect "judge, unusual/sweep: its schedules" env IOCSQ_SCHEDULES="$work/schedules" "$work/judged" 6 1000 1 turns
  while read -r pattern; do
    expect "judge, unusual/sweep, left out: $pattern" grep -xF "# left out: $pattern" "$work/schedules"
  done <<'END'
another thread's step comes before its insert is over, and in a schedule the insert has the lock until then
its thread finds Irp->Cancel set, and doesn't take the cancel routine back itself
END
  expect "judge: no file" refused "name a file of schedules" "$top/iocsq/judge" "$work/none"
  rm -f "$work/schedules"
  while read -r driver number; do
    iocsq_build "$work/judged" "$driver" "$number" "$@" 2>"$work/errors" &&
      IOCSQ_SCHEDULES=$work/schedules "$work/judged" 6 1000 2 turns >"$work/said" 2>&1
  done < <(printf '%s 0\n' "${hand[@]}" usual/transfer drivers/reports && grep -oE '^hand/[a-z]+ [0-9]+' "$top/iocsq/tests/wrong.txt")
  if [[ ! -f $csqsim || ! -x $csqsim ]]; then
    skip "judge: csqsim's verdicts" "there is no $csqsim (rt ci builds it)"
  else
    expect "judge: csqsim's verdicts on $(grep -v '^#' "$work/schedules" | sort -u | wc -l) schedules" judges_alike "$csqsim"
  fi
}

# The results of a right driver, and what its three runs covered together: check_passes STORM
check_passes() {
  "$top/iocsq/check" --seeds "1 2" --junit "$work/junit.xml" "$1" >"$work/tap" && cat "$work/tap" &&
    grep -q '^ok 3 - freely: inserted ' "$work/tap" && grep -qE '^#   CsqPeekNextIrp +[0-9]+$' "$work/tap" &&
    is_xml "$work/junit.xml" && grep -q 'tests="3" failures="0" skipped="0"' "$work/junit.xml"
}

# A report, and a run that tested nothing, in the results of `check`: check_fails STORM STATUS
check_fails() {
  local status
  "$top/iocsq/check" --seeds "1 2" --junit "$work/junit.xml" "$1" >"$work/tap" 2>"$work/said"
  status=$?
  cat "$work/tap" "$work/said"
  ((status == $2)) && grep -q '^iocsq: ' "$work/said" && grep -qx '1\.\.3' "$work/tap" &&
    grep -q '^not ok 1 - in turns, seed 1: ' "$work/tap" && ! grep -q '^ok' "$work/tap" &&
    grep -qx "Bail out! Status $2" "$work/tap" && is_xml "$work/junit.xml" &&
    grep -q 'tests="3" failures="1" skipped="2"' "$work/junit.xml" &&
    grep -q '<failure message="iocsq: ' "$work/junit.xml"
}

is_xml() { ! command -v python3 || python3 -c 'import sys, xml.dom.minidom; xml.dom.minidom.parse(sys.argv[1])' "$1"; }

run_check() {
  local storm=$work/checked
  if ! { iocsq_build "$storm" drivers/slots 0 "$@" && iocsq_build "$storm.wrong" drivers/slots 1 "$@" &&
    iocsq_build "$storm.idle" drivers/workers 4 "$@"; } 2>"$work/errors"; then
    fail "check: not compiled" "$work/errors"
    return
  fi
  expect "check: a right driver" check_passes "$storm"
  expect "check: a wrong driver" check_fails "$storm.wrong" "$disagrees"
  expect "check: a driver that queues nothing" check_fails "$storm.idle" "$nothing"
  expect "check: no storm" refused "name a storm" "$top/iocsq/check" "$work/none"
  expect "check: an option that is none" refused "there is no option --seed" "$top/iocsq/check" --seed 1 "$storm"
  expect "check: a file that can't be written" refused "can't be written" "$top/iocsq/check" --junit "$work/none/x" \
    "$storm"
}

# A report as a page: each call in its thread's column, and what the report says last.
run_drawing() {
  local report=$work/drawn_report
  if ! iocsq_build "$work/storm" drivers/reports 5 "$@" 2>"$work/errors"; then
    fail "draw: not compiled" "$work/errors"
    return
  fi
  storm_once "$work/storm" 1 >"$report" 2>&1
  "$top/iocsq/draw" "$report" >"$work/page.html" 2>"$work/errors"
  expect "draw: a row for each call, and one for the report" test \
    "$(grep -c '^<tr class' "$work/page.html")" -eq "$(($(grep -oE '^ {1,7}[0-9]+ t[0-9]+ ' "$report" | sort -u | wc -l) + 1))"
  expect "draw: what the report says" grep -qF "$(sed -n 's/^iocsq: t[0-9]*: //p' "$report")" "$work/page.html"
  expect "draw: by standard input" cmp "$work/page.html" <("$top/iocsq/draw" - <"$report")
  expect "draw: no report" refused "there is no line" "$top/iocsq/draw" "$work/page.html"
}
