# The tests of the bounded mode, for iocsq/run-tests, whose variables and functions they use: source this.
# shellcheck disable=SC2154,SC2317 # iocsq/run-tests sets the variables, and expect calls the functions

# The bounded mode by itself: as many schedules as there are; runs by priorities, against their bound; and the check of
# data races, access by access.
run_explore() {
  local program programs=(explore races) arguments status text
  if [[ $* != *sanitize* ]]; then programs+=(arena priorities limits); fi
  for program in "${programs[@]}"; do
    iocsq_link "$work/$program" "$program" -- "$@" 2>"$work/errors" || fail "$* $program: not linked" "$work/errors"
  done
  for arguments in "1 5 2" "2 3 0" "2 3 1" "2 3 2" "2 4 3" "3 3 1" "3 4 2" "2 3 8"; do
    read -ra numbers <<<"$arguments"
    expect "$* explore: threads, points, preemptions $arguments" "$work/explore" "${numbers[@]}"
    keep_run - - explore "" 0 PROGRAM "${numbers[@]}"
  done
  expect "$* races: each case" "$work/races"
  keep_run - - races "" 0 quiet PROGRAM
  if [[ $* == *sanitize* ]]; then return; fi # each run would be a process; and the sanitizer has the memory
  expect "$* arena: the memory of a run" "$work/arena"
  keep_run - - arena "" 0 PROGRAM
  for arguments in "3 1000" "12 4000"; do
    read -ra numbers <<<"$arguments"
    expect "$* priorities: points, runs $arguments" "$work/priorities" "${numbers[@]}"
    keep_run - - priorities "" 0 PROGRAM "${numbers[@]}"
  done
  while read -r arguments status text; do
    expect "$* limits: $arguments" ends_so "$status" "$text" "" "$work/limits" "$arguments"
    keep_run - - limits "" "$status" PROGRAM "$arguments"
  done <<END
free 0 ^each thread has its own$
turns 0 ^each thread has its own$
search 0 ^status $disagrees, then 0$
limit $disagrees ^iocsq: the run takes longer than it may
END
}

# ends_with LINE COMMAND..: it ends well, and LINE is a pattern for its last line.
ends_with() {
  local line=$1
  shift
  "$@" >"$work/said" 2>&1
  local status=$?
  cat "$work/said"
  ((status == 0)) && tail -1 "$work/said" | grep -qxE "$line"
}

# all_run PREEMPTIONS: a pattern for the last line of a right driver whose accesses are checked.
all_run() {
  echo "[0-9]+ schedules of [0-9]+ classes, at most $1, each access of the driver checked, all run, none wrong, no data race"
}

# runs_all PREEMPTIONS COMMAND..: the same of a driver that may have nothing to insert in these scenarios.
runs_all() {
  local line
  line=$(all_run "$1")
  shift
  "$@" >"$work/said" 2>&1 || (($? == nothing)) || return 1
  cat "$work/said"
  tail -1 "$work/said" | grep -qE "^$line"
}

# same_classes PROGRAM PREEMPTIONS SCENARIO: the search has each class of schedules that every schedule has, each with what
# its threads log, and no class has two such logs.
same_classes() {
  rm -f "$work"/{all,kept}
  "$1" --unreduced --traces "$work/all" "$2" "$3" >"$work/said" 2>&1 || (($? == nothing)) || return 1
  "$1" --traces "$work/kept" "$2" "$3" >"$work/said" 2>&1 || (($? == nothing)) || return 1
  diff <(sort -u "$work/all") <(sort -u "$work/kept") && ! cut -d' ' -f1 <(sort -u "$work/all") | uniq -d | grep .
}

# Some scenarios with at most one preemption, for each right driver, and whether each class of two is run; each scenario for
# one of them.
# Without the driver's accesses, and with the address sanitizer, for which each run is a process of its own, the schedules
# are as many.
run_bounded_right() {
  local driver number program=$work/bounded count scenarios=$top/iocsq/scenarios
  for driver in "${right[@]}"; do
    number=$(iocsq_number "$driver")
    if ! TEST=bounded iocsq_build "$program" "${driver%:*}" "$number" "${compilers[0]}" -O1 2>"$work/errors"; then
      fail "bounded, $driver: not compiled" "$work/errors"
    else
      expect "bounded, $driver: at most 1 preemption" runs_all "1 preemption" "$program" 1 \
        "$scenarios"/{cancel-insert,close-insert,meet,two-writes,control-wait,control-write}.txt
      keep_run "${driver%:*}" "$number" bounded "" - PROGRAM 1 \
        "$scenarios"/{cancel-insert,close-insert,meet,two-writes,control-wait,control-write}.txt
      expect "classes of $driver: cancel-insert" same_classes "$program" 1 "$scenarios/cancel-insert.txt"
      expect "classes of $driver: close-insert" same_classes "$program" 1 "$scenarios/close-insert.txt"
    fi
  done
  TEST=bounded iocsq_build "$program" races/drain 53 "${compilers[0]}" -O1 &&
    expect "bounded: what is volatile orders nothing" ends_so "$disagrees" "a data race: t[0-9]+ .* what t[0-9]+ " "1 wrong$" \
      "$program" --iso 2 "$scenarios/"{three-reads,meet,pass-over}.txt
  TEST=bounded iocsq_build "$program" drivers/slots 0 "${compilers[0]}" -O1 &&
    expect "bounded: each scenario" ends_with "$(all_run "2 preemptions")" "$program" 2 "$scenarios"/*.txt &&
    expect "bounded: without the driver's accesses" ends_with \
      "[0-9]+ schedules, at most 2 preemptions, all run, none wrong" "$program" --races 0 2 \
      "$scenarios"/{cancel,close}-insert.txt
  count=$(tail -1 "$work/said")
  if [[ $addressed ]] && TEST=bounded iocsq_build "$program" drivers/slots 0 "$addressed" "${address[@]}"; then
    expect "bounded: as many with the address sanitizer" ends_with "$count" "$program" 2 \
      "$scenarios"/{cancel,close}-insert.txt
    TEST=bounded iocsq_build "$program" drivers/manners 2 "$addressed" "${address[@]}" &&
      expect "bounded: its report" ends_so "$sanitizer" "use-after-poison" "1 wrong$" "$program" 1 \
        "$scenarios/cancel-removal.txt"
  fi
}

# Four scenarios of some drivers, with two preemptions.
run_classes() {
  local driver scenario program=$work/classes
  for driver in drivers/slots hand/own usual/startio; do
    TEST=bounded iocsq_build "$program" "$driver" 0 "$@" 2>"$work/errors" || fail "classes of $driver: not compiled" "$work/errors"
    for scenario in cancel-removal two-writes close-two meet; do
      expect "classes of $driver: $scenario, 2 preemptions" same_classes "$program" 2 "$top/iocsq/scenarios/$scenario.txt"
    done
  done
}

# The rows of the table in docs/IOCSQ.md with fewer than 3,000 schedules: they are counted again.
run_counts() {
  local -a small
  need gcc "the table of schedules" || return
  awk '/^\| [a-z]+\/[a-z]+ \| 3 \| [0-9]+ \| [0-9]+ \|$/ && $6 < 3000' "$top/docs/IOCSQ.md" >"$work/table"
  mapfile -t small < <(awk '{ print $2 }' "$work/table")
  if ((${#small[@]} == 0)); then
    fail "the table of schedules has no row that is counted again"
    return
  fi
  expect "the schedules of ${#small[@]} drivers are as many as DRIVERS says" diff "$work/table" \
    <(IOCSQ_OBJECTS=${IOCSQ_OBJECTS:-$work/objects} "$top/iocsq/count-schedules" "${small[@]}")
}

# bounded_wrong PROGRAM SCENARIO PREEMPTIONS TEXT: a wrong driver's schedule with so many preemptions, and none with
# fewer, has this report; and the same when it is run alone.
bounded_wrong() {
  local program=$1 scenario=$2 preemptions=$3 text=$4 schedule status
  "$program" 2 "$scenario" >"$work/said" 2>"$work/report"
  status=$?
  cat "$work/said" "$work/report"
  grep -m1 '^iocsq: t' "$work/report" >>"$work/reports"
  schedule=$(sed -nE 's/.*--schedule ([0-9a-z:,]+) shows it again$/\1/p' "$work/said")
  ((status == disagrees || status == crash)) && grep -qE -- "$text" "$work/report" &&
    grep -qE "is wrong, with $preemptions preemptions? and none with fewer" "$work/said" &&
    tail -1 "$work/said" | grep -qxE "[0-9]+ schedules, at most $preemptions preemptions?, not all run, 1 wrong" ||
    return 1
  "$program" --schedule "$schedule" "$scenario" >"$work/said" 2>"$work/again"
  (($? == status)) && cmp "$work/report" "$work/again"
}

# The wrong drivers of tests/bounded.txt: a driver, the place where it is wrong, a scenario, the fewest preemptions of a
# schedule that shows it, and what its report says.
run_bounded_wrong() {
  local driver number scenario preemptions text rows=$top/iocsq/tests/bounded.txt
  if [[ ! -s $rows ]]; then
    fail "there are no wrong drivers in $rows"
    return
  fi
  while read -r driver number scenario preemptions text; do
    if TEST=bounded iocsq_build "$work/bounded" "$driver" "$number" "$@" 2>"$work/errors"; then
      expect "bounded, $driver $number: $scenario, $preemptions preemptions" bounded_wrong "$work/bounded" \
        "$top/iocsq/scenarios/$scenario.txt" "$preemptions" "$text"
      keep_run "$driver" "$number" bounded "" - both_of PROGRAM 2 "$top/iocsq/scenarios/$scenario.txt"
    else
      fail "bounded, $driver $number: not compiled" "$work/errors"
    fi
  done <"$rows"
}

# remembers PROGRAM SCENARIO LINE STATUS: with its schedule in the scenario the program prints LINE first, and ends so.
remembers() {
  "$1" 0 "$2" >"$work/said" 2>"$work/report"
  local status=$?
  cat "$work/said" "$work/report"
  head -1 "$work/said" | grep -qxF -- "$2: schedule $3" && ((status == $4))
}

# stops PROGRAM SCHEDULE: the call before the last one of a report is where a debugger would look.
stops() {
  "$1" --stop 6 --schedule "$2" "$work/remembered.txt" >"$work/said" 2>&1
  (($? == 128 + 5)) # SIGTRAP
}

# A scenario that names the schedule which was wrong once: before the mend, after it, and once it is another test.
run_remembered() {
  local schedule number scenario=$work/remembered.txt stale=$work/stale.txt
  for number in 0 1; do
    TEST=bounded iocsq_build "$work/remembered$number" hand/own $number "$@" 2>"$work/errors" ||
      fail "bounded, hand/own $number: not compiled" "$work/errors"
  done
  cp "$top/iocsq/scenarios/cancel-removal.txt" "$scenario"
  schedule=$("$work/remembered1" 1 "$scenario" 2>/dev/null | sed -nE 's/.*--schedule ([0-9:,]+) shows.*/\1/p')
  echo "schedule $schedule" >>"$scenario"
  expect "bounded: a schedule of the scenario" remembers "$work/remembered1" "$scenario" "$schedule is wrong again" "$disagrees"
  keep_run hand/own 1 bounded "" "$disagrees" both_of PROGRAM 0 "$scenario"
  expect "bounded: the schedule, once mended" remembers "$work/remembered0" "$scenario" \
    "$schedule: nothing is wrong in it any more" 0
  expect "bounded: a stop for a debugger" stops "$work/remembered1" "$schedule"
  sed 's/^schedule .*/schedule 900:1/' "$scenario" >"$stale"
  expect "bounded: another test's schedule" remembers "$work/remembered0" "$stale" "900:1 is no longer one of this test" 0
  echo "schedule x" >>"$stale"
  expect "bounded: no schedule" refused "stale.txt:7: a second schedule: x" "$work/remembered0" 0 "$stale"
}

# drawn_wrong PROGRAM SCENARIO TEXT: a run by priorities has this report, and the same when it is run alone.
drawn_wrong() {
  local program=$1 scenario=$2 text=$3 schedule status
  "$program" --depth 3 3000 "$scenario" >"$work/said" 2>"$work/report"
  status=$?
  cat "$work/said" "$work/report"
  schedule=$(sed -nE 's/^.*: run [0-9]+ of depth 3 is wrong: --schedule (pct:[0-9:]+) shows it again$/\1/p' "$work/said")
  ((status == disagrees)) && grep -qE -- "$text" "$work/report" || return 1
  "$program" --schedule "$schedule" "$scenario" >"$work/said" 2>"$work/again"
  (($? == disagrees)) && cmp "$work/report" "$work/again"
}

# Runs by priorities of a right driver and of wrong ones.
run_drawn() {
  local program=$work/drawn scenarios=$top/iocsq/scenarios
  TEST=bounded iocsq_build "$program" drivers/slots 0 "$@" &&
    expect "priorities: a right driver" ends_with "2 scenarios, 200 runs of depth 3 of each, none wrong" "$program" \
      --depth 3 200 "$scenarios"/{cancel,close}-insert.txt &&
    expect "priorities: what is said of a run" grep -qE \
      "close-insert.txt: 200 runs of depth 3, 3 threads, ([0-9]+) steps: .* at least 1 in [0-9]+$" "$work/said"
  TEST=bounded iocsq_build "$program" drivers/manners 6 "$@" &&
    expect "priorities: a wrong driver" drawn_wrong "$program" "$scenarios/close-insert.txt" \
      "went into the queue after IRP_MJ_CLEANUP of its file" &&
    keep_run drivers/manners 6 bounded "" "$disagrees" both_of PROGRAM --depth 3 3000 "$scenarios/close-insert.txt"
}

# What a scenario can't say is named, with its line.
run_bounded_refusals() {
  local line text program=$work/bounded
  TEST=bounded iocsq_build "$program" drivers/slots 0 "$@" || return
  while IFS='|' read -r line text; do
    printf '# a scenario\nopen f\n%s\n' "$line" >"$work/scenario"
    expect "bounded: $line" refused "$work/scenario:3: $text" "$program" 1 "$work/scenario"
  done <<'END'
1 send f|not a call: send
1 read g|no line before opens this file object: g
read f|only open stands without a thread, as in '1 read f': read
4 read f|a thread is 1, 2 or 3: 4
1 pause soon|not a number: soon
1 cancel|the name of a request is missing
1 read f r s|a word too many: s
END
  expect "bounded: no scenario" refused "there is no such scenario" "$program" 1 "$work/none"
  expect "bounded: no number" refused "argument 1 is a number from 0 to 8" "$program" many "$work/scenario"
  printf 'open f\n1 read f\n' >"$work/scenario"
  expect "bounded: no schedule" refused "no schedule: all" "$program" --schedule all "$work/scenario"
  expect "bounded: no depth" refused "argument 2 is a number from 1 to 8" "$program" --depth 9 1 "$work/scenario"
  expect "bounded: another's schedule" refused "it is another test's" "$program" --schedule 99:1 "$work/scenario"
  expect "bounded: another's place" refused "the schedule names a place to which the run doesn't come" "$program" \
    --schedule at:1,0:0 "$top/iocsq/scenarios/cancel-insert.txt"
  printf 'open f\n1 close f\n' >"$work/scenario"
  expect "bounded: nothing is inserted" refused "nothing was inserted" "$program" 1 "$work/scenario"
}

# With `bounded` beside the storm the shortest is the schedule with the fewest preemptions.
run_witness() {
  local folder=$work/witness
  mkdir -p "$folder"
  if ! { iocsq_build "$folder/storm" drivers/manners 6 "$@" && TEST=bounded iocsq_build "$folder/bounded" \
    drivers/manners 6 "$@"; } 2>"$work/errors"; then
    fail "the shortest, of bounded: not compiled" "$work/errors"
    return
  fi
  expect "the shortest, of bounded: 2 preemptions" ends_so 0 \
    "^The shortest, with 2 preemption.* and none with fewer: .*/bounded --schedule [0-9a-z:,]+ .*/close-insert.txt$" \
    "went into the queue after IRP_MJ_CLEANUP" "$top/iocsq/shortest" "$folder/storm" "$work/schedule"
  expect "the shortest, of bounded: its schedule" grep -qx "p1 arm 0" "$work/schedule"
}
