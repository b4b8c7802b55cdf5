# Whether the touches of iocsq's own state are whole (tests/touches.c), for iocsq/run-tests, whose variables and functions
# this uses: source it.
# shellcheck disable=SC2154,SC2317 # iocsq/run-tests sets the variables, and expect calls the functions

# The files that search the runs, in no run's state.
unwatched=(accesses arena contexts contexts_windows explore plans priorities races states system_linux system_windows traces
  turns variables)
# The calls by which threads take turns and touch.
watched_calls=(IocsqShared iocsq_begin_trace iocsq_begin_transition iocsq_choose iocsq_end_part iocsq_look_at_clock iocsq_now
  iocsq_part_of_thread iocsq_report_race iocsq_touch iocsq_touch_clock iocsq_wait_in_turns)

# The flags of the files whose accesses come to tests/touches.c.
watched_flags=(-fsanitize=thread -DCSQ_NO_TSAN '-DIOCSQ_COMMUTES=__attribute__((no_sanitize("thread")))'
  '-DIOCSQ_ADDS=__attribute__((section("iocsq_adds"), noinline))'
  -Dmemcpy=__tsan_memcpy -Dmemmove=__tsan_memmove -Dmemset=__tsan_memset)

# Compiles a file of iocsq so that its accesses come to tests/touches.c, or plainly: watch_file FILE OBJECT COMPILER FLAG..
watch_file() {
  local name compile=("${@:3}" -std=c11 "${warnings[@]}" -I"$top/include" -I"$top/iocsq")
  name=$(basename "$1" .c)
  if [[ " ${unwatched[*]} " == *" $name "* ]]; then
    "${compile[@]}" -c "$1" -o "$2"
  else
    "${compile[@]}" "${watched_flags[@]}" -c "$1" -o "$2" && objcopy --redefine-syms="$watched/names" "$2"
  fi
}

# Compiles iocsq, and the bounded test, into the folder `watched`: watch_all COMPILER FLAG..
watch_all() {
  local file
  mkdir -p "$watched"
  "$@" -std=c11 "${warnings[@]}" -I"$top/include" -I"$top/iocsq" -c "$top/iocsq/tests/touches.c" \
    -o "$watched/touches.o" || return 1
  nm "$watched/touches.o" | sed -n 's/.* T own_\(.*\)/__tsan_\1 own_\1/p' >"$watched/names"
  for file in "$top"/iocsq/*.c "$top/iocsq/tests/bounded.c"; do
    watch_file "$file" "$watched/$(basename "$file" .c).o" "$@" || return 1
  done
}

# Links the bounded test so with a driver: watch_driver PROGRAM DRIVER NUMBER COMPILER FLAG..
watch_driver() {
  local driver_objects folder own
  compile_driver "${@:2}" || return 1
  set_own "${@:4}"
  set_folder "${own[@]}"
  make_plain || return 1
  "${@:4}" "$watched"/*.o "${driver_objects[@]}" "${library[@]:-$folder/plain/libcsq.a}" "${wraps[@]}" \
    "${watched_calls[@]/#/-Wl,--wrap=}" -pthread -o "$1"
}

# The rules by which accesses are ordered, on runs made by hand: run_orders COMPILER FLAG..
run_orders() {
  if "$@" -std=c11 "${warnings[@]}" -I"$top/include" -I"$top/iocsq" "$top/iocsq/tests/orders.c" -o "$work/orders" \
    2>"$work/errors"; then
    expect "touches: each rule" "$work/orders"
  else
    fail "touches: the rules are not compiled" "$work/errors"
  fi
}

# Each two conflicting accesses of two threads are ordered by touches, in four scenarios of each right driver; and it is
# seen if the touches of a file are left out, also where its accesses commute with each other (IOCSQ_ADDS).
run_touches() {
  local driver watched=$work/watched scenarios=$top/iocsq/scenarios program=$work/touches
  local small=("$scenarios"/{cancel-insert,close-insert,control-wait,meet}.txt)
  need nm "the touches" && need objcopy "the touches" || return
  run_orders "$@"
  if ! watch_all "$@" 2>"$work/errors"; then
    fail "touches: not compiled" "$work/errors"
    return
  fi
  for driver in "${right[@]}"; do
    if watch_driver "$program" "${driver%:*}" "$(iocsq_number "$driver")" "$@" 2>"$work/errors"; then
      expect "touches: $driver" runs_all "1 preemption" "$program" 1 "${small[@]}"
    else
      fail "touches: $driver: not compiled" "$work/errors"
    fi
  done
  for driver in removal:usual/pass waits:drivers/slots; do
    objcopy --redefine-sym iocsq_touch=own_init "$watched/${driver%:*}.o" # which does nothing
    watch_driver "$program" "${driver#*:}" 0 "$@" &&
      expect "touches: those of ${driver%:*}.c are left out" ends_so 1 "and no touch orders the two" " 1 wrong$" \
        "$program" 1 "${small[@]}"
  done
}
