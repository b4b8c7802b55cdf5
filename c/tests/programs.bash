# The test programs of the C library, for c/run-tests and c/run-targets: source this after c/library.bash and
# c/tests/report.bash. `compilers` names the C compilers; `library` has the files to link, unless `plain` is set; `runs` is
# what runs a program that this system doesn't, and `omitted` names the tests that aren't for that system. `level` is the
# optimization of the tests, if it isn't the library's.
# shellcheck disable=SC2034,SC2154 # the scripts set and use these, and make `work`
warnings=(-Wall -Wextra -Wpedantic -Wshadow -Werror)
wrapped=(malloc calloc realloc free aligned_alloc posix_memalign)
plain='' library=() files=() runs=() omitted='' level=()

# The names of the calls of headers and of those that they include, sorted: names_of_calls HEADER..
names_of_calls() {
  "${compilers[0]}" -E -P -I"$top/include" "${@/#/--include=}" -x c - </dev/null | grep -oE '\bcsq_[a-z_]+ *\(' |
    tr -d ' (' | sort -u
}

# Writes calls.h for the test memory: each call of csq.h as a macro that notes it, and the list of their names. csq_build is
# in an installed library alone.
write_calls() {
  local names
  names=$(names_of_calls csq.h | grep -vx csq_build)
  # shellcheck disable=SC2001 # each line of several
  sed 's/.*/#define &(...) (note("&"), &(__VA_ARGS__))/' <<<"$names"
  echo 'static const char *const calls[] = {'
  # shellcheck disable=SC2001
  sed 's/.*/    "&",/' <<<"$names"
  echo '};'
}

note_calls() {
  noted=$work/noted
  mkdir "$noted"
  write_calls >"$noted/calls.h"
}

# The flags of a test beside those of its variant, one a line.
flags_of() {
  echo -pthread
  if [[ $1 == *memory ]]; then printf -- '-Wl,--wrap=%s\n' "${wrapped[@]}"; fi
  if [[ $1 == memory ]]; then
    # Its macros of the calls are no others'.
    printf '%s\n' "-I$noted" -DCSQ_NO_TSAN
  fi
}

# The files of the library as this variant links it: a plain queue is compiled by the variant's compiler and flags.
files_of() {
  local variant=$1
  shift
  if [[ $plain ]]; then
    csq_plain_library "$top" "$work/libcsq_${variant//[ ,]/_}.a" "$@" >&2 || return 1
    echo "$work/libcsq_${variant//[ ,]/_}.a"
  else
    printf '%s\n' "${library[@]}"
  fi
}

# Counts the lines of a test program, and its end where no line reported a fault, or where there is none.
count_lines() {
  local variant=$1 name=$2 status=$3 line
  local before=$passed failed_before=$failed
  while IFS= read -r line; do
    case $line in
      "passed "*) pass "$variant: $name: ${line#passed }" ;;
      "FAILED "*) fail "$variant: $name: ${line#FAILED }" ;;
    esac
  done <"$work/out"
  if ((failed > failed_before)); then return; fi
  if ((status != 0)); then
    fail "$variant: $name ended with status $status" "$work/errors"
  elif ((passed == before)); then
    fail "$variant: $name ran no test"
  fi
}

# run_test VARIANT FILE ARGUMENTS COMPILER FLAG..: compiles a test with the library and runs it.
run_test() {
  local variant=$1 name=${2%.*} file=$top/c/tests/$2 arguments flags
  read -ra arguments <<<"$3"
  shift 3
  if [[ " $omitted " == *" $name "* ]]; then return; fi
  mapfile -t flags < <(flags_of "$name")
  if ! "$@" "${level[@]}" "${warnings[@]}" -I"$top/include" "$file" "${files[@]}" "${flags[@]}" -o "$work/test.exe" \
    2>"$work/errors"; then
    fail "$variant: $name was not compiled" "$work/errors"
    return
  fi
  timeout 300 "${runs[@]}" "$work/test.exe" "${arguments[@]}" >"$work/out" 2>"$work/errors"
  count_lines "$variant" "$name" $?
}

# run_tests VARIANT TURNS QUEUES LARGEST COMPILER FLAG..: all tests, with this number of turns of each thread, queues of races,
# and threads and lives of the largest queue.
run_tests() {
  local variant=$1 turns=$2 queues=$3 largest=$4 name
  shift 4
  if ! mapfile -t files < <(files_of "$variant" "$@") || ((${#files[@]} == 0)); then
    fail "$variant: there is no library"
    return
  fi
  for name in header calls put_back looks judges locked refusals handles lives limits memory order ledger replay \
    requests_header requests requests_clock requests_loops requests_room requests_memory requests_system; do
    run_test "$variant" "$name.c" "" "$@" -std=c11
  done
  run_test "$variant" threads.c "$turns" "$@" -std=c11
  run_test "$variant" races.c "$queues" "$@" -std=c11
  run_test "$variant" largest.c "$largest" "$@" -std=c11
  run_test "$variant" requests_threads.c $((turns / 20)) "$@" -std=c11
  run_test "$variant" requests_storm.c $((turns / 20)) "$@" -std=c11
  run_test "$variant" requests_model.c $((turns * 5 / 2)) "$@" -std=c11
  run_test "$variant" ledger_model.c $((turns * 5 / 2)) "$@" -std=c11
}

