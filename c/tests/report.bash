# What c/run-tests and iocsq/run-tests share: the lines that they print, the folder for what they make, and the
# compilers that there are. Source this, with `top` set to the repository's top.
# shellcheck disable=SC2034,SC2154 # the scripts use what is set here, and set `top`
#
# A test whose tool is missing is skipped. With GATE=1 in the environment it has failed: the gate is green only if
# everything ran. The last line is 'N passed, M failed', with ', K skipped' if some were.
export LC_ALL=C # the tests compare what tools print
passed=0 failed=0 skipped=0 parts=()

# package_of TOOL: Debian's package that has it, as .ci/packages says.
package_of() {
  local package tools
  while IFS=': ' read -r package tools; do
    if [[ " $tools " == *" ${1// /-} "* ]]; then echo "$package"; fi
  done <"$top/.ci/packages"
}

pass() { echo "passed $1"; passed=$((passed + 1)); }

# fail TEST [FILE]: with what the file says.
fail() {
  echo "FAILED $1"
  failed=$((failed + 1))
  if [[ $# -gt 1 ]]; then sed 's/^/  /' "$2" | cut -c1-200 | head -30; fi
}

# expect TEST COMMAND..: passes if the command ends well, and shows what it wrote if it doesn't.
expect() {
  local test=$1
  shift
  if "$@" >"$work/out" 2>"$work/errors"; then
    pass "$test"
  else
    fail "$test" <(tail -q -n 15 "$work/out" "$work/errors")
  fi
}

# skip TESTS WHY: these tests can't be run here.
skip() {
  if [[ ${GATE-} ]]; then
    fail "$1: $2"
  else
    skip_optional "$1" "$2"
  fi
}

# The same of tests that the gate does without.
skip_optional() { echo "skipped $1: $2"; skipped=$((skipped + 1)); }

# Prints the last line, and ends the script.
finish() {
  local others=
  if ((passed + failed == 0)); then fail "no test was run"; fi
  if ((skipped > 0)); then others=", $skipped skipped"; fi
  echo "$passed passed, $failed failed$others"
  exit $((failed > 0))
}

# part COMMAND..: runs a part of the tests beside the others, at most as many as there are processors, with a folder
# `work` of its own. join_parts prints what each wrote, in the order in which they were begun.
part() {
  local folder=$work/part.${#parts[@]}
  mkdir "$folder"
  while (($(jobs -rp | wc -l) >= $(nproc))); do wait -n; done
  set -m # each has a process group, which ends with the script
  part_in "$folder" "$@" >"$folder/lines" 2>&1 </dev/null &
  parts+=($!)
  set +m
}

part_in() {
  local work=$1 passed=0 failed=0 skipped=0
  shift
  "$@"
  echo "$passed $failed $skipped" >"$work/counts"
}

join_parts() {
  local at folder counts
  for at in "${!parts[@]}"; do
    folder=$work/part.$at
    wait "${parts[at]}"
    cat "$folder/lines"
    if [[ -s $folder/counts ]]; then
      read -ra counts <"$folder/counts"
      passed=$((passed + counts[0])) failed=$((failed + counts[1])) skipped=$((skipped + counts[2]))
    else
      fail "part $at did not end well"
    fi
    rm -rf "$folder"
  done
  parts=()
}

# Ends what still runs of the parts, and removes what was made.
clean_up() {
  local group
  for group in $(jobs -rp); do
    kill -- "-$group" 2>/dev/null
  done
  rm -rf "$work"
}

# Makes `work`, a folder for what is made, which goes as the script ends. What is compiled there has to run.
make_work() {
  if ! work=$(mktemp -d) || ! work=$(realpath -- "$work"); then
    fail "no folder can be made in ${TMPDIR:-/tmp}: TMPDIR names another"
    finish
  fi
  trap clean_up EXIT
  printf '#!/bin/sh\n' >"$work/try"
  chmod +x "$work/try"
  if ! "$work/try" 2>"$work/errors"; then
    fail "no program can be run in ${TMPDIR:-/tmp} (is it mounted noexec?): TMPDIR names another folder" "$work/errors"
    finish
  fi
}

# need TOOL TESTS: whether there is this tool, a program or a subcommand of cargo. If not, its tests are skipped.
need() {
  local command
  read -ra command <<<"$1"
  "${command[@]}" --version >"$work/out" 2>&1 && return
  skip "$2" "there is no $1 (Debian's package $(package_of "$1") has it)"
  return 1
}

# has COMPILER FLAG..: whether it has these flags, and what it makes of them runs. If not, `why` says what is wrong.
has() {
  local source=$work/try.c
  if [[ $1 == *++ ]]; then source=$work/try.cpp; fi
  echo 'int main(void) { return 0; }' >"$source"
  if ! "$@" "$source" -o "$work/program" 2>"$work/errors"; then
    why="$* does not compile"
  elif ! "$work/program" 2>"$work/errors"; then
    why="what $* compiles does not run"
  else
    return 0
  fi
  why+=": $(grep -m1 . "$work/errors")"
  return 1
}

# find_compilers ARRAY COMPILER..: sets the array to those of them that there are.
find_compilers() {
  local -n there=$1
  local compiler why
  there=()
  for compiler in "${@:2}"; do
    if ! need "$compiler" "what $compiler compiles"; then
      continue
    elif has "$compiler"; then
      there+=("$compiler")
    else
      skip "what $compiler compiles" "$why"
    fi
  done
}

# Sets `compilers` to those of C, or to cc if there is neither gcc nor clang, and `cxx_compilers` to those of C++.
# Without one of C nothing can be tested, nor without a linker and ar.
find_all_compilers() {
  local tool why complete=yes
  compilers=() cxx_compilers=()
  for tool in ld ar; do
    need $tool "what is linked" || complete=
  done
  find_compilers compilers gcc clang
  find_compilers cxx_compilers g++ clang++
  if ((${#compilers[@]} == 0)) && has cc; then compilers=(cc); fi
  if ((${#compilers[@]} == 0)); then fail "no C compiler works here"; fi
  if ((${#compilers[@]} == 0)) || [[ ! $complete ]]; then finish; fi
}

# find_sanitizer FLAG COMPILER..: sets `sanitizing` to the first of them that has this flag, or to nothing.
find_sanitizer() {
  local compiler why
  sanitizing=
  for compiler in "${@:2}"; do
    if has "$compiler" "$1"; then
      sanitizing=$compiler
      return
    fi
  done
  skip "the tests with $1" "$why (Debian's package gcc has it)"
}
