# iocsq as a program of Windows, by mingw-w64 and under wine, for iocsq/run-tests, whose variables and functions this
# uses: source it. What a run on Linux printed is kept, and the same run on Windows has to print it word for word.
# shellcheck disable=SC2154,SC2317 # iocsq/run-tests sets the variables, and keep_run's calls name the functions
mingw=x86_64-w64-mingw32
wine=/usr/lib/wine/wine64

# keep_run DRIVER NUMBER TEST FLAGS STATUS CALL..: keeps what this call of Linux printed ($work/out), the program of the
# call being PROGRAM. DRIVER and NUMBER are those of iocsq_build, or - where the test needs no driver; so is STATUS if
# it isn't known. The run is RACES' and LEVEL's.
keep_run() {
  local file
  file=$kept/${1//\//_}-${2//\//_}-$3-$(cksum <<<"${RACES-} $*" | tr ' ' -)
  printf '%s\n' "$1" "$2" "$3" "$4" "$5" "${RACES-}" "${@:6}" >"$file"
  cp "$work/out" "$file.out"
}

# What the tests print beside each other's report: standard error alone, or both, one after the other.
# shellcheck disable=SC2069 # what goes to standard output is left out
errors_of() { "$@" 2>&1 >/dev/null; }
quiet() { "$@" 2>/dev/null; }
both_of() {
  local status
  "$@" 2>"$work/both"
  status=$?
  cat "$work/both"
  return $status
}

# same_words FILE FILE: but for rates, addresses, places in the program, and what the shell says of a signal.
same_words() {
  local words='s/\r$//; s/, [0-9]+ in a second//; s/at:[0-9a-f]+,/at:,/g
    s/\b(0x[0-9a-f]{6,}|[0-9A-Fa-f]{16})\b/ADDRESS/g
    /: line [0-9]+: .* Segmentation fault /d'
  diff <(sed -E "$words" "$1") <(sed -E "$words" "$2")
}

# What a test of Windows is linked from: the checker and the tests as objects, and an archive of the plain queue and of
# what a test may lack: windows_objects FOLDER COMPILER FLAG..
windows_objects() {
  local folder=$1 file object
  shift
  mkdir -p "$folder"/{tests,defaults,drivers,plain} || return 1
  for file in "$top"/iocsq/*.c "$top"/iocsq/defaults/*.c \
    "$top"/iocsq/tests/{storm,patient,bounded,kernel,names,threads,misuse,wdf,explore,priorities,races,arena,limits}.c
  do
    object=${file#"$top/iocsq/"}
    "$@" -std=c11 "${warnings[@]}" -I"$top/include" -I"$top/iocsq" -c "$file" -o "$folder/${object%.c}.o" || return 1
  done
  csq_plain_queue "$top" "$folder/plain/libcsq.a" "$@" &&
    $mingw-ar rs "$folder/plain/libcsq.a" "$folder"/defaults/*.o 2>"$work/errors"
}

# windows_sees COMPILER: as iocsq_sees. For Windows clang's driver has no such sanitizer, but the compiler itself.
windows_sees() {
  if [[ $1 == clang ]]; then echo -Xclang; fi
  iocsq_sees "$1"
}

# windows_driver OBJECT DRIVER NUMBER FLAGS COMPILER..: compiles a driver, and its policy, if it has one, as OBJECT.test.o.
windows_driver() {
  local object=$1 driver=$top/iocsq/$2 number=$3 options sees fault=() source=$top/iocsq/$2.c
  read -ra options <<<"$4"
  mapfile -t sees < <(windows_sees "$5")
  shift 4
  if [[ $number == planted || $number == *.fault ]]; then
    if [[ $number == *.fault ]]; then fault=("$top/iocsq/$number"); fi
    source=$object.c number=0
    "$top/iocsq/examples/plant" "$(basename "$driver")" "${fault[@]}" >"$source" || return 1
  elif [[ -f $driver.cpp ]]; then
    "$mingw-g++-posix" -std=c++17 -O1 "${warnings[@]}" "${sees[@]}" -I"$top/include/wdk" -c "$driver.cpp" -o "$object"
    return
  fi
  "$@" -std=c11 "${warnings[@]}" "${options[@]}" "${sees[@]}" -DWRONG="$number" -I"$top/include/wdk" \
    -c "$source" -o "$object" &&
    if [[ -f $driver.test.c ]]; then windows_policy "$object" "$driver.test.c" "$number" "$@"; fi
}

# windows_policy OBJECT FILE NUMBER COMPILER..: one for all numbers, unless it names them.
windows_policy() {
  local policy=${1%/*}/policies/${2//\//_}
  if grep -q WRONG "$2"; then policy+=_$3; fi
  make_once "$policy.o" "${@:4}" -std=c11 "${warnings[@]}" -DWRONG="$3" -I"$top/include" -c "$2" &&
    ln -f "$policy.o" "$1.test.o"
}

# Over which library of csq.h gcc's programs are, if it isn't the plain queue: docs/proved-library --all builds it.
windows_library=()

# windows_link PROGRAM OBJECTS TEST [OBJECT..]: what lacks a policy takes that of the archive, which -u looks for.
windows_link() {
  "$mingw-g++-posix" -static "$2"/*.o "$2/tests/$3.o" "${@:4}" "${windows_library[@]}" \
    "$2/plain/libcsq.a" \
    -Wl,-u,DriverPolicy,-u,DriverControls,-u,csq_build "${wraps[@]}" -o "$1"
}

linked='' # what the program is made of

# run_kept FILE NAME COMPILER FLAG..: the run of this file, by a program of Windows. NAME is the compiler's.
run_kept() {
  local file=$1 compiler=$2 row call objects=$work/windows/$2 object='' own=() tool status
  shift 2
  mapfile -t row <"$file"
  local name="windows, $compiler: ${row[0]} ${row[1]}: ${row[*]:6}"
  name=${name//"$top/iocsq/"/}
  if [[ ${row[0]} != - ]]; then
    object=$objects/drivers/${row[0]//\//_}-${row[1]//\//_}${row[3]// /}.o
    if [[ ! -f $object ]] && ! windows_driver "$object" "${row[@]:0:2}" "${row[3]}" "$@" 2>"$work/errors"; then
      fail "$name: not compiled" "$work/errors"
      return
    fi
    own=("$object")
    if [[ -f $object.test.o ]]; then own+=("$object.test.o"); fi
  fi
  if [[ ${row[3]} != *-g* ]]; then own+=(-s); fi # nobody looks for lines, and it is linked in less time
  if [[ $linked != "$object ${row[2]} $compiler" ]]; then
    linked="$object ${row[2]} $compiler"
    if ! windows_link "$work/test.exe" "$objects" "${row[2]}" "${own[@]}" 2>"$work/errors"; then
      fail "$name: not linked" "$work/errors"
      return
    fi
  fi
  call=("${row[@]:6}") tool=
  if [[ ${row[3]} == *-g* ]]; then tool=$(type -P "$mingw-addr2line"); fi
  # Beside others wine may not begin a program: then nothing was printed, and it is asked again.
  for _ in 1 2 3; do
    status=0
    IOCSQ_ADDR2LINE=$tool RACES=${row[5]} "${call[@]/#PROGRAM/$work/under_wine}" >"$work/said" 2>&1 || status=$?
    if [[ -s $work/said || ! -s $file.out ]]; then break; fi
  done
  if [[ ${row[4]} != - && ${row[4]} != "$status" ]]; then
    fail "$name: status $status, and ${row[4]} on Linux" "$work/said"
  elif ! same_words "$file.out" "$work/said" >"$work/errors"; then
    fail "$name: it prints other words" "$work/errors"
  else
    pass "$name"
  fi
}

# Wine, and its server, which ends a minute after the last program.
begin_wine() {
  export WINEPREFIX=$work/wine WINEDEBUG=-all WINEDLLOVERRIDES=mscoree,mshtml= WINESERVER=/usr/lib/wine/wineserver64
  printf '#!/bin/sh\nexec timeout 200 %s "%s" "$@"\n' "$wine" "$work/test.exe" >"$work/under_wine"
  chmod +x "$work/under_wine"
  mkdir "$WINEPREFIX" && "$WINESERVER" -p60 && "$wine" wineboot -i
  [[ -d $WINEPREFIX/drive_c/windows/system32 ]] # wineboot also wants to be one of 32 bits
}

# With the proved library on Linux gcc's programs are over that for Windows.
find_windows_library() {
  local proved=$top/crates/csq_c/out/windows-x86-64/libcsq_c.a
  if ((${#library[@]} == 0)); then return; fi
  if [[ ! -f $proved ]]; then
    skip "windows: over the proved library" "there is no $proved (docs/proved-library --all builds it)"
    return
  fi
  windows_library=("$proved")
  expect "windows: the library that is proved for Linux" "$mingw-nm" "$proved"
}

# run_windows COMPILER: all runs that were kept by gcc's programs of Windows, and some of them by clang's.
run_windows() {
  local files file clang=(clang "--target=x86_64-w64-windows-gnu" -O1)
  for file in "$mingw-gcc-posix" "$mingw-g++-posix" "$mingw-ar" "$wine" clang; do
    need "$file" "iocsq for Windows" || return
  done
  expect "windows: wine" begin_wine
  run_presets "$work/prefix/share/keuvatsi/iocsq/new"
  expect "windows: the checker by gcc" windows_objects "$work/windows/gcc" "$mingw-gcc-posix" -O1
  expect "windows: the checker by clang" windows_objects "$work/windows/clang" "${clang[@]}"
  mapfile -t files < <(find "$kept" -type f ! -name '*.out' | sort)
  if ((${#files[@]} < 600)); then fail "windows: only ${#files[@]} runs were kept"; fi
  find_windows_library
  for file in "${files[@]}"; do run_kept "$file" gcc "$mingw-gcc-posix" -O1; done
  windows_library=()
  for file in "$kept"/drivers_slots-* "$kept"/hand_own-*; do
    if [[ $file != *.out ]]; then run_kept "$file" clang "${clang[@]}"; fi
  done
  expect "windows: a word that differs is seen" sees_other_words
  expect "windows: a stop for a debugger" stops_windows "$work/windows/gcc"
  expect "windows: no file of addr2line's is left" leaves_no_file
  expect "windows: the program of limits" windows_link "$work/test.exe" "$work/windows/gcc" limits
  expect "windows: a thread that takes all of its stack" ends_so "$crash" "^iocsq: a thread took all of its stack" "" \
    "$work/under_wine" deep
}

# The comparison of all these runs by itself.
sees_other_words() {
  printf 'irp 1, 5 in a second\n' >"$work/one"
  printf 'irp 1, 6 in a second\r\n' >"$work/same"
  printf 'irp 2, 5 in a second\n' >"$work/other"
  same_words "$work/one" "$work/same" && ! same_words "$work/one" "$work/other"
}

# stops_windows FOLDER: at a call of the storm; nobody goes on there, so wine says what stopped it.
stops_windows() {
  local driver=$1/drivers/drivers_slots-0.o
  windows_link "$work/test.exe" "$1" storm "$driver" "$driver.test.o" || return 1
  "$work/under_wine" --stop 20 2 20 1 turns >"$work/said" 2>&1
  grep -F "Unhandled exception 0x80000003" "$work/said"
}

leaves_no_file() { [[ -d $WINEPREFIX/drive_c/users ]] && ! find "$WINEPREFIX" -name 'csq*.tmp' | grep .; }

# As MSVC would compile them, as far as clang knows: the headers, a driver with the names of the WDK, and the plain
# queue, over mingw's headers and without an extension of gcc's. Those headers put words after a declaration that MSVC
# has before it.
run_msvc() {
  local header file include=/usr/share/mingw-w64/include
  local compile=(clang --driver-mode=cl --target=x86_64-pc-windows-msvc -fms-compatibility /std:c11 -fsyntax-only -W3
    -Wgnu -Wlanguage-extension-token -Wno-multichar -Werror -imsvc "$include" "/FI$work/msvc.h" "/I$top/include")
  need clang "what MSVC would compile" || return
  printf '#include <_mingw.h>\n' >"$work/msvc.h"
  printf '#undef %s\n#define %s\n' __MINGW_ATTRIB_{DEPRECATED,DEPRECATED,NORETURN,NORETURN} >>"$work/msvc.h"
  for header in csq csq_ledger csq_replay csq_requests iocsq iocsq_test; do
    echo "#include \"$header.h\"" >"$work/header.c"
    expect "msvc: $header.h" "${compile[@]}" -- "$work/header.c"
  done
  for file in "$top"/bench/c/plain_{queue,judges,list,ledger,replay}.c "$top/iocsq/tests/signatures.c" \
    "${drivers[@]/#/$top/iocsq/}" "${hand[@]/#/$top/iocsq/}" "${kmdf[@]/#/$top/iocsq/}"; do
    expect "msvc: ${file#"$top/"}" "${compile[@]}" "/I$top/include/wdk" -DWRONG=0 -- "${file%.c}.c"
  done
}

# What `new` makes is built by CMake's presets too: run_presets NEW
run_presets() {
  local folder=$work/presets preset
  for preset in cmake ninja; do need $preset "the presets of a driver's project" || return; done
  expect "presets: a driver is made" "$1" "$folder"
  for preset in linux windows; do
    expect "presets: $preset" env -C "$folder" cmake --preset $preset -DCSQ_SEEDS=1
  done
  expect "presets: linux, a program" env -C "$folder" cmake --build --preset linux --target ordered
  expect "presets: linux, its test" env -C "$folder" ctest --preset linux -R ordered
  expect "presets: windows, the programs" env -C "$folder" cmake --build --preset windows
  expect "presets: windows, the tests" env -C "$folder" ctest --preset windows --output-junit junit.xml
  expect "presets: windows, the results" grep -q 'tests="5"' "$folder/build/windows/junit.xml"
  cp "$top/iocsq/drivers/reports.c" "$folder/driver.c"
  sed -i '1i #define WRONG 5' "$folder/driver.c"
  expect "presets: a wrong driver" env -C "$folder" cmake --build --preset windows --target storm
  expect "presets: its report" ends_so 8 "of irp [0-9]+, which was completed before|is completed while it is" \
    "at driver.c:[0-9]+, in Finish" env -C "$folder" IOCSQ_ADDR2LINE="$(type -P "$mingw-addr2line")" \
    ctest --preset windows -R "in turns"
}
