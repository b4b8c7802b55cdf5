# The tests of c/install and c/dist, for c/run-tests, whose variables and functions they use: source this.
# shellcheck disable=SC2154,SC2317 # c/run-tests sets the variables, and expect calls the functions

# What c/tests/header.cpp writes where all is well.
header_lines=$(printf 'passed %s\n' the_header_names_what_is_there each_code_has_its_name an_insert_has_its_status)

# By these each header is included.
last_headers=(csq_replay.h csq_requests.h)

# How many calls csq.h had at 1.0, and how many of these were symbols then. Neither changes any more: a call that is added
# says "Since: " and the version that has it first.
calls_of_first=35 symbols_of_first=27

# only_csq PREFIX VERSION: each library gives csq_* alone to others, and just the calls of the headers, those of 1.0 under
# the version CSQ_1, and the later ones under theirs, none of which is newer than csq.h.
only_csq() {
  local lib=$1/lib version=$2 newest
  "$top/c/package/made" "$work" calls
  nm -g --defined-only "$lib/libcsq.a" | awk 'NF == 3 { print $3 }' | sort >"$work/static"
  readelf -W --dyn-syms "$lib/libcsq.so" | awk '$5 == "GLOBAL" && $7 ~ /^[0-9]+$/ { print $8 }' | sort >"$work/shared"
  newest=$(sed 's/.*CSQ_//' "$work/shared" | sort -V | tail -1)
  names_of_calls "${last_headers[@]}" >"$work/declared"
  diff "$work/declared" <(cut -d' ' -f1 "$work/calls" | sort) && diff "$work/declared" "$work/static" &&
    diff "$work/static" <(sed 's/@@CSQ_.*//' "$work/shared") && count_is $calls_of_first ' 1\.0$' "$work/calls" &&
    count_is $symbols_of_first '@@CSQ_1$' "$work/shared" && [[ $newest == "${version%.*}" || $newest == "${version%%.*}" ]]
}

# count_is NUMBER PATTERN FILE: so many lines match.
count_is() {
  local count
  count=$(grep -c -- "$2" "$3")
  ((count == $1)) || { echo "$count lines match $2, not $1"; return 1; }
}

# by_name PREFIX BUILD COMPILER: each call is a symbol for those who bind by name, and csq_build returns this text, which
# the archive has too.
by_name() {
  local calls
  mapfile -t calls < <(names_of_calls "${last_headers[@]}")
  "$3" -std=c11 "${warnings[@]}" -I"$top/include" "$top/c/tests/by_name.c" -ldl -o "$work/by_name" &&
    "$work/by_name" "$1/lib/libcsq.so" "$2" "${calls[@]}" && grep -qaF "$2" "$1/lib/libcsq.a"
}

# says_proved PREFIX yes|no KIT: csq.pc says whether the library is proved, and by which kit.
says_proved() {
  local -x PKG_CONFIG_PATH=$1/lib/pkgconfig
  [[ $(pkg-config --variable=proved csq) == "$2" && $(pkg-config --variable=kit csq) == "$3" ]]
}

# well_formed FOLDER: the man pages below it have no error, by mandoc or man, and those of the headers have each call.
well_formed() {
  local page call
  set -- "$1"/man{3/csq,3/csq_ledger,3/csq_replay,3/csq_requests,1/csqsim}.*
  for page; do
    if command -v mandoc >"$work/page"; then
      mandoc -Tlint -W error "$page" >"$work/said"
    else
      man --warnings -E UTF-8 -l -Tutf8 -Z "$page" >"$work/page" 2>"$work/said"
    fi || return 1
    if grep . "$work/said"; then return 1; fi
  done
  for call in $(names_of_calls "${last_headers[@]}"); do
    grep -q "^.fB.*\b$call(" "$@" || { echo "no page has $call"; return 1; }
  done
}

# has_version PREFIX VERSION: the version of csq.h stands in the shared library's names and in what pkg-config reads.
has_version() {
  local lib=$1/lib version=$2 major=${2%%.*}
  readelf -d "$lib/libcsq.so.$version" | grep -F "soname: [libcsq.so.$major]" &&
    [[ $(readlink "$lib/libcsq.so.$major") == "libcsq.so.$version" ]] &&
    [[ $(readlink "$lib/libcsq.so") == "libcsq.so.$major" ]] && grep -x "Version: $version" "$lib/pkgconfig/csq.pc"
}

# staged ARGUMENT..: all lies below DESTDIR, and nothing in it names that folder.
staged() {
  local stage="$work/the stage" prefix="$work/now here" header
  rm -rf "$stage"
  DESTDIR=$stage "$top/c/install" "$prefix" "$@" && [[ ! -e $prefix ]] &&
    ! grep -rF "$stage" "$stage" && grep -xF "prefix=${prefix// /\\ }" "$stage$prefix/lib/pkgconfig/csq.pc" || return 1
  for header in include/keuvatsi/csq{,_ledger,_replay,_requests}.h; do
    cmp "$top/include/${header##*/}" "$stage$prefix/$header" || return 1
  done
}

# dist_same FOLDER ORIGIN ARGUMENT..: c/dist makes the same bytes twice, with their checksums; unpacked, as FOLDER/csq, a
# README with its origin.
dist_same() {
  local folder=$1 origin=$2 turn
  shift 2
  for turn in 1 2; do
    mkdir -p "$folder/$turn" && (cd "$folder/$turn" && "$top/c/dist" "$@") || return 1
  done
  cmp "$folder"/[12]/*.tar.gz && (cd "$folder/2" && sha256sum -c ./*.sha256) &&
    tar -xzf "$folder"/1/*.tar.gz -C "$folder" && mv "$folder"/csq-* "$folder/csq" &&
    grep -F "$origin" "$folder/csq/README" && (cd "$folder/csq" && sha256sum -c SHA256SUMS)
}

# dist_twice FOLDER ORIGIN ARGUMENT..: and the README's command installs it.
dist_twice() { dist_same "$@" && copied "$1/csq"; }

# copied FOLDER: what was unpacked is installed by its README's command, whole, and c/install removes it again.
copied() {
  local prefix=$work/copied command
  command=$(sed -n 's|^ *\(cp .*\)/usr/local && ldconfig .*|\1|p' "$1/README")
  rm -rf "$prefix" && mkdir "$prefix" && (cd "$1" && eval "$command '$prefix'") && listed "$prefix" &&
    "$top/c/install" "$prefix" --uninstall && [[ ! $(files_below "$prefix") ]]
}

# What lies below a folder: each file, and how it is.
files_below() { (cd "$1" && find . ! -type d -printf '%P %l\n' | sort); }

# listed PREFIX: just what the list of installed files names is there.
listed() { diff <(sort "$1/share/keuvatsi/files") <(cd "$1" && find . ! -type d -printf '%P\n' | sort); }

# removed PREFIX ARGUMENT..: c/install removes what it has installed, in that prefix and nothing else.
removed() {
  local prefix=$1
  shift
  mkdir -p "$prefix/lib/cmake/other" "$prefix/include/keuvatsi"
  touch "$prefix/lib/other" "$prefix/include/keuvatsi/other.h"
  "$top/c/install" "$prefix" "$@" && [[ -e $prefix/lib/libcsq.so ]] && "$top/c/install" "$prefix" --uninstall &&
    [[ $(files_below "$prefix") == $'include/keuvatsi/other.h \nlib/other ' ]] &&
    [[ ! -e $prefix/share/keuvatsi && ! -e $prefix/lib/cmake/csq && -e $prefix/lib/cmake/other ]] &&
    refuses "not installed" "$prefix" --uninstall
}

# interrupted PREFIX ACT ARGUMENT..: if a file in the middle can't be put in place, or the script is ended there, each
# file is what it was before, or isn't there; and what an older installation had alone goes with the next one.
interrupted() {
  local prefix=$1 act=$2
  shift 2
  mkdir -p "$work/failing"
  cat >"$work/failing/mv" <<END
#!/bin/sh
# The eleventh file isn't put in place.
echo >>"$work/moves"
[ \$(wc -l <"$work/moves") != 11 ] || { $act; exit 1; }
exec $(command -v mv) "\$@"
END
  chmod +x "$work/failing/mv"
  fails_at_the_eleventh "$prefix" "$@" && [[ ! $(files_below "$prefix") ]] && cp -a "$installed/." "$prefix" || return 1
  find "$prefix" -type f -exec sh -c 'echo "an older one" >>"$1"' sh {} \;
  echo lib/libcsq.so.0 >>"$prefix/share/keuvatsi/files"
  touch "$prefix/lib/libcsq.so.0"
  tar -C "$prefix" -cf "$work/older.tar" .
  fails_at_the_eleventh "$prefix" "$@" && tar -C "$prefix" -df "$work/older.tar" && "$top/c/install" "$prefix" "$@" &&
    listed "$prefix" && ! grep -rF "an older one" "$prefix"
}
fails_at_the_eleventh() {
  : >"$work/moves"
  ! PATH="$work/failing:$PATH" "$top/c/install" "$@" && (($(wc -l <"$work/moves") >= 11))
}

# from_a_clone ARGUMENT..: it is installed from a clone in a folder with a space.
from_a_clone() {
  local clone="$work/a clone"
  mkdir "$clone" && (cd "$top" && cp -R --parents c include iocsq bench/c outside/cases crates/csq_program/src "$clone") &&
    TMPDIR=$clone "$clone/c/install" "$work/from a clone" "$@" && listed "$work/from a clone"
}

# built_by_rt PREFIX VERDICT: c/install in that clone builds the library by a stand-in for the kit, which says this of it.
built_by_rt() {
  local clone="$work/a clone" stand_in=$work/stand_in
  mkdir -p "$clone/crates/csq_c/out" "$stand_in"/{bin,c}
  csq_plain_queue "$top" "$work/built.a" "$CC" -O2 -fPIC && ar rc "$stand_in/c/liblibc_c.a" || return 1
  cat >"$stand_in/bin/rt" <<END
#!/bin/sh
case \$1 in
  lib) cp "$work/built.a" out/libcsq_c.a && echo "$2" ;;
  version) echo "$kit" ;;
esac
END
  chmod +x "$stand_in/bin/rt"
  PATH="$stand_in/bin:$PATH" "$clone/c/install" "$1"
}
is_said_proved() { built_by_rt "$work/said" "logic=proved functions=1" && grep -xF "kit=$kit" "$work/said/lib/pkgconfig/csq.pc"; }
is_not_installed() { ! built_by_rt "$work/not" "logic=refused" && [[ ! -e $work/not ]]; }

# by_pkg_config PREFIX shared|static TEXT COMPILER FLAG.. SOURCE: the program is linked so, and writes this text.
by_pkg_config() {
  local prefix=$1 kind=$2 text=$3 flags libs libdir
  local -x PKG_CONFIG_PATH=$1/lib/pkgconfig LD_LIBRARY_PATH=
  shift 3
  # As the shell of a Makefile's recipe reads them: spaces in paths stand behind backslashes.
  eval "flags=($(pkg-config --cflags csq))"
  if [[ $kind == shared ]]; then
    eval "libs=($(pkg-config --libs csq))"
    LD_LIBRARY_PATH=$prefix/lib
  else
    libdir=$(pkg-config --variable=libdir csq)
    libs=("${libdir//\\ / }/libcsq.a")
  fi
  "$@" "${warnings[@]}" "${flags[@]}" "${libs[@]}" -pthread -o "$work/program" || return 1
  if readelf -d "$work/program" | grep -F '[libcsq.so.'; then [[ $kind == shared ]]; else [[ $kind == static ]]; fi &&
    [[ $("$work/program") == "$text" ]]
}

# server_by_pkg_config PREFIX EXAMPLE COMPILER: an example of a server, over the installed csq_requests.h.
server_by_pkg_config() {
  local flags libs
  local -x PKG_CONFIG_PATH=$1/lib/pkgconfig LD_LIBRARY_PATH=$1/lib
  eval "flags=($(pkg-config --cflags csq)) libs=($(pkg-config --libs csq))"
  "$3" -std=c99 "${warnings[@]}" "${flags[@]}" "$programs"/{"$2",load}.c "${libs[@]}" -o "$work/program" &&
    "$work/program" 8 4 2
}

# by_cmake PREFIX VERSION KIT COMPILER: the programs of c/tests/CMakeLists.txt find both libraries.
by_cmake() {
  local prefix=$1 version=$2 kit=$3 compiler=$4 kind
  rm -rf "$work/cmake"
  cmake -S "$programs" -B "$work/cmake" -DCMAKE_C_COMPILER="$compiler" -DCMAKE_PREFIX_PATH="$prefix" \
    -DVERSION="$version" -DKIT="$kit" && cmake --build "$work/cmake" || return 1
  for kind in shared static; do
    [[ $("$work/cmake/$kind") == "$(<"$top/c/examples/driver.stdout")" ]] || return 1
  done
}

# run_programs NAME PREFIX VERSION KIT COMPILER: programs in C and C++ find the installation by what there is here, and
# what it says of itself: proved by this kit, or by none.
run_programs() {
  local name=$1 prefix=$2 version=$3 kit=$4 compiler=$5 kind cxx proved=no
  if [[ $kit ]]; then proved=yes; fi
  if need pkg-config "$name: pkg-config"; then
    expect "$name: csq.pc says what is proved" says_proved "$prefix" $proved "$kit"
    for kind in shared static; do
      expect "$name: pkg-config, $kind" by_pkg_config "$prefix" $kind "$(<"$top/c/examples/driver.stdout")" \
        "$compiler" -std=c11 "$programs/driver.c"
      for cxx in "${cxx_compilers[@]}"; do
        expect "$name: pkg-config, $kind, $cxx" by_pkg_config "$prefix" $kind \
          "$header_lines" "$cxx" -std=c++17 "$programs/header.cpp"
      done
    done
    for kind in server loop; do
      expect "$name: pkg-config, $kind.c" server_by_pkg_config "$prefix" $kind "$compiler"
    done
  fi
  if need cmake "$name: CMake" && need make "$name: CMake"; then
    expect "$name: CMake" by_cmake "$prefix" "$version" "$kit" "$compiler"
  fi
  expect "$name: csq_requests.h from Python" python3 -B "$top/c/tests/requests_by_name.py" "$prefix/lib/libcsq.so"
  expect "$name: by name, and csq_build" by_name "$prefix" "csq $version proved=$proved${kit:+ kit=$kit}" "$compiler"
}

# run_install NAME PREFIX ORIGIN KIT ARGUMENT..: what c/install has made of these arguments in PREFIX, and what c/dist makes
# of them, in folders with a space. They are proved by this kit, or by none, which ORIGIN says.
run_install() {
  local name=$1 prefix=$2 origin=$3 kit=$4 dist="$work/the dist" version
  shift 4
  version=$("$CC" -include "$top/include/csq.h" -E -P -x c - <<<CSQ_VERSION | tail -1 | tr -d '"')
  expect "$name: only csq_* is global, by versions" only_csq "$prefix" "$version"
  expect "$name: soname and version" has_version "$prefix" "$version"
  expect "$name: all files are listed" listed "$prefix"
  expect "$name: csqsim beside what is proved alone" has_csqsim "$prefix" "$kit"
  expect "$name: the page" cmp "$CSQ_PAGE" "$prefix/share/keuvatsi/keuvatsi.html"
  expect "$name: DESTDIR" staged "$@"
  expect "$name: c/dist, twice the same" dist_twice "$dist" "$origin" "$@"
  run_programs "$name, installed" "$prefix" "$version" "$kit" "$CC"
  run_programs "$name, unpacked" "$dist/csq" "$version" "$kit" "$CC"
}

# has_csqsim PREFIX KIT: it is there, with its man page and its completions, if a kit has proved what is installed.
has_csqsim() {
  local there=no
  if [[ -x $1/bin/csqsim && -f $1/share/man/man1/csqsim.1 && -f $1/share/zsh/site-functions/_csqsim ]]; then
    there=yes
    completes_words "$1/share/bash-completion/completions/csqsim" || return
  fi
  [[ $there == "$([[ $2 ]] && echo yes || echo no)" ]]
}

# completed WORD..: what bash completes the last of these words with, by the completions of csqsim.
completed() {
  COMP_WORDS=("$@") COMP_CWORD=$(($# - 1)) COMPREPLY=()
  _csqsim
  echo "${COMPREPLY[*]}"
}

# completes_words FILE: these completions name csqsim's commands, the options of each, and files where one is read.
completes_words() (
  # shellcheck source=/dev/null # it is made by c/install
  source "$1" && cd "$(dirname "$1")" &&
    [[ $(completed csqsim sc) == "schedule script" && $(completed csqsim help d) == draw &&
      $(completed csqsim schedule --) == "--claims --wrong --explain --help --irps --passes" &&
      $(completed csqsim run --to) == --totals && ! $(completed csqsim run --irps "") && ! $(completed csqsim run c) &&
      $(completed csqsim draw c) == csqsim ]]
)

# unknown ARCHIVE..: it isn't said that they are proved, whatever the environment has.
unknown() {
  CSQ_KIT="$kit" "$top/c/install" "$work/unknown" "$@" && grep -x proved=no "$work/unknown/lib/pkgconfig/csq.pc" &&
    [[ ! -e $work/unknown/bin ]]
}

# copy_to FOLDER ARCHIVE..: sets `copies` to copies of these archives there, which have no receipt.
copy_to() {
  local folder=$1
  shift
  mkdir "$folder" && cp "$@" "$folder"
  copies=("${@##*/}")
  copies=("${copies[@]/#/"$folder"/}")
}

# Only a receipt says that archives are proved, and only of its own: run_receipts ARCHIVE..
run_receipts() {
  local folder=$work/receipts copies
  copy_to "$folder" "$@"
  csq_plain_library "$top" "$folder/plain.a" "$CC" -O1 -fPIC
  ar rc "$folder/empty.a"
  expect "install: a plain archive under another name" unknown "$folder/plain.a"
  expect "install: archives without a receipt" unknown "${copies[@]}"
  expect "install: what isn't proved gets no receipt" gets_none "${copies[@]}"
  csq_receipt "$kit" "logic=proved functions=1" "${copies[@]}"
  expect "install: a receipt of fewer archives" unknown "${copies[@]}" "$folder/empty.a"
  "$CC" -x c -c /dev/null -o "$folder/more.o" && ar r "${copies[0]}" "$folder/more.o"
  expect "install: a receipt of another archive" unknown "${copies[@]}"
  csq_receipt "$kit" "logic=proved functions=1" "$folder/plain.a"
  CSQSIM=$folder/empty.a expect "install: no csqsim" refused "no csqsim" "$work/none" "$folder/plain.a"
  CSQ_PAGE=$work/none.html expect "install: no page" refused "no page" "$work/none" --plain
  csq_receipt 'a "kit"' "logic=proved functions=1" "$folder/plain.a"
  expect "install: no line of a kit" refused "not a kit's line" "$work/none" "$folder/plain.a"
}
gets_none() { ! csq_receipt "$kit" "logic=refused" "$@" && ! csq_receipt "$kit" "" "$@" && [[ ! -e $1.receipt ]]; }

# refuses ERROR ARGUMENT..: c/install ends with the error of this name.
refuses() { ! "$top/c/install" "${@:2}" 2>"$work/refusal" && grep "^c/install: $1: " "$work/refusal"; }

# refused ERROR PREFIX ARGUMENT..: the same, and leaves no file in the prefix.
refused() { refuses "$@" && [[ ! $(find "$2" ! -type d) ]]; }

# Nobody reads what c/install prints: all is installed.
unread() {
  "$top/c/install" "$work/unread" --plain | head -1
  diff <(files_below "$installed") <(files_below "$work/unread")
}

# The csqsim that was built is packed, unless a source is newer.
newer_than_its_sources() {
  local built=$work/built/crates/csqsim
  mkdir -p "$built/out" "$built/src"
  cp "$programs/csqsim" "$built/out"
  touch -d "1 hour ago" "$built/src/main.rt"
  [[ $(program_of "$work/built") == "$built/out/csqsim" ]] && touch -d "1 hour" "$built/src/main.rt" &&
    [[ ! $(program_of "$work/built") ]]
}
# So is the page, unless a source of it is.
page_is_newer_than_its_sources() {
  local built=$work/built page=$work/built/crates/csq_page/out/keuvatsi.html source
  local sources=("$built"/{page/page.js,schedules/late.txt,docs/harmful-orders,crates/csq_page/codes.rt})
  mkdir -p "$built/crates/csq_page/out" "$built/page" "$built/schedules" "$built/docs"
  find "$built/crates" -name '*.rt' -delete
  touch -d "1 hour ago" "${sources[@]}"
  touch "$page"
  [[ $(page_of "$built") == "$page" ]] || return
  for source in "${sources[@]}"; do
    touch -d "1 hour" "$source" && [[ ! $(page_of "$built") ]] && touch -d "1 hour ago" "$source" || return
  done
  rm "$page" && [[ ! $(page_of "$built") ]]
}
# shellcheck disable=SC2016 # the parameters are that shell's
page_of() { env -u CSQ_PAGE bash -c 'source "$1/c/package.bash" && csq_page "$2"' run-tests "$top" "$1"; }
# shellcheck disable=SC2016 # the parameters are that shell's
program_of() { env -u CSQSIM bash -c 'source "$1/c/package.bash" && csq_program "$2"' run-tests "$top" "$1"; }

# helps SCRIPT: --help and -h print how it is called, and nothing else is done.
helps() {
  local option
  mkdir -p "$work/helped"
  for option in --help -h; do
    (cd "$work/helped" && "$top/$1" $option) >"$work/help" && grep "^ *$1 " "$work/help" &&
      ! grep '^#\|pipefail\|shellcheck\|^[0-9]* passed' "$work/help" && [[ ! $(ls -A "$work/helped") ]] || return 1
  done
}

# What c/install refuses, before it leaves anything.
run_refusals() {
  local script
  csq_plain_library "$top" "$work/part.a" "$1" -O2 -fPIC
  mkdir -p "$work/taken/lib/libcsq.a"
  touch "$work/file"
  expect "install: no archive" refused "no archive" "$work/none" "$work/none.a"
  expect "install: not a whole library" refused "not linked" "$work/none" "$work/part.plain_list.o"
  expect "install: prefix not writable" refused "prefix not writable" "$work/file/none" --plain
  expect "install: a folder in a file's place" refused "prefix not writable" "$work/taken" --plain
  expect "install: a prefix that csq.pc can't name" refused "not a prefix" "$work/\$none" --plain
  for script in c/{install,dist,run-tests,instrumented,package/made} bench/c/{run,memory}; do
    expect "$script: --help and -h" helps "$script"
  done
  expect "install and dist: csqsim, if it is newer than its sources" newer_than_its_sources
  expect "install and dist: the page, if it is newer than its sources" page_is_newer_than_its_sources
  OBJCOPY=no-objcopy expect "install: no tool" refused "no tool" "$work/none" --plain
}

# What c/install makes of archives that a kit has proved, by their receipt: run_archives ARCHIVE..
run_archives() {
  local prefix="$work/the prefix" copies
  copy_to "$work/proved" "$@"
  csq_receipt "$kit" "logic=proved functions=1" "${copies[@]}"
  set -- "${copies[@]}"
  expect "archives: c/install" "$top/c/install" "$prefix" "$@"
  run_install archives "$prefix" "proved, by this kit: $kit" "$kit" "$@"
  if command -v mandoc man >/dev/null; then
    expect "install: the man pages" well_formed "$prefix/share/man"
  else
    skip_optional "install: the man pages" "there is neither mandoc nor man (Debian's package man-db)"
  fi
}

# How c/install goes about it: run_install_script ARCHIVE..
run_install_script() {
  expect "install: nobody reads what it prints" unread
  run_refusals "$CC"
  run_receipts "$@"
  expect "install: --uninstall" removed "$work/removed" "$@"
  expect "install: all or nothing, a file refused" interrupted "$work/interrupted" true "$@"
  # shellcheck disable=SC2016 # the script's own process
  expect "install: all or nothing, ended" interrupted "$work/ended" 'kill -TERM $PPID' "$@"
  expect "install: from a clone in a folder with a space" from_a_clone "$@"
  expect "install: what rt lib proves is said to be proved" is_said_proved
  expect "install: what rt lib doesn't prove isn't installed" is_not_installed
}

# run_installs COMPILER ARCHIVE..: installs the plain C queue, as `installed`, and begins the tests of it, of these archives,
# which are those that are tested, and of what refuses to be installed.
run_installs() {
  local tool file kit="the kit of this test"
  local -x CC=$1
  shift
  for tool in ld objcopy ar nm readelf; do
    need $tool "c/install and c/dist" || return
  done
  programs=$work/programs installed="$work/installed plain"
  mkdir "$programs"
  for file in examples/{driver.c,server.c,loop.c,load.c,load.h} tests/{header.c,header.cpp,CMakeLists.txt}; do
    sed -E 's|"(csq[a-z_]*\.h)"|<keuvatsi/\1>|' "$top/c/$file" >"$programs/${file##*/}"
  done
  # A stand-in for csqsim.
  printf '#!/bin/sh\n' >"$programs/csqsim"
  chmod +x "$programs/csqsim"
  # And for the page, which another part of the gate may make meanwhile.
  printf '<!doctype html>\n' >"$programs/page.html"
  local -x CSQSIM=$programs/csqsim CSQ_PAGE=$programs/page.html
  expect "plain: c/install" "$top/c/install" "$installed" --plain
  part run_install plain "$installed" "Nothing of it is proved" "" --plain
  part run_archives "$@"
  part run_install_script "$@"
}
