# Makes the tree of an installation, for c/install and c/dist: source this after c/library.bash, with the shell's
# options -euo pipefail. CC, LD, AR and OBJCOPY name the tools, LIBDIR the libraries' folder below the prefix, and `target` the
# target, as csq_tools takes it.
# shellcheck disable=SC2154 # the scripts set target
: "${CC:=cc}" "${LD:=ld}" "${AR:=ar}" "${OBJCOPY:=objcopy}" "${LIBDIR:=lib}"
csq_files=share/keuvatsi/files # the list of what is installed below a prefix, which is one of them

# Ends the script with an error: csq_refuse NAME WHAT, with what to do. csq_script names one that isn't in c.
csq_refuse() {
  echo "${csq_script:-c/${0##*/}}: $1: $2" >&2
  exit 1
}

# Refuses where one of these tools isn't there.
csq_need() {
  local tool
  for tool; do
    command -v "$tool" >/dev/null || csq_refuse "no tool" \
      "there is no $tool. A C compiler and binutils have cc, ld, ar and objcopy, for which CC, LD, AR and OBJCOPY name others"
  done
}

# Prints the archives to pack, one a line: csq_archives TOP WORK takes the proved library, built where its sources have
# changed; with --plain the plain C queue, compiled in the folder WORK; with FILE.. these.
csq_archives() {
  local top=$1 work=$2 file
  shift 2
  if [[ ${1-} == --plain ]]; then
    csq_plain_library "$top" "$work/libcsq_plain.a" "$CC" -O2 -fPIC ||
      csq_refuse "no archive" "the plain C queue wasn't compiled. CC names another compiler than $CC"
    echo "$work/libcsq_plain.a"
  elif (($# > 0)); then
    for file; do
      [[ -f $file ]] || csq_refuse "no archive" "there is no file $file. Name what csq_library of c/library.bash prints"
    done
    printf '%s\n' "$@"
  else
    csq_library "$top" || csq_refuse "no archive" "name those of a library that was built, or say --plain"
  fi
}

# Prints the proved archives for a target that docs/proved-library --all has built, one a line: csq_built TOP TARGET
csq_built() {
  local out
  out=$(csq_out "$1" "$2")
  if [[ ! -f $out/libcsq_requests.a.receipt || $(csq_newer "$1" "$out/libcsq_requests.a.receipt") ]]; then
    csq_refuse "no archive" "no proved library for $2 was built since its sources changed: docs/proved-library --all, after rt ci"
  fi
  printf '%s\n' "$out"/libcsq_{requests,c}.a
}

# Prints a source of what is proved that is newer than a file, if there is one: csq_newer TOP FILE
csq_newer() { find "$1/crates" -newer "$2" \( -name '*.rt' -o -name '*.antt' \) -print -quit; }

# Prints the line of the kit that proved these archives, or nothing if they aren't known to be proved: only a receipt beside
# the first of them says so, in which the checksums are those of all, and of no other.
csq_kit() {
  local receipt=$1.receipt kit
  if [[ ! -f $receipt ]]; then return; fi
  if ! grep -q '^verdict logic=proved ' "$receipt" || [[ $(grep '^sha256 ' "$receipt") != "$(csq_sums "$@")" ]]; then
    echo "c/${0##*/}: not said to be proved: $receipt is of other archives" >&2
    return
  fi
  kit=$(sed -n 's/^kit //p' "$receipt")
  [[ $kit =~ ^[A-Za-z0-9\ ._:,+/()=-]+$ ]] ||
    csq_refuse "not a kit's line" "$receipt names '$kit', not what rt version prints"
  echo "$kit"
}

# Prints the csqsim to pack beside a proved library, or nothing: the one that CSQSIM names, or the proved one, if no source
# is newer. A proof of it takes too long to be made here.
csq_program() {
  local top=$1 program=$1/crates/csqsim/out/csqsim
  if [[ ${CSQSIM-} ]]; then
    [[ -f $CSQSIM && -x $CSQSIM ]] || csq_refuse "no csqsim" "CSQSIM is $CSQSIM, which is no program"
    echo "$CSQSIM"
  elif [[ ! -x $program ]]; then
    echo "c/${0##*/}: without csqsim, which isn't built: (cd crates/csqsim && rt run)" >&2
  elif [[ $(csq_newer "$top" "$program") ]]; then
    echo "c/${0##*/}: without csqsim, which is older than its sources: (cd crates/csqsim && rt run)" >&2
  else
    echo "$program"
  fi
}

# Prints the page of csqsim to pack, which is the same for each target, or nothing: the one that CSQ_PAGE names, or that
# page/build has made, if no source is newer.
csq_page() {
  local top=$1 page=$1/crates/csq_page/out/keuvatsi.html
  local sources=("$top/page" "$top/schedules" "$top/docs/harmful-orders")
  if [[ ${CSQ_PAGE-} ]]; then
    [[ -f $CSQ_PAGE ]] || csq_refuse "no page" "CSQ_PAGE is $CSQ_PAGE, which is no file"
    echo "$CSQ_PAGE"
  elif [[ -f $page && ! $(csq_newer "$top" "$page") && ! $(find "${sources[@]}" -newer "$page" -type f) ]]; then
    echo "$page"
  fi
}

# Adds it to a tree: csq_add_page TOP TREE
csq_add_page() {
  local page
  page=$(csq_page "$1")
  if [[ $page ]]; then install -D -m 644 "$page" "$2/share/keuvatsi/keuvatsi.html"; fi
}

# Prints the version, which stands in csq.h alone.
csq_version() {
  sed -n 's/^#define CSQ_VERSION "\([0-9.]*\)"$/\1/p' "$1/include/csq.h" | grep . ||
    csq_refuse "no version" "include/csq.h has no line #define CSQ_VERSION \"MAJOR.MINOR.PATCH\""
}

# Prints a template of c/package with its names between @ replaced: csq_fill FILE NAME=VALUE..
csq_fill() {
  local text pair
  text=$(<"$1")
  shift
  for pair; do
    text=${text//@"${pair%%=*}"@/"${pair#*=}"}
  done
  printf '%s\n' "$text"
}

# Links the archives, and the calls that are written in csq.h, into one object, in which only csq_* is a name for others,
# and packs that as libcsq.a: csq_join TOP WORK BUILD ARCHIVE.., where BUILD is csq_build's text.
csq_join() {
  local top=$1 work=$2 build=$3 lib=$2/tree/$LIBDIR
  shift 3
  "$CC" -std=c99 -O2 -fPIC -I"$top/include" -DCSQ_BUILD="\"$build\"" -c "$top/c/package/csq_calls.c" -o "$work/calls.o" ||
    csq_refuse "not compiled" "$CC can't compile c/package/csq_calls.c. CC names another compiler"
  "$LD" -r --whole-archive "$@" --no-whole-archive "$work/calls.o" -o "$work/csq.o" ||
    csq_refuse "not linked" "$LD can't link the archives. Name those of csq_library of c/library.bash, each once"
  "$OBJCOPY" --wildcard --keep-global-symbol='csq_*' "$work/csq.o"
  mkdir -p "$lib"
  "$AR" rcsD "$lib/libcsq.a" "$work/csq.o"
}

# Links that object into the shared library: csq_share WORK VERSION, where WORK/map has the versions of symbols.
csq_share() {
  local work=$1 version=$2 major=${2%%.*} lib=$1/tree/$LIBDIR
  # Calls inside of the library are bound there (-Bsymbolic): what was proved isn't exchanged for a program's own.
  "$CC" -shared -Wl,-soname,"libcsq.so.$major" -Xlinker --version-script="$work/map" -Wl,-Bsymbolic -Wl,-z,defs \
    -Wl,-z,relro,-z,now -Wl,--require-defined=csq_new_queue "$work/csq.o" -pthread -o "$lib/libcsq.so.$version" ||
    csq_refuse "not linked" "the archives aren't a whole library. Name all that csq_library of c/library.bash prints"
  ln -s "libcsq.so.$version" "$lib/libcsq.so.$major"
  ln -s "libcsq.so.$major" "$lib/libcsq.so"
}

# The same for Windows: csq.dll, which says what it is in its properties too, and its import library:
# csq_share_dll TOP WORK VERSION BUILD
csq_share_dll() {
  local top=$1 work=$2 version=$3 build=$4 tree=$2/tree
  "$top/c/package/made" "$work" csq.def
  csq_fill "$top/c/package/csq.rc.in" "VERSION=$version" "NUMBERS=${version//./,},0" "BUILD=$build" >"$work/csq.rc"
  mkdir -p "$tree/bin"
  # The linker would take the time, and a base from the file's whole name: the same archives give the same bytes.
  if ! "$WINDRES" "$work/csq.rc" -o "$work/rc.o" ||
    ! "$CC" -shared -static-libgcc -s -Wl,--no-insert-timestamp -Wl,--image-base,0x180000000 \
      -Wl,--out-implib,"$tree/$LIBDIR/libcsq.dll.a" "$work"/{csq.o,rc.o,csq.def} -o "$tree/bin/csq.dll"; then
    csq_refuse "not linked" "$CC and $WINDRES can't make csq.dll of the archives. Name all of a library for Windows"
  fi
}

# Adds what tests of drivers are built from: the headers, and the checker as sources, since it is compiled with the
# sanitizers of the driver that it tests: csq_add_iocsq TOP TREE SYSTEM, which is CMake's name for the library's.
csq_add_iocsq() {
  local top=$1 tree=$2 share=$2/share/keuvatsi/iocsq
  install -d "$tree/include/keuvatsi"/{iocsq,wdk} "$share"/{skeleton,tests,scenarios,defaults,plain}
  install -m 644 "$top"/include/iocsq*.h "$tree/include/keuvatsi"
  install -m 644 "$top"/include/iocsq/*.h "$tree/include/keuvatsi/iocsq"
  install -m 644 "$top"/include/wdk/*.h "$tree/include/keuvatsi/wdk"
  install -m 644 "$top"/iocsq/*.{c,h,cmake} "$share"
  install -m 644 "$top"/iocsq/defaults/*.c "$share/defaults"
  install -m 644 "$top"/bench/c/plain_*.[ch] "$share/plain"
  install -m 644 "$top"/iocsq/skeleton/* "$share/skeleton"
  install -m 644 "$top"/iocsq/tests/{storm.c,patient.c,bounded.c,program.h,levels.h} "$share/tests"
  install -m 644 "$top"/iocsq/scenarios/* "$share/scenarios"
  install -m 755 "$top"/iocsq/{new,check,shortest,judge,draw,new.ps1,check.ps1} "$share"
  printf '%s\n' "# Paths from this folder, for new, and the system of the library" "include=../../../include/keuvatsi" \
    "library=../../../$LIBDIR/libcsq.a" "system=$3" >"$share/installed"
}

# Makes the versions of symbols, WORK/map, and adds the man pages, and csqsim with its completions if there is one:
# csq_add_made TOP WORK PROGRAM
csq_add_made() {
  local top=$1 work=$2 tree=$2/tree program=$3 page pages=(csq.3 csq_ledger.3 csq_replay.3 csq_requests.3)
  if [[ $program ]]; then
    install -D -m 755 "$program" "$tree/bin/csqsim"
    pages+=(csqsim.1)
    "$top/c/package/made" "$work" csqsim.bash _csqsim
    install -D -m 644 "$work/csqsim.bash" "$tree/share/bash-completion/completions/csqsim"
    install -D -m 644 "$work/_csqsim" "$tree/share/zsh/site-functions/_csqsim"
  fi
  "$top/c/package/made" "$work" map "${pages[@]}"
  for page in "${pages[@]}"; do
    install -D -m 644 "$work/$page" "$tree/share/man/man${page##*.}/$page"
  done
}

# Installs the headers of the library: csq_add_headers TOP TREE
csq_add_headers() { install -D -m 644 -t "$2/include/keuvatsi" "$1"/include/csq{,_ledger,_replay,_requests}.h; }

# Makes the tree WORK/tree for Windows: csq_package_windows TOP WORK KIT ARCHIVE.. What KIT has proved is the code for Linux.
csq_package_windows() {
  local top=$1 work=$2 kit=$3 version build
  shift 3
  version=$(csq_version "$top")
  build="csq $version proved=no"
  if [[ $kit ]]; then build="csq $version proved=for-linux kit=$kit"; fi
  csq_join "$top" "$work" "$build" "$@"
  csq_share_dll "$top" "$work" "$version" "$build"
  csq_add_headers "$top" "$work/tree"
  csq_add_iocsq "$top" "$work/tree" Windows
  csq_add_page "$top" "$work/tree"
}

# Makes the tree WORK/tree: csq_package TOP WORK PREFIX KIT ARCHIVE.., where PREFIX is what csq.pc is to name, and KIT the
# line of the kit that proved the archives, or empty. pkg-config reads a space in its variables behind a backslash.
csq_package() {
  local top=$1 work=$2 prefix=$3 kit=$4 tree=$2/tree lib=$2/tree/$LIBDIR version proved=no program='' file
  shift 4
  version=$(csq_version "$top")
  if [[ $kit ]]; then
    proved=yes
    if [[ $target == linux-x86-64 ]]; then program=$(csq_program "$top"); fi
  fi
  csq_add_made "$top" "$work" "$program"
  csq_join "$top" "$work" "csq $version proved=$proved${kit:+ kit=$kit}" "$@"
  csq_share "$work" "$version"
  local values=("VERSION=$version" "MAJOR=${version%%.*}" "LIBDIR=$LIBDIR" "PREFIX=${prefix// /\\ }"
    "TO_PREFIX=$(realpath -ms --relative-to="/$LIBDIR/cmake/csq" /)" "PROVED=$proved" "KIT=$kit")
  csq_add_headers "$top" "$tree"
  csq_add_iocsq "$top" "$tree" Linux
  csq_add_page "$top" "$tree"
  mkdir -p "$lib/pkgconfig" "$lib/cmake/csq"
  csq_fill "$top/c/package/csq.pc.in" "${values[@]}" >"$lib/pkgconfig/csq.pc"
  for file in csqConfig.cmake csqConfigVersion.cmake; do
    csq_fill "$top/c/package/$file.in" "${values[@]}" >"$lib/cmake/csq/$file"
  done
  touch "$tree/$csq_files"
  find "$tree" ! -type d -printf '%P\n' | LC_ALL=C sort >"$work/files"
  cp "$work/files" "$tree/$csq_files"
}
