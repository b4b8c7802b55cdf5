# Where the proved library is, and how a script says what it is for: source this, with the shell's option pipefail.

# Prints what stands at the script's head, and ends it, if its first argument is --help or -h.
csq_help() {
  if [[ ${1-} != --help && ${1-} != -h ]]; then return; fi
  sed -n -e '/^# shellcheck /d' -e '2,/^[^#]/s/^# \{0,1\}//p' "$0"
  exit
}

# The checksums of files, a line each, as a receipt has them.
csq_sums() {
  local file
  for file; do sha256sum <"$file" | sed 's/^\([0-9a-f]*\).*/sha256 \1/'; done
}

# Writes a receipt beside the first of these archives, ARCHIVE.receipt: by which kit they are proved, in which words it says
# so, and their checksums. Only who has just built them may write it: csq_receipt KIT VERDICT ARCHIVE..
csq_receipt() {
  local kit=$1 verdict=$2
  shift 2
  if [[ $verdict != "logic=proved "* ]]; then
    echo "no receipt for $1: its kit said '$verdict'" >&2
    return 1
  fi
  { printf 'kit %s\nverdict %s\n' "$kit" "$verdict" && csq_sums "$@"; } >"$1.receipt"
}

# csq_compile TOP ARCHIVE FILE.. -- COMPILER FLAG..: compiles these files, below TOP, into an archive.
csq_compile() {
  local top=$1 archive=$2 source sources=() objects=()
  shift 2
  while [[ $1 != -- ]]; do
    sources+=("$1")
    shift
  done
  shift
  rm -f "$archive"
  for source in "${sources[@]}"; do
    objects+=("${archive%.a}.$(basename "$source" .c).o")
    "$@" -std=c11 -I"$top/include" -c "$top/$source" -o "${objects[-1]}" || return 1
  done
  "${AR:-ar}" rcs "$archive" "${objects[@]}"
}

csq_queue_files=(bench/c/plain_{queue,judges,list,ledger,replay}.c)
csq_layer_files=(c/requests/{calls,ends,make,wait}.c)

# Prints the files to link, one a line, in the linker's order: csq_requests.h's code, which is compiled here and isn't proved,
# the archive of csq.h, which is built anew where its sources have changed, and the kit's functions for the heap; and leaves a
# receipt of them.
csq_library() {
  local top=$1 rt kit said layer
  if ! rt=$(command -v rt); then
    echo "the proved library can't be built: there is no rt (--plain takes the plain C queue)" >&2
    return 1
  fi
  kit=$(dirname "$(dirname "$(readlink -f "$rt")")")
  if ! said=$(cd "$top/crates/csq_c" && rt lib | tee >(cat >&2)); then
    echo "the proved library was not built" >&2
    return 1
  fi
  if ! layer=$(csq_requests_library "$top"); then
    echo "csq_requests.h's code was not compiled: CC names another compiler than ${CC:-cc}" >&2
    return 1
  fi
  set -- "$layer" "$top/crates/csq_c/out/libcsq_c.a" "$kit/c/liblibc_c.a"
  csq_receipt "$(rt version)" "$(grep '^logic=' <<<"$said" | tail -1)" "$@" && printf '%s\n' "$@"
}

# Sets CC, LD, AR, OBJCOPY and WINDRES to the tools for a target, unless they name others: csq_tools TARGET, which is
# linux-x86-64, linux-aarch64 or windows-x86-64. The system's own tools are for linux-x86-64.
csq_tools() {
  local prefix=''
  case $1 in
    linux-x86-64) ;;
    linux-aarch64) prefix=aarch64-linux-gnu- ;;
    windows-x86-64) prefix=x86_64-w64-mingw32- ;;
    *) return 1 ;;
  esac
  if [[ $prefix ]]; then : "${CC:=${prefix}gcc}"; fi
  : "${CC:=cc}" "${LD:=${prefix}ld}" "${AR:=${prefix}ar}" "${OBJCOPY:=${prefix}objcopy}" "${WINDRES:=${prefix}windres}"
}

# The folder in which the proved library for a target is built: csq_out TOP TARGET
csq_out() { if [[ $2 == linux-x86-64 ]]; then echo "$1/crates/csq_c/out"; else echo "$1/crates/csq_c/out/$2"; fi; }

# Compiles csq_requests.h's code for the proved library, and prints the archive: csq_requests_library TOP [TARGET]
csq_requests_library() {
  local target=${2-linux-x86-64} archive CC=${CC-} AR=${AR-}
  archive=$(csq_out "$1" "$target")/libcsq_requests.a
  csq_tools "$target"
  csq_compile "$1" "$archive" "${csq_layer_files[@]}" -- "$CC" -O2 -fPIC && echo "$archive"
}

# Compiles the plain C code of csq.h, csq_ledger.h and csq_replay.h alone into an archive: csq_plain_queue TOP ARCHIVE COMPILER FLAG..
csq_plain_queue() { csq_compile "$1" "$2" "${csq_queue_files[@]}" -- "${@:3}"; }

# The same with csq_requests.h's code: csq_plain_library TOP ARCHIVE COMPILER FLAG..
csq_plain_library() {
  csq_compile "$1" "$2" "${csq_queue_files[@]}" "${csq_layer_files[@]}" -- "${@:3}"
}
