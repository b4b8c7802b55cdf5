# Builds tests of drivers with the checker, for iocsq/run-tests: source this. `top` is the repository, `work` a folder
# for what is made, `library` the files of csq.h's library, or empty for the plain queue.
# shellcheck disable=SC2034,SC2154 # the script sets some and uses some
warnings=(-Wall -Wextra -Wpedantic -Wshadow -Wconversion -Wno-multichar -Werror)

# The right drivers: those that show one thing each, the examples, and those of usual shapes, written for Windows.
drivers=(drivers/{reports,priority,stages,removal,ticks,workers,counted,requests,filter,keys,slots,later,manners,busy}
  drivers/{handed,calls,parts,sends,locked} examples/{serial,pipe,inverted})
# hand: those without an IO_CSQ.
usual=(usual/{again,current,event,idle,interrupt,pass,peek,poll,port,startio,thread,transfer,two})
hand=(hand/{own,slot,start,system,timed,worker,packet})
# kmdf: those over KMDF.
kmdf=(kmdf/{current,parts,referred,ticked,worked})
# races: those whose wrong places are data races; with a number from 50 on they are right in other ways.
races=(races/{start,drain,context,timer,table,blocks})
# unusual: those that keep their requests in ways that are seldom seen; first those with an IO_CSQ.
unusual=(unusual/{array,chain,context,dpcdone,drain,fastmutex,gate,mailbox,parked,perfile,ranks,removelock,twolocks,workdone}
  unusual/{clock,handover,hold,letters,look,mark,packets,recancel,relay,restart,selfcall,slots,state,stored,sweep,switch,twolists})

# All of them; with a number after a colon, those that are right in another way.
right=("${drivers[@]}" "${usual[@]}" "${hand[@]}" "${kmdf[@]}" "${unusual[@]}" "${races[@]}" races/start:5{0,1}
  races/drain:5{0,1,2,3} races/table:50)

# Prints the number of such a driver; 0 for one that has none.
iocsq_number() {
  if [[ $1 == *:* ]]; then echo "${1#*:}"; else echo 0; fi
}

# The flags with which a driver is compiled so that iocsq/accesses.c sees its accesses: iocsq_sees COMPILER FLAG..
iocsq_sees() {
  local volatile=(--param tsan-distinguish-volatile=1) call
  if [[ $* == *sanitize* ]]; then return; fi
  if [[ $1 == *clang* ]]; then volatile=(-mllvm -tsan-distinguish-volatile=1); fi
  printf '%s\n' -fsanitize=thread "${volatile[@]}"
  for call in memcpy memmove memset; do echo "-D$call=__tsan_$call"; done
}
# Memory of one run is taken from iocsq/arena.c.
wraps=("-Wl,--wrap=malloc" "-Wl,--wrap=calloc" "-Wl,--wrap=realloc" "-Wl,--wrap=free")

# make_once FILE COMMAND..: the command makes this file (by -o), unless it was made before.
make_once() {
  local made=$1
  shift
  if [[ -f $made ]]; then return; fi
  mkdir -p "${made%/*}" && "$@" -o "$made.new" && mv "$made.new" "$made"
}

# Sets `folder` to where lies what is made with this compiler and these flags, below `work` or, so that two scripts
# share it, IOCSQ_OBJECTS: set_folder COMPILER FLAG..
set_folder() {
  local name=$*
  folder=${IOCSQ_OBJECTS:-$work/objects}/${name//[^A-Za-z0-9]/_}
}

# How far the checker's own files are optimized without a sanitizer, whatever a driver is: so the runs take less time, and
# drivers of several levels share them.
own_level=-O2

# Sets `own` to the command for the checker's own files: set_own COMPILER FLAG.. No report has their lines (-g) but a
# sanitizer's, for which few are enough.
set_own() {
  local flag sanitized=''
  if [[ $* == *sanitize* ]]; then sanitized=1; fi
  own=()
  for flag; do
    case $flag${sanitized:+ sanitized} in
      -g) ;;
      -O[12]) own+=("$own_level") ;;
      "-g sanitized") own+=(-g1) ;;
      *) own+=("$flag") ;;
    esac
  done
}

# compile_own FILE: a file of the checker, without the ending, into `folder`.
compile_own() {
  make_once "$folder/${1#"$top/iocsq/"}.o" "${own[@]}" -std=c11 "${warnings[@]}" -I"$top/include" -I"$top/iocsq" \
    -c "$1.c"
}

# Builds the plain queue into `folder`, if that is what is linked.
make_plain() {
  if ((${#library[@]} > 0)) || [[ -f $folder/plain/libcsq.a ]]; then return; fi
  mkdir -p "$folder/plain" && csq_plain_queue "$top" "$folder/plain/libcsq.a" "${own[@]}"
}

# Links the checker with the test of this name in the folder `tests`, and with these files: iocsq_link PROGRAM TEST
# FILE.. -- COMPILER FLAG.. Of C++ LINKER does, in the compiler's place.
iocsq_link() {
  local program=$1 test=$2 files=() own folder file
  shift 2
  while [[ $1 != -- ]]; do
    files+=("$1")
    shift
  done
  shift
  set_own "$@"
  set_folder "${own[@]}"
  for file in "$top"/iocsq/*.c "$top/iocsq/tests/$test.c"; do
    compile_own "${file%.c}" || return 1
  done
  # Linked with each other once: then each program takes less time.
  make_once "$folder/linked/iocsq.o" "$1" -r -nostdlib "$folder"/*.o || return 1
  make_plain || return 1
  "${LINKER:-$1}" "${@:2}" "$folder/linked/iocsq.o" "$folder/tests/$test.o" "${files[@]}" \
    "${library[@]:-$folder/plain/libcsq.a}" "${wraps[@]}" -pthread -o "$program"
}

# Compiles a driver, and beside it NAME.test.c, which says what its callbacks mean, if it isn't the usual; sets
# `driver_objects`: compile_driver DRIVER WRONG COMPILER FLAG.. (as iocsq_build has them).
compile_driver() {
  local source=$top/iocsq/$1.c policy=$top/iocsq/$1.test.c wrong=$2 name=${1//\//_} fault=() sees folder
  local numbered=${name}_${2//\//_}
  set_folder "${@:3}"
  folder+=/drivers
  if [[ $wrong == planted || $wrong == *.fault ]]; then
    if [[ $wrong == *.fault ]]; then fault=("$top/iocsq/$wrong"); fi
    source=$folder/$numbered.c wrong=0
    mkdir -p "$folder" && "$top/iocsq/examples/plant" "$(basename "$1")" "${fault[@]}" >"$source" || return 1
  fi
  shift 2
  mapfile -t sees < <(iocsq_sees "$@")
  driver_objects=("$folder/$numbered.o")
  make_once "${driver_objects[0]}" "$@" -std=c11 "${warnings[@]}" "${sees[@]}" -DWRONG="$wrong" -I"$top/include/wdk" \
    -c "$source" || return 1
  if [[ ! -f $policy ]]; then return; fi
  if grep -q WRONG "$policy"; then name=$numbered; fi
  driver_objects+=("$folder/$name.test.o")
  make_once "${driver_objects[1]}" "$@" -std=c11 "${warnings[@]}" -DWRONG="$wrong" -I"$top/include" -c "$policy"
}

# Links the storm with a driver: iocsq_build PROGRAM DRIVER WRONG COMPILER FLAG.. In its place another test of the
# folder `tests`: TEST=patient iocsq_build PROGRAM .. DRIVER is a file below iocsq without its ending. WRONG is the
# number of the place where it is wrong, 0 for none, `planted` for an example's own fault, or the file of another below
# iocsq.
iocsq_build() {
  local driver_objects
  compile_driver "${@:2}" && iocsq_link "$1" "${TEST:-storm}" "${driver_objects[@]}" -- "${@:4}"
}
