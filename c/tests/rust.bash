# The tests of the Rust bindings, for c/run-tests, whose variables and functions they use: source this.
# shellcheck disable=SC2154,SC2317 # c/run-tests sets the variables, and part calls the functions

# cargo_in FOLDER WORD..: cargo there, which is ended if a test of it doesn't end. `named` is the folder that PWD names.
cargo_in() { (cd "$1" && PWD=${named-$PWD} timeout 1800 cargo "${@:2}"); }

# refuse_library CASE LIBRARY WORDS: the build refuses this CSQ_LIBRARY in these words.
refuse_library() {
  if CSQ_LIBRARY=$2 cargo_in "$bindings" build >"$work/out" 2>"$work/errors"; then
    fail "rust: $1 was taken"
  elif grep -qF "CSQ_LIBRARY: $3" "$work/errors"; then
    pass "rust: $1 is refused in words"
  else
    fail "rust: $1" "$work/errors"
  fi
}

# What CSQ_LIBRARY may be.
run_rust_library() {
  local file names=
  refuse_library "a missing archive" "$work/libnone.a" "there is no file"
  refuse_library "a file of another name" "$work/none.so" "\"$work/none.so\" is not named as an archive is"
  named=/nowhere refuse_library "a relative path of an unknown folder" libnone.a '"libnone.a" is a relative path'
  mkdir "$work/relative"
  for file in "${files[@]}"; do
    ln -s "$file" "$work/relative/"
    names+=${names:+:}${file##*/}
  done
  CSQ_LIBRARY=$names expect "rust: a relative path is of the folder from which the build is started" \
    cargo_in "$work/relative" test --manifest-path "$bindings/Cargo.toml" --test tokens
  mv "$work/relative" "$work/a folder: with a colon"
  CSQ_LIBRARY=$(printf ":%s" "$work/a folder: with a colon"/*.a | cut -c2-) \
    expect "rust: paths may have spaces and colons" cargo_in "$bindings" test --test tokens
}

# tokens_link YES|NO ASSIGNMENT..: without CSQ_LIBRARY and with these variables a test is built and runs, and is linked
# with the installed library or not.
tokens_link() {
  local installed=$1 program newest=
  (cd "$bindings" && env CSQ_LIBRARY= PWD="$PWD" "${@:2}" cargo test --test tokens) || return 1
  for program in "$work"/cargo/debug/deps/tokens-*; do
    if [[ $program != *.d && ( ! $newest || $program -nt $newest ) ]]; then newest=$program; fi
  done
  if readelf -d "$newest" | grep -F '[libcsq.so.'; then [[ $installed == yes ]]; else [[ $installed == no ]]; fi
}

# warns WORDS: a build that finds no library ends well, and says so.
warns() {
  CSQ_LIBRARY='' PKG_CONFIG=false cargo_in "$bindings" build && grep -qF "$1" "$work/errors"
}

# How the library is found without CSQ_LIBRARY.
run_rust_without() {
  if need pkg-config "rust: the installed library" && [[ -d $installed ]]; then
    expect "rust: pkg-config finds the installed library" tokens_link yes \
      "PKG_CONFIG_PATH=$installed/lib/pkgconfig" "LD_LIBRARY_PATH=$installed/lib"
  fi
  expect "rust: the tests build the plain queue by themselves" tokens_link no PKG_CONFIG=false
  expect "rust: a build without a library warns" warns "there is no C library"
}

# The package has all that its tests need.
package_tests() {
  cargo_in "$bindings" package --allow-dirty --no-verify && tar -xzf "$work"/cargo/package/csq-*.crate -C "$work" &&
    cargo_in "$(echo "$work"/csq-*/)" test --all-targets
}

# Counts the lines of cargo's tests, and its end if no line reports a fault, or if there is none.
count_rust_lines() {
  local status=$1 line
  local before=$passed failed_before=$failed
  while IFS= read -r line; do
    case $line in
      "test "*" ... ok") line=${line#test }; pass "rust: ${line% ... ok}" ;;
      "test "*" ... FAILED") line=${line#test }; fail "rust: ${line% ... FAILED}" ;;
    esac
  done <"$work/out"
  if ((failed > failed_before)); then return; fi
  if ((status != 0)); then
    fail "rust: cargo ended with status $status" "$work/errors"
  elif ((passed == before)); then
    fail "rust: cargo ran no test"
  fi
}

# The tests of the bindings, their examples in doc comments too, and how they are written.
run_rust() {
  local bindings=$top/bindings/rust IFS=:
  export CSQ_LIBRARY="${files[*]}" CARGO_TARGET_DIR="$work/cargo" CARGO_NET_OFFLINE=true
  # Nothing that is built here is built twice, or looked at by a debugger.
  export CARGO_INCREMENTAL=0 CARGO_PROFILE_DEV_DEBUG=0
  unset IFS
  cargo_in "$bindings" test --features async >"$work/out" 2>"$work/errors"
  count_rust_lines $?
  if need "cargo clippy" "rust: clippy"; then
    expect "rust: clippy" cargo_in "$bindings" clippy --all-targets -- -D warnings
    expect "rust: clippy, async" cargo_in "$bindings" clippy --all-targets --features async -- -D warnings
  fi
  if need "cargo fmt" "rust: format"; then expect "rust: format" cargo_in "$bindings" fmt --check; fi
  if cargo miri --version >"$work/out" 2>&1; then
    CSQ_LIBRARY='' expect "rust: miri, over what calls no C" cargo_in "$bindings" miri test --lib
  else
    skip_optional "rust: miri" "there is no cargo miri, which no package of Debian has"
  fi
  run_rust_library
  run_rust_without
  expect "rust: the package's tests" package_tests
}
