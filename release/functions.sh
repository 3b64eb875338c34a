# shellcheck shell=bash disable=SC2154
# Functions of ./awari, ./install, ./prove, bindings/make, release/make and tests/common.sh, which set `top`
# to the repository's folder.

# the file that tells a program and a library of which sources they are
sources_file=crates/awari_sources/src/lib.rt

# the digest of the sources: of the list of crates, and of the code, definitions and proofs of each crate, but for
# the file that tells this digest
sources_digest() {
  (
    cd "$top" || exit
    find crates.txt crates/*/src crates/*/specs crates/*/proofs -type f ! -path "$sources_file" -print0 2>/dev/null |
      LC_ALL=C sort -z | xargs -0 sha256sum | sha256sum | cut -c 1-64
  )
}

# has a copy of the repository tell the digest of the sources that it has now
tell_sources() { sed -i "s/[0-9a-f]\{64\}/$(top=$1 sources_digest)/" "$1/$sources_file"; }

# the folder for what is kept between two runs: out/, or one of the user's if nothing can be written there
kept_folder() {
  local folder
  for folder in "$top/out" "${XDG_CACHE_HOME:-${HOME:-/nonexistent}/.cache}/luqhimay"; do
    if mkdir -p "$folder" 2>/dev/null && [ -w "$folder" ]; then
      echo "$folder"
      return
    fi
  done
  fail "nothing can be written to $top/out, nor to $folder; set XDG_CACHE_HOME to a folder where that can be"
}

# the same digest, hashed anew only if a file has changed since the last time: its name, its size, when it
# was written, or when anything of it was changed, which no program can set
known_digest() {
  local files was digest kept=$1/digest
  files=$(cd "$top" && find crates.txt crates/*/src crates/*/specs crates/*/proofs -type f -printf '%p %s %T@ %C@\n' | sha256sum | cut -c 1-64)
  if ! { read -r was digest <"$kept"; } 2>/dev/null || [ "$was" != "$files" ]; then
    digest=$(sources_digest)
    echo "$files $digest" >"$kept.$$" && mv "$kept.$$" "$kept"
  fi
  echo "$digest"
}

# the first sources that are not those of the shipped program, as far as git knows
changed_sources() {
  local shipped
  shipped=$(git -C "$top" log -1 --format=%H -- release/MANIFEST 2>/dev/null) || return 0
  [ -n "$shipped" ] || return 0
  {
    git -C "$top" diff --name-only "$shipped" -- crates.txt crates
    git -C "$top" ls-files --others --exclude-standard -- crates
  } 2>/dev/null | grep -E '^(crates\.txt|crates/[^/]+/(src|specs|proofs)/.*)$' | head -n 3
}

# what the manifest says under this word: `program`, `library` and `archive`, each with its machine behind, `module`,
# `sources`, `toolchain`, `linker`, `crossing`, `optimizer`
manifest() { sed -n "s/^$1 //p" "$top/release/MANIFEST"; }

# says it, but only to a person who looks on
tell() { [ ! -t 2 ] || echo "awari: $1" >&2; }

fail() {
  echo "awari: $1" >&2
  exit 1
}

# Expects this command to be here, or says in what it comes.
needs() { command -v "$1" >/dev/null || fail "$1 is not here, and this wants it: it is in the package $2"; }

# the machine whose program and library are taken, as their files name it
machine() {
  case $(uname -sm) in
    "Linux x86_64") echo x86_64 ;;
    "Linux aarch64") echo aarch64 ;;
    *) fail "the program is for Linux on x86-64 and 64-bit ARM; README, \"Other machines\", says what works here" ;;
  esac
}

# Expects a machine that runs what is shipped.
expect_machine() {
  machine >/dev/null || exit
  needs sha256sum coreutils
}

# keeps a program under this name in the folder, in place of those kept before; the move is one step, so
# that nobody who starts at the same time runs half a program
keep() {
  local from=$1 folder=$2 name=$3
  chmod 755 "$from"
  find "$folder" -maxdepth 1 -name 'awari-*' ! -name "$name" -delete
  mv "$from" "$folder/$name"
}

# the file is the one that the manifest names under this word; if not, it goes
expect_shipped() {
  local file=$1 word=$2 from=$3
  if [ "$(sha256sum <"$file" | cut -c 1-64)" != "$(manifest "$word")" ]; then
    rm -f "$file"
    fail "$from is not the ${word%-*} that release/MANIFEST names"
  fi
}

# unpacks the program that is shipped for this machine, or for the one that is named, to this file, which stays only if
# it is the one that the manifest names
unpack() {
  local machine from
  machine=${2-$(machine)} || exit
  from=release/awari-$machine.xz
  needs xz xz-utils
  if ! xz -dc "$top/$from" >"$1"; then
    rm -f "$1"
    fail "$from can't be unpacked by xz to $1"
  fi
  expect_shipped "$1" "program-$machine" "$from"
}

# whether the system starts this program, whatever it answers
runs_here() {
  local status=0
  chmod 755 "$1"
  "$1" --version >/dev/null 2>&1 || status=$?
  [ "$status" -ne 126 ] && [ "$status" -ne 127 ]
}

# the program that is shipped, unpacked into the folder for what is kept on its first use
shipped() {
  local kept=$1 machine name made
  machine=$(machine) || exit
  name=awari-$(manifest "program-$machine")
  if [ ! -x "$kept/$name" ]; then
    made=$(mktemp "$kept/unpacked.XXXXXX")
    unpack "$made"
    runs_here "$made" || { rm -f "$made" && fail "the shipped program does not run here: it wants Linux with glibc 2.34 or later"; }
    keep "$made" "$kept" "$name"
    tell "this is the shipped program, proved and built from ${2:-the sources here}; ./prove does so again"
  fi
  echo "$kept/$name"
}

# unpacks the library for this machine, or for the one that is named, into this folder: libawari.a and libawari.so.0
unpack_library() {
  local machine from
  machine=${2-$(machine)} || exit
  from=release/libawari-$machine.tar.xz
  needs xz xz-utils
  needs tar tar
  if ! xz -dc "$top/$from" | tar -x -C "$1" libawari.a libawari.so.0; then
    fail "$from can't be unpacked by xz and tar to $1"
  fi
  expect_shipped "$1/libawari.a" "archive-$machine" "$from"
  expect_shipped "$1/libawari.so.0" "library-$machine" "$from"
}

# proves and builds one crate in this copy of the repository; what the build says is shown if it fails
build_crate() {
  local copy=$1 crate=$2 log
  shift 2
  command -v rt >/dev/null || fail "to prove and build $crate, the toolchain's rt has to be on the path"
  log=$(mktemp)
  if ! (cd "$copy/crates/$crate" && rt "$@") </dev/null >"$log" 2>&1; then
    cat "$log" >&2
    rm -f "$log"
    fail "$crate could not be built"
  fi
  rm -f "$log"
}

# proves and builds the program in this copy of the repository
build_in() {
  tell_sources "$1"
  build_crate "$1" awari run -- check
}

# proves the library in this copy of the repository, and links it into a folder
build_library_in() {
  tell_sources "$1"
  build_crate "$1" awari_exports lib
  link_library "$1/crates/awari_exports/out/libawari_exports.a" "$2"
}

# Builds a static library, or the object of a program, by this toolchain, over the crates that a gate has just built
# in this copy. It proves the crate itself; `rt lib` would prove those below it once more. More words go to the compiler.
build_gated() {
  local copy=$1 crate=$2 toolchain=$3 to=$4 kit name log libraries=() root=(src/main.rt)
  shift 4
  kit=$(dirname "$(rt doc)")
  ! grep -q "^$crate staticlib:" "$copy/crates.txt" || root=(--crate-type staticlib src/lib.rt)
  for name in std $(sed -n "s/^$crate\( staticlib\)\{0,1\}: //p" "$copy/crates.txt"); do
    if [ -d "$copy/crates/$name" ]; then
      libraries+=(--extern "$name=$copy/crates/$name/out/rlib/$name.rlib" -L "dependency=$copy/crates/$name/out/rlib")
    else
      libraries+=(--extern "$name=$kit/rlibs/$name.rlib")
    fi
  done
  libraries+=(-L "dependency=$kit/rlibs" --antt-project "$kit/rattle/logic/antt-project.json" --logic-built "$kit/logic_built")
  log=$(mktemp)
  if ! (cd "$copy/crates/$crate" && "$kit/bin/rattle" build --crate-name "$crate" "${root[@]}" "${libraries[@]}" \
    --toolchain "$toolchain" --backend llvm --jobs 2 "$@" -o "$to") >"$log" 2>&1; then
    cat "$log" >&2
    rm -f "$log"
    fail "$crate could not be built"
  fi
  rm -f "$log"
}

# the same of `awari_exports`, into a folder: libawari_exports.a, and module.bc, which the toolchain's clang was given
build_exports() {
  local copy=$1 to=$2 kit each
  kit=$(dirname "$(rt doc)")
  mkdir -p "$to/toolchain/bin"
  ln -s "$kit/toolchain/lib" "$to/toolchain/lib"
  for each in "$kit"/toolchain/bin/*; do
    case ${each##*/} in
      clang | ld.lld | llvm-ar)
        cat >"$to/toolchain/bin/${each##*/}" <<END
#!/usr/bin/env bash
for it; do case \$it in *.bc) cp "\$it" "$to/module.bc" ;; esac; done
exec -a ${each##*/} "$kit/toolchain/bin/clang" "\$@"
END
        chmod 755 "$to/toolchain/bin/${each##*/}"
        ;;
      *) ln -s "$each" "$to/toolchain/bin/" ;;
    esac
  done
  build_gated "$copy" awari_exports "$to/toolchain" "$to/libawari_exports.a"
  rm -r "$to/toolchain"
  [ -e "$to/module.bc" ] || fail "the toolchain gave its clang no module of awari_exports"
}

# what links the shared library
linker() { "${CC:-cc}" -Wl,--version 2>/dev/null | head -n 1; }

# what compiles and links for 64-bit ARM
crossing() { aarch64-linux-gnu-gcc --version 2>/dev/null | head -n 1; }

# what makes the module's memory one of 32 bits
optimizer() { wasm-opt --version 2>/dev/null; }

# makes libawari.a and libawari.so.0 in a folder of what the toolchain built of `awari_exports`, and of the part
# of the C library that the toolchain brings, or of the archive that is named for it; of both a program sees the
# calls of awari.h, and no other name
link_library() {
  local built=$1 to=$2 parts=$2/parts.a heap
  heap=${3-$(dirname "$(rt doc)")/c/liblibc_c.a}
  rm -f "$parts"
  printf '%s\n' "create $parts" "addlib $built" "addlib $heap" save end | ar -M
  printf '%s\n' '{ global: awari_*; local: *; };' >"$to/names"
  "${CC:-cc}" -shared -o "$to/libawari.so.0" -Wl,-soname,libawari.so.0 -Wl,--version-script="$to/names" \
    -Wl,--whole-archive "$parts" -Wl,--no-whole-archive
  join_archive "$parts" "$to/libawari.a"
  rm "$parts" "$to/names"
}

# makes one object of those of an archive, hides all its names but the calls of awari.h, and makes an archive of it
join_archive() {
  local parts=$1 archive=$2 object=${2%/*}/awari.o
  rm -f "$archive"
  "${CC:-cc}" -nostdlib -r -o "$object" -Wl,--whole-archive "$parts" -Wl,--no-whole-archive
  "${OBJCOPY:-objcopy}" --wildcard --keep-global-symbol='awari_*' "$object"
  ar rcsD "$archive" "$object"
  rm "$object"
}
