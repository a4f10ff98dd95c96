# For shell commands to source: the functions of a crate for other languages, as an archive to link with the C library.
#
# What is proved and delivered is what `rt lib` writes, for x86-64 (docs/TRUST.md). The kit hands one LLVM module of it to the `clang` of its
# toolchain. For who wants to look at that module, the kit is given a toolchain in which `clang` keeps it before it does its work.

. "$(dirname "${BASH_SOURCE[0]}")/kit.sh"

# Each exports the functions that are marked in it, and none of those below it, so the library is made of all of them.
native_doors="version sessiondoors filedoors capturedoors writerdoors standarddoors"

# Has rt prove and compile the crate NAME into its out/libNAME.a. All that rt says goes to built/native/NAME.log, and to the file LOG too as it
# comes, if one is named.
native_lib() { # NAME [LOG]
  local log=$kit_built/native/$1.log
  mkdir -p "$kit_built/native" || return 1
  (set -o pipefail && cd "$kit_root/crates/$1" && rt lib 2>&1 | tee "$log" >>"${2:-/dev/null}") || { tail -n 20 "$log" >&2; return 1; }
}

# Puts into ARCHIVE what it calls of the kit's own C, such as what reads errno, under names that no other object sees. Where it calls nothing
# of that, it stays as rt wrote it.
native_complete() { # ARCHIVE
  local archive=$1 room tool status=0
  room=$(mktemp -d) || return 1
  # The clang of the kit is several programs by its name.
  for tool in llvm-nm llvm-objcopy; do ln -s "$kit_tools/bin/clang" "$room/$tool"; done
  calls() { "$room/llvm-nm" --undefined-only --just-symbol-name "$1" | grep -E '^(__)?rattle_'; }
  if calls "$archive" >"$room/calls"; then
    "$room/llvm-nm" --defined-only --extern-only --just-symbol-name "$archive" | grep -v -e ':$' -e '^$' >"$room/exports" &&
      "$kit_tools/bin/ld.lld" -r --whole-archive "$archive" --no-whole-archive "$kit_home"/c/lib{os,libc}_c.a -o "$room/whole.o" &&
      "$room/llvm-objcopy" --keep-global-symbols="$room/exports" "$room/whole.o" && ! calls "$room/whole.o" >&2 &&
      rm -f "$archive" && "$kit_tools/bin/llvm-ar" rcsD "$archive" "$room/whole.o" || status=1
  fi
  rm -rf "$room"
  return "$status"
}

# Prints the path of the archive with the functions of the crate NAME.
# It is made anew only where something that it is made of has changed.
native_library() { # NAME [LOG]
  local name=$1 library=$kit_built/native/lib$1.a sum
  sum=$(kit_crates_sum "$name") || return 1
  if ! kit_made_of "$library" "$sum"; then
    native_lib "$@" && cp "$kit_root/crates/$name/out/lib$name.a" "$library" && native_complete "$library" && kit_note "$library" "$sum" ||
      return 1
  fi
  echo "$library"
}

# Makes the folder FARM a toolchain as the kit's, with a `clang` that copies the file after the words `-x ir` to KEPT.
native_farm() { # FARM KEPT
  local farm=$1 kept=$2
  # The clang of the kit is several programs by its name; the links keep those names.
  mkdir -p "$farm/bin" && ln -s "$kit_tools/lib" "$farm/" && ln -s "$kit_tools"/bin/* "$farm/bin/" && rm "$farm/bin/clang" || return 1
  {
    echo '#!/bin/sh'
    echo 'before= last='
    echo 'for word; do'
    echo "  if [ \"\$before \$last\" = '-x ir' ]; then cp -- \"\$word\" ${kept@Q} || exit 1; fi"
    echo '  before=$last last=$word'
    echo 'done'
    echo "exec ${kit_tools@Q}/bin/clang \"\$@\""
  } >"$farm/bin/clang"
  chmod +x "$farm/bin/clang"
}

# Prints the path of the module that the kit hands to its compiler for the crate NAME.
# It is made anew only where something that it is made of has changed.
native_module() { # NAME
  local name=$1 module=$kit_built/native/$1.bc log=$kit_built/native/$1.log out=$kit_root/crates/$1/out/lib$1.a room crate words=() sum status
  sum=$(kit_crates_sum "$name") || return 1
  if ! kit_made_of "$module" "$sum"; then
    # Over the libraries that it stands on, as rt left them. The room lies elsewhere: rt takes no link in this folder.
    native_lib "$name" || return 1
    for crate in $(kit_below "$name"); do
      [ "$crate" = "$name" ] || words+=(--extern "$crate=$kit_root/crates/$crate/out/rlib/$crate.rlib")
    done
    for crate in std $(kit_given "$name"); do
      words+=(--extern "$crate=$kit_home/rlibs/$crate.rlib")
    done
    room=$(mktemp -d) || return 1
    rm -f "$module"
    native_farm "$room/toolchain" "$module" && (
      cd "$kit_root/crates/$name" &&
        flock . "$kit_home/bin/rattle" build --crate-name "$name" src/lib.rt --crate-type staticlib "${words[@]}" -L "dependency=$kit_home/rlibs" \
          --antt-project "$kit_home/rattle/logic/antt-project.json" --logic-built "$kit_home/logic_built" --incremental out/incremental \
          --jobs 2 --toolchain "$room/toolchain" -o "$room/library"
    ) >"$log" 2>&1 && [ -s "$module" ] && cmp -s "$room/library" "$out"
    status=$?
    rm -rf "$room"
    [ "$status" -eq 0 ] && kit_note "$module" "$sum" || { tail -n 20 "$log" >&2; return 1; }
  fi
  echo "$module"
}

# Compiles MODULE, as bits or as text, to OBJECT, as the kit does. Says nothing but where it fails.
native_compile() { # MODULE OBJECT
  "$kit_tools/bin/clang" --target=x86_64-unknown-linux-gnu -march=x86-64 --no-default-config -Wno-override-module -O3 -fPIC -c -x ir "$1" \
    -o "$2" >"$2.log" 2>&1 || { tail -n 20 "$2.log" >&2; return 1; }
}
