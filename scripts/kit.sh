# For shell commands to source: finding the kit, telling whether a file was made of what stands here, and running a program with the kit's
# C library.

unset CDPATH # else `cd` may go elsewhere, and say so
set +o noclobber

kit_root=$(cd "$(dirname "${BASH_SOURCE[0]}")/.." && pwd -P)

# What is built from the crates stands here. What rt makes of a crate stands in its out/, where each run of rt may make it anew.
kit_built=$kit_root/built

# Sets kit_home to the kit, and kit_tools to its compiler, archiver and C library; fails with a word of advice where there is none.
kit_find() {
  local rt
  if ! rt=$(command -v rt); then
    echo "The command rt is missing: install the Rattle kit, and put rt on the PATH." >&2
    return 1
  fi
  rt=$(readlink -f "$rt")
  kit_home=$(dirname "$(dirname "$rt")")
  kit_tools=$kit_home/toolchain
  if [ "$(uname -m)" != x86_64 ] || [ ! -d "$kit_tools" ]; then
    echo "The Rattle kit has nothing for this machine, $(uname -m)." >&2
    return 1
  fi
}

# Prints a sum over these files and folders of the repository. Times would not do to tell what has changed: those of a fresh copy only say
# when it was copied.
kit_sum() { # PATH...
  (cd "$kit_root" && set -o pipefail && find "$@" -type f -print0 | LC_ALL=C sort -z | xargs -0 sha256sum | sha256sum)
}

# Notes that FILE was made of what has this sum. Its own sum stands beside it, so that a file that was cut or exchanged since shows.
kit_note() { # FILE SUM
  local own
  own=$(sha256sum <"$1") && printf '%s\n%s\n' "$2" "$own" >"$1.sum.new" && mv "$1.sum.new" "$1.sum"
}

# Whether FILE is there, and was made of what has this sum.
kit_made_of() { # FILE SUM
  local own
  [ -e "$1" ] && [ -e "$1.sum" ] && own=$(sha256sum <"$1") && [ "$(cat "$1.sum")" = "$2"$'\n'"$own" ]
}

# Prints the crates of this repository that these stand on, and these themselves, each after those below it.
kit_below() { # NAME...
  awk -v names="$*" '
    function reach(crate,    below, count, i) {
      if (!(crate in on) || crate in reached) return
      reached[crate]
      count = split(on[crate], below, " ")
      for (i = 1; i <= count; i++) reach(below[i])
      print crate
    }
    /^[a-z][a-z0-9_]*( [a-z_=0-9A-Z+ ]*)?:/ { crate = $1; sub(/:$/, "", crate); sub(/^[^:]*:/, ""); on[crate] = $0 }
    END { count = split(names, named, " "); for (j = 1; j <= count; j++) reach(named[j]) }' "$kit_root/crates.txt"
}

# Prints the libraries of the kit that these, or what they stand on, name in crates.txt.
kit_given() { # NAME...
  local crate below=" $(kit_below "$@" | tr '\n' ' ') "
  for crate in $below; do
    sed -nE "s/^$crate( [^:]*)?:([^#]*).*/\\2/p" "$kit_root/crates.txt"
  done | tr ' ' '\n' | LC_ALL=C sort -u | while read -r crate; do
    [[ -z $crate || $below == *" $crate "* ]] || echo "$crate"
  done
}

# Prints what these crates are made of: the code, definitions and proofs of them and of all that they stand on here, and crates.txt.
kit_sources() { # NAME...
  local crate part
  echo crates.txt
  for crate in $(kit_below "$@"); do
    for part in src specs proofs; do
      [ ! -d "$kit_root/crates/$crate/$part" ] || echo "crates/$crate/$part"
    done
  done
}

# Prints a sum over all that.
kit_crates_sum() { # NAME...
  local sources
  mapfile -t sources < <(kit_sources "$@")
  kit_sum "${sources[@]}"
}

# Proves and compiles the Rattle program NAME, and prints its path. It is made anew only where something that it is made of has changed.
kit_program() { # NAME
  local out=$kit_root/crates/$1/out/$1 program=$kit_built/programs/$1 log=$kit_built/programs/$1.log sum
  sum=$(kit_crates_sum "$1") || return 1
  if ! kit_made_of "$program" "$sum"; then
    mkdir -p "$kit_built/programs" && rm -f "$out.stamp" || return 1
    # rt runs what it has built; here only its stamp counts, which it writes where the program is proved and compiled.
    (cd "$kit_root/crates/$1" && rt run </dev/null >/dev/null) 2>"$log"
    [ -e "$out.stamp" ] || { tail -n 20 "$log" >&2; return 1; }
    cp "$out" "$program" && kit_note "$program" "$sum" || return 1
  fi
  echo "$program"
}

# Runs the program that this file is, with the kit's C library.
kit_run_file() { # FILE [WORD...]
  "$kit_tools/lib/ld-linux-x86-64.so.2" --library-path "$kit_tools/lib" "$@"
}
