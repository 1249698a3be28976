# shellcheck shell=bash disable=SC2034,SC2154
# What ./tocmark, ./tocmark-compare, ./tocmark-events, ./tocmark-format, ./tocmark-links, ./tocmark-lsp, tools/install and tools/release share:
# the programs' names, whether one is built and current, sums of sources, and what the wrappers do before that. It is sourced, with the
# repository's top in top, and speaks of tocmark then.

# Each command with its crate; tools/install builds them in this order.
commands=(tocmark tocmark-format tocmark-compare tocmark-links tocmark-lsp tocmark-events)
declare -A crate_of=(
  [tocmark]=tocmark_program
  [tocmark-format]=tocmark_format_program
  [tocmark-compare]=tocmark_compare_program
  [tocmark-links]=tocmark_links_program
  [tocmark-lsp]=tocmark_lsp_program
  [tocmark-events]=tocmark_events_program
)
# Each script that runs as it is, and is installed beside the programs.
scripts=(tocmark-filter tocmark-guard)
builder="tools/install proves and builds the programs, in some 80 minutes on four cores"
chooser="tools/install --quick compiles and installs them without a proof, in minutes"

# name_crate NAME: from now on it is this crate.
name_crate() {
  name=$1
  folder=$top/crates/$name
  out=$folder/out
  find_crates
  find_sources
}

# name_program COMMAND: from now on it is this program. kept is where the wrappers keep an unproved one.
name_program() {
  command=$1
  name_crate "${crate_of[$1]}"
  program=$out/$name
  kept=$top/out/unproved/$command
}

say() {
  printf '%s: %s\n' "$command" "$1" >&2
}

fail() {
  say "$1"
  exit 1
}

# rt answers Ctrl-C by a status of its own, after which a script would go on.
trap 'say interrupted; trap - INT; kill -INT $$' INT

ask_for_rt() {
  command -v rt >/dev/null ||
    fail "rt isn't on PATH. Install the Rattle toolchain (README.md says which one), or install a release, which needs none"
}

# Sets crates: the named crate and those that it uses, lowest first, as they are in crates.txt.
find_crates() {
  local lines at crate needed=" $name "
  mapfile -t lines <"$top/crates.txt"
  crates=()
  for ((at = ${#lines[@]} - 1; at >= 0; at--)); do
    crate=${lines[at]%%[: ]*}
    if [[ $needed == *" $crate "* ]]; then
      needed+="${lines[at]#*:} "
      crates=("$crate" "${crates[@]}")
    fi
  done
}

# Sets sources: the files and folders that the crate is made of.
find_sources() {
  local crate part
  sources=("$top/crates.txt")
  for crate in "${crates[@]}"; do
    for part in "$top/crates/$crate"/{src,specs,proofs}; do
      [[ ! -d $part ]] || sources+=("$part")
    done
  done
}

# Prints a sum of the sources, which is the same in each checkout.
sum_of_sources() {
  (cd "$top" && find "${sources[@]#"$top/"}" -type f -print0 | LC_ALL=C sort -z | xargs -0 sha256sum | sha256sum)
}

# Prints the same sum for the library for C.
sum_of_library() {
  (name_crate tocmark_c && sum_of_sources)
}

# is_current FILE: it is there, and no source is newer.
is_current() {
  [[ -e $1 && -z $(find "${sources[@]}" -newer "$1" -print -quit) ]]
}

is_stale() {
  [[ ! -x $program ]] || ! is_current "$program"
}

# Prints the version: the newest one of CHANGELOG.md.
version() {
  sed -n 's/^## \([0-9.]*\).*/\1/p' "$top/CHANGELOG.md" | head -n 1
}

# duration SECONDS: prints it as a person says it.
duration() {
  if (($1 < 90)); then
    echo "$1 s"
  else
    echo "$((($1 + 30) / 60)) min"
  fi
}

name_program tocmark
