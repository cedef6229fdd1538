# shellcheck shell=bash disable=SC2034,SC2154
# Which program answers: the one of dist/ if its sources are those here, else one that is proved and built here, else these sources
# compiled without proofs. QUORUM_CLI=dist, built or unproved chooses, as does the path of a program. Sourced after `top`, `say`,
# `hand_on` and `end`; choose_program sets `program`, its `kind`, and `unproved` if nothing of it is proved.

built=crates/quorum_cli/out/quorum_cli
compiled=out/unproved/quorum_cli
# The folders of a crate that decide which program it makes and what is proved of it. Another proof changes neither.
parts=(src specs)
left_out=(\( -name out -o -name must-fail -o -name proofs \) -prune)
read_by_rt=(\( -type d -o -name '*.rt' -o -name '*.antt' \))
# What proves and builds.
proving='make proves and builds the program, some 45 minutes on four processors'

# Chooses the program, and makes it if there is none; with a word it is not made.
choose_program() {
  local only_asked=${1-} wanted=${QUORUM_CLI:-} choice machine=$HOSTTYPE-$OSTYPE
  [ "${QUORUM_CLI_UNPROVED:-}" != 1 ] || wanted=unproved
  unproved=''
  case $wanted in
  '' | dist | built | unproved) ;;
  */*) kind=named program=$wanted; return ;;
  *) say "QUORUM_CLI is dist, built, unproved or the path of a program, and not $wanted"; exit 70 ;;
  esac
  choice=$top/out/choice/${wanted:-first}
  is_kept || choose_anew
  [ "$kind" != unproved ] || unproved=--unproved
}

# A choice is kept as a file: the kind, the program, the machine, and then all that it rests on, which has to be older than the file.
# (What is not there is older, and what comes later is not.)
is_kept() {
  local files file its_kind its_path its_machine
  { { read -r its_kind && read -r its_path && read -r its_machine && mapfile -t files; } <"$choice"; } 2>/dev/null || return 1
  [ ${#files[@]} -gt 0 ] && [ "$its_machine" = "$machine" ] || return 1
  for file in "${files[@]}"; do [[ $choice -nt $top/$file ]] || return 1; done
  kind=$its_kind program=$top/$its_path
  [ -x "$program" ]
}

choose_anew() {
  local why='' is_made='' crates=() begun=$top/out/choice/$$.begun
  { mkdir -p "$top/out/choice" && : >"$begun"; } 2>/dev/null
  case $wanted in
  dist) is_dist_right || { say "dist/quorum_cli is not run: $why"; exit 70; }; kind=dist ;;
  '') if is_dist_right; then kind=dist; elif is_built; then kind=built; else kind=unproved; fi ;;
  *) kind=$wanted ;;
  esac
  case $kind in
  dist) program=$top/dist/quorum_cli ;;
  built) program=$top/$built; take_built ;;
  unproved) program=$top/$compiled; take_unproved ;;
  esac
  # (what was made is newer than this choice: the next call keeps it)
  [ -n "$only_asked$is_made" ] || keep
  rm -f "$begun"
}

take_built() {
  if [ -z "$wanted" ]; then
    [ -n "$only_asked" ] || [ ! -e "$top/dist" ] || say "dist/ is not run, since $why: the program that is proved and built here runs in its place"
  else
    is_built || make_program
  fi
}

take_unproved() {
  ! is_current "$program" "$top/out/unproved/sources" || return 0
  [ -n "$only_asked$wanted" ] || say "dist/ is not run, since $why: the sources are compiled without proofs in its place; $proving"
  make_program --unproved
}

# Has tools/build/first-build make a program, and ends if it made none.
make_program() {
  [ -z "$only_asked" ] || return 0
  is_made=1
  hand_on "$top/tools/build/first-build" "$@" 1>&2
  # (no answer's status: with another one than 70 it was not Python that was there, or a fault of it)
  [ "$status" = 0 ] || { rm -f "$begun"; [ "$status" -gt 128 ] || status=70; end; }
}

# Keeps the choice for the next call: whole, as several calls may do so at once. Where nothing may be written each call chooses anew.
keep() {
  {
    printf '%s\n' "$kind" "${program#"$top/"}" "$machine" crates.txt dist out/quorum_cli.sources "$built" "${program#"$top/"}"
    (cd "$top" && { ls -d dist/*; find "${crates[@]/#/crates/}" "${left_out[@]}" -o "${read_by_rt[@]}" -print; })
  } >"$begun.list" && touch -r "$begun" "$begun.list" && mv -f "$begun.list" "$choice"
} 2>/dev/null

# Whether dist/ is of these sources and for this machine; else `why` says what is not so. One that was changed is never run.
is_dist_right() {
  local at=$top/dist sum sources
  [ -e "$at/quorum_cli" ] || { why='there is none'; return 1; }
  [[ $HOSTTYPE = x86_64 && $OSTYPE = linux-gnu* ]] || { why="it is for x86-64 Linux and this machine is $HOSTTYPE $OSTYPE"; return 1; }
  type sha256sum >/dev/null 2>&1 || { why='there is no sha256sum to check it by'; return 1; }
  is_dist_whole || { rm -f "$begun"; exit 70; }
  read -r _ sum sources < <(grep '^program ' "$at/SOURCES")
  read -ra crates <<<"$sources"
  [ "$(sum_of_sources "${crates[@]}")" = "$sum  -" ] || { why='its sources are others than those here'; return 1; }
  does_run || { why="it does not run on this machine (it needs $(sed -n 's/^needs //p' "$at/SOURCES"))"; return 1; }
}

is_dist_whole() {
  local line name
  line=$(cd "$at" && LC_ALL=C sha256sum -c SHA256SUMS 2>/dev/null | grep -v -m 1 ': OK$')
  for name in quorum_cli SOURCES; do grep -qs "^[0-9a-f]*  $name\$" "$at/SHA256SUMS" || line=SHA256SUMS; done
  [ -z "$line" ] || { say "dist/ was changed, and nothing of it is run: ${line%%:*} is not what dist/SHA256SUMS says. 'git checkout dist' restores it, QUORUM_CLI=built or unproved runs another"; return 1; }
}

# Without words it prints its usage text, and ends with 3.
does_run() {
  local ended
  "$at/quorum_cli" </dev/null >/dev/null 2>&1
  ended=$?
  [ $ended = 3 ]
} 2>/dev/null

# The SHA-256 of what these crates make the program of: their lines of crates.txt, and each file.
sum_of_sources() {
  local crate part folders=() IFS='|'
  cd "$top" || return
  for crate; do for part in "${parts[@]}"; do [ ! -d "crates/$crate/$part" ] || folders+=("crates/$crate/$part"); done; done
  {
    grep -E "^($*)[ :]" crates.txt
    find "${folders[@]}" -type f ! -name '.*' \( -name '*.rt' -o -name '*.antt' \) -print0 | LC_ALL=C sort -z | xargs -0 sha256sum
  } 2>/dev/null | sha256sum
}

# Whether a program is that of the note of what it was built of, which names its crates: no source is newer.
is_current() {
  local at=$1 note=$2 names
  [ -x "$at" ] && [ -e "$note" ] && [ ! "$at" -nt "$note" ] && [ ! "$top/crates.txt" -nt "$note" ] || return 1
  mapfile -t -s 1 names <"$note"
  [ ${#names[@]} -gt 0 ] && is_newest "$note" "${names[@]}" || return 1
  crates=("${names[@]}")
}

# Whether a proved program is here that is of the sources: by its note, or newer than all of them, as rt leaves it.
is_built() {
  local at=$top/$built names
  is_current "$at" "$top/out/quorum_cli.sources" && return
  names=("$top"/crates/*/)
  names=("${names[@]%/}")
  crates=("${names[@]##*/}")
  [ -x "$at" ] && [ "$at" -nt "$top/crates.txt" ] && is_newest "$at" "${crates[@]}"
}

# Whether no source of the crates is newer than a file.
is_newest() {
  local than=$1
  shift
  [ -z "$(find "${@/#/$top/crates/}" "${left_out[@]}" -o "${read_by_rt[@]}" -newer "$than" -print -quit 2>&1)" ]
}

# Says which program runs, and what is proved of it.
about_program() {
  choose_program asked
  case $kind in
  dist) say "dist/quorum_cli runs: proved by its makers, of the sources that lie here, and built by $(sed -n 's/^toolchain //p' "$top/dist/SOURCES"); make prove does so again and compares" ;;
  built) say "$built runs: proved and built here${program:+$([ -x "$program" ] || echo ', at the next call')}" ;;
  unproved) say "$compiled runs: compiled here with checks$([ -x "$program" ] || echo ', at the next call'), and nothing of it is proved; $proving" ;;
  named) say "$program runs, which QUORUM_CLI names: whether it is proved is not known here" ;;
  esac
}
