# shellcheck shell=bash disable=SC2154
# What the script says: help, which word is at fault, and what failed. The table of commands is share/script/commands.

# A word as it may stand in a message: what cannot be printed is escaped.
shown() {
  local LC_ALL=C
  if [[ $1 == *[![:print:]]* ]]; then printf '%q' "$1"; else printf "'%s'" "$1"; fi
}

# The names of the commands, or of all options.
names_of() { sed -n "/^#/d; $1; s/|.*//p" "$own/commands"; }
all_commands() { names_of '/^--/d'; }
all_options() { names_of '/^--/!d'; }

# The field of a row of the table by its number, from 1.
field_of() { sed -n "s/^$1|/&/p" "$own/commands" | cut -d '|' -f "$2"; }

# How many letters are to be changed, added, dropped or swapped to make one word of the other.
distance() {
  local -a above=() row before
  local i j cost
  for ((j = 0; j <= ${#2}; j++)); do row[j]=$j; done
  for ((i = 1; i <= ${#1}; i++)); do
    before=("${above[@]}") above=("${row[@]}") row=("$i")
    for ((j = 1; j <= ${#2}; j++)); do
      cost=1
      [ "${1:i-1:1}" != "${2:j-1:1}" ] || cost=0
      row[j]=$((above[j - 1] + cost < above[j] + 1 ? above[j - 1] + cost : above[j] + 1))
      ((row[j] <= row[j - 1] + 1)) || row[j]=$((row[j - 1] + 1))
      if ((i > 1 && j > 1)) && [ "${1:i-2:2}" = "${2:j-1:1}${2:j-2:1}" ] && ((before[j - 2] + 1 < row[j])); then
        row[j]=$((before[j - 2] + 1))
      fi
    done
  done
  echo "${row[${#2}]}"
}

# Of the words after the first, the one nearest to it, where one is near: at most a third of it differs, or it begins so.
nearest() {
  local word=$1 it far best=$(((${#1} + 2) / 3)) found=''
  shift
  for it in "$@"; do
    if [ ${#word} -gt 1 ] && [[ $it == "$word"* && $word != -- ]]; then far=0; else far=$(distance "$word" "$it"); fi
    if [ "$far" -lt "$best" ] || { [ "$far" = "$best" ] && [ -z "$found" ]; }; then best=$far found=$it; fi
  done
  [ -z "$found" ] || printf '; the nearest is %s' "$found"
}

# The least and the most of a number.
range_of() {
  case $1 in
  N) echo "1 to $most_organisations" ;;
  --formula) echo "$oldest_formula to $newest_formula" ;;
  *) echo "0 to $most_units" ;;
  esac
}

# What is wrong with the words, in one line.
fault_line() {
  local usage word=${fault[1]-} name=${words[0]-}
  usage=$(field_of "$name" 5)
  case ${fault[0]} in
  bytes) echo "a word is not UTF-8, and names of files have to be: $(odd_word)" ;;
  command)
    # shellcheck disable=SC2046
    if [[ $word == -* ]]; then echo "the first word is a command, and $(shown "$word") is none"; else echo "no command $(shown "$word")$(nearest "$word" $(all_commands))"; fi
    ;;
  option) option_line ;;
  value) echo "$word has no value: $usage" ;;
  dash) echo "a value that begins with - is written $(shown "$word=${fault[2]}"): $usage" ;;
  twice) echo "$word stands twice; a list is separated by commas" ;;
  lacks) echo "$word is missing: $usage" ;;
  extra) echo "$(shown "$word") is one word too many: $usage" ;;
  needs) echo "$word is missing: $usage" ;;
  number) echo "$word is a number from $(range_of "$word"), not $(shown "${fault[2]}")" ;;
  esac
}

# An option that the command does not have: which it may have been.
option_line() {
  # shellcheck disable=SC2046,SC2086
  if [ -n "$(field_of "$word" 1)" ]; then
    echo "$word is no option of $name: $usage"
  else
    echo "$name has no option $(shown "$word")$(nearest "$word" $options --progress $([[ $options != *--budget* ]] || echo --seconds))"
  fi
}

# The first word that is not UTF-8.
odd_word() {
  local it
  for it in "${words[@]}" "${values[@]}"; do
    iconv -f UTF-8 -t UTF-8 <<<"$it" >/dev/null 2>&1 || { printf '%q' "$it"; return; }
  done
}

# Runs the program on words in which a fault was found, and says the fault before the usage text.
run_faulty() {
  local text
  text=$("$program" "${words[@]}"; echo "$?")
  status=${text##*$'\n'}
  [ "$status" != 3 ] || [[ $text != 'usage: '* ]] || say "$(fault_line)"
  printf '%s' "${text%"$status"}" 2>/dev/null || status=7
}

# The help or the version, for a first word that asks for these.
tell() {
  local version
  case $1 in
  --version | -V)
    read -r version <"$(if [ -e "$own/VERSION" ]; then echo "$own"; else echo "$top"; fi)/VERSION"
    echo "quorum_cli $version"
    ;;
  *)
    [ $# = 1 ] || { read_words "${@:2}"; [ "${fault[0]-}" = command ] || { tell_command; return; }; }
    echo 'usage: quorum_cli COMMAND'
    sed -n '/^#/d; /^--/d; p' "$own/commands" | cut -d '|' -f 5
    common
    printf '\n%s\n' 'COMMAND --help says what a command does, and --version which program this is.'
    ;;
  esac
}

# The options that [COMMON] stands for.
# (made by tools/maintain/packaging from here)
common() { echo 'COMMON: --from NAME --faulty NAMES --orgs ORGS --faulty-orgs IDS'; }
# (to here)

# What one command does, and its options.
tell_command() {
  local usage name place what
  usage=$(field_of "${words[0]}" 5)
  printf 'usage: quorum_cli %s\n%s\n' "$usage" "$(field_of "${words[0]}" 6)"
  [[ $usage != *COMMON* ]] || common
  # shellcheck disable=SC2086
  for name in $options $([[ $options != *--budget* ]] || echo --seconds) --progress; do
    IFS='|' read -r _ place what <<<"$(sed -n "s/^$name|/&/p" "$own/commands")"
    printf '  %-18s %s\n' "$name $place" "$what"
  done
}

# Whether --seconds fits the words; what does not is said.
judge_seconds() {
  local file
  if [ ${#seconds[@]} -gt 1 ]; then
    say '--seconds stands twice'
  elif [[ $options != *--budget* ]]; then
    say "--seconds does not fit ${words[0]}, which has no --budget"
  elif ! [[ ${seconds[0]} =~ ^(0|[1-9][0-9]{0,8})([.][0-9]{1,6})?$ ]]; then
    say "--seconds is a number of seconds as 60 or 0.5, not $(shown "${seconds[0]}")"
  else
    for file in "$config" "$orgs" "$cert"; do
      [[ -z $file || ! -e $file || -f $file || -d $file || $file -ef /dev/null ]] || { say "--seconds asks more than once, and $(shown "$file") is no file"; return 1; }
    done
    return 0
  fi
  return 1
}

# Why a file cannot be read or written; nothing where it can.
why_not() {
  if [ "$1" = write ] && ! [ -e "$2" ]; then
    [ -d "$(dirname -- "$2")" ] || { echo "there is no folder $(dirname -- "$2")"; return; }
    [ -w "$(dirname -- "$2")" ] || echo "no file may be made in $(dirname -- "$2")"
  elif ! [ -e "$2" ]; then
    echo "there is no file $2"
  elif [ -d "$2" ]; then
    echo "$2 is a folder"
  elif [ "$1" = read ] && ! [ -r "$2" ]; then
    echo "$2 may not be read"
  elif [ "$1" = write ] && ! [ -w "$2" ]; then
    echo "$2 may not be written"
  fi
}

# For a status that has no line of the program: what failed, in one line.
explain() {
  case $status in
  3) explain_name ;;
  6) explain_read ;;
  7) explain_write ;;
  8) say 'there was not enough memory' ;;
  139) say "the program broke off: its stack may be too small (ulimit -s is $(ulimit -s), and 8192 is usual)" ;;
  esac
}

explain_read() {
  local why
  why=$(why_not read "$config")
  [ -z "$why" ] && [ -n "$orgs" ] && why=$(why_not read "$orgs")
  [ -z "$why" ] && reads_second && why=$(why_not read "$cert")
  say "a file could not be read: ${why:-reading failed on the way}"
}

explain_write() {
  local why=''
  writes_second && why=$(why_not write "$cert")
  [ -z "$why" ] && writes_second && why="the standard output or $cert took no more"
  say "an output could not be written: ${why:-the standard output took no more}"
}

# Which name it was, where the program's line has its option and place. (It is asked again, and writes nothing.)
explain_name() {
  local line option place items
  [ ${#fault[@]} = 0 ] && { [ -f "$config" ] || ! [ -e "$config" ]; } || return 0
  line=$("$program" "${words[@]}" </dev/null 2>/dev/null)
  case $line in
  'usage same-path') say "$(shown "$cert") is also the name of a file that is read" ;;
  'usage unknown-name '* | 'usage bad-name '*)
    read -r _ _ option place <<<"$line"
    IFS=, read -ra items <<<"${values[$option]-}"
    say "$(shown "${items[place - 1]-}"), item $place of $option, is no $(if [ "$option" = --faulty-orgs ]; then echo "organisation of ${orgs:-a file of --orgs}"; else echo "node of $config"; fi)"
    ;;
  'usage empty-name '*)
    read -r _ _ option place <<<"$line"
    say "item $place of $option is empty"
    ;;
  esac
}
