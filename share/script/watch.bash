# shellcheck shell=bash disable=SC2154
# What goes on while the program works: a line of standard error that is rewritten, and a question that is asked in parts.

# The budget of the first part that searches. Each later one has four times as much, so that at most a third is done twice.
first_units=1000

child='' ticker='' held='' came='' until=''

now() { moment=${EPOCHREALTIME//[!0-9]/}; }

# Opens a file without a name for the program's output, which waits there until it is known to be the answer.
open_held() {
  local path=${TMPDIR:-/tmp}/quorum_cli.$$.$RANDOM$RANDOM
  set -C
  # (`exec` alone ends the shell where no file can be made)
  { command exec {held}>"$path"; } 2>/dev/null || held=''
  set +C
  [ -n "$held" ] && rm -f -- "$path"
}

# Puts out what was held.
pour() {
  cat "/dev/fd/$held" 2>/dev/null || { [ $? = 141 ] && status=141 || status=7; }
}

# Starts the program. It has this for a Ctrl-C: `-` for what is usual, nothing to ignore it.
start() {
  local interrupt=$1
  shift
  (
    trap - QUIT TERM HUP USR1
    # shellcheck disable=SC2064
    trap "$interrupt" INT
    [ -z "$kept" ] || exec {kept}<&-
    if [ -n "$held" ]; then
      exec >"/dev/fd/$held"
      exec {held}>&-
    fi
    exec "$program" "$@"
  ) <&0 &
  child=$!
  ticking &
  ticker=$!
}

# Waits for the program to end, whatever signals come meanwhile. Its status is in `status`.
await() {
  while came='' && { wait "$child" 2>/dev/null; status=$?; [ -n "$came" ]; }; do :; done
  child=''
  kill "$ticker" 2>/dev/null
  wait "$ticker" 2>/dev/null
}

# Beside the program: says each second how far it is, and tells the script when the time is up.
ticking() {
  local silent wait_for LC_ALL=C next=$begun
  trap '' INT
  trap - TERM HUP USR1
  exec {silent}<> <(:)
  while next_tick; do
    printf -v wait_for '%d.%06d' $(((next - moment) / 1000000)) $(((next - moment) % 1000000))
    read -rt "$wait_for" -u "$silent"
    kill -0 $$ 2>/dev/null || return
    now
    if [ "$next" = "$until" ]; then
      until=''
      kill -USR1 $$
    elif is_watched; then
      rewrite "$(progress 2>/dev/null)"
    fi
  done
}

# When to wake next: at a whole second, or when the time is up.
next_tick() {
  now
  next=$((begun + ((moment - begun) / 1000000 + 1) * 1000000))
  [ -z "$until" ] || [ "$next" -lt "$until" ] || next=$((until > moment ? until : moment + 1000))
  [ -z "$until" ] || [ "$until" -gt "$moment" ] || until=$next
}

# Whether the line is wanted.
is_watched() { [ -n "$is_shown" ] || [ -t 2 ]; }

# Writes the line anew.
rewrite() { if [ -t 2 ]; then printf '\r\e[K%s' "$1"; else printf '\r%-76s' "$1"; fi >&2; }

# How far the program is.
progress() {
  local key value memory=''
  while read -r key value _; do [ "$key" != VmRSS: ] || memory=", $((value / 1000)) MB"; done 2>/dev/null <"/proc/$child/status"
  printf 'quorum_cli: %d s%s%s, %s' $(((moment - begun) / 1000000)) "${seconds[0]+ of ${seconds[0]}}" "$memory" "$(doing)"
}

# What it does: it writes the certificate, reads one, or searches.
doing() {
  local at
  if at=$(open_at "$cert.part") || at=$(open_at "$cert"); then
    if writes_second; then
      echo "$(wc -l <"$at") lines of ${cert##*/} written"
    else
      echo "$(read_at "$at") of $(megabytes "$(wc -c <"$cert")") MB of ${cert##*/} read"
    fi
  elif [ ${#seconds[@]} -gt 0 ]; then
    echo "${done_so_far:-reading}${asked:+, at most $asked now}"
  else
    echo working
  fi
}

# Where the program has a file open.
open_at() {
  local it
  # (in a trap a plain `return` has the status of what came before)
  [ -f "$1" ] || return 1
  for it in "/proc/$child/fd/"*; do [ "$it" -ef "$1" ] && echo "$it" && return 0; done
  return 1
}

# How much of a file it has read, in MB.
read_at() {
  local bytes
  read -r _ bytes 2>/dev/null <"/proc/$child/fdinfo/${1##*/}"
  megabytes "${bytes:-0}"
}

megabytes() { echo $((($1 + 999999) / 1000000)); }

# What the certificate has: its lines, and the sets that it lists.
figures() {
  local kind
  { writes_second && [ -f "$cert" ]; } || return 0
  printf ', %s lines of %s' "$(wc -l <"$cert")" "${cert##*/}"
  kind=$(sed -n '5{s/^kind //;s/^partial-//;p;q}' "$cert")
  case $kind in
  # (made by tools/maintain/packaging from here)
  blocking | org-blocking) printf ', %s sets' "$(grep -c '^b ' "$cert")" ;;
  quorums) printf ', %s sets' "$(grep -c '^q ' "$cert")" ;;
  least) printf ', %s nodes the least so far' "$(sed -n 's/^s [0-9]*//p' "$cert" | tail -n 1 | wc -w)" ;;
  # (to here)
  esac
}

# The last line: how long it took, and what came of it.
last_line() {
  now
  is_watched || return 0
  [ -n "$is_shown" ] || [ $((moment - begun)) -ge 1000000 ] || return 0
  rewrite "quorum_cli: $(((moment - begun) / 1000000)).$(((moment - begun) / 100000 % 10)) s$([ "$status" -gt 2 ] || figures)"
  echo >&2
}

# Runs the program once. Its output is held until the line is finished, where both may go to one place.
run_watched() {
  local name
  now
  begun=$moment
  { [ -n "$is_shown" ] || [ -t 1 ]; } && open_held
  # shellcheck disable=SC2064
  for name in INT TERM HUP; do trap "came=$name; [ -z \"\$child\" ] || kill -$name \"\$child\" 2>/dev/null" $name; done
  start - "${words[@]}"
  await
  trap - INT TERM HUP
  last_line
  [ -z "$held" ] || pour
}

# The words without a budget, which then stands after the command.
words_for() {
  local it='' skip='' ended=''
  asking=("${words[0]}" --budget "$1")
  for it in "${words[@]:1}"; do
    [ "$it" != -- ] || ended=1
    if [ -n "$skip" ]; then
      skip=''
    elif [ -z "$ended" ] && [ "$it" = --budget ]; then
      skip=1
    elif [ -n "$ended" ] || [[ $it != --budget=* ]]; then
      asking+=("$it")
    fi
  done
}

# The time is up, or a Ctrl-C came: ends the part that is asked, where an earlier one is the answer. One that has found
# its answer is let write it, so that the certificate is that of the answer which is put out.
stop_part() {
  local state='' tries=0
  is_up=1 came=stop
  [ -n "$child" ] && [ -n "$answer" ] || return 0
  kill -STOP "$child" 2>/dev/null
  # (on a busy machine it takes a while to stop; one that the disk holds up is writing)
  while read -r _ _ state _ 2>/dev/null <"/proc/$child/stat" && [ "$state" != T ] && [ $((tries += 1)) -lt 300 ]; do sleep 0.01; done
  if [ "$state" = T ] && ! [ -s "/dev/fd/$held" ] && ! open_at "$cert.part" >/dev/null && ! open_at "$cert" >/dev/null; then
    is_cut=1
    kill -KILL "$child"
  else
    kill -CONT "$child"
  fi
}

# A second Ctrl-C ends it all, as any other signal does.
interrupted() {
  if [ "$1" = INT ] && [ -z "$is_interrupted" ]; then
    is_interrupted=1
    stop_part
  else
    came=$1 ended_by=$1
    [ -z "$child" ] || kill -KILL "$child" 2>/dev/null
  fi
}

# Asks with this budget. False where there is an answer, or no more time.
ask_part() {
  words_for "$1"
  asked=$([ "$1" = 0 ] || echo "$1")
  : >"/dev/fd/$held"
  start '' "${asking[@]}"
  await
  [ -z "$ended_by$is_cut" ] && [ "$status" = 2 ] || return
  answer=$(<"/dev/fd/$held")
  done_so_far="${answer##*unknown } units$(figures)"
  [ "$1" != "$ceiling" ] && [ -z "$is_up" ]
}

# Takes up the part that lies in the certificate, where it is one of this very question: it has the header of a part without
# work, and the program accepts it. That part is asked for into the file without a name.
take_up() {
  local head old line at
  mapfile -t -n 6 old 2>/dev/null <"$cert"
  { [ -f "$config" ] && [[ ${old[0]-}${old[4]-} == 'fbas-cert '*'kind partial'* ]]; } || return
  words[cert_at]=/dev/fd/$held
  words_for 0
  words[cert_at]=$cert
  answer=$("$program" "${asking[@]}") && return
  mapfile -t -n 6 head 2>/dev/null <"/dev/fd/$held"
  [ ${#head[@]} = 6 ] || return
  for at in "${!head[@]}"; do [ "${head[at]}" = end ] || [ "${head[at]}" = "${old[at]-}" ] || return; done
  line=$("$program" check ${orgs:+--orgs="$orgs"} -- "$config" "$cert")
  [ $? = 2 ] && [[ $line =~ ^accepted\ partial[a-z-]*\ ([0-9]+) && ${BASH_REMATCH[1]} -lt $ceiling ]] || return
  units=${BASH_REMATCH[1]}
  answer=${answer//unknown 0/unknown $units}
  done_so_far="$units units$(figures)"
  status=2
}

# Whether a part may be asked; the first is whatever the time.
has_time_for_first() { [ -z "$ended_by" ]; }
has_time() {
  now
  [ "$moment" -lt "$until" ] && [ -z "$is_up$ended_by" ]
}

# The budget after this one, which is the greatest at last.
more_than() {
  local more=$(($1 < first_units / 4 ? first_units : 4 * $1))
  echo $((more < ceiling ? more : ceiling))
}

# Asks in parts until there is an answer, or the time is up. The last part that was finished is the answer then.
run_in_parts() {
  local ceiling=${values[--budget]-$most_units} units=0 answer='' is_up='' is_cut='' is_interrupted='' ended_by='' asking asked='' done_so_far='' name
  now
  begun=$moment
  until=$((begun + $(microseconds "${seconds[0]}")))
  open_held || { say "no file can be made in ${TMPDIR:-/tmp}, which --seconds needs"; exit 7; }
  trap stop_part USR1
  # shellcheck disable=SC2064
  for name in INT TERM HUP; do trap "interrupted $name" $name; done
  if ! take_up; then
    answer=''
    # (before it is known whose part lies there, nothing takes its place)
    [ -z "$is_interrupted" ] || ended_by=INT
    has_time_for_first && ask_part 0 || ceiling=0
  fi
  while [ "$units" -lt "$ceiling" ] && has_time && units=$(more_than "$units") && ask_part "$units"; do :; done
  trap '' USR1
  trap - INT TERM HUP
  give_answer
}

# Puts out what the last finished part said.
give_answer() {
  case $ended_by in
  INT) status=130 ;;
  TERM) status=143 ;;
  HUP) status=129 ;;
  *)
    [ -z "$is_cut" ] || status=2
    last_line
    if [ "$status" = 2 ]; then printf '%s\n' "$answer" 2>/dev/null || status=7; else pour; fi
    ;;
  esac
}

# A decimal number of seconds in microseconds.
microseconds() {
  local part=000000
  [[ $1 != *.* ]] || part=${1#*.}000000
  echo $((10#${1%%.*} * 1000000 + 10#${part:0:6}))
}
