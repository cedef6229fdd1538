# shellcheck shell=bash disable=SC2154
# What a file of organisations and the words say of a configuration, by share/script/organisations.py where python3 is there.

# Says what does not fit, and puts ids in the place of names and home domains in the value of --faulty-orgs.
fit_organisations() {
  local given=${values[--faulty-orgs]-} ids
  [ -f "$config" ] && [ -f "$orgs" ] && command -v python3 >/dev/null || return 0
  ids=$(python3 -I -S -B "$own/organisations.py" "$config" "$orgs" "$given") || return 0
  [ "$ids" = "$given" ] || put_value --faulty-orgs "$ids"
}

# Puts another value of an option into the words.
put_value() {
  local at
  values[$1]=$2
  for ((at = 1; at < ${#words[@]}; at++)); do
    case ${words[at]} in
    --) return ;;
    "$1") words[at + 1]=$2; return ;;
    "$1="*) words[at]=$1=$2; return ;;
    esac
  done
}
