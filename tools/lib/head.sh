# shellcheck shell=bash
# The head that the bash scripts of this repository share. A script sources it, and then calls `takes` with its arguments.
#
# It leaves in `from` the folder that the script was called in, in `top` the one of the repository, and in `script` the
# script's name.
script=${0##*/}
from=$PWD
# Without another process: a shell that waits for one may miss a Ctrl-C.
CDPATH='' cd -P "${BASH_SOURCE[0]%/*}/../.." || exit 1
top=$PWD
cd "$from" || exit 1

# Refuses the script's arguments.
refuse() {
  echo "$script: $1 ($script --help prints the usage)" >&2
  exit 2
}

# Takes at most so many arguments, or any number, and no option but --help, which prints the comment at the script's head.
# Then goes to the top of the repository.
takes() {
  local word most=$1
  shift
  for word in "$@"; do
    if [[ $word == --help || $word == -h ]]; then
      awk 'NR > 1 { if (!sub(/^# ?/, "")) exit; print }' "$0"
      exit
    fi
  done
  for word in "$@"; do
    [[ $word != -* ]] || refuse "there is no option $word"
  done
  [[ $most != 0 || $# -eq 0 ]] || refuse "it takes no arguments"
  [[ $most == any || $# -le $most ]] || refuse "it takes $most arguments at most"
  cd "$top" || exit 1
}

# Refuses an argument that is no whole number of 1 or more.
takes_number() {
  [[ $1 =~ ^[1-9][0-9]*$ ]] || refuse "$1 is no whole number of 1 or more"
}

# The absolute path of an argument.
path_of() {
  (cd "$from" && realpath -m -- "$1")
}

# The path of a crate's program, or of the one that an argument names. An argument that names no program is refused.
program_of() {
  local program=$top/crates/$1/out/$1 how=
  [[ -z ${2-} ]] || program=$(path_of "$2")
  case $program in
    *.by-rattle) how="; 'rt ci' builds it" ;;
    "$top"/crates/cam6_try_*/out/*) how="; 'rt run' in crates/$1 builds it" ;;
    "$top"/crates/*/out/* | "$top"/cam6*) how="; './build' builds it" ;;
  esac
  if [[ ! -f $program || ! -x $program ]]; then
    [[ -z ${2-} ]] || refuse "there is no program $program$how"
    echo "$script: there is no program $program$how" >&2
    exit 1
  fi
  echo "$program"
}

# Makes the folder `work`, which goes when the script ends. Python keeps there what it compiles.
make_work() {
  work=$(mktemp -d)
  trap 'rm -rf "$work"' EXIT
  export work PYTHONPYCACHEPREFIX=$work
}

passed=0
failed=0

# Adds what a part has passed and failed, by its last line. Returns 1 if the line says no such thing.
add_sums() {
  [[ $1 =~ ^([0-9]+)\ passed,\ ([0-9]+)\ failed$ ]] || return 1
  passed=$((passed + BASH_REMATCH[1]))
  failed=$((failed + BASH_REMATCH[2]))
}

# Prints the last line of a script. Returns 0 if nothing failed, and at least so much passed, or 1.
print_sums() {
  echo "$passed passed, $failed failed"
  [[ $failed -eq 0 && $passed -ge ${1:-1} ]]
}
