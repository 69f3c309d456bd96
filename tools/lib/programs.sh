# shellcheck shell=bash
# How ./look and ./live find their programs: those that ./build proved, or else those that are compiled without a proof and
# kept in unproved/. A script sources it after head.sh.
KEPT=unproved
declare -A CRATE_OF=([cam6]=cam6_host [cam6_draw]=cam6_draw [cam6_web]=cam6_web)
# What is printed while a program is compiled that isn't kept.
declare -A MINUTES_OF=([cam6]="two to four minutes" [cam6_draw]="two to four minutes" [cam6_web]="two to five minutes")

# A sum of the sources of all crates.
sum_of_sources() {
  find crates -path '*/src/*' -name '*.rt' -print0 | LC_ALL=C sort -z | xargs -0 sha256sum crates.txt | sha256sum
}

# What a program reads as it is compiled and run by `rt try`, which stops it after a minute: enough for a few seconds.
feed() {
  case $1 in
    cam6)
      cat crates/cam6_host/stdin
      for _ in {1..5}; do echo '{"do":"run","n":60}'; done
      ;;
    cam6_draw) cat crates/cam6_draw/stdin ;;
  esac
}

# Leaves in `options` the arguments by which `rt try` runs a program, and in `knocked` the port to knock at, or nothing.
options_of() {
  options=() knocked=
  case $1 in
    cam6_draw) options=(--text --frames 4) ;;
    cam6_web)
      knocked=$(python3 -c 'import socket; s = socket.socket(); s.bind(("127.0.0.1", 0)); print(s.getsockname()[1])' 2> /dev/null)
      options=(--port "$knocked" --requests 1)
      ;;
  esac
}

# Asks the page's program for something, after which it ends.
knock() {
  { printf 'GET /hosts HTTP/1.1\r\nHost: 127.0.0.1:%d\r\n\r\n' "$1" > "/dev/tcp/127.0.0.1/$1"; } 2> /dev/null || true
}

# Compiles a program without a proof, and keeps it with the sum of the sources. `rt try` drops what it compiles once it has run
# it, so the program gets a second name while it runs.
compile() {
  local program=$1 crate=${CRATE_OF[$1]} workdir=${top:?}/$KEPT/work.$1.$$ options knocked toolchain
  mkdir -p "$workdir"
  feed "$program" > "$workdir/feed"
  options_of "$program"
  # In a group of its own, since a toolchain that is stopped ends all of its group.
  (cd "crates/$crate" && TMPDIR=$workdir exec setsid rt try -- "${options[@]}" < "$workdir/feed") > "$workdir/written" 2> "$workdir/errors" &
  toolchain=$!
  echo "$toolchain" > "$workdir/group"
  while kill -0 "$toolchain" 2> /dev/null; do
    if [[ ! -x $workdir/kept ]]; then
      find "$workdir" -name program -type f -perm -u+x -exec ln {} "$workdir/kept" \; -quit 2> /dev/null || true
    elif [[ -n $knocked ]]; then
      knock "$knocked"
    fi
    sleep 0.05
  done
  if ! wait "$toolchain" || [[ ! -x $workdir/kept ]]; then
    echo "${script:?}: no program $program came of 'rt try' in crates/$crate, which printed:" >&2
    tail -n 5 "$workdir/errors" >&2
    rm -rf "$workdir"
    return 1
  fi
  mv "$workdir/kept" "$KEPT/$program"
  echo "$sum" > "$KEPT/$program.sum"
  rm -rf "$workdir"
}

# Whether a program of these sources is kept.
is_kept() {
  [[ -x $KEPT/$1 && -f $KEPT/$1.sum && $(< "$KEPT/$1.sum") == "$sum" ]]
}

# Ends what is being compiled, and removes what there is of it.
stop_compiling() {
  local group
  for group in "$top/$KEPT"/work.*."$$"/group; do
    [[ ! -f $group ]] || kill -- "-$(< "$group")" 2> /dev/null || true
  done
  kill "$@" 2> /dev/null || true
  sleep 0.5
  # A copy of the shell that gets Ctrl-C before it has quite begun ends by nothing else.
  { kill -KILL "$@" && wait "$@"; } 2> /dev/null || true
  rm -rf "$top/$KEPT"/work.*.$$
}

# Compiles those of these programs that aren't kept, side by side.
compile_all() {
  local sum name is_over="" began=$SECONDS missing=() jobs=()
  sum=$(sum_of_sources)
  for name in "$@"; do
    is_kept "$name" || missing+=("$name")
  done
  [[ ${#missing[@]} -gt 0 ]] || return 0
  if ! command -v rt > /dev/null; then
    echo "$script: there is no rt on the PATH; docs/INSTALL.md says how the Rattle kit is installed" >&2
    return 1
  fi
  name=${missing[*]}
  echo "$script: compiling ${name// / and } without a proof, once; it takes ${MINUTES_OF[${!#}]}" >&2
  # While they are started, a signal is only noted.
  trap 'is_over=yes' INT TERM HUP
  mkdir -p "$KEPT"
  for name in "${missing[@]}"; do
    compile "$name" &
    jobs+=($!)
  done
  trap 'stop_compiling "${jobs[@]}"; exit 130' INT TERM HUP
  if [[ -n $is_over ]]; then
    stop_compiling "${jobs[@]}"
    exit 130
  fi
  for name in "${jobs[@]}"; do
    if ! wait "$name"; then
      stop_compiling "${jobs[@]}"
      return 1
    fi
  done
  trap - INT TERM HUP
  echo "$script: compiled in $((SECONDS - began)) seconds; $KEPT/ has the programs" >&2
}

# Leaves in the array `programs` the paths of these programs: of those that are proved, or else of those that are compiled
# without a proof.
find_programs() {
  local place name path
  for place in . crates; do
    programs=()
    for name in "$@"; do
      path=./$name
      [[ $place == . ]] || path=crates/${CRATE_OF[$name]}/out/${CRATE_OF[$name]}
      [[ ! -x $path ]] || programs+=("$path")
    done
    [[ ${#programs[@]} -lt $# ]] || return 0
  done
  compile_all "$@" || return 1
  programs=("${@/#/$KEPT/}")
}
