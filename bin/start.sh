# Sourced by bin/camera, bin/compare_records and bin/replay, with $name its program's crate: messages, building, the start, and OUT.
# A signal ends what runs, with all that it started, and leaves nothing behind.
top=$(dirname "$(dirname "$(readlink -f -- "${BASH_SOURCE[0]}")")")
program=$top/target/bin/$name
script=${0##*/}
# KiB of stack: a picture's planes and the records
stack=524288
child= answer= part= to=
. "$top/bin/names.sh"

# What stands in a name or a file and can't be shown is a '?'; lines stay lines.
tell() { printf '%s\n' "${1//[$'\001'-$'\011'$'\013'-$'\037'$'\177']/?}"; }
bad() { tell "$1" >&2; exit 2; }
stop() { tell "bin/$script: $1" >&2; exit 3; }

leave() {
  if [ -n "$child" ]; then
    kill -TERM -- "-$child" || kill -TERM "$child"
    wait "$child"
    kill -KILL -- "-$child"
  fi 2>/dev/null
  [ -z "$part$answer" ] || rm -f -- ${part:+"$part"} ${answer:+"$answer"}
}
trap leave EXIT
trap 'exit 129' HUP
trap 'exit 130' INT
trap 'exit 143' TERM

# Waits for what was started last: `wait` answers a signal at once, where a command in front would have to end first.
await() {
  local status
  child=$!
  wait "$child"
  status=$?
  child=
  return $status
}

# A file that is to be read: standard input, or one that is there.
readable() { # NAME WHAT
  if [ "$1" = - ]; then
    [ ! -t 0 ] || bad "-: standard input is a terminal, and not $2"
  elif [ -d "$1" ]; then bad "$1: a directory, and not $2"
  elif [ ! -e "$1" ]; then bad "$1: there is no such file"
  elif [ ! -r "$1" ]; then bad "$1: may not be read"
  fi
}

# $out is a regular file or a free name, and none of the files named; $real is what it names, links followed. A name may end with newlines, which $(..) takes away.
writable() { # FILES..
  local file
  case $out in
  -) return ;;
  '') bad "OUT is an empty name" ;;
  /dev/* | /proc/*) bad "$out: a file of the system; - is standard output" ;;
  */) bad "$out: a directory" ;;
  esac
  [ ! -d "$out" ] || bad "$out: a directory"
  [ ! -e "$out" ] || [ -f "$out" ] || bad "$out: not a regular file"
  [ ! -e "$out" ] || [ -w "$out" ] || bad "$out: may not be written"
  for file; do [ ! "$out" -ef "$file" ] || bad "$out: a file that is read"; done
  real=$(readlink -f -- "$out" && echo .) || bad "$out: its folder is not there"
  real=${real%??}
}

# What is to become OUT, beside its name: $to is where the program writes.
begin_out() {
  to=-
  [ "$out" != - ] || return
  part=$(mktemp -- "${real%/*}/.bihargesh.XXXXXX" 2>/dev/null && echo .) || { part=; bad "$out: can't be written: no file can be made in its folder"; }
  part=${part%??}
  to=$part
}

# Moves it there, whole; what stood at OUT gives its mode and, where that may be, its owner.
end_out() {
  [ "$out" != - ] || return
  if [ -e "$real" ]; then
    chown --reference="$real" -- "$part" 2>/dev/null
    chmod --reference="$real" -- "$part"
  else
    chmod "$(printf %o $((0666 & ~$(umask))))" -- "$part"
  fi
  mv -f -T -- "$part" "$real" 2>/dev/null || bad "$out: can't be written"
  part=
}

stale() { [ ! -x "$program" ] || [ -n "$(find "$top/crates.txt" "$top/crates" -name out -prune -o -type f -newer "$program" -print -quit)" ]; }

# Proves and builds the program where it is missing or older than a source file; a second start waits for the first.
build() {
  local log=$top/target/$name.log
  command -v rt >/dev/null 2>&1 || stop "the Rattle toolchain's command 'rt' is not on the PATH (README.md says where it comes from)"
  stale || return 0
  mkdir -p "$top/target" && : >>"$top/target/$name.lock" || stop "the program can't be built: $top/target can't be written"
  exec 8<"$top/target/$name.lock"
  flock 8 & await
  if stale; then
    tell "bin/$script: proving and building the program, which takes minutes; $log has what the prover says" >&2
    setsid "$top/tools/build" "$name" >"$log" 2>&1 8<&- &
    await || stop "the program was not built; $log says why"
    touch "$program"
  fi
  exec 8<&-
}

# Runs the program with the words given: its answer's first byte is $outcome, written before any name, and the rest $said. The answer goes to descriptor 1, and to 3 where the program writes to standard output.
start() {
  local emulator output=6 words
  ulimit -s "$stack" 2>/dev/null || stop "the stack can't be raised to $stack KiB here (its hard limit is $(ulimit -Hs) KiB)"
  # programs are x86-64 code
  emulator=
  [ "$(uname -m)" = x86_64 ] || emulator=$(command -v qemu-x86_64) || stop "the program is x86-64 code, and no emulator is here (Debian: qemu-user)"
  answer=$(mktemp) || stop "no temporary file can be made"
  exec 6>"$answer" 7<"$answer" 5<&0
  rm -f -- "$answer"
  answer=
  lend_all "$@"
  case $name:$to in
  camera:* | *:-) output=1 ;;
  esac
  setsid ${emulator:+"$emulator"} "$program" "${words[@]}" <&5 3>&6 >&"$output" 5<&- 6>&- 7<&- &
  await
  [ ! -t 2 ] || printf '\r\033[K' >&2
  IFS= read -r -d '' said <&7
  outcome=${said:0:1}
  said=${said:1}
  said=${said%$'\n'}
  as_meant
}
