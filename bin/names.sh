# Sourced by bin/filter and bin/start.sh: what a program is given for a word.
# The library under the programs opens names of UTF-8 text alone, so a file with another name is opened here and the program is given its descriptor's name.
lent=() meant=()

# $word is what the program is given.
lend() { # WORD
  local LC_ALL=C descriptor
  word=$1
  case $word in *[!$'\001'-$'\177']*) ;; *) return 0 ;; esac
  ! iconv -f UTF-8 -t UTF-16LE <<<"$word" >/dev/null 2>&1 || return 0
  { exec {descriptor}<"$word"; } 2>/dev/null || return 0
  word=/dev/fd/$descriptor
  lent+=("$word") meant+=("$1")
}

# $words is what the program is given for all.
lend_all() { # WORDS..
  local each
  words=()
  for each; do
    lend "$each"
    words+=("$word")
  done
}

# What the program said, $said, by the names that were meant.
as_meant() {
  local k
  for k in "${!lent[@]}"; do said=${said//"${lent[k]}"/"${meant[k]}"}; done
}
