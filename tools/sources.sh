# shellcheck shell=bash disable=SC2154
# Sourced by tools/program.sh, which sets `root`, `kept` and `me`, where the sources are to be read, and by what builds and
# keeps a program of them.

# Sets `crates` to those of the repository that the program, or the crates that `top_crate` names, stand on, these among them, in
# the order of crates.txt, and `lines` to their lines.
find_crates() {
  local -A below=() seen=()
  local -a todo=() order=() words
  local name list word at=0
  for name in ${top_crate:-peinfo}; do
    seen[$name]=1
    todo+=("$name")
  done
  while IFS=: read -r name list; do
    case $name in '' | '#'*) continue ;; esac
    name=${name%% *}
    below[$name]=$list
    order+=("$name")
  done <"$root/crates.txt"
  while [ "$at" -lt "${#todo[@]}" ]; do
    read -r -a words <<<"${below[${todo[at]}]-}"
    at=$((at + 1))
    for word in "${words[@]}"; do
      # A library that crates.txt has no line for is the kit's, and is proved already.
      if [ -n "${below[$word]+x}" ] && [ -z "${seen[$word]+x}" ]; then
        seen[$word]=1
        todo+=("$word")
      fi
    done
  done
  crates=() lines=''
  for name in "${order[@]}"; do
    if [ -n "${seen[$name]+x}" ]; then
      crates+=("$name")
      lines+="$name:${below[$name]}"$'\n'
    fi
  done
}

# Sets `places` to where the sources are or could be, from the top of the repository.
find_places() {
  local crate
  places=(${more_places[@]+"${more_places[@]}"})
  for crate in "${crates[@]}"; do
    places+=("crates/$crate/src" "crates/$crate/specs" "crates/$crate/proofs")
  done
}

# Prints the sign of the sources in a folder: a checksum of their names and contents and of the crates' lines.
sign_of() {
  local sum place
  local -a there=() places
  find_places
  for place in "${places[@]}"; do
    if [ -e "$1/$place" ]; then
      there+=("$place")
    fi
  done
  sum=$(
    CDPATH='' cd -- "$1" &&
      { printf '%s' "$lines" && find -L "${there[@]}" -type f -print0 | LC_ALL=C sort -z | xargs -0 sha256sum --; } | sha256sum
  ) || return
  echo "${sum:0:40}"
}

# Sets `sign` to that of the sources, and notes it in the file `seen` for recall_sign; but not while a file is so new that one
# more change could leave it with the same time.
read_sign() {
  local before=$((EPOCHSECONDS - 2)) times
  find_crates
  find_places
  times=$(times_of "${places[@]}") || :
  sign=$(sign_of "$root") || stop "the sources can't be read"
  if [ -d "$kept" ] && [ -w "$kept" ] && ! is_touched_after "$before"; then
    { printf '%s\n' "$sign ${places[*]}" "$times" >"$kept/seen.$$" && mv -f -- "$kept/seen.$$" "$kept/seen"; } 2>/dev/null || :
  fi
}

# Whether the list of crates, a source or a folder of theirs was changed after a time in seconds.
is_touched_after() {
  local touched
  touched=$(CDPATH='' cd -- "$root" && find -L crates.txt "${places[@]}" -newerct "@$1" -print -quit 2>/dev/null) || :
  [ -n "$touched" ]
}

# Sets `archive_sign` to the sign of the sources of the library for C in a folder.
find_archive_sign() {
  local top_crate=pe_c lines
  local -a crates more_places=()
  find_crates
  archive_sign=$(sign_of "$1")
}

# Makes the folder of the builds, and waits until no other build holds the lock of that name.
take_turn() {
  if ! mkdir -p -- "$kept" 2>/dev/null || ! [ -w "$kept" ]; then
    stop "$kept can't be written; PEINFO_BUILD can name another folder for the build"
  fi
  exec 9>"$kept/$1"
  if ! flock -n 9; then
    echo "$me: waiting for another build" >&2
    flock 9
  fi
}

# Makes a copy of the crates that can be built. What earlier proofs left in it stays.
copy_sources() {
  local to=$1 old crate part
  mkdir -p -- "$to/crates"
  for old in "$to/crates"/*; do
    case " ${crates[*]} " in
      *" ${old##*/} "*) ;;
      *) rm -rf -- "$old" ;;
    esac
  done
  for crate in "${crates[@]}"; do
    mkdir -p -- "$to/crates/$crate"
    for part in src specs proofs data; do
      rm -rf -- "$to/crates/$crate/$part"
      if [ -d "$root/crates/$crate/$part" ]; then
        cp -R -- "$root/crates/$crate/$part" "$to/crates/$crate/$part"
      fi
    done
  done
  chmod -R u+w -- "$to"
  printf '%s' "$lines" >"$to/crates.txt"
}

# Keeps a file as KIND-SIGN, and sets `program` to it. It is moved into place whole, and the one before it goes. The sign is that
# of the program, unless a third argument names another.
keep() {
  local from=$1 kind=$2 own=${3:-$sign} old
  program=$kept/$kind-$own
  cp -- "$from" "$kept/new-$kind.$$"
  chmod 755 -- "$kept/new-$kind.$$"
  mv -f -- "$kept/new-$kind.$$" "$program"
  for old in "$kept/$kind"-* "$kept/new-$kind".*; do
    if [ "$old" != "$program" ]; then
      rm -f -- "$old"
    fi
  done
}
