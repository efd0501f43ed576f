# shellcheck shell=bash
# Sourced by peinfo, prove and pe at the top, which set `root` to the folder that they stand in, and `me` to their name. Says
# where the built programs are kept, and which of them was built from the sources as they are. What is built is the program
# peinfo; or, where `top_crate` names another crate, what stands on that: its sources are those of the crates and `more_places`,
# and it is kept below `kept`, in the folder that `own_folder` names.
#
# A program is kept as proved-SIGN or built-SIGN, SIGN being a checksum of the sources that it was built from, taken of
# the copy that was built. So it can't be started for other sources, whenever they change, and is right again once they
# are what they were.

# Says why there is no program, and ends. Where standard error takes nothing, the status alone says it.
stop() {
  echo "${me:?}: $1" >&2 || :
  exit 70
}

# A command that fails here, as on a full disk, must not end with a status that peinfo could have given.
work=
at_exit() {
  local code=$?
  if [ -n "$work" ]; then
    rm -rf -- "$work" || :
  fi
  if [ "$code" -gt 0 ] && [ "$code" -lt 70 ]; then
    stop "it stopped before it was done"
  fi
}
trap at_exit EXIT

kept=${PEINFO_BUILD:-$root/peinfo-build}${own_folder:+/$own_folder}
case $kept in
  /*) ;;
  *) kept=$PWD/$kept ;;
esac

# Prints, on one line, what can be compared at little cost: of crates.txt and of each file and folder below the places
# its number, its size and when it was last changed in any way. No command sets that time back, so an older file in place
# of another is noticed too; a folder's is that of its list of names. A single find is the fastest way. Call it in a subshell
# alone, which it replaces.
times_of() {
  CDPATH='' cd -- "$root" && exec find -L crates.txt "$@" -printf '%i %s %C@ ' 2>/dev/null
}

# Sets `sign` by the file `seen`, if nothing was touched since that was written. That has the sign and the places on one line
# and the times on the next. It is read again as a whole, so another file in its place is noticed.
recall_sign() {
  local -a first
  [ -r "$kept/seen" ] || return
  read -r -a first <"$kept/seen" || return
  [ "${first[*]}"$'\n'"$(times_of "${first[@]:1}")" = "$(<"$kept/seen")" ] || return
  sign=${first[0]}
}

# Sets `program` to the one that was built from the sources as they are, a proved one before another.
find_program() {
  if ! recall_sign; then
    # shellcheck source=tools/sources.sh
    . "$root/tools/sources.sh"
    read_sign
  fi
  program=$kept/proved-$sign
  if [ ! -x "$program" ]; then
    program=$kept/built-$sign
    [ -x "$program" ]
  fi
}
