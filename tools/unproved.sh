# shellcheck shell=bash
# Sourced by the commands that build a program without a proof. tools/kit.sh has to set RT first.

# Makes the kit's folder again, by links, as ROOM/kit, and sets `unproved_rt` to its command: `rt try` as ever, but that it
# doesn't run the prover beside the build, which it does for a hint on names alone. ROOM is a folder with an absolute name.
link_kit() {
  local own=$1/kit part
  linked_kit=$(dirname "$(dirname "$(readlink -f -- "$RT")")")
  # rt itself is copied, since it takes the folder that it stands in for the kit.
  mkdir -p -- "$own/bin" "$own/toolchain/bin"
  for part in "$linked_kit"/* "$linked_kit"/toolchain/*; do
    if [ ! -e "$own${part#"$linked_kit"}" ]; then
      ln -s -- "$part" "$own${part#"$linked_kit"}"
    fi
  done
  ln -s -- "$linked_kit"/bin/* "$own/bin"
  ln -s -- "$linked_kit"/toolchain/bin/* "$own/toolchain/bin"
  cp --remove-destination -- "$linked_kit"/bin/rt* "$own/bin"
  rm -f -- "$own/bin/rattle"
  printf '#!/bin/sh\n' >"$own/bin/rattle"
  chmod +x -- "$own/bin/rattle"
  unproved_rt=$own/bin/rt
}

# Makes a script of standard input in place of a program of ROOM/kit.
replace() {
  rm -f -- "$1"
  cat >"$1"
  chmod +x -- "$1"
}

# A linker in place of that of ROOM/kit, which leaves out the library that is linked whole, that of LLVM's sanitizer, and then does
# what the second argument says, with the program's name in `made`.
replace_linker() {
  { cat <<'END' && printf '%s\n' "$2"; } | replace "$1/kit/toolchain/bin/ld.lld"
#!/bin/sh
room=${0%/kit/toolchain/bin/ld.lld} is_left_out=false before=
for word in "$@"; do
  shift
  case $word in
    --whole-archive) is_left_out=true ;;
    --no-whole-archive) is_left_out=false ;;
  esac
  "$is_left_out" || set -- "$@" "$word"
  [ "$before" != -o ] || made=$word
  before=$word
done
END
}

# Builds the program of the crate in the current folder at LLVM's -O2, into ROOM/program, and runs it once with the ARGUMENTS:
#
#     build_unproved ROOM ARGUMENT..
#
# It stops at a number that overflows and at an index out of range, as under `rt try`, which compiles it at -O0. `rt try`
# builds this one too, by a kit in which clang and the linker are scripts: they change the level of optimisation, leave
# out LLVM's address sanitizer, and keep the program. ROOM is a new folder with an absolute name. What the kit says is printed. The
# status is 1 where it made no program by these scripts, and 0 where it did, whatever status the program ends with.
build_unproved() {
  local room=$1 own=$1/kit
  shift
  link_kit "$room"
  ln -s -- "$linked_kit/toolchain/bin" "$room/compilers"
  replace "$own/toolchain/bin/clang" <<'END'
#!/bin/sh
room=${0%/kit/toolchain/bin/clang}
for word in "$@"; do
  shift
  case $word in
    -O0) set -- "$@" -O2 && : >"$room/raised" ;;
    -fsanitize=address) : >"$room/met_sanitizer" ;;
    *) set -- "$@" "$word" ;;
  esac
done
exec "$room/compilers/clang" "$@"
END

  # The program is copied to another name first, so that ROOM/program is never half of one.
  replace_linker "$room" '"$room/compilers/ld.lld" "$@" && cp "$made" "$room/program.new" && mv "$room/program.new" "$room/program"'

  # rt reads the program's standard input whole before it starts it. The interpreter, which it tries first, gets one step.
  TMPDIR=$room "$unproved_rt" try --steps 1 -- "$@" 2>&1 </dev/null || :
  [ -e "$room/raised" ] && [ -e "$room/met_sanitizer" ] && [ -e "$room/program" ]
}

# Makes clang of ROOM/kit, which link_kit has made, keep the code that it compiles last, as ROOM/kept.bc.
keep_code() {
  local room=$1 own=$1/kit
  ln -s -- "$linked_kit/toolchain/bin" "$room/compilers"
  replace "$own/toolchain/bin/clang" <<'END'
#!/bin/sh
room=${0%/kit/toolchain/bin/clang}
for word in "$@"; do
  case $word in *.bc) cp "$word" "$room/kept.bc" ;; esac
done
exec "$room/compilers/clang" "$@"
END
}

# Builds the tests of a crate so that a function of theirs is one of C, and without LLVM's sanitizer, and runs none of them:
#
#     build_selectable_tests ROOM CRATE OBJECT
#
# The tests are ROOM/tests, and the code of them ROOM/kept.bc, as text. In that code pe_core::mutants::is_chosen is
# is_chosen_mutant of the OBJECT. What the kit says is printed. The status is 1 where it compiled nothing.
build_selectable_tests() {
  local room=$1 crate=$2 object=$3 own=$1/kit
  link_kit "$room"
  keep_code "$room"
  ln -s -- "$object" "$room/linked.o"
  # The kit compiles a line or two first, to see whether it can: these stay.
  replace "$own/toolchain/bin/clang" <<'END'
#!/bin/sh
room=${0%/kit/toolchain/bin/clang} code=
for word in "$@"; do
  shift
  case $word in
    *.bc) [ "$(wc -c <"$word")" -lt 100000 ] || code=$word ;;
    -O0) word=-O1 ;;
    -fsanitize=address) continue ;;
  esac
  set -- "$@" "$word"
done
if [ "$code" ]; then
  "$room/compilers/clang" --target=x86_64-unknown-linux-gnu -x ir -S -emit-llvm -O0 -Xclang -disable-llvm-passes -o - "$code" |
    sed -e '/^define [^(]*@"pe_core::mutants::is_chosen"(/,/^}/c declare zeroext i1 @is_chosen_mutant(i32 noundef)' \
      -e 's/@"pe_core::mutants::is_chosen"/@is_chosen_mutant/' >"$room/kept.bc"
  cp "$room/kept.bc" "$code"
fi
exec "$room/compilers/clang" "$@"
END
  replace_linker "$room" '"$room/compilers/ld.lld" "$@" "$room/linked.o" && cp "$made" "$room/tests"; exit 1'
  (cd "$crate" && TMPDIR=$room "$unproved_rt" try --test 2>&1 </dev/null) || :
  [ -e "$room/tests" ]
}

# Makes the library for C of the code that `rt try --test` compiled in pe_c, whose tests call each of its calls:
#
#     archive_of_calls ROOM FILE
#
# It is compiled for plain x86-64 at LLVM's -O2 and not proved. It stops at a number that overflows and at an index out of
# range.
archive_of_calls() {
  local room=$1 file=$2 clang=$linked_kit/toolchain/bin/clang
  local flags=(--target=x86_64-unknown-linux-gnu -march=x86-64 -x ir)
  "$clang" "${flags[@]}" -S -emit-llvm -O0 "$room/kept.bc" -o "$room/calls.ll" 2>/dev/null
  # The calls are inside the program of the tests, under their names of Rattle.
  sed -i -E -e 's/@"pe_c::tests::/@"tests::/g' -e 's/@"pe_c::[a-z0-9_:]+::(pe_c_[a-z0-9_]+)"/@\1/g' \
    -e 's/^define internal (.*@pe_c_[a-z0-9_]+\()/define \1/' \
    -e 's/^define i32 @main\(/define internal i32 @main(/' "$room/calls.ll"
  "$clang" "${flags[@]}" -c -O2 -fPIC -ffunction-sections -fdata-sections "$room/calls.ll" -o "$room/calls.o"
  rm -f -- "$file"
  "$linked_kit/toolchain/bin/llvm-ar" rcs "$file" "$room/calls.o"
}

# Builds the library for C without a proof, of the sources at the top of the repository, in which the shell has to stand:
#
#     build_archive ROOM FILE
#
# It compiles the tests of pe_c, and runs none of them. tools/tests_crate.sh has to be sourced too. What the kit says is
# printed. The status is 1 where it compiled nothing.
build_archive() {
  local room=$1 file=$2
  copy_crates "$room/copy"
  cp crates.txt "$room/copy"
  add_tests_of "$room/copy" pe_c
  link_kit "$room"
  keep_code "$room"
  # The kit compiles a line or two first, to see whether it can. Of the crate's code nothing is made here.
  sed -i 's/^exec /[ "$(wc -c <"$room\/kept.bc")" -lt 100000 ] || exit 1\n&/' "$room/kit/toolchain/bin/clang"
  (cd "$room/copy/crates/pe_c" && TMPDIR=$room "$unproved_rt" try --test 2>&1 </dev/null) || :
  [ -e "$room/kept.bc" ] || return
  echo "The kit was stopped on purpose once it had the code, of which it makes nothing here: if it speaks of a bug in rattle, that is why."
  archive_of_calls "$room" "$file"
}

# Makes `rt try --test` by ROOM/kit, which link_kit has made, run several tests at a time:
#
#     keep_tests ROOM
#     run_kept_tests ROOM JOBS &    beside `rt try --test`
#     : >ROOM/over                  after it: no more tests start
#
# The kit starts each test by the loader of its toolchain, one after the other. Once the tests are linked, which a script in
# place of the linker does, run_kept_tests starts them too, JOBS at a time, and a script in place of the loader waits for the
# one that the kit wants. Of one that ended with status 0, and wrote nothing to standard error, it hands on the output, by
# which the kit judges it. Any other test is run by the kit itself, which says why it fails. RT_SECONDS has to be set.
keep_tests() {
  local room=$1 own=$1/kit loader=ld-linux-x86-64.so.2
  mkdir -- "$room/ended" "$room/runs"
  rm -f -- "$own/toolchain/lib" "$own/toolchain/bin/ld.lld"
  mkdir -- "$own/toolchain/lib"
  ln -s -- "$linked_kit"/toolchain/lib/* "$own/toolchain/lib"
  ln -s -- "$linked_kit/toolchain/bin/ld.lld" "$room/ld.lld"
  ln -s -- "$linked_kit/toolchain/lib/$loader" "$room/loader"

  # The linker reads the loader, which is replaced after it.
  cat >"$own/toolchain/bin/ld.lld" <<'END'
#!/bin/sh
room=${0%/kit/toolchain/bin/ld.lld} before=
for word in "$@"; do
  [ "$before" != -o ] || made=$word
  before=$word
done
"$room/ld.lld" "$@" && ln -sf "$room/wait_for_one" "$room/kit/toolchain/lib/ld-linux-x86-64.so.2" &&
  cp "$made" "$room/tests.new" && mv "$room/tests.new" "$room/tests"
END

  # Its last word is the name of a test, or --list.
  cat >"$room/wait_for_one" <<'END'
#!/bin/sh
room=${0%/kit/toolchain/lib/*}
for word in "$@"; do
  name=$word
done
until [ "$name" = --list ] || [ -e "$room/ended/$name" ] || [ -e "$room/over" ]; do
  sleep 0.1
done
if [ -e "$room/ended/$name" ] && [ ! -s "$room/ended/$name" ]; then
  exec cat "$room/runs/$name/output"
fi
exec "$room/loader" "$@"
END

  # Runs the test NAME in a folder of its own, ROOM/runs/NAME, with no environment. Once it has ended, ROOM/ended/NAME has
  # its standard error, and a line more where the status is not 0.
  cat >"$room/run_one" <<'END'
#!/bin/sh
room=${0%/run_one}
[ ! -e "$room/over" ] && mkdir "$room/runs/$1" && cd "$room/runs/$1" || exit
timeout --foreground -s KILL "$RT_SECONDS" env -i "$room/loader" --inhibit-cache \
  --library-path "$room/kit/toolchain/lib" "$room/tests" "$1" </dev/null >output 2>errors || echo "status $?" >>errors
mv errors "$room/ended/$1"
END
  chmod +x -- "$own/toolchain/bin/ld.lld" "$room/wait_for_one" "$room/run_one"
}

run_kept_tests() {
  local room=$1 jobs=$2
  until [ -e "$room/tests" ] || [ -e "$room/over" ]; do
    sleep 0.5
  done
  if [ -e "$room/tests" ]; then
    # A line of the list is 'NAME: test'.
    "$room/loader" --library-path "$room/kit/toolchain/lib" "$room/tests" --list | sed -n 's/: test$//p' |
      xargs -r -n 1 -P "$jobs" "$room/run_one" || :
  fi
  : >"$room/over"
}
