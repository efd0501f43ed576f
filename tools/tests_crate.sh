# Sourced by the tools that run the tests, or that try or build sources beside them, at the top of the repository.
# The tests are no crate of the repository, and no .rt files, since the toolchain's gate proves each crate and stops at
# a .rt file that no check reads.

# Puts the crates' sources into a folder, without what was proved of them.
copy_crates() {
  local folder=$1 part
  for part in crates/*/{src,specs,proofs}; do
    if [ -d "$part" ]; then
      mkdir -p "$folder/$part"
      cp -R "$part/." "$folder/$part"
    fi
  done
}

# The same and one more crate, pe_tests, that has no source yet.
copy_with_tests_crate() {
  local folder=$1
  copy_crates "$folder"
  mkdir -p "$folder/crates/pe_tests/src"
  {
    cat crates.txt
    echo
    echo "pe_tests: pe_core pe_records pe_unwind pe_plan pe_frame pe_resource pe_image pe_sign pe_edit pe_version pe_rewrite pe_directories pe_minidump pe_stacks pe_pdb pe_pkcs7 pe_images pe_uses linked_list_allocator"
  } >"$folder/crates.txt"
}

# The crates that have tests of their own here, tests/CRATE/*.rs.
crates_with_tests() {
  local root
  for root in tests/*/lib.rs; do
    basename "$(dirname "$root")"
  done
}

# Puts tests/CRATE into a copy of the crates, as the module tests of that crate. Beside its own files lib.rs may name
# tests/refusing.rs, tests/shared.rs, tests/signature_bytes.rs, tests/pdb_bytes.rs and tests/pdb_inlined_bytes.rs. The crate uses
# pe_images then.
add_tests_of() {
  local folder=$1 crate=$2 test sources root shared
  sources=$folder/crates/$crate/src
  mkdir -p "$sources/tests"
  for shared in refusing shared signature_bytes pdb_bytes pdb_inlined_bytes; do
    if grep -qx "mod $shared;" "tests/$crate/lib.rs"; then
      cp "tests/$shared.rs" "$sources/tests/$shared.rt"
    fi
  done
  for test in tests/"$crate"/*.rs; do
    cp "$test" "$(copy_of_test "$folder" "$test")"
  done
  for root in "$sources"/{lib,main}.rt; do
    if [ -f "$root" ]; then
      printf '\n#[cfg(test)]\nmod tests;\n' >>"$root"
    fi
  done
  sed -i -E "/^$crate( staticlib)?:/{/ pe_images( |\$)/!s/\$/ pe_images/}" "$folder/crates.txt"
}

# Where the copy of a file of tests stands.
copy_of_test() {
  local folder=$1 test=$2 name crate
  name=$(basename "$test" .rs)
  crate=$(basename "$(dirname "$test")")
  case $test in
    tests/*/lib.rs) echo "$folder/crates/$crate/src/tests.rt" ;;
    tests/*/*) echo "$folder/crates/$crate/src/tests/$name.rt" ;;
    *) echo "$folder/crates/pe_tests/src/$name.rt" ;;
  esac
}
