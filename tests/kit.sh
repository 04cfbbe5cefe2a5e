# For the scripts beside it: C over the proved library, by the kit's own compiler, linker and loader, for x86-64. Sourced from the
# repository's root.
kit=$(dirname "$(rt doc)")
kit_tools=$kit/toolchain
c_out=target/c

# The proved archive; made again where a source or the kit has changed.
c_archive=crates/export/out/libexport.a
c_library() {
  if ! (cd crates/export && rt lib) >"$c_out/library.log" 2>&1; then
    tail -n 20 "$c_out/library.log"
    return 1
  fi
}

# The flags of every C file; -O3 is what the kit gives its own code.
c_flags=(--target=x86_64-linux-gnu -std=c11 -O3 -fPIE -ffreestanding -nostdinc -isystem c/freestanding -Ic -Wall -Wextra -Werror)

# c_object SOURCE [FLAG..]: target/c/NAME.o
c_object() {
  local source=$1
  shift
  "$kit_tools/bin/clang" "${c_flags[@]}" "$@" -c "$source" -o "$c_out/$(basename "$source" .c).o"
}

# c_program NAME FILE..: target/c/NAME
c_program() {
  local name=$1
  shift
  "$kit/bin/rattle-link" --target x86_64-unknown-linux-gnu --toolchain "$kit_tools" -o "$c_out/$name" "$@" >"$c_out/$name.log" 2>&1 && return 0
  cat "$c_out/$name.log"
  return 1
}

# c_command NAME: the words that run it, in `c_words`
c_command() {
  c_words=("$kit_tools/lib/ld-linux-x86-64.so.2" --library-path "$kit_tools/lib" "$c_out/$1")
}

mkdir -p "$c_out"
