#!/usr/bin/env bash
# module.sh KIT CHECKOUT FOLDER: writes FOLDER/module.bc, the LLVM module of the static library mh_export.
#
# The libraries below mh_export are those that the gate has proved and built in the checkout. The compiler proves
# mh_export itself once more, and then calls the clang of its folder of tools. Here this clang is a script that keeps
# the module. What the script makes of the module is an empty object, since nothing here uses the library for Linux.
# The compiler passes no environment on, so the paths are written into the script.
set -euo pipefail
kit=$1 proved=$2 made=$3
crate=$proved/crates/mh_export

tools=$made/toolchain
rm -rf "$tools" && mkdir -p "$tools/bin"
for tool in "$kit"/toolchain/bin/*; do
  ln -s "$tool" "$tools/bin/"
done
ln -s "$kit/toolchain/lib" "$tools/lib"
rm "$tools/bin/clang"
cat > "$tools/bin/clang" <<SCRIPT
#!/bin/bash
while [ \$# -gt 0 ]; do
  case \$1 in
    *.bc) cp "\$1" $(printf %q "$made/module.bc") ;;
    -o) object=\$2 ;;
  esac
  shift
done
exec $(printf %q "$kit/toolchain/bin/clang") --no-default-config -c -x c /dev/null -o "\$object"
SCRIPT
chmod +x "$tools/bin/clang"

words=(--crate-name mh_export src/lib.rt -L "dependency=$kit/rlibs" --extern "std=$kit/rlibs/std.rlib")
for library in $(sed -n 's/^mh_export *staticlib *: *//p' "$proved/crates.txt"); do
  words+=(--extern "$library=$proved/crates/$library/out/rlib/$library.rlib")
done
for folder in "$proved"/crates/*/out/rlib; do
  words+=(-L "dependency=$folder")
done
words+=(--antt-project "$kit/rattle/logic/antt-project.json" --logic-built "$kit/logic_built" --jobs 2)
words+=(--crate-type staticlib --links mh_export= --backend llvm --toolchain "$tools" -o "$made/libmh_export.a")

rm -f "$made/module.bc"
cd "$crate"
"$kit/bin/rattle" build "${words[@]}" > "$made/log" 2>&1 || { tail -20 "$made/log" >&2; exit 1; }
grep '^logic=proved' "$made/log"
[ -s "$made/module.bc" ]
