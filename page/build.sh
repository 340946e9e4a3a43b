#!/usr/bin/env bash
# build.sh [--kit FOLDER] [--proved CHECKOUT] [--out FILE]: builds the page, one HTML file that needs no server.
#
#   --kit FOLDER       the Rattle kit; else $RATTLE_KIT; else the folder of the page that `rt doc` prints
#   --proved CHECKOUT  a checkout of this text in which the gate has proved the libraries; else $PROVED; else this one
#   --out FILE         the page; else page/out/menhir.html
#
# The kit compiles the static library mh_export for Linux alone. So this script calls the kit's compiler with a clang
# that keeps the LLVM module of the proved library, makes a WebAssembly module of it, and puts the module and the files
# of page/src into one HTML file. The kit does not support these steps, and none of them is proved.
set -euo pipefail
here=$(cd "$(dirname "$0")" && pwd)
top=$(dirname "$here")
kit=${RATTLE_KIT:-} proved=${PROVED:-$top} page=$here/out/menhir.html
while [ $# -gt 0 ]; do
  case $1 in
    --kit) kit=$2 ;;
    --proved) proved=$2 ;;
    --out) page=$2 ;;
    *) sed -n '2,6s/^# \{0,1\}//p' "$0" >&2; exit 2 ;;
  esac
  shift 2
done
if [ -z "$kit" ]; then
  kit=$(dirname "$(rt doc | tail -1)")
fi
proved=$(cd "$proved" && pwd)
made=$here/out/made
mkdir -p "$made" "$(dirname "$page")"

echo "build.sh: the LLVM module of mh_export"
"$here/build/module.sh" "$kit" "$proved" "$made"

echo "build.sh: the WebAssembly module"
clang=$kit/toolchain/bin/clang
for_wasm=(--target=wasm64-unknown-unknown -mcpu=lime1 --no-default-config -ffunction-sections -fdata-sections -c
  -mllvm -expand-div-rem-bits=64 -mllvm -expand-fp-convert-bits=64)
"$clang" --no-default-config -x ir "$made/module.bc" -S -emit-llvm -Xclang -disable-llvm-passes -o "$made/module.ll"
python3 "$here/build/retarget.py" "$made/module.ll" "$made/wasm64.ll"
"$clang" "${for_wasm[@]}" -O2 -x ir "$made/wasm64.ll" -o "$made/tool.o"
for part in heap wide; do
  "$clang" "${for_wasm[@]}" -O2 -ffreestanding -nostdinc -fwrapv -Wall -x c "$here/build/$part.c" -o "$made/$part.o"
done
exports=()
for name in menhir_page malloc heap_limit heap_used; do
  exports+=("--export=$name")
done
"$kit/toolchain/bin/ld.lld" -flavor wasm -mwasm64 --no-entry --stack-first -z stack-size=8388608 --gc-sections \
  --strip-debug "${exports[@]}" "$made/tool.o" "$made/heap.o" "$made/wide.o" -o "$made/tool.wasm"

python3 "$here/build/join.py" "$here/src" "$made/tool.wasm" "$page"
