# What leans on parts of the kit that its pages don't promise. All of that stands here, so that whoever moves to another kit
# has one file to look at.
#
# - `rt lib` makes an archive for WebAssembly, and links none: a module is made by the kit's linker (`link_module`).
# - `rt ci` leaves its libraries without the stamps by which rt's other commands know them. So these would prove nine crates once
#   more, for the gate's own tests of the C library alone. The kit's module of libraries tells what stamp a crate has
#   (`stamp_libraries`).
# - What rt keeps of a proof is a file for each module, and the time of each says when it was checked. bench/proofs reads these
#   (`list_modules`), and begins with none of them (`forget_modules`).
#
# Scripts read this file, or run it as `bash kit.bash FUNCTION WORDS..`.

# The folder of the kit's commands.
commands_of_the_kit() { dirname -- "$(readlink -f -- "$(command -v rt)")"; }

# Links an archive for WebAssembly to a module, with these words of the linker more.
link_module() {
    local archive=$1 module=$2 commands
    commands=$(commands_of_the_kit)
    "$commands/rattle-link" --target wasm64-unknown-unknown --toolchain "${commands%/*}/toolchain" "${@:3}" -o "$module" "$archive"
}

# Writes the stamps of the libraries that were built in this copy of the project, as of what stands there.
stamp_libraries() {
    (cd -- "$1" && python3 -B - "$(commands_of_the_kit)/rtlib.py") <<'END'
import importlib.util
import os
import sys

rtlib = importlib.util.module_from_spec(importlib.util.spec_from_file_location("rtlib", sys.argv[1]))
sys.modules["rtlib"] = rtlib
rtlib.__spec__.loader.exec_module(rtlib)
for crate in rtlib.crates_below(os.getcwd()):
    if crate.makes_rlib() and os.path.isdir(crate.rlib):
        with open(f"{crate.folder}/out/rlib/stamp", "w", encoding="utf-8") as it:
            it.write(crate.stamp())
END
}

# The folder in which rt keeps what it proved of a crate that is here.
kept_modules() { echo "$1/out/incremental"; }

# Takes what was built and kept of a crate away, so that rt takes nothing that it kept of it elsewhere.
forget_modules() { rm -rf -- "$1/out" && mkdir -p -- "$(kept_modules "$1")"; }

# The modules that rt proved of a crate: when each was written, in seconds, and its name.
list_modules() { find "$(kept_modules "$1")" -name '*.oantt' ! -name '*.decls.*' -printf '%T@ %f\n' | sed 's/\.oantt$//'; }

[ "$0" != "${BASH_SOURCE[0]}" ] || "$@"
