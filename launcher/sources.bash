# What a program is made from, and whether it is as it was. ./ordup, the gate and `checkout.py` read it, each by its own path to it.

top=${BASH_SOURCE[0]%/launcher/*}
out=$top/out
program=$out/ordup
shopt -s extglob nullglob

# list_sources FILE..: the dates at which the system saw the last change of each source, and of these files: so each edit is told,
# whatever the clock says and whatever date a file was given. Folders count too: theirs change when a file is deleted or renamed. The
# files of proofs/ do not: however they are edited, what was proved stays proved.
list_sources() (
    export LC_ALL=C
    cd -- "$top" && exec find crates.txt HANDLES crates/*/{src,specs} "$@" -printf '%C@\n' 2>&1
)

# Whether the sources are as this list has them.
are_as_listed() { [[ -r $1 && $(list_sources) == "$(<"$1")" ]]; }
