# Sets `program` to the path of the program that ASTC_TOOL names, else of the one that the gate
# leaves. A check sources this file at the top of the repository.
named=${ASTC_TOOL:-crates/astc_tool/out/astc_tool}
program=$(type -P -- "$named") ||
    { echo "${0##*/}: there is no program $named: run ./check, or set ASTC_TOOL"; exit 1; }
[[ $program == /* ]] || program=$PWD/$program
