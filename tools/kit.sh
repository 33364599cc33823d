# Sourced: how a program of the repository is proved and built by the kit.

# built NAME: proves and links crates/NAME, in the repository's root; the program is crates/NAME/out/NAME. rt run starts it too, here on no
# input: what it then prints and answers is not asked, only that rt came so far.
built() {
    said=$(cd "crates/$1" && rt run </dev/null 2>&1 >/dev/null) || :
    case $said in
    *"rt: running out/$1"*) ;;
    *) printf '%s\n' "$said" >&2; return 1 ;;
    esac
}
