# is_fresh FILE: it is there, and no older than what the crates are made of. Sourced by what builds programs and the library; $top is the repository.
is_fresh() {
    [ -f "$1" ] && [ -z "$(find "$top"/crates.txt "$top"/crates/*/src "$top"/crates/*/specs "$top"/crates/*/proofs -newer "$1" -type f 2>/dev/null | head -n 1)" ]
}
