# argmin's own files, for oracle/run and bench/run, which source this. They set root, the project's folder, and define
# failed.

# where argmin 0.11.0's source is, unless an argument says otherwise
argmin=${ARGMIN_SRC:-$root/../shared/docs/src}

# Says why argmin cannot be compiled here, where it cannot.
argmin_missing() {
    if ! command -v rustc >/dev/null 2>&1; then
        echo "rustc is not on the PATH"
    elif [ ! -d "$argmin/src/solver/linesearch" ]; then
        echo "no $argmin/src/solver/linesearch; ARGMIN_SRC names the folder of argmin 0.11.0's source"
    fi
}

# Makes the folder BUILD with what is compiled, in BUILD/src: argmin's files, and the project's stand-ins over them.
# hagerzhang.rs there includes argmin's from BUILD/argmin, and morethuente.rs stands in for it.
argmin_into() { # BUILD
    if command -v sha256sum >/dev/null 2>&1; then sums=sha256sum; else sums="shasum -a 256"; fi
    mkdir -p "$1/argmin/src/solver/linesearch/condition" || failed "no folder $1"
    # the copies are checked, since the copies are compiled
    while read -r sum file; do
        cp "$argmin/$file" "$1/argmin/$file" 2>/dev/null || failed "there is no $argmin/$file, or it cannot be read"
        [ "$($sums <"$1/argmin/$file")" = "$sum  -" ] ||
            failed "$argmin/$file is not argmin 0.11.0's, by oracle/SHA256SUMS"
    done <"$root/oracle/SHA256SUMS"
    if ! cp -R "$1/argmin/src" "$1/src" || ! cp -R "$root/oracle/src/." "$1/src"; then
        failed "the sources cannot be copied"
    fi
}

# Compiles the file FILE of BUILD/src to PROGRAM.
argmin_compiled() { # BUILD FILE PROGRAM
    rustc --edition 2021 -C opt-level=3 -o "$3" "$1/src/$2" 2>"$1/log" || { cat "$1/log" >&2; failed "rustc $2"; }
}
