# What the parts of ./test and the tools share. A script says its name first (part=NAME), stands at the repository's top, and reads this: . tests/shared.sh
# Words of this file's functions begin with that name. They end a script with status 1 (failed), 2 (bad usage) or 3 (skipped).

# The folder of the Rust behind its line format, and where its programs gen, stream and oracle are built.
oracle=${ORACLE:-$PWD/../shared/oracle}
rust=$PWD/target/oracle/release

# Some requests change answers of older kinds, so the oracle is told which are in the library: answers are as from this one on.
since=W-203

# rt builds for x86-64: the C compiler whose programs can be linked with our libraries, and what reads their code. tests/x86 runs such programs.
machine=$(uname -m)
case $machine in
x86_64) x86_cc=cc x86_objdump=objdump ;;
*) x86_cc=x86_64-linux-gnu-gcc x86_objdump=x86_64-linux-gnu-objdump ;;
esac

say() { printf '%s: %s\n' "$part" "$*"; }
fail() { say "$*"; exit 1; }
usage() { say "$*" >&2; exit 2; }

# number WHAT VALUE: an argument that is to be a whole number.
number() {
    case $2 in
    '' | *[!0-9]* | ???????????????????*) usage "$1 is a number of at most 18 digits, and '$2' is none" ;;
    esac
}

# missing THING..: whether one of them is missing, and which.
missing() {
    for thing; do
        case $thing in
        oracle) [ -f "$oracle/Cargo.toml" ] || { absent="no oracle at $oracle (set ORACLE to its folder)"; return 0; } ;;
        valgrind) command -v valgrind >/dev/null && [ "$machine" = x86_64 ] || { absent="no valgrind on this machine that runs programs for x86-64"; return 0; } ;;
        x86_64-linux-gnu-*) command -v "$thing" >/dev/null || { absent="no $thing on this machine (Debian's package gcc-x86-64-linux-gnu has it)"; return 0; } ;;
        *) command -v "$thing" >/dev/null || { absent="no $thing on this machine"; return 0; } ;;
        esac
    done
    return 1
}

# needs THING..: the script is skipped where one of them is missing.
needs() {
    if missing "$@"; then
        say "skipped: $absent"
        exit 3
    fi
}

# build_oracle: the Rust's programs, in $rust.
build_oracle() {
    CARGO_TARGET_DIR=$PWD/target/oracle cargo build --release --offline --quiet --manifest-path "$oracle/Cargo.toml" || fail "the oracle at $oracle was not built (cargo's words above)"
}

# build_c NAME..: the programs tests/compare/NAME.c, in $work.
build_c() {
    for name; do
        cc -O2 -ffp-contract=off -o "$work/$name" "tests/compare/$name.c" -lm || fail "tests/compare/$name.c was not compiled (cc's words above)"
    done
}

# theirs: the oracle's answers to a stream.
theirs() { "$rust/stream" answer --from "$since"; }

# packed COMMAND..: the lines that a command of the Rust writes, as a stream.
packed() {
    "$@" >"$work/made.lines" || return
    "$rust/stream" pack <"$work/made.lines"
}

# counted ALL COMMAND..: a run of rt, its lines as they come. A line that ends a crate or an edit gets its number among ALL. What the prover says of a crate is
# shown where the crate is not proved. The status is the command's, and 1 where rt says that an edit is bad.
counted() {
    all=$1
    shift
    { code=0; "$@" 2>&1 || code=$?; echo "status $code"; } | {
        n=0 held='' code=1 bad=0
        while IFS= read -r line; do
            case $line in
            "status "*) code=${line#status }; continue ;;
            [0-9]*" passed, "[0-9]*" failed") line="rt: $line" ;;
            "rt: "*) ;;
            *) held="$held$line
"; continue ;;
            esac
            case $line in
            "rt: ok"*" bad"*) bad=1 ;;
            "rt: "*" proved"* | "rt: "*" is kept: "*) held= ;;
            "rt: must-fail "*": refused"*) held= ;;
            esac
            [ -z "$held" ] || printf '%s' "$held"
            held=
            case $line in
            "rt: "*" proved" | "rt: "*" is kept: "*"proved"* | "rt: "*" NOT PROVED"* | "rt: must-fail "*)
                n=$((n + 1))
                printf '[%3d of %d] %.160s\n' $n "$all" "$line"
                ;;
            *) printf '%s\n' "$line" ;;
            esac
        done
        printf '%s' "$held"
        [ $bad = 0 ] || { echo "rt: a must-fail edit is bad (above)"; [ "$code" != 0 ] || code=1; }
        exit "$code"
    }
}

# program NAME: proves the program NAME where its sources changed, and builds crates/NAME/out/NAME. The status is 0; 1 where it is not proved, and rt's words are shown.
program() {
    mkdir -p target/log
    say "$1 is proved and built"
    (cd "crates/$1" && rt run </dev/null) >"target/log/$1" 2>&1 || { cat "target/log/$1"; return 1; }
}
