# To be sourced by the bench's scripts: builds what they measure, and makes the requests and scripts that they measure on.
# Sets root; seed; room, a folder for this run; clock, which runs natively; and as arrays of words table, simple and same.
# TABLE and QUIET stand in for crates/table/out/table and for what bench/quiet makes, to try the bench itself.
root=$(cd "$(dirname "${BASH_SOURCE[0]}")/.." && pwd -P)
. "$root/tests/cargo.sh"
seed=${SEED:-1}
room=$(mktemp -d)
trap 'rm -rf "$room"' EXIT

# Builds a Rust program for this processor.
build_native() { # FOLDER
    (cd "$1" && CARGO_TARGET_DIR=target cargo build --offline --release --quiet)
}

TABLE=${TABLE:-$root/crates/table/out/table}
[ -r "$TABLE" ] || { echo "there is no crates/table/out/table: rt run in crates/table makes it" >&2; exit 2; }
build_native "$root/tests/independent"
build_native "$root/bench/clock"
independent=$root/tests/independent/target/release/independent
clock=$root/bench/clock/target/release/clock
table=("$TABLE")
# Jumps are kept off the ends of blocks of 32 bytes, at which some Intel processors are slow: else it hangs on where a loop
# happens to lie, and the simple planner was seen to take 30 % longer at the same instructions.
# And they are built for the processors that the kit builds the table for.
padded=(-C llvm-args=-x86-branches-within-32B-boundaries -C target-cpu=x86-64-v2)
simple=("$("$root/bench/build" "$root/bench/simple" simple "${padded[@]}")")
same=("$("$root/bench/build" "$root/bench/same" same "${padded[@]}")")

# Sets quiet_table, quiet_simple and quiet_same, which print nothing of the reasons.
make_quiet() {
    QUIET=${QUIET:-$("$root/bench/quiet")}
    quiet_table=("$QUIET")
    quiet_simple=("${simple[@]}" quiet)
    quiet_same=("${same[@]}" quiet)
}

# Sets z3, which runs natively; empty where there is none.
find_z3() {
    z3=$(command -v z3 || true)
    [ -n "$z3" ] || echo "there is no z3 (apt-get install z3): it is left out" >&2
}

# Its version, for the first line of a table.
z3_version() {
    [ -z "$z3" ] || "$z3" --version | awk '{ printf ", z3 %s", $3 }'
}

# Whether callgrind can count a program's instructions here; says why not.
has_callgrind() {
    local why=''
    command -v valgrind >/dev/null 2>&1 || why="there is no valgrind (apt-get install valgrind)"
    [ -z "$why" ] || { echo "$why: instructions are not counted" >&2; return 1; }
}

# The instructions that a program takes on a file, as callgrind counts them. The C library is told to fill and copy memory
# without `rep stosb` and `rep movsb`, since callgrind counts one for each byte of theirs.
instructions_of() { # FILE COMMAND...
    local file=$1
    shift
    GLIBC_TUNABLES=glibc.cpu.hwcaps=-ERMS \
        valgrind --tool=callgrind --callgrind-out-file=/dev/null "$@" <"$file" 2>&1 >/dev/null |
        awk '/Collected :/ { found = 1; print $NF } END { exit !found }'
}

# Plan requests: random problems as in 000, section 3.
requests_of() { # EVENTS CLAUSES COUNT ROOM
    "$independent" --bench "$1" "$2" "$3" "$seed" "$4"
}

# The same requests with another allowance. With 1000001 they are refused at once: reading, clearing and writing alone.
allowed() { # REQUESTS ALLOWANCE
    sed "s/^plan \([0-9]*\) [0-9]*/plan \1 $2/" "$1"
}

# The problems of plan requests as one SMT-LIB script, each between a push and a pop.
script_of() { # REQUESTS
    awk '
        function difference(at) { return "(<= (- e" $at " e" $(at + 1) ") " number($(at + 2)) ")" }
        function number(n) { return n < 0 ? "(- " (-n) ")" : n }
        NR == 1 { print "(set-logic QF_IDL)"; for (e = 0; e < $2; e++) print "(declare-fun e" e " () Int)" }
        {
            print "(push 1)"
            clauses = 8 + $7
            at = 8
            for (clause = 1; clause <= $clauses; clause++) {
                line = "(assert (or"
                for (; at < 8 + 3 * $(clauses + clause); at += 3) line = line " " difference(at)
                print line "))"
            }
            print "(check-sat)\n(pop 1)"
        }' "$1"
}

# Fails unless the three planners say the same of each request, byte for byte; leaves what they say in room/said.
must_agree() { # REQUESTS [quiet_]
    local name
    for name in table simple same; do
        local -n program=${2:-}$name
        "${program[@]}" <"$1" >"$room/said.$name"
        cmp "$room/said.table" "$room/said.$name" >&2 || { echo "table and $name disagree" >&2; exit 1; }
    done
    mv "$room/said.table" "$room/said"
}

# Fails unless z3 finds sat exactly where the replies to the same requests have a plan.
z3_must_agree() { # SCRIPT REPLIES
    "$z3" -smt2 -in <"$1" >"$room/said.z3"
    awk '{ print $1 == "plan" ? "sat" : "unsat" }' "$2" >"$room/held"
    cmp "$room/held" "$room/said.z3" >&2 || { echo "z3 disagrees" >&2; exit 1; }
}

# The machine, for the first line of a table.
machine() {
    echo "$(uname -m), seed $seed"
}
