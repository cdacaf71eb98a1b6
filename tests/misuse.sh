#!/usr/bin/env bash
# Shows that a released run takes no add and no strike: the use does not compile, by the name of the compiler's error.
# In a copy of the repository, a program that adds to an open run and strikes must compile and run,
# and the same calls on the released run must be refused.
set -euo pipefail
cd "$(dirname "$0")/.."
copy=$(mktemp -d)
trap 'rm -rf "$copy"' EXIT
mkdir "$copy/crates"
tar -c --exclude=out crates | tar -x -C "$copy"
mkdir -p "$copy/crates/misuse/src"
{
    cat crates.txt
    echo 'misuse: series statistics bench'
} > "$copy/crates.txt"

# The program, whose function is on standard input, compiled and run before any proof.
compiled() {
    {
        echo '#![tactic(auto)]'
        echo 'use bench::run::OpenRun;'
        echo 'use series::fault::Fault;'
        cat
        echo 'fn main(_rt: HostRuntime) {}'
    } > "$copy/crates/misuse/src/main.rt"
    (cd "$copy/crates/misuse" && rt try) 2>&1
}

if ! out=$(compiled <<'RT'
pub fn late(run: OpenRun) -> Result<usize, Fault> {
    let mut run = run;
    let _ = run.strike();
    let answer = run.add(5);
    let _released = run.release();
    answer
}
RT
); then
    printf '%s\n' "$out" | tail -n 20
    echo 'misuse: an add to an open run was refused'
    exit 1
fi

for call in 'add(5)' 'strike()'; do
    name=${call%%(*}
    if out=$(compiled <<RT
pub fn late(run: OpenRun) -> Result<usize, Fault> {
    let mut released = run.release();
    released.$call
}
RT
    ); then
        echo "misuse: $name was taken on a released run"
        exit 1
    fi
    if ! printf '%s\n' "$out" | grep -F "error[unknown-method]: the method \`$name\` takes \`self\` as \`&mut Run<Open>\`, and is called on \`Run<Released>\`"; then
        printf '%s\n' "$out" | tail -n 20
        echo "misuse: $name on a released run was refused for another reason"
        exit 1
    fi
done
echo 'misuse: 3 passed, 0 failed'
