# What crates.txt says of the repository's crates, and where their proved libraries lie, for tools that call rattle themselves. It is
# read by a bash script that stands in the root folder.

kit=$(cd "$(dirname "$(rt doc)")" && pwd -P) || exit 1

# The libraries that a crate names, of the repository and of the kit.
libraries_of() { sed -n "s/^$1\( staticlib\)\{0,1\}://p" crates.txt; }

# Those of the repository, and those below them, each as often as it is met.
below() { # CRATE
    local library
    for library in $(libraries_of "$1"); do
        [ -d "crates/$library" ] || continue
        echo "$library"
        below "$library"
    done
}

# A sum of all that the proofs read.
tree_sum() {
    {
        rt version
        cat crates.txt
        find crates \( -name out -o -name must-fail \) -prune -o -type f -print0 | LC_ALL=C sort -z | xargs -0 sha256sum
    } | sha256sum
}

# `rt ci` leaves the libraries and programs that it proved, where there were none before; .ci/run then writes the sum of what was
# read into target/after-ci. Whether they are still those of this tree.
is_after_ci() { [ -f target/after-ci ] && [ "$(cat target/after-ci)" = "$(tree_sum)" ]; }

# Proves and builds what these crates depend on, where that is not done yet.
build_libraries() { # CRATE..
    local library libraries lacking=
    libraries=$(for crate in "$@"; do below "$crate"; done | sort -u)
    for library in $libraries; do [ -d "crates/$library/out/rlib/$library.rlib" ] || lacking=yes; done
    [ -n "$lacking" ] || ! is_after_ci || return 0
    for library in $libraries; do (cd "crates/$library" && rt lib) || return; done
}

# Proves and builds a program, where that is not done yet, as crates/PROGRAM/out/PROGRAM: it must end where its input does.
build_program() { # PROGRAM
    [ -x "crates/$1/out/$1" ] && is_after_ci || (cd "crates/$1" && rt run </dev/null)
}

# The words, a line each, by which rattle checks or builds a crate in its folder.
words_of() { # CRATE
    local crate=$1 library file=lib
    [ ! -f "crates/$crate/src/main.rt" ] || file=main
    printf '%s\n' --crate-name "$crate" "src/$file.rt" --extern "std=$kit/rlibs/std.rlib" -L "dependency=$kit/rlibs"
    for library in $(libraries_of "$crate"); do
        if [ -d "crates/$library" ]; then
            printf '%s\n' --extern "$library=$PWD/crates/$library/out/rlib/$library.rlib"
        else
            printf '%s\n' --extern "$library=$kit/rlibs/$library.rlib"
        fi
    done
    for library in $(below "$crate" | sort -u); do printf '%s\n' -L "dependency=$PWD/crates/$library/out/rlib"; done
    printf '%s\n' --antt-project "$kit/rattle/logic/antt-project.json" --logic-built "$kit/logic_built"
    ! grep -q "^$crate staticlib:" crates.txt || printf '%s\n' --crate-type staticlib
}
