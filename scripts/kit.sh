# Sourced by the commands of this repository: finds the Rattle kit, or says what is missing, and how a program is started.
if ! command -v rt >/dev/null; then
    echo "$(basename "$0"): the Rattle kit's command rt is not on the PATH; install the kit, or add its folder bin to the PATH" >&2
    exit 2
fi

# The command that builds a program, or which programs there are.
how_to_build() { # NAME
    if [ -e "crates/$1/src/main.rt" ]; then
        echo "target/bin/$1 is missing; build it with: scripts/build $1"
        return
    fi
    local file
    for file in "examples/$1.c" "tests/$1.c"; do
        if [ -e "$file" ]; then
            echo "target/c/$1 is missing; build it with: scripts/build coldroom && scripts/cc $1 $file"
            return
        fi
    done
    echo "there is no program $1; there are:" $(for file in crates/*/src/main.rt; do cut -d/ -f2 <<<"$file"; done; basename -s .c examples/*.c)
}

# How the proved program target/bin/NAME is started, or else the program of C target/c/NAME: as words in `started`. Programs are for
# x86-64, as the kit is.
started=()
words_for() { # NAME
    local program=target/bin/$1
    [ -e "$program" ] || program=target/c/$1
    if [ ! -e "$program" ]; then
        echo "$(basename "$0"): $(how_to_build "$1")" >&2
        return 2
    fi
    started=("$program")
}
