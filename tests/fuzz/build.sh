# build.sh: what tests/fuzz/run and tests/fuzz/check build with; sourced at the top of the repository.
out=target/fuzz
kit=$(dirname "$(dirname "$(readlink -f "$(command -v rt)")")")
# What rt links a program with: what it needs of the system, and the heap.
system="$kit/c/libos_c.a $kit/c/liblibc_c.a"

# The tries and the plain counter, without instrumentation.
harness() {
    mkdir -p $out/objects
    for source in counter table plan replay fuzz_table fuzz_plan; do
        gcc -std=c11 -O2 -Wall -Wextra -Werror -Iinclude -c tests/fuzz/$source.c -o $out/objects/$source.o
    done
    plain_counter ''
}

# The plain counter under other names, with a fault planted by a sed command where one is given. gatecount.h makes gate_judge
# gate_judge_row4 and gate_count gate_count_row69, so that these are the names to change.
plain_counter() {
    sed "$1" bench/src/interpreter.c | gcc -std=c99 -O2 -Iinclude -Dgate_check=plain_check -Dgate_judge_row4=plain_judge \
        -Dgate_count_row69=plain_count -x c -c - -o $out/objects/plain.o
}

# What is put together in C of an input, with a fault planted by a sed command.
faulty_table() { sed "$1" tests/fuzz/table.c | gcc -std=c11 -O2 -Iinclude -Itests/fuzz -x c -c - -o $out/objects/table.o; }

# Renames in a program's object file what it starts with and what it reads and writes with: lent_program NAME FROM TO. It defines
# no other global name, so that two programs do not clash. Where the processor lacks what the code needs, the program says so by
# __write, which stays as it is, and ends.
lent_program() {
    objcopy --redefine-sym main="$1_main" --redefine-sym read=given_read --redefine-sym write=printed_write "$2" "$3"
}

# objects NAME ..: the harness's object files of these names.
objects() { printf "$out/objects/%s.o " counter plan table plain "$@"; }

# Links the program that tries files: replay OUT FILE .., the files being the proved code.
replay() {
    local to=$1
    shift
    # shellcheck disable=SC2046,SC2086
    gcc -no-pie $(objects replay) "$@" $system -o "$to"
}
