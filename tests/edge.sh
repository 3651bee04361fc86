#!/bin/sh
# The library for C: builds it, compiles the header alone, in C and C++, and the examples with every warning an error,
# runs these and compares what they write, and holds the functions of the header against the library's.
set -eu
cd "$(dirname "$0")/.."

sh tests/archive
mkdir -p target/examples

# The header has all that it needs, in C before and after its asserts of the layout; in C++ where gcc has it.
echo "edge: include/bench.h"
for standard in c99 c11; do
    gcc -x c -std=$standard -Wall -Wextra -Werror -pedantic -fsyntax-only include/bench.h
done
if echo | gcc -x c++ -fsyntax-only - 2> /dev/null; then
    for standard in c++98 c++11; do
        gcc -x c++ -std=$standard -Wall -Wextra -Werror -fsyntax-only include/bench.h
    done
fi

for source in examples/*.c; do
    name=$(basename "$source" .c)
    echo "edge: $source"
    gcc -std=c11 -Wall -Wextra -Werror -pedantic -O2 -Iinclude "$source" target/staticlib/libedge.a \
        -o "target/examples/$name"
    "target/examples/$name" > "target/examples/$name.out"
    diff "examples/$name.out" "target/examples/$name.out"
done

# Every function of the library stands in the header, and every function of the header is there.
sed -n '/^ \*/d; /^\/\*/d; s/^.*[ *]\(bench_[a-z_0-9]*\)(.*/\1/p' include/bench.h | sort > target/examples/declared
nm -g --defined-only target/staticlib/libedge.a | sed -n 's/^[0-9a-f]* T \(bench_.*\)$/\1/p' | sort \
    > target/examples/defined
echo "edge: the header has the library's functions:" $(cat target/examples/declared)
diff target/examples/declared target/examples/defined
echo "edge: ok"
