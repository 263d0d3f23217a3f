#!/bin/sh
# Builds and runs examples/linked by Bazel, each action in its sandbox, on a copy of examples/ and without the network: Debian's
# packages bazel-bootstrap, bazel-rules-cc, bazel-rules-java, bazel-rules-proto, bazel-skylib and bazel-platforms stand in for what Bazel
# fetches. Debian's rules_cc is newer than its Bazel 4.2.3 and is patched for it in a copy. Where Bazel may fetch,
# `bazel test //linked:program` in examples/ is all.
#
# run.sh [WASM2C]: the program, crates/wasm2c_cli/out/wasm2c_cli where it is left out.
set -e
here=$(cd "$(dirname "$0")" && pwd)
program=$(realpath "${1:-$here/../../crates/wasm2c_cli/out/wasm2c_cli}")
debian=/usr/share/bazel
work=$(mktemp -d)
bazel="bazel --output_user_root=$work/root"
trap 'cd "$work/examples" && $bazel shutdown; chmod -R u+w "$work"; rm -rf "$work"' EXIT
cp -R "$here/../../examples" "$work/examples"
cp "$program" "$work/examples/wasm2c"
cp -R "$debian/rules/cc" "$work/rules_cc"
grep -rl use_cpp_toolchain --include=*.bzl "$work/rules_cc" | while read -r file; do
    sed -i 's/, "use_cpp_toolchain"//; s/use_cpp_toolchain()/["@bazel_tools\/\/tools\/cpp:toolchain_type"]/' "$file"
done
# Bazel wants this target for coverage, which is not asked for.
mkdir "$work/coverage"
: >"$work/coverage/WORKSPACE"
echo 'sh_binary(name = "coverage_report_generator", srcs = ["none.sh"], visibility = ["//visibility:public"])' >"$work/coverage/BUILD"
echo '#!/bin/sh' >"$work/coverage/none.sh"
chmod +x "$work/coverage/none.sh"
cd "$work/examples"
$bazel test //linked:program --test_output=errors --spawn_strategy=sandboxed \
    --override_repository=rules_cc="$work/rules_cc" \
    --override_repository=rules_java="$debian/rules/java" \
    --override_repository=rules_proto="$debian/rules/proto" \
    --override_repository=bazel_skylib="$debian/tools/skylib" \
    --override_repository=platforms="$debian/platforms" \
    --override_repository=remote_coverage_tools="$work/coverage"
