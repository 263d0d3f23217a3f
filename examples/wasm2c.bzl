"""Rules for WebAssembly modules that wasm2c translates to C."""

load("@rules_cc//cc:defs.bzl", "cc_library")

def wasm2c_library(name, module, deps = [], **kwargs):
    """A C library of one module: an action that translates it, and a cc_library of the unit and its header.

    What the action writes depends on the module's file and on `name` alone. It reads no other file, no clock and no environment, so it
    runs in a sandbox and on a remote worker, and a cache may keep it.

    Args:
      name: the module's name, by which others import from it and by which the symbols and the header are called
      module: its .wasm file
      deps: the modules that it imports from
      **kwargs: of cc_library
    """
    native.genrule(
        name = name + "_c",
        srcs = [module],
        outs = [name + ".c", name + ".h"],
        cmd = "$(location //:wasm2c) $(location %s) -n %s -o $(@D)/%s.c" % (module, name, name),
        tools = ["//:wasm2c"],
    )
    cc_library(
        name = name,
        srcs = [name + ".c"],
        hdrs = [name + ".h"],
        copts = ["-O3"],
        includes = ["."],
        deps = deps + ["//fast_runtime"],
        **kwargs
    )
