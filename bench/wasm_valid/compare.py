# Compares wasm-validate of Debian's package wabt with the rows of modules: which of them are accepted. WABT's options leave
# WebAssembly 1.0 with sign extension and bulk memory where they can. Rows that are refused as floating-point or by a limit of this project are passed over.
# A table's index in call_indirect is a padded zero too in this project. Where the two differ otherwise it ends with 1.
import pathlib
import subprocess
import sys
import tempfile

sys.path.insert(0, str(pathlib.Path(__file__).resolve().parents[1] / "rows"))
import part

OPTIONS = ["--disable-reference-types", "--disable-multi-value", "--disable-saturating-float-to-int", "--disable-simd"]
# Core 1.0 validates offsets in the whole context (3.4.5, 3.4.6); WABT lets them get imported globals alone.
KNOWN = {"initializer expression can only reference an imported global", "call_indirect reserved value must be 0"}
# Rows that WABT accepts although Core 1.0 does not: expressions that end with their section or body in place of an `end`
# (5.4.6), an offset of no instruction (3.3.7), and an instruction that Core 1.0 does not have. And those that Core 2.0 refuses (5.5.16):
# a data count that is not the number of segments, where there is no data section.
ACCEPTED = {"a global, without end", "a body that ends inside a block", "a data segment, no offset", "typed select",
            "opcode 1c in dead code", "data count 1 and no data section", "data count 1, and the file ends behind a body",
            "data count of 4294967295"}

verdicts = dict(line.split(": ", 1) for line in part.part("modules", part.stored("stdout")))
count = unlike = known = passed = 0
with tempfile.TemporaryDirectory() as folder:
    path = pathlib.Path(folder) / "row.wasm"
    for line in part.rows("modules", part.stored("stdin")):
        name, digits = line.split(":", 1)
        verdict = verdicts[name]
        if verdict.startswith(("float", "limit")):
            passed += 1
            continue
        path.write_bytes(bytes.fromhex(digits))
        ran = subprocess.run(["wasm-validate", *OPTIONS, str(path)], capture_output=True, text=True)
        count += 1
        if (ran.returncode == 0) != verdict.startswith("accepted"):
            if any(text in ran.stderr for text in KNOWN) or name in ACCEPTED:
                known += 1
            else:
                unlike += 1
                print(f"{name}: {verdict}; {ran.stderr.strip()[-160:]}")
print(f"{count} modules: {count - known - unlike} alike, {known} known to differ, {unlike} unlike; {passed} passed over")
sys.exit(1 if unlike else 0)
