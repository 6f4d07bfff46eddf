"""The library of tools/measured and the crates below it: compiled with no proof once, kept, and cut to what is called.

Its module in LLVM's text is kept in out/measured by the sum of what it is made of. `bindings/build`, `tools/budget` and
`tools/no-secret-time` make archives of parts of it.
"""
import hashlib
import json
import os
import re
import shutil
import subprocess
import sys
import tempfile

from gate import compiler, program
from gate.kit import TOP, load_rt, load_script, place, say, text_of, version_of_rt, written
from gate.sources import needs_of, sum_of_files, walked

HERE, CRATE, KEPT = f"{TOP}/tools/measured", "measured", f"{TOP}/out/measured/module.ll"
X86, ARM = "x86_64-unknown-linux-gnu", "aarch64-unknown-linux-gnu"
# The folders of a crate that a compile reads.
PARTS = ("src", "specs")
SECONDS = 90
# What code with no proof has: a fill of each local, and functions that check what a proof would show.
FILL = re.compile(r"^  call void @llvm\.memset\.p0\.i64\(ptr %\w+, i8 -86, i64 \d+, i1 false\)\n", re.M)
CHECK = re.compile(r'^(define internal void @"rattle-(?:llvm-checks|try)::[\w-]+"\([^)]*\) )#\d+ \{\n.*?^\}\n',
                   re.M | re.S)
# An export; a call of tools/measured/calls.txt, and one of largest.txt, and what each is in Rattle.
EXPORT = re.compile(r'^pub (?:unsafe )?extern "C" fn (\w+)\((.*?)\)', re.M | re.S)
CALL = re.compile(r"^call (\w+)\(kept(?:, )?(.*?)\):(.*\n(?:    .*\n)*)", re.M)
DONE = """pub fn {name}(kept: &mut Kept, first: &[u8], second: &[u8]) -> Option<()> {{
    {texts}{body}
}}
"""
LARGE = re.compile(r"^large (\w+):\n((?:    .*\n)*)", re.M)
LARGEST = r"pub fn \1(alloc: Global) -> Result<(), Wrong> {\n\2    Ok(())\n}\n"
# The toolchain compiles no library without a proof, but a program. So its `main` calls each export, and of what is
# handed to the compiler the exports get the names that C calls.
MAIN = """
fn main(rt: HostRuntime) {{
    let (mut place, mut out) = ([0u64; 512], [0u8; 8]);
    let at = place.as_mut_ptr() as *mut u8;
    let mut parts = fonnalich_c::Attributes {{
        max_age: 0, expires: 0, has_max_age: false, has_expires: false, has_path: false, has_domain: false,
        http_only: false, secure: false, partitioned: false, same_site: 0,
    }};
    unsafe {{
{calls}    }}
}}
"""
WRAPPER = """
#[unsafe(no_mangle)]
pub unsafe extern "C" fn does_{name}(at: *mut u8, first: &[u8], second: &[u8]) -> bool {{
    let kept = &mut *(at as *mut Kept);
    {done}
}}
"""
VALUES = {"Global": "rt.alloc()", "*mut u8": "at", "&[u8]": 'b""', "&mut [u8]": "&mut out", "&[i64]": "&[]",
          "bool": "false", "&Attributes": "&parts", "&mut Attributes": "&mut parts"}
# Stands for the toolchain's compiler: keeps the program that it is handed, and ends there.
KEEPER = """#!/bin/sh
for it do
    [ "$it" = module.bc ] && [ "$(wc -c < module.bc)" -gt 100000 ] && cp module.bc "KEPT" && exit 1
done
exec "{clang}" "$@"
"""
# A shuffle of 16 bytes (`swizzle_dyn`) as the toolchain compiles it with no proof: 16 loads, at places that the bytes
# decide. With a proof it is one instruction, which has the same result and tells nothing by its time.
LOADED = """  %\\w+ = extractelement <16 x i8> (?P=low), i32 {i}
  %\\w+ = zext i8 %\\w+ to i64
  %\\w+ = add i64 %\\w+, 0
  %\\w+ = mul i64 %\\w+, 1
  %\\w+ = getelementptr i8, ptr {table}, i64 %\\w+
  %\\w+ = load i8, ptr %\\w+, align 1, !noundef !\\d+
"""
PUT = "  %\\w+ = insertelement <16 x i8> (?:%\\w+|zeroinitializer), i8 %\\w+, i32 {i}\n"
SHUFFLE = re.compile(
    r"  (?P<low>%\w+) = and <16 x i8> (?P<places>%\w+), splat \(i8 15\)\n"
    + "".join(LOADED.format(i=i, table="(?P=table)" if i else r"(?P<table>%\w+)") for i in range(16))
    + "".join(PUT.format(i=i) for i in range(16))
    + r"  (?P<is_low>%\w+) = icmp sge <16 x i8> (?P=places), zeroinitializer\n"
    + r"  (?P<shuffled>%\w+) = select <16 x i1> (?P=is_low), <16 x i8> %\w+, <16 x i8> zeroinitializer\n"
)
SHUFFLED = {X86: r"""  \g<shuffled>.table = load <16 x i8>, ptr \g<table>, align 1
  \g<shuffled> = call <16 x i8> @llvm.x86.ssse3.pshuf.b.128(<16 x i8> \g<shuffled>.table, <16 x i8> \g<places>)
""", ARM: r"""  \g<shuffled>.table = load <16 x i8>, ptr \g<table>, align 1
  \g<shuffled>.at = and <16 x i8> \g<places>, splat (i8 -113)
  \g<shuffled> = call <16 x i8> @llvm.aarch64.neon.tbl1.v16i8(<16 x i8> \g<shuffled>.table, <16 x i8> \g<shuffled>.at)
"""}
DECLARED = {X86: "declare <16 x i8> @llvm.x86.ssse3.pshuf.b.128(<16 x i8>, <16 x i8>)\n",
            ARM: "declare <16 x i8> @llvm.aarch64.neon.tbl1.v16i8(<16 x i8>, <16 x i8>)\n"}
# What callgrind writes down of a dump: its label, and how many instructions there were.
TRIGGER = re.compile(r"^desc: Trigger: Client Request: (.*)$", re.M)
TOTAL = re.compile(r"^(?:summary|totals): (\d+)$", re.M)
# A function or a global of a module, and a name.
PART = re.compile(r"^define .*?^\}\n|^@[^\n]*\n", re.M | re.S)
NAME = re.compile(r'@("[^"]*"|[\w.$-]+)')


def load_build(top):
    return load_script(f"{top}/bindings/build", "build")


def ended(words, **how):
    """What a command wrote, which has to end with 0."""
    pipes = {"stdin": subprocess.DEVNULL, "stdout": subprocess.PIPE, "stderr": subprocess.STDOUT, "errors": "replace"}
    ran = subprocess.run(words, **{**pipes, **how})
    if ran.returncode:
        sys.exit(f"{ran.stdout}failed: {' '.join(words)}")
    return ran.stdout


def counted(words, folder, **how):
    """What a program writes under callgrind, and what that writes down of it, by the labels of its dumps."""
    os.makedirs(folder)
    wrote = ended(["valgrind", "--quiet", "--tool=callgrind", f"--callgrind-out-file={folder}/of", *words], **how)
    texts = [text_of(f"{folder}/{it}") for it in os.listdir(folder)]
    return wrote, {found[1]: text for text in texts if (found := TRIGGER.search(text))}


# ---- the sources

def below(line):
    """The lines of crates.txt that this one stands on, by the names of their crates."""
    [needs], uses = needs_of(line).values(), needs_of(text_of(f"{TOP}/crates.txt"))
    names = {its for it in needs if it in uses for its in program.crates_to(it)}
    return {it: f"{it}: {' '.join(uses[it])}\n" for it in sorted(names)}


def put_tree(room, line, sources, passed_over=("must-fail", "out", "proofs")):
    """Copies the crates below that of a line of crates.txt to a folder, and puts that one there with its sources."""
    lines, crate = below(line), f"{room}/crates/{line.partition(':')[0].split()[0]}"
    for it in lines:
        ignored = shutil.ignore_patterns(*passed_over)
        shutil.copytree(f"{TOP}/crates/{it}", f"{room}/crates/{it}", symlinks=True, ignore=ignored)
    for name, text in sources.items():
        written(f"{crate}/src/{name}", text)
    written(f"{room}/crates.txt", "".join([*lines.values(), line]))
    return crate


def calls():
    """The functions of tools/measured by their names, and how each is called in Rattle."""
    texts = [text_of(f"{HERE}/{it}.txt") for it in ("calls", "largest")]
    return {**{it[1]: f"calls::{it[1]}(kept, first, second).is_some()" for it in CALL.finditer(texts[0])},
            **{it[1]: f"largest::{it[1]}(kept.alloc).is_ok()" for it in LARGE.finditer(texts[1])}}


def done(call):
    """A call of calls.txt as a function."""
    texts = [f"let {it.partition(':')[0]} = {place if ':' in it else f'std::str::from_utf8({place}).ok()?'}; "
             for it, place in zip(filter(None, call[2].split(", ")), ("first", "second"))]
    body = call[3].strip()
    return DONE.format(name=call[1], texts="".join(texts), body=body + " Some(())" * body.endswith((";", "}")))


def value(type_):
    array = re.fullmatch(r"(&(?:mut )?)\[u8; (\d+)\]", type_)
    return f"{array[1]}[0; {array[2]}]" if array else VALUES.get(type_, "0")


def sources():
    """The sources of tools/measured as a program's."""
    texts = {"secrets.rt": text_of(f"{HERE}/secrets.rt.txt"), "calls.rt": CALL.sub(done, text_of(f"{HERE}/calls.txt")),
             "largest.rt": LARGE.sub(LARGEST, text_of(f"{HERE}/largest.txt"))}
    main = text_of(f"{HERE}/lib.rt.txt") + "".join(WRAPPER.format(name=name, done=it) for name, it in calls().items())
    lines = []
    for path, text in (("", main), ("secrets::", texts["secrets.rt"]),
                       ("fonnalich_c::", text_of(f"{TOP}/crates/fonnalich_c/src/lib.rt"))):
        for name, words in EXPORT.findall(text):
            types = [it.partition(":")[2].strip() for it in words.split(",") if it.strip()]
            lines.append(f"        {path}{name}({', '.join(map(value, types))});\n")
    return {**texts, "main.rt": main + MAIN.format(calls="".join(lines))}


# ---- the module

def made_of():
    """What tells the module of the tree from another's."""
    parts = [f"crates/{it}/{part}" for it in below(text_of(f"{HERE}/crate.txt")) for part in PARTS]
    crates = sum_of_files(TOP, walked(TOP, "crates.txt", *parts))
    calls = hashlib.sha256(json.dumps(sources(), sort_keys=True).encode()).hexdigest()
    return f"toolchain={version_of_rt()}\nsources={crates} {calls}\n"


def module():
    """The module of the tree in LLVM's text, compiled where none of these sources is kept, by one process at a time."""
    made = made_of()
    with compiler.alone(f"{KEPT}.lock"):
        if program.noted(KEPT) != made:
            # (who reads the line may interrupt at once, and a folder that is being made would stay)
            with tempfile.TemporaryDirectory(prefix="measured-") as room:
                say(f"compiling the library, with no proof: some {SECONDS} seconds")
                shutil.copyfile(compiled(room), f"{KEPT}.new")
            os.replace(f"{KEPT}.new", KEPT)
            program.put_note(KEPT, made)
        return text_of(KEPT)


def compiled(room):
    """Compiles the module of the tree's sources, and returns its path."""
    put_tree(f"{room}/tree", text_of(f"{HERE}/crate.txt"), sources())
    # (`main` names it)
    of_c = f"{room}/tree/crates/fonnalich_c/src/lib.rt"
    line = "use crate::attributes::Attributes;\n"
    written(of_c, text_of(of_c).replace(line, f"pub {line}"))
    crate = next(it for it in load_rt().rtlib.crates_below(f"{room}/tree") if it.name == CRATE)
    with open(f"{room}/log", "w+", encoding="utf-8", errors="replace") as log:
        compiler.compiled(crate, room, KEEPER.replace("KEPT", f"{room}/module.bc"), log)
        if not os.path.exists(f"{room}/module.bc"):
            log.seek(0)
            sys.exit(f"{log.read()}the library was not compiled")
    clang = [place("clang"), "--no-default-config", "-x", "ir", "-S", "-emit-llvm", "-Xclang", "-disable-llvm-passes"]
    ended([*clang, f"{room}/module.bc", "-o", f"{room}/module.ll"])
    return f"{room}/module.ll"


def cut(text, exports):
    """The module with these exports, and of all else what they reach."""
    name = re.compile(rf'@"(?:{CRATE}|{CRATE}::secrets|fonnalich_c)::({"|".join(exports)})"')
    parts = {NAME.search(it)[1]: it for it in PART.findall(name.sub(r"@\1", text))}
    if not parts.keys() >= {*exports}:
        sys.exit(f"the library was compiled without {' and '.join({*exports} - parts.keys())}")
    parts |= {it: parts[it].replace("define internal ", "define ", 1) for it in exports}
    reached, left = set(), [*exports]
    while left:
        it = left.pop()
        if it in parts and it not in reached:
            reached.add(it)
            left += NAME.findall(parts[it])
    return PART.sub("", text) + "".join(its for it, its in parts.items() if it in reached)


def unchecked(text):
    """A module without the fills and the checks of code with no proof: about what a proved build compiles."""
    text, fills = FILL.subn("", text)
    text, checks = CHECK.subn(r"\1alwaysinline {\n  ret void\n}\n", text)
    if not (fills and checks):
        sys.exit("tools/gate/library.py: the toolchain writes other checks")
    return text


def with_shuffles(text, target):
    """The module with an instruction for each shuffle, for the processor that the proved library is for."""
    text = SHUFFLE.sub(SHUFFLED[target], text).replace('"target-cpu"="x86-64"', '"target-cpu"="x86-64-v2"')
    return text if DECLARED[target] in text else text + DECLARED[target]


def for_target(text, target, room):
    """The module for another processor than the toolchain's programs without a proof are for. Both lay out all types
    alike, and pass arguments so; a bool is handed over there without zeros before it."""
    words = [place("clang"), "--no-default-config", f"--target={target}", "-S", "-emit-llvm", "-x", "c", "/dev/null"]
    ended([*words, "-o", f"{room}/empty.ll"])
    lines = re.findall(r"^target .*\n", text_of(f"{room}/empty.ll"), re.M)
    text = re.sub(r"^target .*\n", "", text, flags=re.M).replace(' "target-cpu"="x86-64-v2"', "")
    return "".join(lines) + text.replace("i1 noundef zeroext", "i1 noundef")


def archive(text, room, exports, level="-O2", changed=lambda text: text, target=X86):
    """The archive of what these exports of a module reach, at a level of optimisation. What LLVM gets may change."""
    text = with_shuffles(cut(text, exports), target)
    path = written(f"{room}/cut.ll", changed(text if target == X86 else for_target(text, target, room)))
    # (without calls of the compiler's own library for the count of a list's sharers)
    words = [f"--target={target}", *["-mno-outline-atomics"] * (target == ARM), "-Wno-override-module", level, "-fPIC"]
    ended([place("clang"), "--no-default-config", *words, "-x", "ir", "-c", path, "-o", f"{room}/module.o"])
    ended([place("llvm-ar"), "rcs", f"{room}/module.a", f"{room}/module.o"])
    return f"{room}/module.a"


def exports_of(path):
    return [name for name, _ in EXPORT.findall(text_of(f"{TOP}/{path}"))]
